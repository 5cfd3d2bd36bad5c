// Where a history meets a condition: an event occurs, or a number that the program gave compares so with one that a person gave.
import { Lines } from "./lines";

export const COMPARISONS = ["=", "<>", "<", "<=", ">", ">="] as const;
export type Comparison = (typeof COMPARISONS)[number];
/** `cell` is a variable, or a cell of an array as `NAME[2]`; `than` a whole number of any size. */
export type Stop = { event: string } | { cell: string; how: Comparison; than: string };

const RELATIONS: Readonly<Record<Comparison, (a: bigint, b: bigint) => boolean>> = { "=": (a, b) => a === b, "<>": (a, b) => a !== b, "<": (a, b) => a < b, "<=": (a, b) => a <= b, ">": (a, b) => a > b, ">=": (a, b) => a >= b };
/** A value as the program writes it; a truth value is 1 or 0. */
const number_of = (value: string): bigint => (value === "true" ? 1n : value === "false" ? 0n : BigInt(value));

/** The value of a cell in what a line of a history says, as `QUEUE=1 WAITING=0,2`; null where the line doesn't say it. */
function value_in(values: string, cell: string): string | null {
  const [name, index] = cell.replace("]", "").split("["), from = ` ${values}`.indexOf(` ${name}=`);
  if (from < 0) return null;
  const value = values.slice(from + name.length + 1).split(" ", 1)[0];
  return index === undefined ? value : value.split(",")[Number(index)] ?? null;
}

/** Whether a condition holds after an event, by the values that the program gave. */
export function holds(stop: Stop, event: string, values: string): boolean {
  if ("event" in stop) return event === stop.event;
  const value = value_in(values, stop.cell);
  return value !== null && RELATIONS[stop.how](number_of(value), BigInt(stop.than));
}

/** Follows a run event by event. */
export class Follower {
  /** `held` is whether the condition held before. */
  constructor(private readonly stop: Stop, public held: boolean) {}
  /** Whether the condition begins to hold with this event: each time that an event occurs is a beginning. */
  begins(event: string, values: string): boolean {
    const before = this.held && !("event" in this.stop);
    this.held = holds(this.stop, event, values);
    return this.held && !before;
  }
}

/** `found` is the number of the event with which the condition begins to hold, from 1, and `time` when it occurs. */
export interface Met { found: number | null; time: number; held: boolean; last: string }

/** Reads a history of a model that watches all of its events. */
export class StopReader {
  private events = 0;
  private readonly met: Met = { found: null, time: 0, held: false, last: "" };
  private readonly follower: Follower;
  private readonly lines = new Lines(line => this.read(line));
  constructor({ stop, held }: { stop: Stop; held: boolean }) { this.follower = new Follower(stop, held); }
  take(bytes: Uint8Array): void { this.lines.take(bytes); }
  private read(line: string): void {
    if (this.met.found !== null) return;
    if (!line.startsWith("on ")) { if (!line.startsWith("at ")) this.met.last = line; return; }
    const [, time, event] = line.split(" ", 3);
    this.events++;
    if (this.follower.begins(event, line.slice(`on ${time} ${event} `.length))) Object.assign(this.met, { found: this.events, time: Number(time) });
  }
  finish(): Met { return { ...this.met, held: this.follower.held }; }
}
