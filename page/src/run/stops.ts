// The event of a run with which a condition begins to hold. The program runs a variant that watches all events and what is compared; the
// page compares the numbers that it gives.
import { ending_of } from "../engine/lines";
import { holds, Met, Stop } from "../engine/stopping";
import { Answer, complaint, Engine } from "../engine/wire";
import { RunSettings, whole_number } from "../store/settings";
import { Model, variable_of } from "../text/model";
import { watching } from "../text/variants";
import { words_of } from "./words";

/** The first piece that is looked through has so many events, each later one twice as many, up to the second number. */
export const FIRST_LOOK = 20_000, LARGEST_LOOK = 2_000_000;
/** The status of a `save` for which the run is over by then. */
const FINISHED = 10;

/** `event` is how many events had occurred then, 0 before the first; null where the condition never begins to hold. `last` is the history's end. */
export interface Found { event: number | null; time: number; last: string }
export interface Looking { signal: AbortSignal; grown?(events: number): void }

const name_of = (cell: string): string => cell.split("[")[0];
/** The values that a variable begins with, as a line of a history says them. */
export function initial_values(model: Model, cell: string): string {
  const { name, initial, cells } = variable_of(model, name_of(cell))!;
  return `${name}=${new Array<string>(cells || 1).fill(initial).join(",")}`;
}
/** The values of a variable in a saved run, as a line of a history says them. */
const saved_values = (snapshot: string, cell: string): string => `${name_of(cell)}=${new RegExp(`^value ${name_of(cell)} (.*)$`, "m").exec(snapshot)?.[1] ?? "0"}`;

/** Looks for the first time, or for the next one after so many events. */
export async function find_stop(engine: Engine, model: Model, settings: RunSettings, stop: Stop, after: number | null, { signal, grown }: Looking, first = FIRST_LOOK): Promise<Found> {
  const watched = [...("cell" in stop ? [name_of(stop.cell)] : []), ...model.vertices.map(each => each.name)], text = watching(model, watched);
  let held = "cell" in stop && holds(stop, "", initial_values(model, stop.cell)), done = after ?? 0, size = first;
  if (held && after === null) return { event: 0, time: 0, last: "" };
  while (done < settings.events) {
    const count = Math.min(size, settings.events - done), saved: Answer | null = done ? await engine.call({ words: words_of("save", model, { ...settings, events: done }), input: text, signal }) : null;
    // A run that is over has nothing to save.
    if (saved?.status === FINISHED) return { event: null, time: 0, last: "" };
    if (saved && saved.status !== 0) throw new Error(complaint(saved));
    if (saved && done === after && "cell" in stop) held = holds(stop, "", saved_values(saved.out, stop.cell));
    const words = saved ? ["resume", "--until", String(settings.until), "--events", String(count)] : words_of("run", model, { ...settings, events: count });
    const answer: Answer<Met> = await engine.call<Met>({ words, input: saved ? saved.out : text, want: "stop", stop: { stop, held }, signal });
    if (answer.failure || ![0, 6, 7].includes(answer.status!)) throw new Error(complaint(answer));
    const { found, time, last } = answer.data!;
    if (found !== null) return { event: done + found, time, last: "" };
    if (ending_of(last).word !== "budget") return { event: null, time: 0, last };
    held = answer.data!.held;
    done += count;
    size = Math.min(2 * size, LARGEST_LOOK);
    grown?.(done);
  }
  return { event: null, time: 0, last: `budget ${settings.events}` };
}

/** A condition in words. */
export const stop_in_words = (stop: Stop): string => ("event" in stop ? `${stop.event} occurs` : `${stop.cell} ${stop.how} ${stop.than}`);

/** A number as people write it, below 0 too, or a truth value, as digits; null for anything else. */
export function compared_number(typed: string): string | null {
  const text = typed.trim(), truth = { true: "1", false: "0" }[text.toLowerCase()];
  if (truth) return truth;
  const number = whole_number(text.replace(/^[-−]/, ""));
  return number === null ? null : String(/^[-−]/.test(text) ? -number : number);
}
