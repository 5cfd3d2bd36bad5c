// What `save` writes: a model's canonical text, and after it the snapshot of a run.
import { Model } from "./model";

export interface PendingEvent { time: string; priority: string; vertex: string; values: string }
export interface Snapshot { model: string; text: string; clock: bigint; pending: PendingEvent[] }

export function read_snapshot(document: string): Snapshot {
  const from = document.indexOf("\nsnapshot\n") + 1, text = document.slice(from), clock = BigInt(/^clk (\d+)$/m.exec(text)?.[1] ?? "0");
  const pending = [...text.matchAll(/^pending (\d+) (\d+) (\w+)(?:\((.*)\))?$/gm)].map(([, delay, priority, vertex, values]) => ({ time: String(clock + BigInt(delay)), priority, vertex, values: values ?? "" }));
  return { model: document.slice(0, from), text, clock, pending };
}

/** The snapshot of a run in which nothing has happened yet: `save` has none, since it makes one event at least. */
export function first_snapshot(model: Model, seed: string, start: string): string {
  const number = BigInt(seed), lines = ["snapshot", `seed ${number >> 32n} ${number & 0xffffffffn}`, "clk 0", "events 0"];
  for (const { name, initial, cells } of model.vars) lines.push(`value ${name} ${new Array<string>(cells || 1).fill({ true: "1", false: "0" }[initial] ?? initial).join(",")}`);
  return [...lines, `pending 0 5 ${model.vertices[0].name}${start ? `(${start})` : ""}`, "end"].join("\n") + "\n";
}
