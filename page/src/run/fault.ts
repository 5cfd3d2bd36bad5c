// Which event of a run faults, by which change or edge, and with what values. The program is asked: what is saved before the event goes on
// with a vertex that has only its first changes and edges, and the first part with which it faults is the one.
import { Answer, complaint, Engine } from "../engine/wire";
import { RunSettings } from "../store/settings";
import { Model, Vertex, variable_of, vertex_of } from "../text/model";
import { first_snapshot, PendingEvent, read_snapshot, Snapshot } from "../text/snapshots";
import { parts_of_vertex, watching, with_first_parts } from "../text/variants";
import { words_of } from "./words";

export interface Fault { events: number; event: PendingEvent; kind: string; part: string; edge: number | null; values: { name: string; value: string; kind: string }[] }

export const KINDS: Record<string, string> = {
  range: "a value outside its variable's range", index: "a cell that its array doesn't have", division: "a division by 0", delay: "a delay below 0", overflow: "a number outside 64 bits",
};
const ONE_MORE = ["resume", "--until", String(2n ** 48n), "--events", "1"];

/** Whether a call of run or resume ended by a fault. */
async function faults(engine: Engine, words: string[], input: string, signal?: AbortSignal): Promise<boolean> {
  const answer = await engine.call({ words, input, want: "none", signal });
  if (answer.failure || ![0, 6, 7].includes(answer.status ?? -1)) throw new Error(complaint(answer));
  return answer.status === 6;
}

/** The greatest number of events after which the run hasn't faulted yet. `known` is one after which it hasn't. */
async function events_before(engine: Engine, model: Model, settings: RunSettings, known: number, signal?: AbortSignal): Promise<number> {
  const has = (events: number) => faults(engine, words_of("run", model, { ...settings, events }), model.text, signal);
  let none = known, some = known + 1;
  while (!(await has(some))) { none = some; some = known + (some - known) * 4; }
  while (some - none > 1) {
    const middle = Math.floor((some + none) / 2);
    if (await has(middle)) some = middle; else none = middle;
  }
  return none;
}

async function saved(engine: Engine, model: Model, settings: RunSettings, events: number): Promise<Snapshot> {
  if (events === 0) return read_snapshot(`${model.text}${first_snapshot(model, settings.seed, settings.start)}`);
  const answer: Answer = await engine.call({ words: words_of("save", model, { ...settings, events }), input: model.text });
  if (answer.status !== 0) throw new Error(complaint(answer));
  return read_snapshot(answer.out);
}

/** The values of what a part reads and writes, when the program comes to it: those that the event shows with the parts before alone. */
async function values_at(engine: Engine, model: Model, vertex: Vertex, at: Snapshot, event: PendingEvent, part: number): Promise<Fault["values"]> {
  const kind = (name: string) => variable_of(model, name)?.kind ?? "";
  if (part < 0) return vertex.params.map((name, k) => ({ name, value: event.values.split(",")[k] ?? "", kind: kind(name) }));
  const names = [...new Set(parts_of_vertex(vertex)[part].match(/[A-Za-z]\w*/g) ?? [])].filter(name => variable_of(model, name));
  const text = with_first_parts(watching(model, [...names, vertex.name]), vertex.name, part) + at.text.replace(/^noted .*\n/gm, "");
  const answer = await engine.call({ words: ONE_MORE, input: text });
  const line = answer.out.split("\n").find(each => each.startsWith("on "));
  if (!line) throw new Error(complaint(answer));
  return line.split(" ").slice(3).map(each => { const [name, value] = each.split("="); return { name, value, kind: kind(name) }; });
}

/** Finds the fault of a run that has one. `known` is a number of events after which it hasn't faulted yet. */
export async function find_fault(engine: Engine, model: Model, settings: RunSettings, kind: string, known: number, signal?: AbortSignal): Promise<Fault> {
  const events = await events_before(engine, model, settings, known, signal), at = await saved(engine, model, settings, events);
  const [event] = at.pending, vertex = vertex_of(model, event.vertex)!, parts = parts_of_vertex(vertex);
  let none = -1, some = parts.length;
  while (some - none > 1) {
    const middle = Math.floor((some + none) / 2);
    if (await faults(engine, ONE_MORE, with_first_parts(model.text, vertex.name, middle) + at.text, signal)) some = middle; else none = middle;
  }
  const part = some - 1;
  return {
    events, event, kind, part: part < 0 ? `${vertex.name}(${vertex.params.join(", ")})` : parts[part], edge: part >= vertex.changes.length ? part - vertex.changes.length : null,
    values: await values_at(engine, model, vertex, at, event, part),
  };
}
