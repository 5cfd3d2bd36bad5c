// Two models side by side: the program is asked whether they differ, and where a run shows it, for both histories around the place.
import type { Part } from "../engine/part";
import { complaint, Engine } from "../engine/wire";
import { words_of } from "../run/words";
import { check_settings, Checked, RunSettings, run_settings, TypedSettings } from "../store/settings";
import { judge, Made, Snapshot, Store } from "../store/store";
import { Model } from "../text/model";
import { refusal_in_words } from "../text/refusals";
import { Verdict, verdict_of } from "./verdict";

/** A model that the one of the page is compared with; `more` tells it from others of its name. */
export interface Other { id: string; name: string; text: string; more?: string }
export interface CompareSettings extends RunSettings { runs: number }
/** What a comparison was asked for: all of it is what its answer is about. */
export interface Asked extends CompareSettings { other: Other }
/** The notes of both histories around the line in which they part. */
export interface Parting { line: number; first: Part; second: Part }
export interface Compared { first: Model; second: Model; verdict: Verdict; parting: Parting | null; output: string; ms: number }

/** So many lines are shown before the one in which histories part, and after it. */
export const AROUND = 8;

export function compare_settings(typed: TypedSettings): Checked<CompareSettings> {
  const run = run_settings(typed), more = check_settings(typed, ["compared"]);
  if ("problems" in run || "problems" in more) return { problems: { ...("problems" in run ? run.problems : {}), ...("problems" in more ? more.problems : {}) } };
  return { value: { ...run.value, runs: Number(more.value.compared) } };
}

export const compare_words = (model: Model, asked: CompareSettings): string[] => [...words_of("compare", model, asked), "--runs", String(asked.runs)];

async function model_of(engine: Engine, { name, text }: Other, signal: AbortSignal): Promise<Model> {
  if (!text.trim()) throw new Error(`${name} is empty.`);
  const judged = await judge(engine, text, 0, signal);
  if (judged.state === "accepted") return judged.model;
  throw new Error(`The program refuses ${name}${judged.state === "refused" ? `: ${refusal_in_words(text, judged.refusal).words}` : "."}`);
}

async function part_of(engine: Engine, words: readonly string[], { text }: Model, line: number, signal: AbortSignal): Promise<Part> {
  const answer = await engine.call<Part>({ words, input: text, want: "part", lines: [Math.max(1, line - AROUND), line + AROUND], signal });
  if (answer.failure || ![0, 6, 7].includes(answer.status!)) throw new Error(complaint(answer));
  return answer.data!;
}

async function parting_of(engine: Engine, models: readonly [Model, Model], asked: CompareSettings, verdict: Verdict, signal: AbortSignal): Promise<Parting | null> {
  if (verdict.word !== "differs" || verdict.how !== "run") return null;
  const { line, seed, lines } = verdict, words = words_of("run", models[0], { ...asked, seed }), [first, second] = await Promise.all(models.map(model => part_of(engine, words, model, line, signal)));
  if (line_of(first, line) !== lines.first || line_of(second, line) !== lines.second) throw new Error("The histories aren't those that were compared.");
  return { line, first, second };
}
export const line_of = ({ first, lines }: Part, line: number): string | undefined => lines[line - first];

export async function compare(engine: Engine, { model: first }: Snapshot, { other, ...asked }: Asked, signal: AbortSignal): Promise<Compared> {
  const second = await model_of(engine, other, signal), answer = await engine.call({ words: compare_words(first, asked), input: first.text + second.text, signal });
  const verdict = verdict_of(answer);
  return { first, second, verdict, parting: await parting_of(engine, [first, second], asked, verdict, signal), output: answer.out, ms: answer.ms };
}

/** What has changed since a comparison was made, in words; null where it is of what is there now. */
export function changed_since(store: Store, { snapshot, settings: { other, ...asked } }: Made<Asked>, now: CompareSettings | null, other_now: string | null): string | null {
  const model = store.is_old(snapshot), second = other_now !== other.text, settings = now === null || JSON.stringify(now) !== JSON.stringify(asked);
  const all = [model ? "the model" : "", second ? "the other model" : "", settings ? "the settings" : ""].filter(Boolean);
  if (!all.length) return null;
  return `${all.length > 1 ? `${all.slice(0, -1).join(", ")} and ${all[all.length - 1]}` : all[0]} ${all.length > 1 || settings ? "have" : "has"} changed`;
}
