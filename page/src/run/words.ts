// The words of a run, and how it ended, in sentences.
import type { Course } from "../engine/course";
import { ending_of } from "../engine/lines";
import { RunSettings } from "../store/settings";
import { Model, variable_of } from "../text/model";
import { count } from "../ui/format";

/** The values that the first event takes where none are typed: the first values of its parameters. */
export function first_start(model: Model): string {
  const values = { true: "1", false: "0" } as Record<string, string>;
  return (model.vertices[0]?.params ?? []).map(name => { const initial = variable_of(model, name)?.initial ?? "0"; return values[initial] ?? initial; }).join(",");
}

export function words_of(name: string, model: Model, { until, seed, events, start }: RunSettings): string[] {
  const given = start || first_start(model);
  return [name, "--until", String(until), "--seed", seed, "--events", String(events), ...(given ? [`--start=${given}`] : [])];
}

/** What a run came to, and why. */
export function ending_in_words({ last, end }: Course, events: number, show: (time: number) => string = count, stopped: number | null = null): [string, string] {
  if (stopped !== null) return [`Stopped at ${show(end)}, after ${count(stopped)} events`, "What is shown is whole up to there."];
  const { word, time, kind } = ending_of(last);
  if (word === "ended") return [`Ended at ${show(time!)}`, "Nothing was pending any more."];
  if (word === "stopped") return [`Ended at ${show(time!)}, as set`, "That is the stop time."];
  if (word === "fault") return [`A fault at ${show(time!)}: ${kind}`, "The run can't go on from there."];
  return [`Broke off after ${count(events)} events`, end === 0 ? "No time passed: events schedule each other without a delay." : `It had come to ${show(end)}. Ask for more events, or look for events that schedule each other without a delay.`];
}

const quoted = (word: string): string => (/^[\w.,:=\/-]+$/.test(word) ? word : `'${word.replace(/'/g, "'\\''")}'`);
/** The line that gives the same answer in a shell. */
export const shell_line = (words: readonly string[], file: string): string => `./sigma ${words.map(quoted).join(" ")} < ${quoted(file || "model.sigma")}`;
