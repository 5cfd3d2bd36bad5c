// The course of a long run, piece by piece: it grows while the run goes on, Stop keeps what is done, and no output is longer than a piece.
import { Course, CourseReader } from "../engine/course";
import { ending_of } from "../engine/lines";
import { Answer, Cancelled, complaint, Engine } from "../engine/wire";
import { RunSettings } from "../store/settings";
import { Model } from "../text/model";
import { words_of } from "./words";

/** The first piece has so many events; each end is then twice as far. A saved run begins each later piece. */
export const FIRST_PIECE = 100_000;

/** `events` is how many of them the course has, `stopped` whether a person ended it before its end. */
export interface Made { course: Course; events: number; ms: number; stopped: boolean }
export interface Progress { grown?(course: Course, events: number): void; signal: AbortSignal }

/** Where the pieces end. */
export function ends_of(events: number, first = FIRST_PIECE): number[] {
  const ends: number[] = [];
  for (let end = first; end < events; end *= 2) ends.push(end);
  return [...ends, events];
}

const PART = 2 ** 20;
/** Reads a history in parts, so that the page answers meanwhile. */
async function read(reader: CourseReader, bytes: Uint8Array): Promise<void> {
  for (let at = 0; at < bytes.length; at += PART) {
    if (at) await new Promise(done => setTimeout(done));
    reader.take(bytes.subarray(at, at + PART));
  }
}

const is_history = (answer: Answer): boolean => !answer.failure && [0, 6, 7].includes(answer.status!);

/** The course of a run. Its history is that of one call of `run`: what `resume` writes goes on where the saved run ended. */
export async function course_of(engine: Engine, model: Model, settings: RunSettings, { grown, signal }: Progress, first = FIRST_PIECE): Promise<Made> {
  const since = performance.now(), reader = new CourseReader(), ends = ends_of(settings.events, first);
  const save = (events: number) => engine.call({ words: words_of("save", model, { ...settings, events }), input: model.text, signal });
  const made = (events: number, stopped: boolean): Made => {
    const course = reader.finish();
    // The last piece counts its own events alone.
    return { course: ending_of(course.last).word === "budget" ? { ...course, last: `budget ${events}` } : course, events, ms: performance.now() - since, stopped };
  };
  let done = 0, saved: Promise<Answer> | null = null;
  try {
    for (const [k, end] of ends.entries()) {
      // The start of the next piece is found while this one runs.
      const start = saved ? await saved : null, next = k + 1 < ends.length ? save(end) : null;
      next?.catch(() => {});
      if (start && start.status !== 0) throw new Error(complaint(start));
      const words = start ? ["resume", "--until", String(settings.until), "--events", String(end - done)] : words_of("run", model, { ...settings, events: end });
      const answer: Answer<Uint8Array> = await engine.call<Uint8Array>({ words, input: start ? start.out : model.text, want: "bytes", signal });
      if (!is_history(answer)) throw new Error(complaint(answer));
      await read(reader, answer.data!);
      if (ending_of(reader.last_line).word !== "budget") return made(settings.events, false);
      done = end;
      saved = next;
      if (next) grown?.(reader.so_far(), done);
    }
    return made(settings.events, false);
  } catch (problem) {
    // What is whole is kept; of nothing there is no course.
    if (!(problem instanceof Cancelled) || !done) throw problem;
    return made(done, true);
  }
}
