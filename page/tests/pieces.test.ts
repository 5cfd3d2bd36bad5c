// A long run by pieces is the run, and a stopped one is its beginning.
import test from "node:test";
import assert from "node:assert/strict";
import { Course, CourseReader } from "../src/engine/course";
import { course_of, ends_of } from "../src/run/pieces";
import { ending_in_words, words_of } from "../src/run/words";
import { judge, Kept, Store, EMPTY, command } from "../src/store/store";
import { example, Native } from "./native";

const LONG = "version 2;\nmodel LONG;\nvar QUEUE : 0..1000000 = 0;\nvar SEEN[3] : 0..9 clip = 0;\nwatch QUEUE, SEEN, LEAVE;\nvertex ARRIVE {\n  set QUEUE := QUEUE + 1;\n  set SEEN[QUEUE % 3] := QUEUE % 7;\n  schedule ARRIVE after draw from 0 in 1..8;\n  schedule LEAVE after draw from 1 in 3..9;\n}\nvertex LEAVE {\n  set QUEUE := QUEUE - 1;\n}\nend\n";
const model_of = async (text: string) => {
  const verdict = await judge(new Native(), text, 0);
  if (verdict.state !== "accepted") throw new Error(text);
  return verdict.model;
};
const whole = async (text: string, settings: { until: number; seed: string; events: number; start: string }): Promise<Course> => {
  const model = await model_of(text), answer = await new Native().call<Uint8Array>({ words: words_of("run", model, settings), input: model.text, want: "bytes" }), reader = new CourseReader();
  reader.take(answer.data!);
  return reader.finish();
};

test("pieces end twice as far each time", () => {
  assert.deepEqual(ends_of(50, 100), [50]);
  assert.deepEqual(ends_of(1000, 100), [100, 200, 400, 800, 1000]);
  assert.deepEqual(ends_of(400, 100), [100, 200, 400]);
});

test("the course by pieces is that of the whole run, to its last event, to its stop time, and to a fault", async () => {
  const engine = new Native(), signal = new AbortController().signal;
  for (const [text, settings] of [[LONG, { until: 10 ** 9, seed: "3", events: 5000, start: "" }], [LONG, { until: 4000, seed: "3", events: 50000, start: "" }], [LONG.replace("1000000", "3"), { until: 10 ** 9, seed: "3", events: 50000, start: "" }]] as const) {
    const grown: number[] = [], made = await course_of(engine, await model_of(text), settings, { signal, grown: (course, events) => { grown.push(events); assert.ok(course.end > 0 && course.cells.length === 4); } }, 300);
    assert.deepEqual(made.course, await whole(text, settings));
    assert.equal(made.stopped, false);
    if (settings.events === 5000) assert.deepEqual(grown, [300, 600, 1200, 2400, 4800]);
  }
  assert.ok(engine.calls.some(call => call.words[0] === "resume"));
});

test("a run that is stopped keeps its whole pieces", async () => {
  const abort = new AbortController(), settings = { until: 10 ** 9, seed: "3", events: 10 ** 7, start: "" };
  const made = await course_of(new Native(), await model_of(LONG), settings, { signal: abort.signal, grown: (_, events) => { if (events >= 1200) abort.abort(); } }, 300);
  assert.deepEqual([made.stopped, made.events], [true, 1200]);
  assert.deepEqual(made.course, await whole(LONG, { ...settings, events: 1200 }));
  assert.match(ending_in_words(made.course, settings.events, String, made.events)[0], /Stopped at \d+, after 1,200 events/);
});

test("a result goes to the document that it was made of, whichever is open by then", async () => {
  const bank = example("bank"), store = new Store(new Native(), { ...EMPTY, text: bank, saved: bank, file: "bank.sigma" }, 5), kept = new Kept<string>(store);
  const { made } = await command(store, null, async () => { store.open({ ...EMPTY, text: example("polling"), file: "polling.sigma" }, "Open"); return ""; });
  kept.keep(made.snapshot.document, "of the bank");
  assert.equal(kept.now, undefined);
  store.undo();
  assert.equal(kept.now, "of the bank");
});
