// Two models side by side: each answer of the program is read as it is, and its histories part where it says.
import test from "node:test";
import assert from "node:assert/strict";
import { AROUND, Asked, changed_since, compare, compare_settings, line_of, Other } from "../src/compare/comparing";
import { Verdict, verdict_of } from "../src/compare/verdict";
import type { Answer, Call, Engine } from "../src/engine/wire";
import { FIRST_SETTINGS } from "../src/store/settings";
import { EMPTY, Store } from "../src/store/store";
import { example, Native } from "./native";

const desk = example("desk"), bank = example("bank"), never = new AbortController().signal;
const other = (text: string, name = "the other"): Other => ({ id: "other", name, text });
const asked = (text: string, more: Partial<Asked> = {}): Asked => ({ until: 480, seed: "1", events: 100000, start: "", runs: 20, other: other(text), ...more });
async function compared(text: string, its: Asked, engine: Engine = new Native()) {
  const store = new Store(engine, { ...EMPTY, text, saved: text }, 5);
  return compare(engine, await store.settle(), its, never);
}
/** The program, but for `compare`, to which this is the answer. */
class Says extends Native {
  constructor(private readonly status: number, private readonly out: string) { super(); }
  override call<T>(call: Call): Promise<Answer<T>> {
    if (call.words[0] !== "compare") return super.call(call);
    return Promise.resolve({ status: this.status, out: this.out, err: "", written: this.out.length, cut: false, failure: "", ms: 1 });
  }
}
const answer = (status: number | null, out: string, failure = ""): Answer => ({ status, out, err: "", written: out.length, cut: false, failure, ms: 0 });

test("each answer is read as it is written", () => {
  const lines = { first: "at 0 A=1", second: "fault 0 range" }, shown: [number, string, Verdict][] = [
    [0, "same\n", { word: "same" }], [13, "unknown\n", { word: "unknown", more: [] }], [13, "unknown\nA B: edges\nfirst 1\nsecond 2\n", { word: "unknown", more: ["A B: edges", "first 1", "second 2"] }],
    [12, "differs\ndeclared\nfirst watch A;\nsecond -\n", { word: "differs", how: "declared", lines: { first: "watch A;", second: "-" } }],
    [12, "differs\nrun 3 seed 18446744073709551615 line 12\nfirst at 0 A=1\nsecond fault 0 range\n", { word: "differs", how: "run", run: 3, seed: "18446744073709551615", line: 12, lines }],
  ];
  for (const [status, out, verdict] of shown) assert.deepEqual(verdict_of(answer(status, out)), verdict);
});

test("what is no answer of the program is none here", () => {
  const wrong: [number | null, string, string?][] = [
    [13, "same\n"], [12, "same\n"], [0, "unknown\n"], [0, "differs\ndeclared\nfirst a\nsecond b\n"], [0, ""], [1, ""], [null, "same\n", "its stack is full"], [0, "same\nmore\n"], [12, "differs\n"],
    [12, "differs\nrun 1 seed 1\nfirst a\nsecond b\n"], [12, "differs\ndeclared\nfirst a\n"], [12, "differs\ndeclared\nsecond a\nfirst b\n"], [12, "differs\ndeclared\nfirst a\nsecond b\nthird c\n"],
  ];
  for (const [status, out, failure] of wrong) assert.throws(() => verdict_of(answer(status, out, failure)));
});

test("a run that shows a difference is found, and its histories part where the program says", async () => {
  const { verdict, parting } = await compared(desk, asked(desk.replace("when QUEUE > 0", "when QUEUE >= 0")));
  assert.deepEqual(verdict, { word: "differs", how: "run", run: 1, seed: "1", line: 2, lines: { first: "at 4 QUEUE=0 FREE=true", second: "fault 4 range" } });
  assert.equal(parting!.first.lines[0], parting!.second.lines[0]);
  assert.equal(line_of(parting!.first, 2), "at 4 QUEUE=0 FREE=true");
  assert.deepEqual([parting!.first.lines.length, parting!.second.lines], [2 + AROUND, [parting!.first.lines[0], "fault 4 range"]]);
});

test("a difference that comes late and with another seed is shown with the lines around it", async () => {
  const { verdict, parting } = await compared(bank, asked(bank.replace("QUEUE : 0..500", "QUEUE : 0..5")));
  if (verdict.word !== "differs" || verdict.how !== "run") throw new Error(verdict.word);
  assert.ok(verdict.run > 1 && verdict.line > AROUND + 1, JSON.stringify(verdict));
  assert.equal(verdict.seed, String(verdict.run));
  const { first, second, line } = parting!, before = line - first.first;
  assert.deepEqual([first.first, second.first, before], [line - AROUND, line - AROUND, AROUND]);
  assert.deepEqual(first.lines.slice(0, before), second.lines.slice(0, before));
  assert.ok(line_of(first, line) !== line_of(second, line));
  const whole = await new Native().call({ words: ["run", "--until", "480", "--seed", verdict.seed, "--events", "100000"], input: bank });
  assert.deepEqual(first.lines, whole.out.split("\n").slice(line - AROUND - 1, line + AROUND));
});

test("lines that are declared otherwise, and models of which no run differs", async () => {
  const less = await compared(desk, asked(desk.replace("watch QUEUE, FREE", "watch QUEUE")));
  assert.deepEqual([less.verdict, less.parting], [{ word: "differs", how: "declared", lines: { first: "watch QUEUE, FREE;", second: "watch QUEUE;" } }, null]);
  const { verdict } = await compared(desk, asked(desk.replace("2..8", "2..9"), { until: 0 }));
  assert.equal(verdict.word, "unknown");
});

test("starting values go to both models", async () => {
  const emergency = example("emergency"), engine = new Native(), { verdict } = await compared(emergency, asked(emergency.replace("model EMERGENCY", "model OTHER"), { runs: 2 }), engine);
  assert.ok(verdict.word !== "differs");
  assert.ok(engine.calls.some(({ words }) => words[0] === "compare" && words.includes("--start=3")));
});

test("`same` is said as the program says it", async () => {
  const { verdict, parting, output } = await compared(desk, asked(desk), new Says(0, "same\n"));
  assert.deepEqual([verdict, parting, output], [{ word: "same" }, null, "same\n"]);
});

test("histories that aren't those of the answer aren't shown", async () => {
  await assert.rejects(compared(desk, asked(desk), new Says(12, "differs\nrun 1 seed 1 line 2\nfirst at 5 QUEUE=0 FREE=true\nsecond fault 4 range\n")), /aren't those/);
});

test("a model that the program refuses, or none, is named", async () => {
  await assert.rejects(compared(desk, asked("", { other: other(" \n", "the file") })), /^Error: the file is empty\.$/);
  await assert.rejects(compared(desk, asked("", { other: other("model X", "x.sigma") })), /refuses x\.sigma: /);
});

test("a comparison is out of date after an edit of either model or of the settings, and not after a comment", async () => {
  const engine = new Native(), store = new Store(engine, { ...EMPTY, text: desk, saved: desk }, 5), its = asked(desk), snapshot = await store.settle(), made = { snapshot, settings: its };
  const { other: _other, ...settings } = its, since = (now: typeof settings | null = settings, text: string | null = desk) => changed_since(store, made, now, text);
  assert.equal(since(), null);
  assert.equal(since({ ...settings, runs: 21 }), "the settings have changed");
  assert.equal(since(null), "the settings have changed");
  assert.equal(since(settings, null), "the other model has changed");
  assert.equal(since(settings, `${desk}# more\n`), "the other model has changed");
  store.edit(`# a comment\n${desk}`, "Typing");
  await store.check();
  assert.equal(since(), null);
  store.edit(desk.replace("2..8", "2..9"), "Typing");
  await store.check();
  assert.equal(since(), "the model has changed");
  assert.equal(since({ ...settings, until: 1 }, ""), "the model, the other model and the settings have changed");
});

test("how many runs are made is a setting of its own", () => {
  assert.deepEqual(compare_settings(FIRST_SETTINGS), { value: { until: 480, seed: "1", events: 100000, start: "", runs: 20 } });
  for (const compared of ["0", "65,537", "many"]) assert.ok("problems" in compare_settings({ ...FIRST_SETTINGS, compared }), compared);
  assert.ok("value" in compare_settings({ ...FIRST_SETTINGS, compared: "65,536" }));
});
