// Refusals of the program itself in words, with edits that the program accepts; links, kept documents, times and tables.
import test from "node:test";
import assert from "node:assert/strict";
import { refusal_in_words } from "../src/text/refusals";
import { judge } from "../src/store/store";
import { BadLink, link_of, model_in_link, MOST_TEXT, packed, unpacked } from "../src/shell/links";
import { doc_of, drafts_of, file_name } from "../src/shell/kept";
import { clock_of, seconds_of } from "../src/run/clock";
import { read_notes, title_of_item, unit_of_item, write_notes } from "../src/text/notes";
import { apply_edits, make_first, move_edge, read_places, remove_edge, remove_event, remove_table, remove_variable, rename, write_places } from "../src/text/edits";
import { BadDistribution, mean_of, rows_as_text, rows_of_text, table_of } from "../src/text/distributions";
import { free_streams, TEMPLATES, with_template } from "../src/text/templates";
import { meetings } from "../src/reduce/meetings";
import { groups_of } from "../src/console/describe_groups";
import { example, Native } from "./native";

const engine = new Native(), model = (inside: string, before = "") => `${before}model X;\nvar QUEUE : 0..9 = 0;\nvar FREE : bool = true;\nvertex OPEN {\n${inside}\n}\nend\n`;
const told = async (text: string) => {
  const verdict = await judge(engine, text, 0);
  if (verdict.state !== "refused") throw new Error(`accepted: ${text}`);
  return refusal_in_words(text, verdict.refusal);
};

test("what is usually meant is said", async () => {
  for (const [inside, words] of [
    ["  set QUEUE = 1;", "Write := to store a value."], ["  schedule OPEN after 2.5;", /whole/], ["  schedule OPEN when QUEUE == 1;", /one = to compare/], ["  schedule OPEN after exponential(5);", /distribution is a table/],
    ["  schedule OPEN after uniform(3,9);", /distribution is a table/], ["  schedule OPEN after 3..9;", /is drawn/], ["  schedule OPEN after 5 minutes;", /ticks alone/], ["  schedule OPEN after 5\n  schedule OPEN after 6;", /A ; is missing/],
    ["  set QEUE := 1;", "There is no QEUE: is QUEUE meant?"], ["  set QUEUE := true;", /mixed/], ["  QUEUE := 1;", /begins with set/], ["  schedule OPEN after draw from 1 in 2..3;", /version 2/],
  ] as const) {
    const { words: found } = await told(model(inside));
    assert.ok(typeof words === "string" ? found === words : words.test(found), `${inside}: ${found}`);
  }
});

test("a button that mends the text makes one that the program accepts", async () => {
  for (const inside of ["  set QUEUE = 1;", "  set QEUE := 1;", "  schedule OPEN after 5\n  schedule OPEN after 6;", "  schedule OPEN when QUEUE == 1;", "  QUEUE := 1;", "  schedule OPEN after draw from 1 in 2..3;"]) {
    const text = model(inside), { fix } = await told(text);
    assert.ok(fix, inside);
    const mended = text.slice(0, fix!.from) + fix!.text + text.slice(fix!.to);
    assert.equal((await judge(engine, mended, 0)).state, "accepted", mended);
  }
});

test("a missing ; is pointed at where it is missing", async () => {
  const text = model("  schedule OPEN after 5\n  schedule OPEN after 6;"), { index } = await told(text);
  assert.equal(text.slice(0, index).split("\n").length, 5);
});

test("a link carries a text and its name", async () => {
  const text = example("bank");
  assert.deepEqual(await model_in_link(await link_of(text, "bank.sigma")), { text, name: "bank.sigma" });
  assert.equal(await model_in_link("#cores=1"), null);
});

test("a link isn't unpacked beyond the longest text, nor if it is broken", async () => {
  const long = "#".repeat(MOST_TEXT + 1);
  await assert.rejects(model_in_link(`#model=${await packed(long)}`), (problem: Error) => problem instanceof BadLink && /4,194,304/.test(problem.message));
  assert.equal((await model_in_link(`#model=${await packed(long.slice(1))}`))!.text.length, MOST_TEXT);
  await assert.rejects(model_in_link("#model=AAAA"), (problem: Error) => problem instanceof BadLink);
  const bytes = Uint8Array.from(atob((await packed("abc")).replaceAll("-", "+").replaceAll("_", "/")), letter => letter.charCodeAt(0));
  await assert.rejects(unpacked(bytes, 2), (problem: Error) => problem instanceof BadLink);
});

test("the name of a file ends in .sigma", () => {
  for (const [name, wanted] of [["invoice.bat", "invoice.sigma"], ["shop", "shop.sigma"], ["shop.sigma", "shop.sigma"], ["../../a/b.txt", "b.sigma"], ["", ""], ["x\u0000<y>.exe", "xy.sigma"]]) assert.equal(file_name(name), wanted);
});

test("what the browser kept is checked when it is read", () => {
  assert.equal(doc_of(null), null);
  assert.equal(doc_of({ text: 5 }), null);
  const doc = doc_of({ text: "model X;", file: "a.bat", designs: [{ id: 1, name: "Base", text: "", taken: true }, { id: 2, text: {} }, "x"], active: 9, settings: { until: 5, seed: "3" } })!;
  assert.deepEqual([doc.designs.length, doc.active, doc.file, doc.settings.until, doc.settings.seed], [1, 1, "a.sigma", "480", "3"]);
  assert.deepEqual(drafts_of([{ id: "event:A", field: "name", value: "B" }, { id: 1 }]), [{ id: "event:A", field: "name", value: "B" }]);
});

test("times as a clock has them", () => {
  const minutes = clock_of({ unit: "minute", opens: "8:30" });
  assert.deepEqual([seconds_of("9"), seconds_of("09:30:15"), seconds_of("noon")], [32400, 34215, null]);
  assert.deepEqual([minutes(0), minutes(95), minutes(24 * 60)], ["8:30", "10:05", "day 2, 8:30"]);
  assert.deepEqual([clock_of({ unit: "", opens: "" })(1200), clock_of({ unit: "second", opens: "" })(61), clock_of({ unit: "day", opens: "" })(3)], ["1,200", "0:01:01", "day 4"]);
});

test("what a tick is and what items are called stands in the text, and changes no model", async () => {
  const text = example("bank"), notes = { unit: "minute", opens: "9:00", items: { QUEUE: { title: "customers waiting", unit: "customers" }, IDLE: { title: "", unit: "tellers" } } };
  const placed = write_places(text, { OPEN: { x: 3, y: 4 } }), made = write_notes(placed, notes), [before, after] = await Promise.all([judge(engine, text, 0), judge(engine, made, 0)]);
  assert.deepEqual(read_notes(made), notes);
  assert.ok(before.state === "accepted" && after.state === "accepted" && before.model.text === after.model.text);
  assert.deepEqual(read_places(made), { OPEN: { x: 3, y: 4 } });
  assert.deepEqual(read_notes(write_places(made, { OPEN: { x: 9, y: 9 } })), notes);
  assert.equal(write_notes(made, { unit: "", opens: "", items: {} }), placed);
  assert.deepEqual([title_of_item(notes, "QUEUE"), title_of_item(notes, "GAP"), title_of_item(notes, "QUEUE[2]"), unit_of_item(notes, "IDLE")], ["customers waiting (QUEUE)", "GAP", "customers waiting [2] (QUEUE[2])", "tellers"]);
  assert.equal(read_notes(apply_edits(made, rename(made, "QUEUE", "LINE"))).items.LINE.title, "customers waiting");
});

test("tables have the mean of their distribution", () => {
  for (const [kind, numbers, mean] of [["exponential", [20], 20], ["triangular", [2, 5, 11], 6], ["normal", [100, 10], 100], ["lognormal", [30, 10], 30], ["erlang", [40, 4], 40]] as const) {
    const { rows, wanted } = table_of(kind, [...numbers], "");
    assert.ok(Math.abs(wanted - mean) < 1e-6, `${kind}: ${wanted}`);
    // A time is rounded to the nearest tick: of an exponential one that adds nothing on the whole, and what is cut off at 0 little.
    assert.ok(Math.abs(mean_of(rows) - mean) < 0.01 * mean, `${kind}: ${mean_of(rows)}`);
    assert.ok(rows.length <= 202 && rows.every(row => row.weight > 0));
  }
  assert.deepEqual(table_of("data", [], "3\n3.4\n5").rows, [{ value: 3, weight: 2 }, { value: 5, weight: 1 }]);
  assert.throws(() => table_of("data", [], "3\nx"), BadDistribution);
  assert.throws(() => table_of("triangular", [5, 2, 1], ""), BadDistribution);
  assert.deepEqual(rows_of_text(rows_as_text([{ value: -1, weight: 2 }])), [{ value: -1, weight: 2 }]);
});

test("the program accepts each template, in an empty page and in the bank, with streams of its own", async () => {
  for (const template of TEMPLATES) for (const text of ["", example("bank")]) {
    const made = with_template(text, template), verdict = await judge(engine, made.text, 0);
    assert.equal(verdict.state, "accepted", made.text);
  }
  assert.deepEqual(free_streams(example("bank"), 2), [2, 3]);
});

test("events meet in a tick; one meets itself where it occurs twice", () => {
  const frames = { times: [0, 0, 1, 2, 2, 2], vertices: [0, 1, 0, 1, 1, 0] };
  assert.deepEqual(meetings(frames, [[0, 1], [1, 1], [0, 0], [1, 2]]), [2, 1, 0, 0]);
});

test("the model in words is shown event by event", async () => {
  const { out } = await engine.call({ words: ["describe"], input: example("bank") }), groups = groups_of(out);
  assert.deepEqual(groups.map(each => each.title), ["The model BANK", "OPEN", "ARRIVE", "SERVE", "LEAVE", "CLOSE"]);
  assert.equal(groups.flatMap(each => each.lines).length, out.trimEnd().split("\n").length - 6);
});

test("what is gone already is removed by no edit", () => {
  const text = "model M;\nvar A : 0..9 = 0;\nvertex ONE {\n}\nend\n";
  for (const edits of [remove_variable(text, "B"), remove_event(text, "TWO"), remove_table(text, "T"), remove_edge(text, "ONE", 0), remove_edge(text, "TWO", 0), move_edge(text, "TWO", 0, 1), make_first(text, "TWO")]) assert.deepEqual(edits, []);
  assert.equal(apply_edits(text, remove_variable(text, "A")), "model M;\nvertex ONE {\n}\nend\n");
});
