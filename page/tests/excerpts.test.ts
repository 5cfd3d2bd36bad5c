// Events that are copied and pasted: the program accepts what comes of it, and the copies do what the events do that they are copied from.
import test from "node:test";
import assert from "node:assert/strict";
import { readdirSync } from "node:fs";
import { judge } from "../src/store/store";
import { read_places } from "../src/text/edits";
import { excerpt_of, is_excerpt, moved_places, with_excerpt } from "../src/text/excerpts";
import { Model, Vertex } from "../src/text/model";
import { example, Native } from "./native";

const engine = new Native(), bank = example("bank"), names = readdirSync(`${process.env.SIGMA_CHECKOUT}/examples`).filter(file => file.endsWith(".sigma")).map(file => file.replace(/\.sigma$/, ""));
async function model_of(text: string): Promise<Model> {
  const verdict = await judge(engine, text, 0);
  assert.equal(verdict.state, "accepted", text);
  return (verdict as { model: Model }).model;
}
const events = (model: Model): string[] => model.vertices.map(each => each.name);
/** What an event does, with other names of events. */
const does = ({ name, params, changes, edges }: Vertex, called: ReadonlyMap<string, string> = new Map()) => ({
  name: called.get(name) ?? name, params, changes, edges: edges.map(({ line, target }) => line.replace(new RegExp(`\\b${target}\\b`), called.get(target) ?? target)),
});

test("all events of each example, pasted on an empty page, are those events", async () => {
  for (const name of names) {
    const model = await model_of(example(name)), { text, lost } = with_excerpt("# A note.\n", excerpt_of(example(name), events(model), {})), pasted = await model_of(text);
    assert.deepEqual(pasted.vertices.map(each => does(each)), model.vertices.map(each => does(each)), name);
    assert.deepEqual([pasted.tables.filter(each => !model.tables.some(other => other.rows === each.rows)), lost], [[], []], name);
    assert.ok(text.startsWith("# A note.\n") || pasted.version === "2", name);
  }
});

test("copies of all events of each example do what those do, among themselves", async () => {
  for (const name of names) {
    const model = await model_of(example(name)), made = with_excerpt(example(name), excerpt_of(example(name), events(model), {})), doubled = await model_of(made.text), back = new Map([...made.names].map(([old, copy]) => [copy, old]));
    const copies = doubled.vertices.filter(each => back.has(each.name));
    assert.deepEqual(copies.map(each => does(each, back)), model.vertices.map(each => does(each)), name);
    assert.deepEqual(doubled.vertices.filter(each => !back.has(each.name)).map(each => does(each)), model.vertices.map(each => does(each)), name);
    assert.deepEqual([doubled.vars, doubled.watch], [model.vars, model.watch], name);
  }
});

test("an excerpt has what its events use, and no more", () => {
  const excerpt = excerpt_of(bank, ["LEAVE", "CLOSE"], { LEAVE: { x: 3, y: 4 }, SERVE: { x: 1, y: 1 } });
  for (const word of ["var QUEUE", "var IDLE", "vertex LEAVE", "vertex CLOSE", "urgent SERVE", "# places LEAVE 3,4;"]) assert.ok(excerpt.includes(word), `${word} in ${excerpt}`);
  for (const word of ["var GAP", "vertex SERVE", "watch", "model", "end"]) assert.ok(!excerpt.includes(word), `${word} in ${excerpt}`);
  assert.ok(is_excerpt(excerpt));
});

test("edges to other events lead to the same event, and are left out where there is none", async () => {
  const excerpt = excerpt_of(bank, ["SERVE", "LEAVE"], {}), here = with_excerpt(bank, excerpt), copies = (await model_of(here.text)).vertices.slice(-2);
  assert.deepEqual([...here.names], [["SERVE", "SERVE1"], ["LEAVE", "LEAVE1"]]);
  assert.deepEqual(copies.map(each => each.edges.map(edge => edge.target)), [["LEAVE1"], ["SERVE1"]]);
  assert.deepEqual(with_excerpt(bank, excerpt_of(bank, ["LEAVE"], {})).lost, []);
  const other = "model OTHER;\nvertex LEAVE {\n}\nend\n", there = with_excerpt(other, excerpt_of(bank, ["LEAVE", "CLOSE"], {})), model = await model_of(there.text);
  assert.deepEqual(there.lost, [{ from: "LEAVE1", to: "SERVE" }, { from: "CLOSE", to: "ARRIVE" }]);
  assert.deepEqual(events(model), ["LEAVE", "LEAVE1", "CLOSE"]);
  assert.deepEqual(model.vars.map(each => each.name), ["QUEUE", "IDLE"]);
});

test("what the text declares itself is used, and it is told where that is something else", async () => {
  const other = "model OTHER;\nvar QUEUE : 0..7 = 0;\nvar IDLE: 0 .. 2  = 2; # the same\nvertex OPEN {\n}\nend\n", made = with_excerpt(other, excerpt_of(bank, ["LEAVE"], {}));
  assert.deepEqual([made.otherwise, made.clashes], [["QUEUE"], []]);
  assert.deepEqual((await model_of(made.text)).vars.map(each => each.kind), ["0..7", "0..2"]);
  assert.deepEqual(with_excerpt("model OTHER;\nvertex QUEUE {\n}\nend\n", excerpt_of(bank, ["LEAVE"], {})).clashes, ["QUEUE"]);
});

test("a name that is free stays, and a new one is of no event that is pasted too", async () => {
  const two = "vertex STEP {\n  schedule STEP1 after 1;\n}\nvertex STEP1 {\n  schedule STEP after 1;\n}\n", made = with_excerpt("model M;\nvertex STEP {\n}\nend\n", two);
  assert.deepEqual([...made.names], [["STEP", "STEP2"], ["STEP1", "STEP1"]]);
  assert.deepEqual((await model_of(made.text)).vertices.slice(1).map(each => each.edges[0].target), ["STEP1", "STEP2"]);
});

test("a delay that is drawn takes its version along", async () => {
  const drawn = "version 2;\nmodel D;\ntable T { 1 : 2; 3 : 4; }\nvertex A {\n  schedule A after draw from 1 by T;\n}\nend\n", excerpt = excerpt_of(drawn, ["A"], {});
  for (const text of ["", "# First.\nmodel OLD;\nvertex B {\n}\nend\n", "version 1;\nmodel OLD;\nvertex B {\n}\nend\n"]) assert.equal((await model_of(with_excerpt(text, excerpt).text)).version, "2");
});

test("comments inside of events stay, and their places move as a whole", () => {
  const noted = "model N;\nvertex A { # an arrival\n  # first\n  schedule B after 5; # later\n}\nvertex B {\n}\nend\n", excerpt = excerpt_of(noted, ["A", "B"], { A: { x: 10, y: 20 }, B: { x: 30, y: 90 } }), made = with_excerpt(noted, excerpt);
  assert.ok(made.text.includes("vertex A1 { # an arrival\n  # first\n  schedule B1 after 5; # later\n}\nvertex B1 {\n}\nend"), made.text);
  assert.deepEqual(moved_places(excerpt, made.names, { x: 5, y: -5 }), { A1: { x: 15, y: 15 }, B1: { x: 35, y: 85 } });
  assert.deepEqual(read_places(excerpt), { A: { x: 10, y: 20 }, B: { x: 30, y: 90 } });
});

test("what isn't events of a model is no excerpt; a whole model is one", () => {
  for (const text of ["", "  \n", "hello", "vertex", "vertex A", "vertex A {", "var A : 0..1 = 0;", "vertex A {\n}\nand more", "see vertex A {\n}", "model M;\nvertex A {\n}\nend\nsnapshot\nclk 0\nend\n"]) assert.ok(!is_excerpt(text), text);
  for (const text of [bank, "vertex A {\n}", "# note\nvar A : 0..1 = 0;\nvertex B { set A := 1; }\n# places B 1,2;\n"]) assert.ok(is_excerpt(text), text);
});
