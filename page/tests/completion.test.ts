// What a begun word may become: names that fit where it stands.
import test from "node:test";
import assert from "node:assert/strict";
import { declared_in, offers_at, Place } from "../src/text/completion";
import { judge } from "../src/store/store";
import { example, Native } from "./native";

const TEXT = "model X;\nvar QUEUE : 0..9 = 0;\nvar WAITING[3] : 0..9 = 0;\nvar FREE : bool = true; # var HIDDEN\ntable TIMES { 5 : 1; }\nwatch QUEUE;\nvertex OPEN {\n}\nvertex SERVE {\n}\nend\n", names = declared_in(TEXT);
const at = (line: string, place: Place, asked = false): string[] => offers_at(line, line.length, names, place, asked).offers.map(each => each.word);

test("what a text declares, with its kind; comments declare nothing", () => {
  assert.deepEqual(names.map(({ word, kind, hint }) => [word, kind, hint]), [
    ["QUEUE", "variable", "0..9"], ["WAITING", "array", "0..9 in 3 cells"], ["FREE", "variable", "bool"], ["TIMES", "table", "table"], ["OPEN", "event", "event"], ["SERVE", "event", "event"]]);
  assert.deepEqual(declared_in("vertex HALF {\n  set Q := "), [{ word: "HALF", kind: "event", hint: "event" }]);
});

test("an expression takes variables and functions, an edge events, a draw tables", () => {
  assert.deepEqual(at("Q", "expression"), ["QUEUE"]);
  assert.deepEqual(at("QUEUE > 0 and fr", "expression"), ["FREE", "from"]);
  assert.deepEqual(at("m", "expression"), ["min", "max"]);
  assert.deepEqual(at("  schedule S", "text"), ["SERVE"]);
  assert.deepEqual(at("  cancel a", "text"), ["all"]);
  assert.deepEqual(at("  schedule OPEN after draw from 1 by T", "text"), ["TIMES"]);
  assert.deepEqual(at("watch QUEUE, O", "text"), ["OPEN"]);
  assert.deepEqual(at("dr", "changes"), ["draw"]);
  assert.deepEqual(at("W", "names"), ["WAITING"]);
});

test("nothing is offered for a whole name, in a comment, for a number, for a new name, or where none is begun", () => {
  for (const line of ["QUEUE", "# QU", "set QUEUE := 5Q", "var QU", "vertex SE", "QUEUE := "]) assert.deepEqual(at(line, "text"), [], line);
});

test("asked for, all that fits is offered", () => {
  assert.deepEqual(at("  schedule ", "text", true), ["OPEN", "SERVE"]);
  assert.ok(at("QUEUE := ", "changes", true).includes("WAITING"));
});

test("a word in the middle of a text is completed from its own line", () => {
  const index = TEXT.indexOf("{\n}") + 2, text = `${TEXT.slice(0, index)}  set QU\n${TEXT.slice(index)}`, { from, word, offers } = offers_at(text, index + 8, names, "text");
  assert.deepEqual([text.slice(from, from + 2), word, offers.map(each => each.word)], ["QU", "QU", ["QUEUE"]]);
});

test("the names of each example are those that the program lists", async () => {
  const engine = new Native();
  for (const name of ["bank", "clinic", "polling", "emergency"]) {
    const verdict = await judge(engine, example(name), 0);
    if (verdict.state !== "accepted") throw new Error(name);
    const { vars, tables, vertices } = verdict.model;
    assert.deepEqual(declared_in(example(name)).map(each => each.word).sort(), [...vars, ...tables, ...vertices].map(each => each.name).sort(), name);
  }
});
