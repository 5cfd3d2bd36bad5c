// Certificates of the program itself, followed on the model: what goes is what the reduced model lacks.
import test from "node:test";
import assert from "node:assert/strict";
import { readdirSync } from "node:fs";
import { follow, read_reduction } from "../src/reduce/certificates";
import { edges_of, read_model } from "../src/text/model";
import { move_edge, apply_edits } from "../src/text/edits";
import { judge } from "../src/store/store";
import { example, Native } from "./native";

const names = readdirSync(`${process.env.SIGMA_CHECKOUT}/examples`).filter(file => file.endsWith(".sigma")).map(file => file.replace(/\.sigma$/, ""));

test("each step of each example is followed, and what it takes is what the reduced model lacks", async () => {
  const engine = new Native(), rules = new Set<string>();
  for (const name of names) {
    const [printed, reduced] = await Promise.all([engine.call({ words: ["print"], input: example(name) }), engine.call({ words: ["reduce"], input: example(name) })]);
    const before = read_model(printed.out), { text, lines } = read_reduction(reduced.out), after = read_model(text), { gone, steps } = follow(before, lines);
    const lacks = (all: readonly { name: string }[], left: readonly { name: string }[]) => all.map(each => each.name).filter(each => !left.some(other => other.name === each)).sort();
    assert.deepEqual([...gone.vertices.keys()].sort(), lacks(before.vertices, after.vertices), name);
    assert.deepEqual([...gone.variables.keys()].sort(), lacks(before.vars, after.vars), name);
    assert.equal(steps.length, lines.length);
    for (const step of steps) { rules.add(step.rule); assert.ok(step.title && step.why && step.about.length, `${name}: ${step.line}`); }
    assert.ok(edges_of(after).length <= edges_of(before).length);
  }
  assert.ok(rules.size >= 3, [...rules].join());
});

test("edges change places, and the program accepts it", async () => {
  const text = example("bank"), moved = apply_edits(text, move_edge(text, "ARRIVE", 0, 1)), verdict = await judge(new Native(), moved, 0);
  if (verdict.state !== "accepted") throw new Error("refused");
  assert.deepEqual(verdict.model.vertices.find(each => each.name === "ARRIVE")!.edges.map(each => each.target), ["SERVE", "ARRIVE"]);
  assert.deepEqual(move_edge(text, "ARRIVE", 1, 1), []);
});
