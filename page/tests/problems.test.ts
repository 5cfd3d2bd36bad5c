// What is found in a model, against `sigma-lab lint` on the same texts.
import test from "node:test";
import assert from "node:assert/strict";
import { spawnSync } from "node:child_process";
import { mkdtempSync, rmSync, writeFileSync } from "node:fs";
import { tmpdir } from "node:os";
import { join } from "node:path";
import { Finding, findings_of } from "../src/problems/findings";
import { judge } from "../src/store/store";
import { example, Native } from "./native";

interface Row { rule: string; level: string; place: string }
const engine = new Native(), RULES = new Set(["unreached", "condition", "unread", "constant", "stream", "cancel"]);

async function found_in(text: string): Promise<Finding[]> {
  const verdict = await judge(engine, text, 0);
  if (verdict.state !== "accepted") throw new Error(text);
  const input = verdict.model.text, narrow = (await engine.call({ words: ["narrow"], input })).out;
  return findings_of(verdict.model, { narrow, reduce: (await engine.call({ words: ["reduce"], input: narrow })).out, uses: (await engine.call({ words: ["uses"], input })).out });
}

/** What the lab finds of the rules that the page has; a round that ends by a condition is a note of the lab's alone. */
function linted(text: string): Row[] {
  const folder = mkdtempSync(join(tmpdir(), "problems-")), file = join(folder, "model.sigma");
  try {
    writeFileSync(file, text);
    const ran = spawnSync(`${process.env.SIGMA_CHECKOUT}/lab/sigma-lab`, ["lint", "--json", file], { encoding: "utf8" });
    const rows = JSON.parse(ran.stdout) as Row[];
    return rows.filter(({ rule, level }) => RULES.has(rule) || (rule === "cycle" && level === "wrong"));
  } finally { rmSync(folder, { recursive: true }); }
}
const plain = (rows: readonly { rule: string; level: string; name?: string; place?: string }[]): string[] => rows.map(({ rule, level, name, place }) => `${level} ${rule} ${name ?? place}`).sort();

const SLIPS = `version 2;
model SLIPS;
var QUEUE : 0..9 clip = 0;
var LOST : 0..9 = 0;
var LIMIT : 0..9 = 5;
var WHO : 0..9 = 0;
table TIMES { 1 : 2; 3 : 4; }
watch QUEUE;
vertex OPEN {
  draw WHO from 1 in 0..9;
  schedule ARRIVE after draw from 1 in 1..3;
}
vertex ARRIVE {
  set QUEUE := QUEUE + 1;
  schedule ARRIVE after draw from 1 in 1..3;
  schedule SERVE(QUEUE) after draw from 2 in 1..3 when QUEUE < LIMIT;
  schedule NEVER after 3 when QUEUE > 20;
}
vertex SERVE(WHO) {
  draw WHO from 2 in 1..4;
  set QUEUE, LOST := QUEUE - 1, WHO;
  cancel SERVE when WHO > 2;
  cancel NOBODY;
}
vertex NEVER {
}
vertex NOBODY {
}
end
`;
const ROUND = "model ROUND;\nvar N : 0..9 = 0;\nwatch N;\nvertex A {\n  schedule B after 1;\n}\nvertex B {\n  urgent C;\n}\nvertex C {\n  schedule D when N < 5;\n  schedule B;\n}\nvertex D {\n}\nend\n";

test("the same is found as by sigma-lab lint", async () => {
  for (const [name, text] of [["slips", SLIPS], ["round", ROUND], ...["bank", "polling", "clinic", "network"].map(each => [each, example(each)])]) {
    const found = plain(await found_in(text));
    assert.deepEqual(found, plain(linted(text)), name);
    if (name === "slips") for (const rule of RULES) assert.ok(rule === "condition" || found.some(each => each.includes(` ${rule} `)), `${rule} isn't tried: ${found.join("; ")}`);
  }
});

test("each finding says what is there, and leads to a part of the model", async () => {
  for (const { name, text, at } of [...await found_in(SLIPS), ...await found_in(ROUND), ...await found_in(example("polling"))]) {
    assert.ok(/[.:!?]$|\.$/.test(text) && text.length > 20, text);
    assert.ok(at.kind === "field" ? /^(var|table):\w+\/name$/.test(at.id) : at.kind === "event" ? /^[A-Z]/.test(at.name) : at.from === name && at.place >= 0, name);
  }
});

test("the edge that is never taken is the one that is pointed at, with the range that says why", async () => {
  const [found] = (await found_in(example("polling"))).filter(each => each.at.kind === "edge" && each.rule === "unreached");
  assert.deepEqual(found.at, { kind: "edge", from: "SEND", place: 1 });
  assert.match(found.advice, /LAST_DELAY is -1\.\.40/);
});
