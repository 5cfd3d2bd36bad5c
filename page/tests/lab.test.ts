// The lab's runs, and its estimates of the same reports: means, proportions, paired differences, Holm's p-values and quantiles.
import test from "node:test";
import assert from "node:assert/strict";
import { spawnSync } from "node:child_process";
import { mkdtempSync, rmSync, writeFileSync } from "node:fs";
import { tmpdir } from "node:os";
import { join } from "node:path";
import { estimate } from "../src/experiments/asking";
import { replicate, series_of } from "../src/engine/replicate";
import { Column, read_report, Report, since, values_of } from "../src/engine/report";
import { holm, p_value, paired, quantile } from "../src/experiments/statistics";
import { example, Native } from "./native";

interface Row { name?: string; design?: string; value?: number; more?: number; low: number | null; high: number | null; standard_error: number | null; n: number; method?: string; p?: number | null; p_adjusted?: number | null; warnings: string }
const LAB = `${process.env.SIGMA_CHECKOUT}/lab/sigma-lab`, QUANTILES = [0.05, 0.5, 0.9, 0.95] as const;
const engine = new Native();

function near(found: number, wanted: number | null | undefined, what: string): void {
  if (wanted === null || wanted === undefined) { assert.ok(Number.isNaN(found), `${what}: ${found}, and the lab has none`); return; }
  assert.ok(Math.abs(found - wanted) <= 1e-9 * Math.max(1, Math.abs(wanted)), `${what}: ${found}, and the lab has ${wanted}`);
}

async function replicated(text: string, runs: number, until = 480): Promise<string> {
  const { seed, stride } = series_of("7");
  const answer = await engine.call({ words: ["replicate", "--until", String(until), "--seed", seed, "--events", "100000", "--runs", String(runs), "--stride", stride], input: text });
  assert.equal(answer.status, 0, answer.err);
  return answer.out;
}

/** What the lab answers of these reports. */
function lab(words: readonly string[], reports: Readonly<Record<string, string>>): Row[] {
  const folder = mkdtempSync(join(tmpdir(), "estimates-"));
  try {
    const files = Object.entries(reports).map(([name, text]) => { const file = join(folder, `${name}.csv`); writeFileSync(file, text); return `${name}=${file}`; });
    const ran = spawnSync(LAB, [...words, ...files], { encoding: "utf8" });
    assert.equal(ran.status, 0, ran.stderr);
    return JSON.parse(ran.stdout) as Row[];
  } finally { rmSync(folder, { recursive: true }); }
}

/** Compares all that the page says of a column in designs with what the lab says of it. */
async function compare(texts: Readonly<Record<string, string>>, item: string, column: Column, runs: number): Promise<Row[]> {
  const names = Object.keys(texts), reports = Object.fromEntries(await Promise.all(names.map(async name => [name, await replicated(texts[name], runs)] as const)));
  const rows = lab(["means", "--json", "--quantiles", QUANTILES.join(","), `${item}.${column}`], reports), values = names.map(name => values_of(read_report(reports[name]), item, column)!);
  names.forEach((name, k) => {
    const made = estimate(values[k], column), [mean, ...quantiles] = rows.slice(k * (1 + QUANTILES.length), (k + 1) * (1 + QUANTILES.length)), what = `${name}, ${item}.${column}`;
    near(made.mean, mean.value, `${what}, mean`);
    near(made.from, mean.low, `${what}, from`);
    near(made.to, mean.high, `${what}, to`);
    if (made.error > 0) near(made.error, mean.standard_error, `${what}, error`);
    assert.equal(made.method, mean.method, what);
    assert.equal(made.warning !== "", mean.warnings !== "", `${what}: “${made.warning}”, and the lab says “${mean.warnings}”`);
    QUANTILES.forEach((p, i) => {
      const found = quantile(values[k], p);
      near(found.value, quantiles[i].value, `${what}, quantile ${p}`);
      near(found.from, quantiles[i].low, `${what}, quantile ${p} from`);
      near(found.to, quantiles[i].high, `${what}, quantile ${p} to`);
    });
  });
  const pairs = rows.filter(row => row.design !== undefined), level = 1 - 0.05 / Math.max(1, pairs.length), made = values.slice(1).map(other => paired(values[0], other, level)), p = holm(made.map(p_value));
  pairs.forEach((row, k) => {
    const what = `${row.design} against ${names[0]}, ${item}.${column}`;
    near(made[k].mean, row.more, `${what}, mean`);
    near(made[k].from, row.low, `${what}, from`);
    near(made[k].to, row.high, `${what}, to`);
    // P-values are small numbers, so they are compared digit by digit.
    near(Math.log(p_value(made[k])), row.p && Math.log(row.p), `${what}, p`);
    near(Math.log(p[k]), row.p_adjusted && Math.log(row.p_adjusted), `${what}, Holm's p`);
  });
  return rows;
}

const bank = example("bank"), tellers = (many: number): string => bank.replace("0..2 = 2", `0..${many} = ${many}`);
const ONES = "model ONES;\nvar LATE : bool = false;\nvar X : 0..9 = 0;\nwatch LATE, X;\nvertex TRY {\n  draw X from 1 in 0..9;\n  set LATE := X > 6;\n}\nend\n";

test("the lab makes the same runs of the same seed", async () => {
  for (const seed of ["1", "7", "18446744073709551615"]) {
    const folder = mkdtempSync(join(tmpdir(), "runs-"));
    try {
      const file = join(folder, "bank.sigma");
      writeFileSync(file, bank);
      const ran = spawnSync(LAB, ["replicate", file, "--until", "480", "--events", "100000", "--runs", "40", "--seed", seed, "--plain"], { encoding: "utf8" });
      assert.equal(ran.status, 0, ran.stderr);
      const { report } = await replicate(engine, { text: bank, until: 480, seed, events: 100000, runs: 40 });
      assert.deepEqual(report as Report, read_report(ran.stdout));
    } finally { rmSync(folder, { recursive: true }); }
  }
});

test("means, intervals, differences, Holm's p-values and quantiles of four designs", async () => {
  const rows = await compare({ base: bank, three: tellers(3), four: tellers(4), slow: bank.replace("in 3..9", "in 4..9") }, "QUEUE", "average", 300);
  assert.deepEqual(new Set(rows.filter(row => row.value !== undefined && !row.name!.includes("quantile")).map(row => row.method)), new Set(["Willink"]));
  assert.equal(rows.filter(row => row.design !== undefined).length, 3);
});

test("few runs have Student's interval, and quantiles without ends", async () => {
  const rows = await compare({ base: bank, three: tellers(3) }, "QUEUE", "average", 4);
  assert.equal(rows[0].method, "Student's t");
  assert.equal(rows.find(row => row.name === "base quantile 0.95")!.high, null);
});

test("skewed values of few runs are warned of", async () => {
  const rows = await compare({ base: tellers(4) }, "QUEUE", "average", 12);
  assert.match(rows[0].warnings, /skewed/);
});

test("whole numbers: the greatest queue, and how often an event occurs", async () => {
  await compare({ base: bank, three: tellers(3) }, "QUEUE", "greatest", 250);
  await compare({ base: bank, three: tellers(3) }, "CLOSE", "count", 20);
});

test("values of 0 and 1 have Clopper and Pearson's interval; equal ones have none", async () => {
  const ones = await compare({ ones: ONES, more: ONES.replace("X > 6", "X > 3") }, "LATE", "last", 400);
  assert.equal(ones[0].method, "Clopper and Pearson");
  const equal = await compare({ base: bank, three: tellers(3) }, "IDLE", "least", 30);
  assert.equal(equal[0].method, "equal values");
});

test("one run", async () => { assert.equal((await compare({ base: bank }, "QUEUE", "average", 1))[0].method, "one run"); });

test("what comes after the warm-up", async () => {
  const early = await replicated(bank, 60, 100), late = await replicated(bank, 60), folder = mkdtempSync(join(tmpdir(), "estimates-"));
  try {
    for (const [name, text] of [["early", early], ["late", late]]) writeFileSync(join(folder, name), text);
    const rest = spawnSync(LAB, ["since", "--plain", join(folder, "early"), join(folder, "late")], { encoding: "utf8" });
    assert.equal(rest.status, 0, rest.stderr);
    const wanted = lab(["means", "--json", "QUEUE.average"], { rest: rest.stdout })[0], report: Report = since(read_report(early), read_report(late)), made = estimate(values_of(report, "QUEUE", "average")!, "average");
    near(made.mean, wanted.value, "mean");
    near(made.from, wanted.low, "from");
    near(made.to, wanted.high, "to");
  } finally { rmSync(folder, { recursive: true }); }
});
