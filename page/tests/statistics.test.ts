// Estimates against SciPy and statsmodels: each expected value was computed by them.
import test from "node:test";
import assert from "node:assert/strict";
import { beta_part, log_gamma, student } from "../src/experiments/special";
import { holm, moving, p_value, paired, quantile, share, summary } from "../src/experiments/statistics";
import { since } from "../src/engine/report";
import type { Report } from "../src/engine/report";

const near = (found: number, wanted: number, by = 1e-9): void => assert.ok(Math.abs(found - wanted) <= by * Math.max(1, Math.abs(wanted)), `${found}, not ${wanted}`);
const VALUES = [3.5, 1.25, 4, 1, 5.5, 9, 2.75, 6], OTHERS = [2.5, 1.75, 3, 2, 5, 7, 2.5, 6.5];

test("Student's t, as scipy.stats.t.isf gives it", () => {
  for (const [degrees, t] of [[1, 12.706204736432102], [2, 4.3026527299112765], [9, 2.262157162740992], [99, 1.9842169515086832], [999, 1.962341461133449]]) near(student(degrees), t);
  near(student(19, 1 - 0.05 / 3), 2.6251059132196874);
});

test("the incomplete beta function and the logarithm of gamma, as scipy.special gives them", () => {
  near(beta_part(0.3, 2.5, 3.5), 0.2967529892956661);
  near(beta_part(0.999, 500, 0.5), 0.317310447309558);
  near(log_gamma(0.3), 1.0957979948180756);
  near(log_gamma(1234.5), 7550.550901077894);
});

test("Student's interval, and a paired difference with its p-value", () => {
  const { mean, error, from, to } = paired(VALUES.map(() => 0), VALUES);
  for (const [found, wanted] of [[mean, 4.125], [error, 0.940174755792013], [from, 1.9018399722665191], [to, 6.348160027733481]]) near(found, wanted);
  near(p_value(paired(OTHERS, VALUES)), 0.3589848040510111);
});

test("equal values have no interval", () => {
  const made = summary([0.1, 0.1, 0.1]);
  assert.deepEqual([made.mean, made.error, made.from], [0.1, 0, NaN]);
});

test("Holm's adjustment, as statsmodels' multipletests gives it; one that isn't known counts", () => {
  holm([0.01, 0.04, 0.03, 0.005]).forEach((found, k) => near(found, [0.03, 0.06, 0.06, 0.02][k]));
  const found = holm([0.01, NaN]);
  near(found[0], 0.02);
  assert.ok(Number.isNaN(found[1]));
});

test("a share of runs, as binomtest's exact interval gives it", () => {
  for (const [ones, runs, from, to] of [[0, 20, 0, 0.16843347098308548], [3, 20, 0.03207093718544477, 0.37892682654529564], [20, 20, 0.8315665290169145, 1], [137, 1000, 0.11628168943360062, 0.15988096510537628]]) {
    const found = share(ones, runs);
    near(found.from, from);
    near(found.to, to);
  }
});

test("a quantile between order statistics: of 200 runs, 9 of 10 lie between the 171st and the 189th", () => {
  const found = quantile(Array.from({ length: 200 }, (_, k) => 200 - k), 0.9);
  assert.deepEqual([found.value, found.from, found.to], [180, 171, 189]);
  assert.ok(Number.isNaN(quantile([1, 2, 3], 0.95).to));
});

test("a moving mean has the same reach to both sides", () => assert.deepEqual(moving([1, 2, 6, 2, 1], 1), [1, 3, 10 / 3, 3, 1]));

test("what comes after the warm-up is the difference of two reports of the same runs", () => {
  const early: Report = { seeds: ["1"], outcomes: ["stopped"], times: [100], items: { Q: { least: [0], greatest: [3], last: [1], area: [50] }, E: { count: [4] } }, rounded: false };
  const whole: Report = { seeds: ["1"], outcomes: ["stopped"], times: [400], items: { Q: { least: [0], greatest: [5], last: [2], area: [650] }, E: { count: [9] } }, rounded: false };
  const cut = since(early, whole);
  assert.deepEqual([cut.times, cut.items.Q.area, cut.items.Q.greatest, cut.items.E.count], [[300], [600], undefined, [5]]);
  assert.throws(() => since({ ...early, outcomes: ["ended"] }, whole), /over before the warm-up/);
});
