// Tables of distributions in whole ticks: values with weights, for models whose delays aren't uniform. Plain functions.
import { log_gamma } from "../experiments/special";

export interface Row { value: number; weight: number }
export type Kind = "exponential" | "triangular" | "normal" | "lognormal" | "erlang" | "data";
export const KINDS: readonly { id: Kind; title: string; fields: readonly string[]; first: readonly string[] }[] = [
  { id: "exponential", title: "Exponential", fields: ["mean"], first: ["10"] },
  { id: "triangular", title: "Triangular", fields: ["least", "likeliest", "greatest"], first: ["2", "5", "12"] },
  { id: "normal", title: "Normal (below 0 is cut off)", fields: ["mean", "deviation"], first: ["10", "2"] },
  { id: "lognormal", title: "Lognormal", fields: ["mean", "deviation"], first: ["10", "4"] },
  { id: "erlang", title: "Erlang", fields: ["mean", "stages"], first: ["10", "3"] },
  { id: "data", title: "Measured times", fields: [], first: [] },
];
export class BadDistribution extends Error {}

/** The distribution function of the normal distribution, by the series or the continued fraction of the incomplete gamma function. */
export function normal_below(z: number): number {
  const part = gamma_below(0.5, (z * z) / 2) / 2;
  return z < 0 ? 0.5 - part : 0.5 + part;
}
/** The regularised lower incomplete gamma function. */
export function gamma_below(a: number, x: number): number {
  if (x <= 0) return 0;
  const front = Math.exp(-x + a * Math.log(x) - log_gamma(a));
  if (x < a + 1) {
    let term = 1 / a, sum = term;
    for (let n = 1; n < 2000 && Math.abs(term) > sum * 1e-17; n++) { term *= x / (a + n); sum += term; }
    return front * sum;
  }
  let b = x + 1 - a, c = 1e300, d = 1 / b, h = d;
  for (let n = 1; n < 2000; n++) {
    const an = -n * (n - a);
    b += 2;
    d = 1 / (an * d + b || 1e-300);
    c = b + an / c || 1e-300;
    h *= d * c;
    if (Math.abs(d * c - 1) < 1e-16) break;
  }
  return 1 - front * h;
}

function triangular(least: number, likeliest: number, greatest: number): (x: number) => number {
  return x => (x <= least ? 0 : x >= greatest ? 1 : x <= likeliest ? (x - least) ** 2 / ((greatest - least) * (likeliest - least || 1)) : 1 - (greatest - x) ** 2 / ((greatest - least) * (greatest - likeliest || 1)));
}

interface Continuous { below(x: number): number; mean: number; from: number; to: number }
function continuous(kind: Exclude<Kind, "data">, [a, b, c]: readonly number[]): Continuous {
  const is_positive = (value: number, name: string) => { if (!(value > 0)) throw new BadDistribution(`The ${name} is above 0.`); };
  switch (kind) {
    case "exponential": is_positive(a, "mean"); return { below: x => (x <= 0 ? 0 : 1 - Math.exp(-x / a)), mean: a, from: 0, to: a * 16 };
    case "triangular":
      if (!(a <= b && b <= c && a < c && a >= 0)) throw new BadDistribution("It goes from the least, 0 or more, over the likeliest to the greatest.");
      return { below: triangular(a, b, c), mean: (a + b + c) / 3, from: a, to: c };
    case "normal": {
      is_positive(a, "mean"); is_positive(b, "deviation");
      const cut = normal_below(-a / b), below = (x: number) => (x <= 0 ? 0 : (normal_below((x - a) / b) - cut) / (1 - cut));
      // What is left of it above 0 has a greater mean.
      const mean = a + (b * Math.exp(-((a / b) ** 2) / 2)) / (Math.sqrt(2 * Math.PI) * (1 - cut));
      return { below, mean, from: Math.max(0, a - 8 * b), to: a + 8 * b };
    }
    case "lognormal": {
      is_positive(a, "mean"); is_positive(b, "deviation");
      const variance = Math.log(1 + (b / a) ** 2), middle = Math.log(a) - variance / 2, deviation = Math.sqrt(variance);
      return { below: x => (x <= 0 ? 0 : normal_below((Math.log(x) - middle) / deviation)), mean: a, from: 0, to: Math.exp(middle + 6 * deviation) };
    }
    case "erlang":
      is_positive(a, "mean");
      if (!Number.isInteger(b) || b < 1 || b > 100) throw new BadDistribution("The stages are a whole number from 1 to 100.");
      return { below: x => gamma_below(b, (x * b) / a), mean: a, from: 0, to: a * (1 + 16 / Math.sqrt(b)) };
  }
}

const MOST_ROWS = 200, UNIT = 100_000;

/** Weights in whole numbers, of which none is 0: what is lost by rounding goes to where most was lost. */
function weighed(rows: readonly { value: number; part: number }[]): Row[] {
  const known = rows.filter(row => row.part > 0), sum = known.reduce((all, row) => all + row.part, 0), exact = known.map(row => ({ value: row.value, at: (row.part / sum) * UNIT }));
  const made = exact.map(row => ({ value: row.value, weight: Math.floor(row.at), rest: row.at - Math.floor(row.at) }));
  let left = UNIT - made.reduce((all, row) => all + row.weight, 0);
  for (const row of [...made].sort((x, y) => y.rest - x.rest)) { if (left-- <= 0) break; row.weight++; }
  return made.filter(row => row.weight > 0).map(({ value, weight }) => ({ value, weight }));
}

/** The whole numbers nearest to a time that has this distribution, with their weights; in steps where there would be too many. */
function of_continuous({ below, from, to }: Continuous): Row[] {
  const step = Math.max(1, Math.ceil((to - from) / MOST_ROWS)), first = Math.floor(from / step) * step, rows: { value: number; part: number }[] = [];
  for (let value = first; value <= to + step; value += step) {
    const low = value - step / 2, part = below(value + step / 2) - (value <= first ? 0 : below(low));
    rows.push({ value, part });
  }
  return weighed(rows);
}

/** Measured times as they are, rounded to ticks; where there are too many values, in steps. */
function of_data(text: string): Row[] {
  const numbers = text.split(/[\s,;]+/).filter(Boolean).map(Number);
  if (!numbers.length) throw new BadDistribution("Paste a column of measured times.");
  const bad = numbers.findIndex(value => !Number.isFinite(value) || value < 0);
  if (bad >= 0) throw new BadDistribution(`Value ${bad + 1} of the column isn't a time of 0 or more.`);
  const least = Math.min(...numbers), greatest = Math.max(...numbers), step = Math.max(1, Math.ceil((greatest - least + 1) / MOST_ROWS)), counts = new Map<number, number>();
  for (const number of numbers) { const value = Math.round(number / step) * step; counts.set(value, (counts.get(value) ?? 0) + 1); }
  return [...counts].sort((a, b) => a[0] - b[0]).map(([value, weight]) => ({ value, weight }));
}

export function mean_of(rows: readonly Row[]): number { return rows.reduce((sum, row) => sum + row.value * row.weight, 0) / rows.reduce((sum, row) => sum + row.weight, 0); }

/** The rows of a table, and the mean that it should have. */
export function table_of(kind: Kind, numbers: readonly number[], data: string): { rows: Row[]; wanted: number } {
  if (kind === "data") { const values = data.split(/[\s,;]+/).filter(Boolean).map(Number), rows = of_data(data); return { rows, wanted: values.reduce((sum, value) => sum + value, 0) / values.length }; }
  if (numbers.some(number => !Number.isFinite(number))) throw new BadDistribution("Write a number into each field.");
  const made = continuous(kind, numbers);
  if (made.to > 1e9) throw new BadDistribution("The times are too long: take a coarser tick.");
  return { rows: of_continuous(made), wanted: made.mean };
}

export const rows_as_text = (rows: readonly Row[]): string => rows.map(({ value, weight }) => `${value} : ${weight};`).join(" ");
export function rows_of_text(text: string): Row[] { return [...text.matchAll(/(-?\d+)\s*:\s*(\d+)\s*;/g)].map(found => ({ value: Number(found[1]), weight: Number(found[2]) })); }
