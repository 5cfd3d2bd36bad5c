// Special functions that estimates and tables of distributions need.

const LANCZOS = [676.5203681218851, -1259.1392167224028, 771.32342877765313, -176.61502916214059, 12.507343278686905, -0.13857109526572012, 9.9843695780195716e-6, 1.5056327351493116e-7];
/** The logarithm of the gamma function above 0 (Lanczos). */
export function log_gamma(x: number): number {
  if (x < 0.5) return Math.log(Math.PI / Math.sin(Math.PI * x)) - log_gamma(1 - x);
  const t = x + 6.5;
  const sum = LANCZOS.reduce((all, each, k) => all + each / (x + k), 0.99999999999980993);
  return 0.5 * Math.log(2 * Math.PI) + (x - 0.5) * Math.log(t) - t + Math.log(sum);
}

/** The regularised incomplete beta function (Lentz's continued fraction). */
export function beta_part(x: number, a: number, b: number): number {
  if (x <= 0) return 0;
  if (x >= 1) return 1;
  if (x > (a + 1) / (a + b + 2)) return 1 - beta_part(1 - x, b, a);
  const front = Math.exp(log_gamma(a + b) - log_gamma(a) - log_gamma(b) + a * Math.log(x) + b * Math.log1p(-x)) / a, tiny = 1e-300;
  const kept = (value: number) => (Math.abs(value) < tiny ? tiny : value);
  let c = 1, d = 1 / kept(1 - ((a + b) * x) / (a + 1)), f = d;
  for (let m = 1; m < 5000; m++) {
    for (const part of [(m * (b - m) * x) / ((a + 2 * m - 1) * (a + 2 * m)), (-(a + m) * (a + b + m) * x) / ((a + 2 * m) * (a + 2 * m + 1))]) {
      d = 1 / kept(1 + part * d);
      c = kept(1 + part / c);
      f *= c * d;
    }
    if (Math.abs(c * d - 1) < 1e-16) break;
  }
  return front * f;
}

/** The root of a growing function, by halving: exact to the last digits. */
export function root(f: (x: number) => number, low: number, high: number): number {
  for (let k = 0; k < 200 && low < high; k++) {
    const middle = (low + high) / 2;
    if (middle === low || middle === high) break;
    if (f(middle) < 0) low = middle; else high = middle;
  }
  return (low + high) / 2;
}

/** How likely Student's t is above `t`, for t of 0 and more. */
export const student_above = (t: number, degrees: number): number => beta_part(degrees / (degrees + t * t), degrees / 2, 0.5) / 2;

const quantiles = new Map<string, number>();
/** The t that both tails together leave out with 1 - level. */
export function student(degrees: number, level = 0.95): number {
  const key = `${degrees} ${level}`, half = (1 - level) / 2;
  let t = quantiles.get(key);
  if (t === undefined) {
    let high = 2;
    while (student_above(high, degrees) > half) high *= 2;
    quantiles.set(key, t = root(x => half - student_above(x, degrees), 0, high));
  }
  return t;
}

/** P(X <= k) for X binomial. */
export const binomial = (k: number, n: number, p: number): number => (k < 0 ? 0 : k >= n ? 1 : 1 - beta_part(p, k + 1, n - k));
