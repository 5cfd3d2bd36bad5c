// What experiments came to, drawn: means with intervals, differences, service levels, spreads, sweeps, searches and warm-ups.
import { Column, Report, values_of } from "../engine/report";
import { colour, histogram, Interval, interval_chart, sweep_chart } from "../ui/chart";
import { download, h } from "../ui/dom";
import { count, fixed, plural, short } from "../ui/format";
import { icon } from "../ui/icons";
import { CHART_RULES, picture_style, png_of, save_blob } from "../shell/pictures";
import { Course, estimate, met_by, Search, Sweep, Target } from "./asking";
import { estimates_as_csv } from "./saving";
import { Bounds, digits_of, holm, p_value, paired, quantile, share, Summary } from "./statistics";
import { welch_chart } from "./welch_chart";

export const COLUMNS: readonly (readonly [Column, string])[] = [["average", "time average"], ["greatest", "greatest value"], ["least", "least value"], ["last", "last value"], ["count", "number of times"]];
export const title_of = (column: Column): string => COLUMNS.find(([each]) => each === column)![1];
export interface Named { name: string; report: Report; k: number }
/** `called` is what the item is called where it is shown, `unit` what it is counted in. */
export interface View { item: string; called: string; unit: string; column: Column; limit: string; relation: "most" | "least" }

/** The methods of intervals in words. */
const INTERVALS: Readonly<Record<string, string>> = { "Student's t": "Student’s t", Willink: "Student’s t, moved by the skewness of the values (Willink)", "Clopper and Pearson": "exact, for values that are 0 or 1 (Clopper and Pearson)" };

/** The columns that an item has in all reports. */
export function columns_of(reports: readonly Report[], item: string): Column[] {
  const items = reports.map(report => report.items[item]).filter(Boolean);
  if (!items.length) return [];
  if (items.every(each => each.count)) return ["count"];
  return (["average", "greatest", "least", "last"] as const).filter(column => items.every(each => column === "average" || each[column]));
}

const titled = ({ called, unit, column }: View): string => `${called}, ${title_of(column)}${unit && column !== "count" ? `, in ${unit}` : ""}`;

/** A chart with buttons that save it. */
function figure(title: string, small: string, chart: HTMLElement, ...more: (HTMLElement | null)[]): HTMLElement {
  const svg = () => { const drawn = chart.querySelector("svg")?.cloneNode(true) as SVGElement | undefined; if (!drawn) return null; drawn.prepend(style()); drawn.setAttribute("xmlns", "http://www.w3.org/2000/svg"); return new XMLSerializer().serializeToString(drawn); };
  const style = () => { const element = document.createElementNS("http://www.w3.org/2000/svg", "style"); element.textContent = picture_style(CHART_RULES); return element; };
  const name = title.replace(/[^\w]+/g, "_").replace(/^_+|_+$/g, "");
  return h("section", { className: "panel" }, h("h3", {}, title, h("small", {}, ` ${small}`), h("span", { className: "panel-tools" },
    h("button", { className: "link", onclick: () => { const text = svg(); if (text) download(`${name}.svg`, text, "image/svg+xml"); } }, "SVG"),
    h("button", { className: "link", onclick: () => { const text = svg(); if (text) void png_of(text).then(blob => save_blob(`${name}.png`, blob)); } }, "PNG"))), chart, ...more);
}

function table_of(rows: readonly (Interval & { p?: number })[]): HTMLElement {
  // A column has one number of decimals, so that its numbers are compared at a glance.
  const digits = Math.max(0, ...rows.map(({ summary: each }) => digits_of(each.error))), ends = rows.every(({ summary: each }) => Number.isInteger(each.least) && Number.isInteger(each.greatest)) ? 0 : digits, has_p = rows.some(each => each.p !== undefined);
  const level = rows[0] ? `${short(rows[0].summary.level * 100)} %` : "95 %";
  return h("div", { className: "table-box" }, h("table", { className: "numbers" }, h("thead", {}, h("tr", {}, ...["", "runs", "mean", `${level} from`, "to", "least", "greatest", ...(has_p ? ["p (Holm)"] : [])].map(each => h("th", { scope: "col" }, each)))),
    h("tbody", {}, ...rows.map(({ label, summary: each, p }) => h("tr", {}, h("th", { scope: "row" }, label), h("td", {}, count(each.runs)), ...[each.mean, each.from, each.to].map(value => h("td", {}, fixed(value, digits))), ...[each.least, each.greatest].map(value => h("td", {}, fixed(value, ends))), has_p ? h("td", {}, p === undefined || Number.isNaN(p) ? "–" : p < 0.0001 ? "< 0.0001" : fixed(p, 4)) : null)))));
}

/** How intervals were made, and what makes them hold less often than they say. */
function made_by(rows: readonly Interval[]): HTMLElement[] {
  const methods = [...new Set(rows.map(({ summary: each }) => each.method))].filter(each => each !== "one run" && each !== "equal values"), warned = rows.filter(({ summary: each }) => each.warning);
  return [...(methods.length ? [h("p", { className: "hint" }, `Intervals: ${methods.map(each => INTERVALS[each]).join("; ")}.`)] : []), ...warned.map(({ label, summary: each }) => h("p", { className: "hint warn" }, icon("warn", 13), ` ${rows.length > 1 ? `${label}: ${each.warning[0].toLowerCase()}${each.warning.slice(1)}` : each.warning}`))];
}

function verdict(item: string, base: string, other: string, { from, to, error, mean, runs }: Summary): HTMLElement {
  const digits = digits_of(error), least = Math.min(Math.abs(from), Math.abs(to)), most = Math.max(Math.abs(from), Math.abs(to)), told = from > 0 || to < 0;
  return h("p", { className: "verdict" }, icon(told ? "check" : "help"), error === 0
    ? mean === 0 ? `${item} was the same in each of the ${count(runs)} runs of “${other}” and “${base}”.` : `${item} was ${fixed(Math.abs(mean), 3)} ${mean > 0 ? "higher" : "lower"} in “${other}” in each of ${count(runs)} runs.`
    : told ? `${item} is ${from > 0 ? "higher" : "lower"} in “${other}” than in “${base}”, by ${fixed(least, digits)} to ${fixed(most, digits)}.` : `No difference between “${other}” and “${base}” can be told yet. More runs narrow the interval.`);
}

/** The share of runs that keep a limit, and quantiles of single runs. */
function levels(rows: readonly { label: string; values: readonly number[] }[], { limit, relation }: View, changed: (part: Partial<View>) => void): HTMLElement {
  const bound = Number(limit), has_limit = limit.trim() !== "" && Number.isFinite(bound), of = (values: readonly number[]) => share(values.filter(value => (relation === "most" ? value <= bound : value >= bound)).length, values.length);
  const percent = (value: number) => `${fixed(value * 100, 1)} %`, shown = ({ value, from, to }: Bounds, write: (value: number) => string) => h("td", {}, write(value), h("small", {}, ` ${Number.isNaN(from) ? "?" : write(from)} to ${Number.isNaN(to) ? "?" : write(to)}`));
  const is_whole = rows.every(({ values }) => values.every(Number.isInteger)), write = (value: number) => fixed(value, is_whole ? 0 : 3);
  return h("section", { className: "panel" }, h("h3", {}, "Service level and quantiles", h("small", {}, " of single runs, with 95 % intervals")),
    h("div", { className: "row level-row" }, "Runs in which it is ", h("select", { "aria-label": "At most or at least", value: relation, onchange: (event: Event) => changed({ relation: (event.target as HTMLSelectElement).value as View["relation"] }) }, h("option", { value: "most", selected: relation === "most" }, "at most"), h("option", { value: "least", selected: relation === "least" }, "at least")),
      h("input", { type: "text", inputmode: "decimal", size: "7", value: limit, placeholder: "limit", "aria-label": "Limit", onchange: (event: Event) => changed({ limit: (event.target as HTMLInputElement).value }) })),
    h("div", { className: "table-box" }, h("table", { className: "numbers" }, h("thead", {}, h("tr", {}, ...["", ...(has_limit ? [`${relation === "most" ? "at most" : "at least"} ${limit}`] : []), "half of the runs at most", "9 of 10 at most", "95 of 100 at most"].map(each => h("th", { scope: "col" }, each)))),
      h("tbody", {}, ...rows.map(({ label, values }) => h("tr", {}, h("th", { scope: "row" }, label), has_limit ? shown(of(values), percent) : null, ...[0.5, 0.9, 0.95].map(p => shown(quantile(values, p), write))))))));
}

/** Runs that broke off make means of what is left; it is said, and nothing hidden. */
function broken(named: readonly Named[]): HTMLElement[] {
  return named.flatMap(({ name, report }) => {
    const faults = report.outcomes.filter(each => each === "fault").length, spent = report.outcomes.filter(each => each === "budget").length;
    if (!faults && !spent) return [];
    const first = report.outcomes.findIndex(each => each === "fault" || each === "budget");
    return [h("p", { className: "warning" }, icon("warn"), `${name}: ${[faults ? `${plural(faults, "run")} faulted` : "", spent ? `${plural(spent, "run")} spent ${spent === 1 ? "its" : "their"} events` : ""].filter(Boolean).join(", ")} of ${count(report.seeds.length)}, so its mean says little. The first is that with seed ${report.seeds[first]}.`,
      h("button", { className: "small", "data-seed": report.seeds[first] }, "Run that seed"))];
  });
}

export function compared(named: readonly Named[], view: View, changed: (part: Partial<View>) => void, run_seed: (seed: string) => void): HTMLElement[] {
  const all = named.map(each => ({ ...each, values: values_of(each.report, view.item, view.column) })).filter((each): each is Named & { values: number[] } => each.values !== null && each.values.length > 0);
  if (!all.length) return [h("p", { className: "hint" }, "No design watches this.")];
  const rows = all.map(({ name, k, values }): Interval => ({ label: name, summary: estimate(values, view.column), colour: colour(k) })), title = titled(view);
  // Intervals of several comparisons hold all together (Bonferroni); p-values are adjusted by Holm.
  const pairs = all.slice(1), level = 1 - 0.05 / Math.max(1, pairs.length), made = pairs.map(({ values }) => paired(all[0].values, values, level)), p = holm(made.map(p_value));
  const differences = pairs.map(({ name, k }, i) => ({ label: (name + all[0].name).length < 18 ? `${name} − ${all[0].name}` : `${name} − base`, summary: made[i], colour: colour(k), strong: true, p: p[i] }));
  const warnings = broken(named);
  for (const each of warnings) { const button = each.querySelector("button")!; button.onclick = () => run_seed(button.dataset.seed!); }
  const runs = Math.min(...all.map(({ values }) => values.length));
  return [...warnings,
    figure(title, `mean of ${count(runs)} runs with its 95 % interval`, interval_chart(rows, false, title), table_of(rows), ...made_by(rows), h("p", { className: "panel-foot" }, h("button", { className: "link", onclick: () => download("estimates.csv", estimates_as_csv(title, [...rows, ...differences]), "text/csv") }, "Save these as CSV"))),
    ...(differences.length ? [figure("Differences", `run by run, on the same seeds${differences.length > 1 ? `; ${differences.length} comparisons that hold together at 95 %` : ""}`, interval_chart(differences, true, `difference of the ${title_of(view.column)}`), table_of(differences), ...made_by(differences), ...differences.map((each, i) => verdict(view.called, all[0].name, pairs[i].name, each.summary)))] : []),
    levels(all.map(({ name, values }) => ({ label: name, values })), view, changed),
    figure("Spread over the runs", "", histogram(all.map(({ name, values, k }) => ({ label: name, values, colour: colour(k) })), title))];
}

export function swept(sweep: Sweep, view: View): HTMLElement[] {
  const shown = sweep.points.flatMap(({ at, report }) => { const values = values_of(report, view.item, view.column); return values ? [{ at, summary: estimate(values, view.column) }] : []; }), title = titled(view);
  const rows = shown.map(({ at, summary: each }) => ({ label: `${sweep.variable} = ${count(at)}`, summary: each, colour: colour(0) }));
  return [figure(title, `for each first value of ${sweep.variable}`, sweep_chart(shown, title, `first value of ${sweep.variable}`, sweep.of), table_of(rows), ...made_by(rows), h("p", { className: "panel-foot" }, h("button", { className: "link", onclick: () => download("sweep.csv", estimates_as_csv(title, rows), "text/csv") }, "Save these as CSV"))),
    ...(sweep.widened ? [h("p", { className: "dim foot" }, `The range of ${sweep.variable} was widened for the sweep.`)] : [])];
}

const asked = ({ item, column, of, relation, limit, share: part }: Target): string => (of === "mean" ? `the mean of ${item} (${title_of(column)}) is ${relation === "most" ? "at most" : "at least"} ${short(limit)}` : `${item} (${title_of(column)}) is ${relation === "most" ? "at most" : "at least"} ${short(limit)} in ${short(part)} of 100 runs`);

export function searched({ variable, target, tried, found, widened }: Search): HTMLElement[] {
  const sorted = [...tried].sort((a, b) => a.at - b.at), word = { yes: "is met", no: "isn't met", unknown: "can't be told" };
  const value = (report: Report) => { const values = values_of(report, target.item, target.column) ?? []; if (target.of === "mean") { const each = estimate(values, target.column); return `${fixed(each.mean, digits_of(each.error))} (${fixed(each.from, digits_of(each.error))} to ${fixed(each.to, digits_of(each.error))})`; } const part = share(values.filter(each => (target.relation === "most" ? each <= target.limit : each >= target.limit)).length, values.length); return `${fixed(part.value * 100, 1)} % (${fixed(part.from * 100, 1)} to ${fixed(part.to * 100, 1)})`; };
  return [h("section", { className: "panel" }, h("h3", {}, found === null ? "No value meets the target" : `${variable} = ${count(found)}`, h("small", {}, found === null ? "" : " is the least value that meets the target")),
    h("p", {}, `Asked was that ${asked(target)}, by the whole 95 % interval. The search halves, so it is right if a greater ${variable} never does worse.`),
    h("table", { className: "numbers" }, h("thead", {}, h("tr", {}, ...[variable, target.of === "mean" ? "mean (95 %)" : "share of runs (95 %)", "the target"].map(each => h("th", { scope: "col" }, each)))), h("tbody", {}, ...sorted.map(({ at, report, met }) => h("tr", { className: at === found ? "chosen" : "" }, h("th", { scope: "row" }, count(at)), h("td", {}, value(report)), h("td", {}, word[met_by(report, target) === met ? met : "unknown"])))))),
    ...(widened ? [h("p", { className: "dim foot" }, `The range of ${variable} was widened for the search.`)] : [])];
}

export function warmed(course: Course, warmup: number, window: number, choose: (tick: number) => void): HTMLElement[] {
  return [figure(`${course.item}, step by step`, `mean over ${count(course.runs)} runs, and over ${window} steps to either side`, welch_chart(course, warmup, window, choose),
    h("p", { className: "hint" }, "The warm-up ends where the smooth line no longer climbs or falls. Click there: what comes before is left out of every experiment."))];
}
