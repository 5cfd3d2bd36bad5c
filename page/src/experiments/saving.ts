// Results as tables to keep: what each run came to, and the estimates.
import type { Report } from "../engine/report";
import type { Summary } from "./statistics";

const cell = (value: string | number): string => { const text = String(value); return /[",\n\r]/.test(text) ? `"${text.replace(/"/g, '""')}"` : text; };
export const csv_of = (rows: readonly (readonly (string | number)[])[]): string => rows.map(row => row.map(cell).join(",")).join("\n") + "\n";

/** A line for each run and item, as `replicate` writes them, behind the name of the design. */
export function runs_as_csv(reports: readonly { name: string; report: Report }[]): string {
  const rows: (string | number)[][] = [["design", "run", "seed", "outcome", "time", "item", "least", "greatest", "last", "area", "count"]];
  for (const { name, report } of reports)
    report.seeds.forEach((seed, k) => {
      for (const [item, { least, greatest, last, area, count }] of Object.entries(report.items))
        rows.push([name, k + 1, seed, report.outcomes[k], report.times[k], item, least?.[k] ?? "", greatest?.[k] ?? "", last?.[k] ?? "", area?.[k] ?? "", count?.[k] ?? ""]);
    });
  return csv_of(rows);
}

export function estimates_as_csv(title: string, rows: readonly { label: string; summary: Summary; p?: number }[]): string {
  const shown = (value: number) => (Number.isFinite(value) ? value : "");
  return csv_of([["of", title], ["", "runs", "mean", "from", "to", "level", "standard error", "least", "greatest", "p", "interval", "warning"],
    ...rows.map(({ label, summary: each, p }) => [label, each.runs, each.mean, shown(each.from), shown(each.to), each.level, shown(each.error), each.least, each.greatest, p === undefined ? "" : shown(p), each.method, each.warning])]);
}
