// What experiments ask of the program: designs on the same seeds, sweeps, searches and warm-ups.
import { replicate, Replicated, Replication } from "../engine/replicate";
import { Column, Report, values_of } from "../engine/report";
import { Engine } from "../engine/wire";
import { first_start } from "../run/words";
import { ExperimentSettings } from "../store/settings";
import { Design, judge, Snapshot } from "../store/store";
import { apply_edits, set_variable } from "../text/edits";
import { Model, read_model, variable_of } from "../text/model";
import { refusal_in_words } from "../text/refusals";
import { share, Summary, summary } from "./statistics";

export interface Outcome { id: number; name: string; text: string; replicated: Replicated }
export interface Sweep { variable: string; points: { at: number; report: Report }[]; of: [number, number]; widened: boolean }
/** A mean, or the value of so many runs in a hundred, is at most or at least so much. */
export interface Target { item: string; column: Column; of: "mean" | "runs"; relation: "most" | "least"; limit: number; share: number }
export type Met = "yes" | "no" | "unknown";
export interface Search { variable: string; target: Target; tried: { at: number; report: Report; met: Met }[]; found: number | null; widened: boolean }
export interface Course { item: string; ticks: number[]; means: number[]; runs: number }
export type Progress = (done: number, of: number) => void;

export class Asking {
  constructor(private readonly engine: Engine, private readonly settings: ExperimentSettings, private readonly signal: AbortSignal, private readonly progress: Progress) {}

  private runs(model: Model, text: string, more: Partial<Replication>): Promise<Replicated> {
    const start = this.settings.start || first_start(model);
    return replicate(this.engine, { ...this.settings, start, text, signal: this.signal, ...more });
  }

  async designs(designs: readonly Design[], active: number, snapshot: Snapshot): Promise<Outcome[]> {
    const outcomes: Outcome[] = [], { runs } = this.settings, of = designs.length * runs;
    for (const [k, design] of designs.entries()) {
      const text = design.id === active ? snapshot.model.text : await this.canonical(design);
      const replicated = await this.runs(read_model(text), text, { progress: done => this.progress(k * runs + done, of) });
      outcomes.push({ id: design.id, name: design.name, text: design.text, replicated });
      if (replicated.stopped) break;
    }
    return outcomes;
  }
  private async canonical({ name, text }: Design): Promise<string> {
    const verdict = await judge(this.engine, text, 0, this.signal);
    if (verdict.state === "accepted") return verdict.model.text;
    throw new Error(`The program refuses the design “${name}”${verdict.state === "refused" ? `: ${refusal_in_words(text, verdict.refusal).words}` : "."}`);
  }

  /** The model with another first value; its range is widened where it must be. */
  private with_first(model: Model, name: string, at: number, of: [number, number]): { text: string; widened: boolean } {
    const { low, high, clip } = variable_of(model, name)!, least = Math.min(of[0], Number(low)), most = Math.max(of[1], Number(high));
    const text = apply_edits(model.text, set_variable(model.text, name, { kind: `${least}..${most}${clip ? " clip" : ""}`, initial: String(at), cells: "" }));
    return { text, widened: least < Number(low) || most > Number(high) };
  }

  async sweep({ model }: Snapshot, name: string, values: readonly number[], grown: (sweep: Sweep) => void): Promise<Sweep> {
    const of: [number, number] = [values[0], values[values.length - 1]], sweep: Sweep = { variable: name, points: [], of, widened: false }, { runs } = this.settings;
    for (const [k, at] of values.entries()) {
      const { text, widened } = this.with_first(model, name, at, of);
      const { report, stopped } = await this.runs(read_model(text), text, { progress: done => this.progress(k * runs + done, values.length * runs) });
      if (stopped) break;
      sweep.widened = widened;
      sweep.points.push({ at, report });
      grown(sweep);
    }
    return sweep;
  }

  /** The least value that meets a target, by halving: it is right where a greater value never does worse. */
  async search({ model }: Snapshot, name: string, from: number, to: number, target: Target, grown: (search: Search) => void): Promise<Search> {
    const search: Search = { variable: name, target, tried: [], found: null, widened: false }, { runs } = this.settings, steps = Math.ceil(Math.log2(to - from + 1)) + 1;
    const meets = async (at: number): Promise<boolean> => {
      const { text, widened } = this.with_first(model, name, at, [from, to]);
      const { report, stopped } = await this.runs(read_model(text), text, { progress: done => this.progress(search.tried.length * runs + done, steps * runs) });
      if (stopped) { this.stopped = true; return false; }
      const met = met_by(report, target);
      search.widened = widened;
      search.tried.push({ at, report, met });
      grown(search);
      return met === "yes";
    };
    let low = from, high = to;
    if (!(await meets(to)) || this.stopped) return search;
    search.found = to;
    while (low < high && !this.stopped) {
      const middle = Math.floor((low + high) / 2);
      if (await meets(middle)) { high = middle; search.found = middle; } else low = middle + 1;
    }
    return search;
  }
  private stopped = false;

  /** The mean of an item over runs, step by step: from the areas at the ends of the steps, on the same seeds. */
  async warm_up({ model }: Snapshot, item: string, steps: number): Promise<Course> {
    const runs = Math.min(this.settings.runs, 200), { until } = this.settings, ticks = Array.from({ length: steps }, (_, k) => Math.round(((k + 1) * until) / steps)), means: number[] = [];
    let before: number[] | null = null, then = 0;
    for (const [k, tick] of ticks.entries()) {
      const { report, stopped } = await this.runs(model, model.text, { until: tick, runs, warmup: 0, progress: done => this.progress(k * runs + done, steps * runs) });
      if (stopped) break;
      const areas = values_of(report, item, "area");
      if (!areas) throw new Error(`${item} isn't watched, or is an event.`);
      if (tick > then) means.push(areas.reduce((sum, area, run) => sum + (area - (before?.[run] ?? 0)), 0) / areas.length / (tick - then));
      before = areas;
      then = tick;
    }
    return { item, ticks: ticks.slice(0, means.length), means, runs };
  }
}

/** The mean of a column over the runs: all columns but the average are whole numbers. */
export const estimate = (values: readonly number[], column: Column): Summary => summary(values, { whole: column !== "average" });

const holds = (value: number, { relation, limit }: Target): boolean => (relation === "most" ? value <= limit : value >= limit);

/** Whether a target is met, by the 95 % interval: not known where the interval holds the limit. */
export function met_by(report: Report, target: Target): Met {
  const values = values_of(report, target.item, target.column);
  if (!values?.length) return "unknown";
  if (target.of === "runs") {
    const { from, to } = share(values.filter(value => holds(value, target)).length, values.length), wanted = target.share / 100;
    return from >= wanted ? "yes" : to < wanted ? "no" : "unknown";
  }
  const made = estimate(values, target.column), [from, to] = made.error > 0 ? [made.from, made.to] : [made.mean, made.mean];
  return holds(from, target) && holds(to, target) ? "yes" : !holds(from, target) && !holds(to, target) ? "no" : "unknown";
}
