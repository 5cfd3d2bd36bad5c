// The courses of a run, one below the other, with one time for all. Drag to come nearer, double-click to see all, click to go there;
// by keys: arrows, + and −, Home and End.
import { axisBottom, axisLeft } from "d3-axis";
import { brushX } from "d3-brush";
import { scaleLinear, Scale } from "d3-scale";
import { event as d3_event, select } from "d3-selection";
import { area, curveStepAfter, line } from "d3-shape";
import type { Cell, Course } from "../engine/course";
import { colour, sized, whole_ticks } from "./axes";
import { h, s } from "./dom";
import { count, short } from "./format";

interface Row { name: string; note: string; says: string; is_event: boolean; draw(group: SVGElement, x: Scale, height: number): void; value(time: number): string }
interface Point { t: number; least: number; greatest: number; last: number }

/** A course that changes more often than a line can show: it is drawn as a band with a moving mean. */
export const is_dense = (changes: number, pixels: number): boolean => changes > pixels / 5;
/** The mean of the values around each column, over so many columns. */
export function moving_mean(values: readonly number[], first: number, last: number, span: number): number[] {
  const half = Math.max(1, Math.floor(span / 2)), means: number[] = [];
  let from = first, to = first - 1, sum = 0;
  for (let k = first; k <= last; k++) {
    while (to < Math.min(last, k + half)) { to++; sum += values[to]; }
    while (from < k - half) { sum -= values[from]; from++; }
    means.push(sum / (to - from + 1));
  }
  return means;
}

const LABEL = 132, SLIM = 120, LEFT = 42, TIME = 40, LEAST = 64, MOST = 220, EVENT = 32, GAP = 8;

export class CourseCharts {
  readonly element = h("div", { className: "courses", "data-own": "", tabIndex: 0, role: "group", "aria-label": "Courses over time. Arrow keys move in time, plus and minus zoom, Home and End go to the ends." });
  private course: Course | null = null;
  private fault: number | null = null;
  private domain: [number, number] = [0, 1];
  private time = 0;
  private moment: ReadonlyMap<string, string> | null = null;
  private cursors: SVGElement[] = [];
  private scale: Scale | null = null;
  private values: { element: HTMLElement; row: Row }[] = [];
  private readonly redraw: () => void;

  constructor(private readonly go: (time: number) => void) {
    this.redraw = sized(this.element, (width, height) => this.draw(width, height));
    this.element.onkeydown = event => { if (this.pressed(event)) event.preventDefault(); };
  }

  /** How times are written, and what items are called: `time` is of a tick, `title` of an item or empty. */
  said: { time(tick: number): string; title(name: string): string; unit(name: string): string; axis: string } = { time: count, title: () => "", unit: () => "", axis: "time in ticks" };

  /** Writes times and titles anew. */
  say(said: CourseCharts["said"]): void { this.said = said; this.redraw(); }

  /** Shows a run; `fault` is when it ended with one. */
  show(course: Course | null, fault: number | null = null): void {
    this.course = course;
    this.fault = fault;
    if (!course) this.moment = null;
    this.domain = [0, Math.max(1, course?.end ?? 1)];
    this.redraw();
    if (!course) this.element.replaceChildren();
  }

  /** Moves the cursor. The numbers are those of the moment where they are given: in one tick a value may change several times. */
  show_time(time: number, moment: ReadonlyMap<string, string> | null = null): void {
    this.time = time;
    this.moment = moment;
    if (!this.scale) return;
    const x = this.scale(time);
    for (const cursor of this.cursors) {
      cursor.setAttribute("x1", String(x));
      cursor.setAttribute("x2", String(x));
      cursor.classList.toggle("none", time < this.domain[0] || time > this.domain[1]);
    }
    for (const { element, row } of this.values) element.textContent = row.value(time);
  }
  get is_zoomed(): boolean { return this.course !== null && (this.domain[0] > 0 || this.domain[1] < this.course.end); }
  zoom_out(): void { this.zoom(0, Math.max(1, this.course?.end ?? 1)); }
  private zoom(from: number, to: number): void {
    const end = Math.max(1, this.course?.end ?? 1);
    this.domain = [Math.max(0, from), Math.min(end, Math.max(from + 2, to))];
    this.redraw();
  }

  private pressed({ key }: KeyboardEvent): boolean {
    if (!this.course) return false;
    const [from, to] = this.domain, wide = to - from, step = Math.max(1, Math.round(wide / 100));
    const time = { ArrowLeft: this.time - step, ArrowRight: this.time + step, PageUp: this.time - wide / 5, PageDown: this.time + wide / 5, Home: 0, End: this.course.end }[key];
    if (time !== undefined) {
      const to_time = Math.max(0, Math.min(this.course.end, Math.round(time)));
      if (to_time < from || to_time > to) this.zoom(to_time - wide / 2, to_time + wide / 2);
      this.go(to_time);
    } else if (key === "+" || key === "=") this.zoom(this.time - wide / 4, this.time + wide / 4);
    else if (key === "-") this.zoom(from - wide / 2, to + wide / 2);
    else return false;
    return true;
  }

  private row_of(course: Course, cell: Cell, k: number): Row {
    const at = (time: number): number => Math.max(0, Math.min(course.used - 1, Math.floor(time / course.width)));
    const peak = cell.greatest.findIndex(value => value === cell.max) * course.width, note = `mean ${short(course.end ? cell.area / course.end : cell.final)}   max ${short(cell.max)}`;
    return {
      name: cell.name, note, is_event: false, says: `${this.said.title(cell.name) || cell.name} over time: ${note.replace("   ", ", ")}, first at ${this.said.time(peak)}`,
      value: time => { const now = this.moment?.get(cell.name); return now === undefined ? short(cell.last[at(time)]) : now === "true" ? "1" : now === "false" ? "0" : short(Number(now)); },
      draw: (group, x, height) => {
        const least = Math.min(0, cell.min), most = Math.max(cell.max, least + 1), y = scaleLinear().domain([least, most]).range([height - 3, 6]), [from, to] = x.domain(), first = at(from), last = at(to), pixels = x.range()[1] - x.range()[0];
        const axis = s("g", { class: "axis" }), ticks = [...new Set([least, ...whole_ticks(y, Math.max(2, height / 30)), most])];
        select(axis).call(axisLeft(y).tickValues(ticks.filter((v, i) => v === most || i === 0 || (Math.abs(y(v) - y(most)) > 12 && Math.abs(y(v) - y(least)) > 9))).tickFormat(short).tickSize(-pixels).tickPadding(6) as never);
        group.append(axis);
        let changes = 0;
        for (let i = first + 1; i <= last; i++) if (cell.last[i] !== cell.last[i - 1] || cell.least[i] !== cell.greatest[i]) changes++;
        const dense = is_dense(changes, pixels), points = points_of(cell, course, first, last, dense ? Math.max(1, Math.ceil((last - first + 1) / (pixels / 3))) : Math.max(1, Math.floor((last - first + 1) / (pixels * 1.2))));
        const stroke = colour(k), path = (kind: string, d: string, more: Record<string, string>): void => { group.append(s("path", { class: kind, d, ...more })); };
        const band = area<Point>().x(p => x(p.t)).y0(p => y(p.least)).y1(p => y(p.greatest)).curve(curveStepAfter);
        if (dense) {
          const means = moving_mean(cell.last, first, last, (last - first + 1) / 40), shown = means.map((mean, i) => ({ t: (first + i + 0.5) * course.width, mean })).filter((_, i) => i % Math.max(1, Math.floor(means.length / pixels)) === 0);
          path("band", band(points), { fill: stroke });
          path("course", line<{ t: number; mean: number }>().x(p => x(p.t)).y(p => y(p.mean))(shown), { stroke });
          group.append(s("title", {}, "The band is from the least to the greatest value, the line the moving mean. Drag to come nearer."));
          return;
        }
        path("under", area<Point>().x(p => x(p.t)).y0(() => y(Math.max(0, least))).y1(p => y(p.last)).curve(curveStepAfter)(points), { fill: stroke });
        if (course.width > 1) path("band", band(points), { fill: stroke });
        path("course", line<Point>().x(p => x(p.t)).y(p => y(p.last)).curve(curveStepAfter)(points), { stroke });
      },
    };
  }

  private rows(course: Course): Row[] {
    const events = course.events.map((event, k): Row => ({
      name: event.name, note: `${count(event.count)} ×`, says: `${event.name}: occurs ${count(event.count)} times`, is_event: true, value: () => "",
      draw: (group, x, height) => {
        const [from, to] = x.domain(), shown = event.columns.map((number, i) => ({ number, i })).filter(({ number, i }) => number && (i + 1) * course.width >= from && i * course.width <= to), step = Math.max(1, Math.floor(shown.length / 1500));
        for (let i = 0; i < shown.length; i += step) { const left = x(shown[i].i * course.width); group.append(s("line", { class: "tick", x1: left, x2: left, y1: height * 0.2, y2: height * 0.8, stroke: colour(course.cells.length + k) })); }
      },
    }));
    return [...course.cells.map((cell, k) => this.row_of(course, cell, k)), ...events];
  }

  private draw(width: number, height: number): void {
    const { course } = this;
    if (!course) return;
    const rows = this.rows(course), label = width < 400 ? 0 : LABEL, heads = label ? 0 : 24, few = course.cells.length, chart = Math.max(SLIM, width - label - (label ? 4 : 0));
    const each = Math.max(LEAST, Math.min(MOST, (height - TIME - course.events.length * (EVENT + heads) - few * heads) / Math.max(1, few) - GAP));
    const x = scaleLinear().domain(this.domain).range([LEFT, chart - 12]);
    this.element.classList.toggle("narrow", !label);
    this.scale = x;
    this.cursors = [];
    this.values = [];
    const drawn = rows.map((row, k) => {
      const tall = row.is_event ? EVENT - GAP : each, svg = s("svg", { class: "plot", width: chart, height: tall, role: "img", "aria-label": row.says }), clip = `clip-${k}`, inside = s("g", {});
      svg.append(s("defs", {}, s("clipPath", { id: clip }, s("rect", { x: LEFT, y: 0, width: chart - LEFT - 10, height: tall }))));
      row.draw(inside, x, tall);
      const axis = inside.querySelector(".axis");
      if (axis) { axis.setAttribute("transform", `translate(${LEFT} 0)`); svg.append(axis); }
      inside.setAttribute("clip-path", `url(#${clip})`);
      const cursor = s("line", { class: "cursor", y1: 0, y2: tall });
      svg.append(inside, this.fault === null ? "" : s("line", { class: "fault-time", x1: x(this.fault), x2: x(this.fault), y1: 0, y2: tall }), cursor);
      this.cursors.push(cursor);
      this.brush(svg, x, chart - 12, tall);
      const value = h("b", { className: "now" });
      this.values.push({ element: value, row });
      return h("div", { className: `course-row${row.is_event ? " of-event" : ""}` }, h("div", { className: "course-name", title: this.said.title(row.name) || row.name }, h("span", {}, this.said.title(row.name) || row.name), h("span", { className: "course-value" }, value, this.said.unit(row.name) ? h("small", {}, ` ${this.said.unit(row.name)}`) : null), h("small", {}, row.note)), svg as unknown as Node);
    });
    const axis = s("svg", { class: "plot", width: chart, height: TIME, "aria-hidden": "true" }), group = s("g", { class: "axis time", transform: "translate(0 1)" });
    select(group).call(axisBottom(x).tickValues(whole_ticks(x, Math.max(3, Math.floor(chart / 90)))).tickFormat(this.said.time).tickSizeOuter(0) as never);
    group.append(s("text", { class: "axis-title", x: (LEFT + chart - 12) / 2, y: 34, "text-anchor": "middle" }, this.said.axis));
    axis.append(group);
    const left = h("div", { className: "course-name axis-note" }, this.is_zoomed ? h("button", { className: "link", onclick: () => this.zoom_out() }, "Whole run") : "");
    this.element.replaceChildren(...drawn, h("div", { className: "course-row time-row" }, left, axis as unknown as Node));
    this.show_time(this.time, this.moment);
  }

  private brush(svg: SVGElement, x: Scale, right: number, height: number): void {
    const group = s("g", { class: "brush" });
    svg.append(group);
    const brush = brushX().extent([[LEFT, 0], [right, height]]).on("end", () => {
      const { selection, sourceEvent } = d3_event;
      if (!sourceEvent) return;
      if (!selection) {
        const box = svg.getBoundingClientRect(), mouse = sourceEvent as MouseEvent;
        if (mouse.clientX !== undefined) this.go(Math.max(0, x.invert(mouse.clientX - box.left)));
        return;
      }
      const [from, to] = selection.map(each => x.invert(each));
      if (to - from >= 2) this.zoom(from, to);
    });
    select(group).call(brush as never);
    group.addEventListener("dblclick", () => this.zoom_out());
  }
}

function points_of(cell: Cell, course: Course, first: number, last: number, step: number): Point[] {
  const points: Point[] = [];
  for (let i = first; i <= last; i += step) {
    let least = Infinity, greatest = -Infinity;
    for (let j = i; j < Math.min(i + step, last + 1); j++) { least = Math.min(least, cell.least[j]); greatest = Math.max(greatest, cell.greatest[j]); }
    points.push({ t: i * course.width, least, greatest, last: cell.last[Math.min(i + step - 1, last)] });
  }
  points.push({ ...points[points.length - 1], t: Math.min(course.end, (last + 1) * course.width) });
  return points;
}
