// How a mean settles (Welch 1983): the mean over runs step by step, and over a window of steps. A click says where the warm-up ends.
import { axisBottom, axisLeft } from "d3-axis";
import { scaleLinear } from "d3-scale";
import { select } from "d3-selection";
import { line } from "d3-shape";
import { colour, sized } from "../ui/chart";
import { h, s } from "../ui/dom";
import { count, short } from "../ui/format";
import type { Course } from "./asking";
import { moving } from "./statistics";

export function welch_chart({ item, ticks, means }: Course, warmup: number, window: number, choose: (tick: number) => void): HTMLElement {
  const place = h("div", { className: "sweep-chart", "data-new": "" }), smooth = moving(means, window);
  sized(place, (width, height) => {
    const x = scaleLinear().domain([0, ticks[ticks.length - 1]]).range([56, width - 24]), y = scaleLinear().domain([Math.min(0, ...means), Math.max(...means, 1e-9)]).nice(5).range([height - 40, 12]);
    const svg = s("svg", { width, height, class: "plot", role: "img", "aria-label": `${item} over time, smoothed: it ends at ${short(smooth[smooth.length - 1])}` });
    const across = s("g", { class: "axis", transform: `translate(0 ${height - 40})` }), up = s("g", { class: "axis grid", transform: "translate(56 0)" });
    select(across).call(axisBottom(x).ticks(Math.max(3, Math.floor(width / 90))).tickFormat(count).tickSizeOuter(0) as never);
    select(up).call(axisLeft(y).ticks(Math.max(2, Math.floor(height / 50))).tickFormat(short).tickSize(-(width - 80)).tickPadding(6) as never);
    const path = (values: readonly number[]) => line<number>().x((_, k = 0) => x(ticks[k])).y(value => y(value))([...values]);
    svg.append(up, across, s("text", { class: "axis-title", x: (56 + width - 24) / 2, y: height - 6, "text-anchor": "middle" }, "time in ticks"),
      s("path", { class: "course faint", d: path(means), stroke: "var(--dim)" }), s("path", { class: "course", d: path(smooth), stroke: colour(0) }));
    if (warmup > 0) svg.append(s("line", { class: "cursor", x1: x(warmup), x2: x(warmup), y1: 8, y2: height - 40 }));
    svg.addEventListener("click", event => { const at = x.invert((event as MouseEvent).clientX - svg.getBoundingClientRect().left); choose(Math.max(0, ticks.reduce((best, tick) => (Math.abs(tick - at) < Math.abs(best - at) ? tick : best), 0))); });
    place.replaceChildren(svg as unknown as Node);
  });
  return place;
}
