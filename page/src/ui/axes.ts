// What all charts share: colours of series, axes of whole numbers, drawing again when the room changes.
import { axisBottom, axisLeft } from "d3-axis";
import { Scale } from "d3-scale";
import { select } from "d3-selection";
import { s, text_width } from "./dom";

export const colour = (k: number): string => `var(--series-${(k % 6) + 1})`;
export const FONT = "12px Inter, system-ui, sans-serif", STRONG = "600 12px Inter, system-ui, sans-serif";

export const whole_ticks = (scale: Scale, wanted: number): number[] => scale.ticks(wanted).filter(Number.isInteger);

/** Redraws when its element gets another size. */
export function sized(element: HTMLElement, draw: (width: number, height: number) => void): () => void {
  const again = (): void => { if (element.clientWidth > 20 && element.clientHeight > 20) draw(element.clientWidth, element.clientHeight); };
  new ResizeObserver(() => requestAnimationFrame(again)).observe(element);
  return again;
}

/** An axis below, with its title at its right end. */
export function across(x: Scale, place: { y: number; title: string; ticks?: number[]; number?: number; grid?: number }, format: (value: number) => string): SVGElement {
  const group = s("g", { class: `axis${place.grid ? " grid" : " time"}`, transform: `translate(0 ${place.y})` }), [left, right] = x.range();
  const axis = axisBottom(x).tickFormat(format).tickSizeOuter(0);
  if (place.ticks) axis.tickValues(place.ticks);
  else axis.ticks(place.number ?? Math.max(2, Math.floor((right - left) / 80)));
  if (place.grid) axis.tickSize(-place.grid).tickPadding(7);
  select(group).call(axis as never);
  group.append(s("text", { class: "axis-title", x: (left + right) / 2, y: 36, "text-anchor": "middle" }, place.title));
  return group;
}

/** An axis at the left, its title above it. */
export function upright(y: Scale, place: { x: number; width: number; title: string; ticks?: number[]; number?: number }, format: (value: number) => string): SVGElement {
  const group = s("g", { class: "axis grid", transform: `translate(${place.x} 0)` }), [low] = y.range();
  const axis = axisLeft(y).tickFormat(format).tickSize(-place.width).tickPadding(6);
  if (place.ticks) axis.tickValues(place.ticks);
  else axis.ticks(place.number ?? Math.max(2, Math.floor(low / 50)));
  select(group).call(axis as never);
  if (place.title) group.append(s("text", { class: "axis-title", x: -place.x + 2, y: 10, "text-anchor": "start" }, place.title));
  return group;
}

/** The widest of some words, and no more than so much. */
export const widest = (words: readonly string[], font: string, most: number): number => Math.min(most, Math.max(0, ...words.map(word => text_width(word, font))));
