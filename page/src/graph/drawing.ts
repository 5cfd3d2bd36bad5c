// The elements of events, arrows and labels. They are made here and put in place here; what they look like is in the style.
import { s } from "../ui/dom";
import { Box, Point } from "./layout";
import { head, HEAD_LENGTH } from "./routes";
import { edge_in_words, HEAD, LABEL, LabelShape, label_tops, LINE, NodeShape } from "./shapes";
import { Line, Node } from "./scene";

export type Part = `event:${string}` | `edge:${string}`;
export const part_of_event = (name: string): Part => `event:${name}`;
export const part_of_edge = ({ edge }: LabelShape): Part => `edge:${edge.from}:${edge.place}`;

export const EYE = "M1.5 8S4 3.8 8 3.8 14.5 8 14.5 8 12 12.2 8 12.2 1.5 8 1.5 8zM8 9.8a1.8 1.8 0 1 0 0-3.6 1.8 1.8 0 0 0 0 3.6z";
export const START = "M-2.5 -4v8l6.5-4z";
const DASH = 6, HOLE = 4;
const at = ({ x, y }: Point): string => `translate(${Math.round(x * 10) / 10} ${Math.round(y * 10) / 10})`;

function event_in_words({ name, first, watched, lines }: NodeShape): string {
  return `Event ${name}${first ? ", the first" : ""}${watched ? ", watched" : ""}${lines.length ? `: ${lines.join("; ")}` : ""}`;
}

/** An event as it is seen from afar: its box and its name. */
export function far_node_element({ shape, box }: Node): SVGElement {
  const { width, height, name } = shape;
  return s("g", { class: `node${shape.first ? " first" : ""}`, tabindex: "-1", role: "button", "aria-pressed": "false", "aria-label": event_in_words(shape), "data-part": part_of_event(name), transform: at(box) },
    s("rect", { class: "body", x: -width / 2, y: -height / 2, width, height, rx: 10 }), s("text", { class: "far", x: 0, y: far_size(shape) * 0.36, "font-size": far_size(shape) }, name));
}
export const far_size = ({ name, width, height }: NodeShape): number => Math.round(Math.min(24, height * 0.62, (width - 12) / Math.max(3, name.length * 0.66)) * 10) / 10;

export function node_element({ shape, box }: Node, still: boolean): SVGElement {
  const { width, height, name } = shape, x = -width / 2, y = -height / 2, has_lines = shape.lines.length > 0, tall = has_lines ? HEAD : height, middle = y + tall / 2;
  // From afar the name alone is shown, as large as its box allows.
  const far = far_size(shape);
  return s("g", { class: `node${shape.first ? " first" : ""}${shape.watched ? " watched" : ""}`, tabindex: "-1", role: "button", "aria-pressed": "false", "aria-label": event_in_words(shape), "data-part": part_of_event(name), transform: at(box) },
    s("title", {}, shape.changes ? `${name}\n${shape.changes}` : name),
    s("rect", { class: "halo", x: x - 4, y: y - 4, width: width + 8, height: height + 8, rx: 13 }),
    s("rect", { class: "body", x, y, width, height, rx: 10 }),
    has_lines ? s("path", { class: "rule", d: `M${x + 1} ${y + tall}H${x + width - 1}` }) : null,
    s("text", { class: "name", x: 0, y: middle + 4.5, "data-field": "name" }, name, shape.title ? s("tspan", { class: "params" }, ` ${shape.title}`) : null),
    has_lines ? s("g", { class: "lines", "data-field": "changes" }, ...shape.lines.map((line, i) => s("text", { x: x + 14, y: y + tall + 17 + i * LINE }, line))) : null,
    s("text", { class: "far", x: 0, y: far * 0.36, "font-size": far }, name),
    shape.watched ? s("g", { class: "eye", transform: `translate(${x + 10} ${middle - 6}) scale(.8)` }, s("path", { d: EYE })) : null,
    shape.first ? s("g", { class: "start", transform: `translate(${x} ${y})` }, s("circle", { r: 9 }), s("path", { d: START }), s("title", {}, "A run begins here")) : null,
    s("g", { class: "badge", transform: `translate(${x + width - 19} ${middle})` }, s("rect", { x: -12, y: -9, width: 24, height: 18, rx: 9 }), s("text", { y: 4 }), s("title", {}, "How many of these are pending")),
    still ? null : s("g", { class: "handle", transform: `translate(0 ${y + height})` }, s("circle", { class: "reach", r: 16 }), s("circle", { r: 8 }), s("path", { d: "M-3.5 0H3.5M0 -3.5V3.5" }), s("title", {}, "Drag to another event: it schedules it")));
}
export const place_node = (element: SVGElement, box: Box): void => element.setAttribute("transform", at(box));

export function line_element(line: Line): SVGElement {
  const { bundle } = line, [first] = bundle.labels, words = bundle.labels.map(label => edge_in_words(label.edge));
  const element = s("g", { class: `edge ${bundle.drawn}${line.across ? " across" : ""}`, tabindex: "-1", role: "button", "aria-pressed": "false", "aria-label": words[0], "data-part": part_of_edge(first) },
    s("title", {}, words.join("\n")), s("path", { class: "hit" }), s("path", { class: "line" }), s("path", { class: "head" }));
  place_line(element, line);
  return element;
}

export function place_line(element: SVGElement, { route, bundle }: Line): void {
  const [, hit, line, arrow] = [...element.children];
  hit.setAttribute("d", route.path);
  line.setAttribute("d", route.path);
  if (bundle.drawn === "cancel") {
    // Dashes begin and end a line, so that the arrowhead isn't loose.
    const length = Math.max(DASH, route.length - HEAD_LENGTH), dashes = Math.max(1, Math.round((length - DASH) / (DASH + HOLE)));
    line.setAttribute("pathLength", String(dashes * (DASH + HOLE) + DASH));
  }
  arrow.setAttribute("d", head(route.tip, route.toward, bundle.drawn === "urgent"));
}

/** Where the words of a label begin or end: they stand on the side of the line that the label is on. */
export function label_place({ bundle, route }: Line, label: Box): { anchor: "start" | "middle" | "end"; x: number; tops: number[] } {
  const nearest = route.samples.reduce((best, point) => (Math.hypot(point.x - label.x, point.y - label.y) < Math.hypot(best.x - label.x, best.y - label.y) ? point : best));
  const beside = label.x - nearest.x, anchor = Math.abs(beside) < label.width / 2 ? "middle" : beside > 0 ? "start" : "end";
  return { anchor, x: anchor === "middle" ? 0 : anchor === "start" ? -label.width / 2 + 3 : label.width / 2 - 3, tops: label_tops(bundle).map(top => top - label.height / 2) };
}

/** The labels of an arrow, one for each edge that has anything to say. */
export function label_elements(line: Line): SVGElement[] {
  const { bundle, label } = line;
  if (!label) return [];
  const { anchor, x, tops } = label_place(line, label);
  return bundle.labels.flatMap((own, i) => {
    if (!own.lines.length) return [];
    const top = tops[i], words = edge_in_words(own.edge), part = part_of_edge(own);
    const named = i ? { tabindex: "-1", role: "button", "aria-pressed": "false", "aria-label": words, "data-part": part } : { "data-of": part, "aria-hidden": "true" };
    return [s("g", { class: `label ${bundle.drawn}${line.across ? " across" : ""}`, transform: at(label), ...named }, s("title", {}, words),
      s("rect", { class: "back", x: -label.width / 2 - 3, y: top - 2, width: label.width + 6, height: own.height + 4, rx: 6 }),
      ...own.lines.map((each, k) => s("text", { class: each.kind, x, y: top + LABEL * (k + 0.76), "text-anchor": anchor, "data-field": each.kind === "kind" ? undefined : each.kind },
        each.lead ? s("tspan", { class: "lead" }, each.lead) : null, each.text, each.more ? s("tspan", { class: "more" }, each.more) : null)))];
  });
}
