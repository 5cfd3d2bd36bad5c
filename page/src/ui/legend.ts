// What the signs of the graph mean, each drawn as the graph draws it. It stands in Help, and on the paper behind a button.
import { h, s } from "./dom";
import { icon } from "./icons";

const box = (more: string, ...inside: SVGElement[]): SVGElement =>
  s("svg", { viewBox: "0 0 40 22", "aria-hidden": "true" }, s("g", { class: `node ${more}` }, s("rect", { class: "body", x: 3, y: 2, width: 34, height: 18, rx: 6 }), ...inside));
const arrow = (kind: string, head: string): SVGElement =>
  s("svg", { viewBox: "0 0 40 22", "aria-hidden": "true" }, s("g", { class: `edge ${kind}` }, s("path", { class: "line", d: "M1 11H30" }), s("path", { class: "head", d: head })));
const ONE = "M38 11L29 7.5V14.5Z", TWO = `${ONE}M32 11L23 7.5V14.5Z`;
const EYE = "M13.5 11S16 6.8 20 6.8 26.5 11 26.5 11 24 15.2 20 15.2 13.5 11 13.5 11zM20 12.8a1.8 1.8 0 1 0 0-3.6 1.8 1.8 0 0 0 0 3.6z";

function signs(): (readonly [SVGElement, string])[] {
  return [
    [box("", s("g", { class: "start" }, s("circle", { cx: 6, cy: 5, r: 6 }), s("path", { d: "M4 2.5v5l4-2.5z" }))), "The first event: a run begins here, at time 0."],
    [box("", s("g", { class: "eye" }, s("path", { d: EYE }))), "Watched: the run shows when it occurs."],
    [arrow("plain", ONE), "Schedules: the event occurs after a delay. Without one it occurs in the same tick."],
    [arrow("urgent", TWO), "Urgent: the event follows at once, before anything else that is due."],
    [arrow("cancel", ONE), "Cancels: what was scheduled is taken back, the next one or all."],
    [box("pending", s("g", { class: "badge" }, s("rect", { x: 12, y: 4, width: 16, height: 14, rx: 7 }), s("text", { x: 20, y: 15 }, "2"))), "Pending: so many of this event are scheduled and haven't occurred yet."],
    [box("lit"), "The event that occurs now, in a run that is stepped through."],
    [arrow("taken", ONE), "An edge that this event takes now: its condition holds."],
    [box("fault"), "A run ended here with a fault."],
  ];
}

export function legend(): HTMLElement {
  return h("ul", { className: "legend" }, ...signs().map(([sign, means]) => h("li", {}, sign as unknown as Node, h("span", {}, means))),
    h("li", { className: "of-word" }, h("code", {}, "1..6, drawn"), h("span", {}, "A number from 1 to 6, each as likely.")),
    h("li", { className: "of-word" }, h("code", {}, "priority 1"), h("span", {}, "Of events that are due in one tick, the one with the least number comes first. Without one it is 5.")));
}

/** The legend on the paper, behind a button at the lower left. */
export function paper_key(): HTMLElement {
  const sheet = h("div", { className: "key-sheet", id: "legend", hidden: true }, h("h3", {}, "What is what"), legend());
  const button = h("button", { "aria-expanded": "false", "aria-controls": "legend", title: "What the signs mean", onclick: () => show(sheet.hidden) }, icon("help", 14), h("span", {}, "Legend"));
  const show = (on: boolean): void => { sheet.hidden = !on; button.setAttribute("aria-expanded", String(on)); };
  const key = h("div", { className: "key" }, sheet, button);
  key.onkeydown = event => { if (event.key === "Escape" && !sheet.hidden) { show(false); button.focus(); event.stopPropagation(); } };
  return key;
}
