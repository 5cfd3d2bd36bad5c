// The parts of the page, put in their places; their sizes can be pulled.
import { App } from "../app";
import { at, h } from "../ui/dom";
import { icon } from "../ui/icons";
import { keep, kept } from "./kept";

/** The parts that a telephone shows one at a time. */
const PARTS = [["text", "Text", "text"], ["graph", "Graph", "graph"], ["form", "Form", "form"], ["dock", "Run", "play"]] as const;
const NARROW = 760;
/** Below this width the form is a drawer over the graph. */
const DRAWER = 1100;
const LEAST_GRAPH = 556;

export function show_part(app: App, part: string, always = true): void {
  if (!always && innerWidth > (part === "form" ? DRAWER : NARROW)) return;
  document.body.dataset.view = part;
  for (const button of at("parts").children) button.setAttribute("aria-current", String(button.id === `part-${part}`));
  if (part === "text") app.editor.refresh();
}

/** The text waits behind a rail where there is little room, until it is asked for. */
export function show_text(app: App, on: boolean, always = true): void {
  document.body.classList.toggle("no-text", !on);
  if (always) keep("text", on ? "open" : "closed");
  if (on) app.editor.refresh();
}

/** A bar between two parts that gives one of them more room. */
function split(app: App, kind: "left" | "right" | "dock"): HTMLElement {
  const names = { left: "text", right: "form", dock: "panel" }, is_flat = kind === "dock";
  const bar = h("div", { className: `split ${kind}`, role: "separator", tabIndex: 0, "aria-label": `Size of the ${names[kind]}`, "aria-orientation": is_flat ? "horizontal" : "vertical" });
  // The graph between the panes keeps some room, as the style says too. Before the page is put together, no pane has a width.
  const room = (): number => {
    const [own, middle] = [kind === "left" ? ".text-pane" : ".form-pane", ".middle"].map(each => document.querySelector<HTMLElement>(each)?.offsetWidth ?? 0);
    return middle ? Math.min(innerWidth * 0.5, own + middle - LEAST_GRAPH) : innerWidth * 0.5;
  };
  const ends = (): [number, number] => (is_flat ? [120, Math.max(120, innerHeight - 220)] : [180, Math.max(180, room())]);
  const tell = (value: number) => { const [least, most] = ends(); for (const [name, number] of [["min", least], ["max", most], ["now", value]] as const) bar.setAttribute(`aria-value${name}`, String(Math.round(number))); };
  const set = (size: number) => {
    const [least, most] = ends(), value = Math.max(least, Math.min(most, size));
    document.body.style.setProperty(`--${kind}`, `${value}px`);
    tell(value);
    keep(kind, String(value));
  };
  tell(Number.parseFloat(getComputedStyle(document.documentElement).getPropertyValue(`--${kind}`)));
  bar.onpointerdown = event => {
    bar.setPointerCapture(event.pointerId);
    bar.onpointermove = now => set(kind === "left" ? now.clientX : kind === "right" ? innerWidth - now.clientX : innerHeight - now.clientY);
    event.preventDefault();
  };
  bar.onpointerup = () => { bar.onpointermove = null; app.editor.refresh(); };
  bar.onkeydown = event => {
    const step = { ArrowLeft: -20, ArrowRight: 20, ArrowUp: -20, ArrowDown: 20 }[event.key];
    if (!step) return;
    const now = Number.parseFloat(getComputedStyle(document.body).getPropertyValue(`--${kind}`));
    set(now + (kind === "left" ? step : -step));
    event.preventDefault();
  };
  const size = Number(kept(kind));
  if (size) set(size);
  return bar;
}

export interface Pieces { head: HTMLElement; text: HTMLElement; text_foot: HTMLElement; stage: HTMLElement; tab_bar: HTMLElement; tab_body: HTMLElement; form: HTMLElement }

export function build_frame(app: App, { head, text, text_foot, stage, tab_bar, tab_body, form }: Pieces): void {
  const rail_button = h("button", { title: "Show the text", onclick: () => { show_text(app, true); app.editor.focus(); } }, icon("text"), h("span", {}, "Text"));
  const hide = h("button", { className: "icon-button", title: "Hide the text", "aria-label": "Hide the text", onclick: () => { show_text(app, false); rail_button.focus(); } }, icon("left", 14));
  const form_rail = h("nav", { className: "rail form-rail", "aria-label": "Form" }, h("button", { title: "Show the form", onclick: () => { show_part(app, "form"); form.querySelector("input")?.focus(); } }, icon("form"), h("span", {}, "Form")));
  const close = h("button", { className: "icon-button", title: "Hide the form", "aria-label": "Hide the form", onclick: () => { show_part(app, "graph"); form_rail.querySelector("button")!.focus(); } }, icon("right", 14));
  const skip = h("a", { className: "skip", href: "#graph", onclick: (event: Event) => { event.preventDefault(); show_part(app, "graph", false); app.canvas.keyboard.enter(); } }, "To the graph");
  document.querySelector(".opening")!.remove();
  document.body.append(skip, head,
    h("div", { className: "work" }, h("nav", { className: "rail", "aria-label": "Text" }, rail_button),
      h("section", { className: "text-pane", "aria-label": "Text" }, h("header", { className: "pane-head" }, h("b", {}, "Text"), hide), text, text_foot), split(app, "left"),
      h("div", { className: "middle" }, stage, split(app, "dock"), h("section", { className: "dock", "aria-label": "Results" }, tab_bar, tab_body)), split(app, "right"),
      h("section", { className: "form-pane", "aria-label": "Form" }, h("header", { className: "pane-head drawer-head" }, h("b", {}, "Form"), close), form), form_rail),
    h("nav", { id: "parts", className: "parts", "aria-label": "Parts" }, ...PARTS.map(([id, name, its]) => h("button", { id: `part-${id}`, onclick: () => show_part(app, id) }, icon(its), name))),
    h("div", { id: "notes", className: "notes", "aria-live": "polite" }),
    h("div", { id: "report", className: "report" }));
}

/** To the next of the four parts, or the one before. */
export function to_part(app: App, back: boolean): void {
  const stops: [string, string, string][] = [
    ["text", ".text-pane", ""], ["graph", ".canvas", ".canvas [data-part][tabindex='0']"], ["form", ".inspector", ".inspector input, .inspector button"], ["dock", ".dock", ".tab-bar [aria-selected=true]"],
  ];
  const now = stops.findIndex(([, where]) => document.activeElement?.closest(where)), [part, , first] = stops[(now + (back ? -1 : 1) + stops.length) % stops.length];
  show_part(app, part, false);
  if (part === "text") { show_text(app, true, false); app.editor.focus(); }
  else document.querySelector<HTMLElement>(first)?.focus();
}
