// The left side of the experiments: cards of designs, and what a sweep, a search and a warm-up are asked for.
import { App } from "../app";
import { Column } from "../engine/report";
import { Design } from "../store/store";
import { Variable } from "../text/model";
import { h } from "../ui/dom";
import { icon } from "../ui/icons";
import { note } from "../ui/menu";
import { Target } from "./asking";
import { COLUMNS } from "./results";

export interface Asked { variable: string; from: string; to: string; step: string; item: string; column: Column; of: Target["of"]; relation: Target["relation"]; limit: string; share: string; window: string }
export const FIRST_ASKED: Asked = { variable: "", from: "1", to: "5", step: "1", item: "", column: "average", of: "mean", relation: "most", limit: "", share: "95", window: "3" };
type Set = (part: Partial<Asked>) => void;

/** Lines that only one of two texts has, comments and layout aside. */
export function different_lines(before: string, after: string): string[] {
  const lines = (text: string) => text.replace(/#[^\n]*/g, "").split("\n").map(line => line.trim()).filter(Boolean), a = lines(before), b = lines(after);
  const left = [...b], gone = a.filter(line => { const k = left.indexOf(line); if (k >= 0) left.splice(k, 1); return k < 0; });
  return [...gone.map(line => "-" + line), ...left.map(line => "+" + line)];
}

async function add_design(app: App): Promise<void> {
  const problem = await app.store.commit_forms();
  if (problem) { note(problem, "bad"); return; }
  app.store.add_design();
  note("A copy of the model. What you change now, by the form, graph or text, is changed in this design.", "good");
}

export function design_cards(app: App): HTMLElement[] {
  const { store } = app, { designs } = store, [base] = designs;
  const change = (id: number, part: Partial<Design>) => store.set({ designs: store.doc.designs.map(each => (each.id === id ? { ...each, ...part } : each)) });
  const rename = (field: HTMLInputElement, { id, name }: Design) => { field.value = field.value.trim() || name; change(id, { name: field.value }); };
  const cards = designs.map((design, k) => {
    const is_active = design.id === store.doc.active, lines = k ? different_lines(base.text, design.text) : [];
    const what = k ? (lines.length ? h("ul", {}, ...lines.slice(0, 4).map(line => h("li", { className: line[0] === "+" ? "plus" : "minus" }, line.slice(1)))) : h("p", { className: "hint" }, "The same as the base so far. Change the model: it is changed here."))
      : h("p", { className: "hint" }, designs.length > 1 ? "The others are compared with this one." : "The model as it is.");
    return h("article", { className: `card design${is_active ? " active" : ""}`, "data-key": `design-${design.id}` },
      h("i", { className: `swatch series-${(k % 6) + 1}` }),
      h("div", { className: "card-head" },
        h("input", { type: "text", className: "plain-name", value: design.name, "aria-label": "Name of the design", spellcheck: "false", onchange: (event: Event) => rename(event.target as HTMLInputElement, design) }),
        is_active ? h("span", { className: "pill" }, "editing") : h("button", { className: "small", onclick: () => store.activate(design.id) }, "Edit"),
        designs.length > 1 ? h("button", { className: "icon-button quiet", title: "Remove this design", "aria-label": `Remove ${design.name}`, onclick: () => store.remove_design(design.id) }, icon("close", 12)) : null),
      h("div", { className: k ? "diff" : "" }, what, lines.length > 4 ? h("small", {}, `… ${lines.length - 4} more`) : null),
      designs.length > 1 ? h("label", { className: "check" }, h("input", { type: "checkbox", checked: design.taken, onchange: (event: Event) => change(design.id, { taken: (event.target as HTMLInputElement).checked }) }), "Include") : null);
  });
  return [...cards, h("button", { className: "card add", "data-key": "add", disabled: store.verdict.state !== "accepted", onclick: () => void add_design(app) }, icon("plus"), h("b", {}, "Add design"), h("small", {}, "A copy of the model, to change and compare on the same seeds"))];
}

const box = (asked: Asked, set: Set, field: keyof Asked, title: string, mode = "numeric"): HTMLElement =>
  h("label", { className: "field", "data-key": field }, h("span", { className: "field-name" }, title), h("input", { type: "text", inputmode: mode, value: asked[field], "data-asked": field, oninput: (event: Event) => set({ [field]: (event.target as HTMLInputElement).value }) }));
const choice = (asked: Asked, set: Set, field: keyof Asked, title: string, choices: readonly (readonly [string, string])[]): HTMLElement =>
  h("label", { className: "field", "data-key": field }, h("span", { className: "field-name" }, title), h("select", { value: asked[field], "data-asked": field, onchange: (event: Event) => set({ [field]: (event.target as HTMLSelectElement).value }) }, ...choices.map(([value, name]) => h("option", { value, selected: value === asked[field] }, name))));
const of_design = (app: App): string => { const { designs, doc } = app.store; return designs.length > 1 ? ` It is done with the design “${designs.find(each => each.id === doc.active)!.name}”, which is edited.` : ""; };

export function sweep_form(app: App, numbers: readonly Variable[], asked: Asked, set: Set): HTMLElement[] {
  return [h("article", { className: "card sweep-form", "data-key": "sweep" }, h("h3", {}, "Sweep a first value"),
    choice(asked, set, "variable", "of", numbers.map(each => [each.name, each.name] as const)), h("div", { className: "three" }, box(asked, set, "from", "from"), box(asked, set, "to", "to"), box(asked, set, "step", "step")),
    h("p", { className: "hint" }, `Each value is run with the same seeds. The model isn't changed; where the range is too small, it is widened for the sweep.${of_design(app)}`))];
}

export function search_form(app: App, numbers: readonly Variable[], items: readonly string[], asked: Asked, set: Set): HTMLElement[] {
  return [h("article", { className: "card sweep-form", "data-key": "search" }, h("h3", {}, "The least value that meets a target"),
    choice(asked, set, "variable", "first value of", numbers.map(each => [each.name, each.name] as const)), h("div", { className: "three" }, box(asked, set, "from", "from"), box(asked, set, "to", "to")),
    h("h3", {}, "Target"), choice(asked, set, "of", "", [["mean", "the mean over the runs"], ["runs", "in so many of 100 runs"]]), asked.of === "runs" ? box(asked, set, "share", "runs of 100") : null,
    choice(asked, set, "item", "of", items.map(each => [each, each] as const)), choice(asked, set, "column", "its", COLUMNS.map(([value, name]) => [value, name] as const)),
    h("div", { className: "three" }, choice(asked, set, "relation", "is", [["most", "at most"], ["least", "at least"]]), box(asked, set, "limit", "limit", "decimal")),
    h("p", { className: "hint" }, `The whole 95 % interval must meet it.${of_design(app)}`))];
}

export function warm_up_form(app: App, items: readonly string[], asked: Asked, set: Set): HTMLElement[] {
  return [h("article", { className: "card sweep-form", "data-key": "warm" }, h("h3", {}, "How long is the warm-up?"),
    choice(asked, set, "item", "The mean of", items.map(each => [each, each] as const)), box(asked, set, "window", "smoothed over steps to either side"),
    h("p", { className: "hint" }, `A model that begins empty isn't yet what it is in the long run.${of_design(app)}`))];
}
