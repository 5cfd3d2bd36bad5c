// The form of a condition at which a run is stopped: an event, or a value beside a number.
import { Comparison, COMPARISONS, Stop } from "../engine/stopping";
import { Model } from "../text/model";
import { watching_all } from "../text/variants";
import { h, morph } from "../ui/dom";
import { fold } from "../ui/settings_fields";
import { compared_number, stop_in_words } from "./stops";

/** With more cells of arrays than these, the list has the first ones. */
const MOST_CELLS = 2000;

export class StopForm {
  private what = "";
  private how: Comparison = ">=";
  private than = "";
  private problem = "";
  /** Whether Play pauses where the condition begins to hold. */
  pauses = false;
  private told = "";

  readonly element = h("details", { className: "settings-fold stop-fold", "data-key": "stop" });
  private model: Model | null = null;
  private may_find = false;
  private lists: (readonly [string, string])[][] = [[], []];

  /** `find` looks for the first time, or for the next one. */
  constructor(private readonly find: (next: boolean) => void) { this.draw(); }

  /** The condition; null where it isn't whole. */
  get stop(): Stop | null {
    const [kind, name] = this.what.split(":"), than = compared_number(this.than);
    return kind === "event" ? { event: name } : kind === "cell" && than !== null ? { cell: name, how: this.how, than } : null;
  }
  /** The condition, or null with what is missing said at its field. */
  read(): Stop | null {
    const { stop } = this;
    this.problem = stop ? "" : this.what ? "Write a whole number, true or false." : "Choose an event or a variable.";
    this.tell("");
    return stop;
  }
  /** Says what was found. */
  tell(words: string): void { this.told = words; this.draw(); }

  /** Shows what this model has. */
  show(model: Model | null, may_find: boolean): void {
    if (model === this.model && may_find === this.may_find) return;
    if (model !== this.model) this.lists = model ? [model.vertices.map(each => [`event:${each.name}`, `${each.name} occurs`]), watching_all(model).cells.slice(0, MOST_CELLS).map(each => [`cell:${each.name}`, each.name])] : [[], []];
    Object.assign(this, { model, may_find });
    // What the model doesn't have any more can't be looked for.
    if (!this.lists.flat().some(([value]) => value === this.what)) this.what = "";
    this.draw();
  }

  private set(part: Partial<{ what: string; how: Comparison; than: string }>): void {
    Object.assign(this, part);
    this.problem = this.told = "";
    this.draw();
  }

  private draw(): void {
    const { stop, lists: [events, cells] } = this, option = ([value, shown]: readonly [string, string]) => h("option", { value, selected: value === this.what }, shown);
    const value_of = (event: Event) => (event.target as HTMLSelectElement).value, enter = (event: KeyboardEvent) => { if (event.key === "Enter" && !event.ctrlKey) { this.find(false); event.preventDefault(); } };
    const box = (...inside: (HTMLElement | null)[]) => h("label", { className: "field" }, h("span", { className: "field-box" }, ...inside));
    const drawn = fold("stop", "Run to a condition", "flag", stop ? stop_in_words(stop) : "Run to …", [
      box(h("span", { className: "field-name" }, "Until"), h("select", { value: this.what, "data-stop": "what", onchange: (event: Event) => this.set({ what: value_of(event) }) }, h("option", { value: "", selected: !this.what }, "choose …"), h("optgroup", { label: "An event" }, ...events.map(option)), h("optgroup", { label: "A value" }, ...cells.map(option)))),
      this.what.startsWith("cell:") ? h("div", { className: "stop-number", "data-key": "number" },
        box(h("select", { value: this.how, "data-stop": "how", "aria-label": "Comparison", onchange: (event: Event) => this.set({ how: value_of(event) as Comparison }) }, ...COMPARISONS.map(each => h("option", { value: each, selected: each === this.how }, each)))),
        box(h("input", { type: "text", size: "8", value: this.than, "data-stop": "than", "aria-label": "Number", placeholder: "10", spellcheck: "false", autocomplete: "off", "aria-invalid": this.problem ? "true" : undefined, oninput: (event: Event) => this.set({ than: value_of(event) }), onkeydown: enter }))) : null,
      this.problem ? h("span", { className: "problem", role: "alert", "data-key": "problem" }, this.problem) : null,
      h("div", { className: "choices", "data-key": "find" }, h("button", { className: "primary", disabled: !this.may_find, "data-stop": "first", onclick: () => this.find(false) }, "The first time"), h("button", { disabled: !this.may_find, "data-stop": "next", onclick: () => this.find(true) }, "The next time")),
      h("label", { className: "switch", "data-key": "pauses" }, h("input", { type: "checkbox", role: "switch", checked: this.pauses, "data-stop": "pauses", onchange: (event: Event) => { this.pauses = (event.target as HTMLInputElement).checked; } }), h("span", { className: "track" }), h("span", {}, "Play pauses there too")),
      h("p", { className: "hint", role: "status", "data-key": "told" }, this.told || "Shows the step with which it begins to hold."),
    ]);
    morph(this.element, [...drawn.childNodes]);
  }
}
