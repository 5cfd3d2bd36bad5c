// What the head and the foot of the text say of the document: its name, whether it is saved, and what the program says of it.
import { App } from "../app";
import { refusal_in_words, Refusal } from "../text/refusals";
import { h, morph } from "../ui/dom";
import { plural } from "../ui/format";
import { icon } from "../ui/icons";
import { show_text } from "./frame";

export class Status {
  readonly title = h("button", { className: "doc-title", title: "Rename the file" });
  readonly state = h("span", { className: "doc-state", role: "status" });
  readonly undo = h("button", { className: "icon-button", onclick: () => this.app.store.undo() }, icon("undo"));
  readonly redo = h("button", { className: "icon-button", onclick: () => this.app.store.redo() }, icon("redo"));
  readonly foot = h("footer", { className: "text-state", role: "status" });
  private fault = 0;

  constructor(private readonly app: App) { app.show_fault = () => { show_text(app, true, false); app.show_part("text", false); app.editor.go(this.fault); }; }

  show_head(): void {
    const { doc, verdict, changed, undo_label, redo_label } = this.app.store, { refused } = this.app.drafts;
    this.title.textContent = doc.file || "Untitled";
    const is_bad = verdict.state === "refused" || refused.length > 0;
    this.state.className = `doc-state ${is_bad ? "refused" : verdict.state}${changed ? " changed" : ""}`;
    this.state.textContent = verdict.state === "refused" ? "Refused" : refused.length ? "A change isn't written" : verdict.state === "checking" ? "Checking …" : changed ? "Edited" : doc.file ? "Saved" : "";
    document.title = `${changed ? "• " : ""}${doc.file || "Untitled"} – SIGMA`;
    for (const [button, label, name] of [[this.undo, undo_label, "Undo"], [this.redo, redo_label, "Redo"]] as const) {
      button.disabled = label === null;
      button.title = label ? `${name}: ${label[0].toLowerCase()}${label.slice(1)}` : name;
      button.setAttribute("aria-label", button.title);
    }
  }

  /** Below the text: how large the model is, or what is wrong, where, and what to do. */
  show_verdict(): void {
    const { app } = this, { verdict, doc } = app.store;
    this.foot.className = `text-state ${verdict.state}`;
    if (verdict.state === "accepted") {
      const { model } = verdict, edges = model.vertices.reduce((sum, each) => sum + each.edges.length, 0);
      const asked = tables_asked_for(doc.text, model.tables.map(each => each.name));
      morph(this.foot, [asked.length ? h("p", { className: "hint warn", "data-key": "asked" }, `A comment asks for the table${asked.length > 1 ? "s" : ""} ${asked.join(", ")}, which the lab fills in.`) : null, icon("check", 13), h("span", {}, `${model.name}: ${plural(model.vertices.length, "event")}, ${plural(edges, "edge")}, ${plural(model.vars.length, "variable")}`)]);
    } else if (verdict.state === "refused") {
      const told = refusal_in_words(doc.text, verdict.refusal);
      this.fault = told.index;
      const place = verdict.refusal.byte === null ? null : app.editor.mark_fault(told.index);
      morph(this.foot, [icon("warn", 13), h("button", { className: "link", onclick: () => app.show_fault() }, place ? `Line ${place.line + 1}, column ${place.ch + 1}` : "The text"), h("span", {}, told.words), this.fix(told)]);
    } else if (verdict.state === "empty") morph(this.foot, [h("span", {}, "Empty")]);
  }
  private fix({ fix }: Refusal): HTMLElement | null {
    if (!fix) return null;
    const { store } = this.app, { doc: { text } } = store;
    // While another text is checked, what was found in the one before stands here still.
    return h("button", { className: "small", onclick: () => { if (store.doc.text === text) store.edit(text.slice(0, fix.from) + fix.text + text.slice(fix.to), fix.title); } }, fix.title);
  }
}

/** The tables that comments as `# table NAME exponential 500;` ask for and that aren't there. */
export const tables_asked_for = (text: string, declared: readonly string[]): string[] => [...text.matchAll(/^# table (\w+) \S/gm)].map(found => found[1]).filter(name => !declared.includes(name));
