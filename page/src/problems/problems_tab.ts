// The tab Problems: why a text or a change in a form is refused, and what is allowed in a model and often a slip. A click leads there.
import { App, Tab } from "../app";
import { Cancelled } from "../engine/wire";
import { Model } from "../text/model";
import { refusal_in_words } from "../text/refusals";
import { h, morph } from "../ui/dom";
import { icon } from "../ui/icons";
import { Finding, findings_of, Level, Where } from "./findings";

/** So long after the last change the program is asked. */
const PAUSE = 800;
const TITLES: Readonly<Record<Level, string>> = { wrong: "Surely wrong", slip: "Likely a slip", note: "Worth knowing" };

export class ProblemsTab implements Tab {
  readonly id = "problems"; readonly title = "Problems"; readonly icon = "warn";
  readonly element = h("div", { className: "problems-tab" });
  private findings: { of: number; model: string; all: Finding[] } | null = null;
  private abort: AbortController | null = null;
  private timer = 0;
  private badged = "";

  constructor(private readonly app: App) {
    app.store.listen(change => {
      if (change === "verdict") this.ask_soon();
      if (change === "verdict" || change === "drafts") this.refresh();
    });
  }

  shown(): void { this.refresh(); }
  /** How many there are, beside the name of the tab. */
  badge(): string { const all = this.rows().length; return all ? String(all) : ""; }

  private ask_soon(): void {
    const { verdict } = this.app.store;
    clearTimeout(this.timer);
    this.abort?.abort();
    if (verdict.state !== "accepted") return;
    // Comments and layout change nothing of what is found.
    if (this.findings?.model === verdict.model.text) { this.findings = { ...this.findings, of: verdict.revision }; return; }
    this.timer = window.setTimeout(() => void this.ask(verdict.model, verdict.revision), PAUSE);
  }
  private async ask(model: Model, revision: number): Promise<void> {
    const { signal } = this.abort = new AbortController(), { engine, store } = this.app;
    const call = (word: string, input: string) => engine.call({ words: [word], input, signal, background: true });
    try {
      const [narrow, uses] = await Promise.all([call("narrow", model.text), call("uses", model.text)]), reduce = await call("reduce", narrow.out);
      if (store.revision !== revision || [narrow, uses, reduce].some(each => each.status !== 0)) return;
      this.findings = { of: revision, model: model.text, all: findings_of(model, { narrow: narrow.out, reduce: reduce.out, uses: uses.out }) };
      this.refresh();
    } catch (problem) { if (!(problem instanceof Cancelled)) throw problem; }
  }

  /** What is found in the text as it is; none while another text is looked at. */
  private get current(): Finding[] { return this.findings?.of === this.app.store.revision ? this.findings.all : []; }

  private rows(): HTMLElement[] {
    const { app } = this, { verdict, doc } = app.store, rows: HTMLElement[] = [];
    if (verdict.state === "refused") {
      const { words, fix } = refusal_in_words(doc.text, verdict.refusal);
      rows.push(this.row("wrong", "The text is refused", words, "", () => app.show_fault(), fix ? h("button", { className: "small", onclick: () => app.store.edit(doc.text.slice(0, fix.from) + fix.text + doc.text.slice(fix.to), fix.title) }, fix.title) : null));
    }
    for (const { id, field, problem } of app.drafts.refused) rows.push(this.row("wrong", `A change of ${id.replace(/^\w+:/, "").replace(/:.*/, "") || "the model"} isn't written`, problem, "", () => app.go_to_field(id, field)));
    for (const { level, name, text, advice, at } of this.current) rows.push(this.row(level, name, text, advice, () => this.go(at)));
    return rows;
  }
  private row(level: Level, name: string, text: string, advice: string, go: () => void, more: HTMLElement | null = null): HTMLElement {
    return h("li", { className: `is-${level}` }, h("button", { className: "finding", title: TITLES[level], onclick: go }, icon(level === "note" ? "help" : "warn", 14), h("span", { className: "unseen" }, `${TITLES[level]}: `), h("b", {}, name), h("span", {}, text, advice ? h("small", {}, ` ${advice}`) : null)), more);
  }
  private go(at: Where): void {
    const { app } = this;
    if (at.kind === "field") { app.go_to_field(at.id.slice(0, at.id.lastIndexOf("/")), at.id.slice(at.id.lastIndexOf("/") + 1)); return; }
    app.pick(at);
    app.canvas.seek(at.kind === "event" ? at.name : at.from, true);
    app.show_part("graph", false);
  }

  refresh(): void {
    const { store } = this.app, rows = this.rows(), is_new = this.findings?.of !== store.revision && store.verdict.state === "accepted";
    morph(this.element, [
      rows.length ? h("ul", { className: "findings", "data-key": "list" }, ...rows)
        : h("div", { className: "blank", "data-key": "blank" }, icon(is_new || store.verdict.state !== "accepted" ? "help" : "check", 30), h("h3", {}, store.verdict.state === "empty" ? "There is no model yet" : is_new || store.verdict.state === "checking" ? "Looking …" : "Nothing found"), h("p", {}, "Here is told why a text is refused, and what is allowed and often a slip: an event that is never reached, a condition that never holds, events that schedule each other without an end, a stream that several share.")),
    ]);
    const badge = this.badge();
    if (badge !== this.badged) { this.badged = badge; this.app.tabs_changed(); }
  }
}
