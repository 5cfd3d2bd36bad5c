// The tab Compare: whether the model of the page and another one mean the same, by the program's word.
import { App, Tab } from "../app";
import { Cancelled } from "../engine/wire";
import type { Files } from "../shell/files";
import { shell_line } from "../run/words";
import { Checked, TypedSettings, whole_number } from "../store/settings";
import { Kept, Result } from "../store/store";
import { h, morph } from "../ui/dom";
import { count, seconds } from "../ui/format";
import { icon } from "../ui/icons";
import { note } from "../ui/menu";
import { run_fields, setting_field, stale_bar } from "../ui/settings_fields";
import { answer_of } from "./answers";
import { Asked, changed_since, compare, Compared, compare_settings, compare_words, Other } from "./comparing";
import { apart_in_words, Group, groups_of, Reduction } from "./others";

const MOST_RUNS = 65_536;
/** What was chosen for a document: files that were read, and which model it is. */
interface Chosen { files: Other[]; id: string }

export class CompareTab implements Tab {
  readonly id = "compare"; readonly title = "Compare"; readonly icon = "compare";
  readonly element = h("div", { className: "compare-tab" });
  private readonly tools = h("div", { className: "settings-row" });
  private readonly sides = h("div", { className: "designs" });
  private readonly results = h("div", { className: "results" });
  private readonly chosen: Kept<Chosen>;
  private readonly kept: Kept<Result<Asked, Compared>>;
  private abort: AbortController | null = null;

  constructor(private readonly app: App, private readonly files: Files, private readonly reduction: () => Reduction | null) {
    this.chosen = new Kept(app.store);
    this.kept = new Kept(app.store);
    this.element.append(this.tools, h("div", { className: "experiments-body" }, this.sides, this.results));
    app.store.listen(() => this.refresh());
    this.refresh();
  }

  get result(): Result<Asked, Compared> | null { return this.kept.now ?? null; }
  get busy(): boolean { return this.abort !== null; }
  run(): void { void this.go(); }
  run_label(): string { return "Compare"; }
  stops(): (() => void) | null { return this.busy ? () => this.abort?.abort() : null; }
  shown(): void { this.refresh(); }

  private groups(): Group[] { return groups_of(this.app, this.chosen.now?.files ?? [], this.reduction()); }
  /** The other model, as it is now. */
  private other(groups = this.groups()): Other | null { return groups.flatMap(({ others }) => others).find(({ id }) => id === this.chosen.now?.id) ?? null; }
  choose(id: string): void {
    this.chosen.now = { files: this.chosen.now?.files ?? [], id };
    this.refresh();
  }
  private choose_file(): void {
    const { id } = this.app.store.doc;
    this.files.ask(({ name, text }) => {
      if (this.app.store.doc.id !== id) return;
      const files = this.chosen.now?.files ?? [], file = { id: `file:${files.length}`, name, text };
      this.chosen.now = { files: [...files, file], id: file.id };
      this.refresh();
    });
  }

  async go(): Promise<void> {
    const other = this.other();
    if (!other) { note("Choose the model to compare with.", "bad"); this.sides.querySelector("select")?.focus(); return; }
    this.abort?.abort();
    const abort = this.abort = new AbortController();
    this.refresh();
    const asked = (typed: TypedSettings): Checked<Asked> => { const checked = compare_settings(typed); return "problems" in checked ? checked : { value: { ...checked.value, other } }; };
    try {
      const result = await this.app.command(asked, (snapshot, its) => compare(this.app.engine, snapshot, its, abort.signal));
      if (result && this.abort === abort) this.kept.keep(result.made.snapshot.document, result);
    } catch (problem) {
      if (!(problem instanceof Cancelled)) note((problem as Error).message, "bad");
    }
    if (this.abort === abort) this.abort = null;
    this.refresh();
  }

  /** Ten times as many runs, up to what the program takes. */
  private more(): void {
    const { store } = this.app, runs = Number(whole_number(store.doc.settings.compared) ?? 1n);
    store.set({ settings: { ...store.doc.settings, compared: count(Math.min(MOST_RUNS, runs * 10)) } });
    void this.go();
  }
  private play(seed: string): void {
    const { app } = this, { store } = app;
    store.set({ settings: { ...store.doc.settings, seed } });
    app.open_tab("run");
    app.tabs.find(({ id }) => id === "run")?.run?.();
  }

  private stale(other: Other | null): string | null {
    const { result } = this, now = compare_settings(this.app.store.doc.settings);
    return result ? changed_since(this.app.store, result.made, "value" in now ? now.value : null, other?.text ?? null) : null;
  }

  refresh(): void {
    const { app, result } = this, groups = this.groups(), other = this.other(groups);
    morph(this.tools, [
      setting_field(app, "compared", "Runs of each", "", 6), ...run_fields(app), h("div", { className: "grow", "data-key": "grow" }),
      h("span", { className: "dim", role: "status", "data-key": "busy" }, this.busy ? "Comparing …" : result ? `answered in ${seconds(result.value.ms)}` : ""),
    ]);
    morph(this.sides, this.cards(groups, other));
    app.run_changed();
    const stale = this.stale(other);
    this.results.classList.toggle("is-stale", stale !== null);
    morph(this.results, [stale_bar(stale, () => void this.go()), ...(result ? this.answer(result) : [this.blank()])]);
  }
  private answer({ made, value }: Result<Asked, Compared>): HTMLElement[] {
    const line = shell_line(compare_words(made.snapshot.model, made.settings), "").replace(/ < .*/, "");
    return answer_of(value, made.settings, `cat FIRST SECOND | ${line}`, { more: () => this.more(), play: seed => this.play(seed) });
  }

  private cards(groups: readonly Group[], other: Other | null): HTMLElement[] {
    const { store } = this.app, { shown, doc } = store;
    return [
      h("article", { className: "card", "data-key": "this" }, h("h3", {}, "This model"), h("p", {}, shown ? `${shown.name}${doc.file ? `, ${doc.file}` : ""}` : "There is none yet.")),
      h("article", { className: "card sweep-form", "data-key": "other" }, h("h3", {}, "Is it the same as"),
        h("label", { className: "field" }, h("select", { "aria-label": "The other model", value: other?.id ?? "", onchange: (event: Event) => this.choose((event.target as HTMLSelectElement).value) },
          h("option", { value: "", selected: !other }, "Choose a model …"), ...groups.map(({ title, others }) => h("optgroup", { label: title }, ...others.map(({ id, name, more }) => h("option", { value: id, selected: id === other?.id }, more ? `${name}, ${more}` : name)))))),
        h("button", { onclick: () => this.choose_file() }, icon("text"), "A file …"),
        other && shown ? h("p", { className: "hint", "data-key": "apart" }, apart_in_words(store.doc.text, other)) : null),
      h("p", { className: "hint", "data-key": "hint" }, "The names of the models, and what isn't watched, don't count. Both must watch the same."),
    ];
  }
  private blank(): HTMLElement {
    return h("div", { className: "blank", "data-key": "blank" }, icon("compare", 30), h("h3", {}, "Are two models one?"),
      h("p", {}, "You simplified a model by hand, or a colleague sent you one. Choose the other model, and press Compare: the program looks for what they declare otherwise, and for a run that shows a difference."));
  }
}
