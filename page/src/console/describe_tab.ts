// The tab Describe: the model in the program's English. A name in it leads to its event.
import { App, Tab } from "../app";
import { h } from "../ui/dom";
import { icon } from "../ui/icons";
import { groups_of } from "./describe_groups";

export class DescribeTab implements Tab {
  readonly id = "describe"; readonly title = "Describe"; readonly icon = "text";
  readonly element = h("div", { className: "describe-tab" });
  private is_shown = false;
  private of = -1;
  constructor(private readonly app: App) {
    app.store.listen(change => {
      if (change === "text" && this.of !== app.store.revision) this.element.classList.add("is-stale");
      if (change === "verdict" && this.is_shown) void this.ask();
    });
  }
  shown(): void { this.is_shown = true; void this.ask(); }
  hidden(): void { this.is_shown = false; }

  private async ask(): Promise<void> {
    const { store, engine } = this.app, { verdict } = store;
    if (verdict.state === "checking" || this.of === store.revision) return;
    if (verdict.state !== "accepted") { this.of = -1; this.blank(verdict.state === "refused" ? "The text is refused" : "There is no model yet"); return; }
    const answer = await engine.call({ words: ["describe"], input: verdict.model.text });
    if (store.revision !== verdict.revision || !this.is_shown) return;
    this.of = verdict.revision;
    this.element.classList.remove("is-stale");
    this.element.replaceChildren(h("div", { className: "described" }, ...groups_of(answer.out).map(({ title, lines }) => h("section", {}, h("h3", {}, ...this.linked(title)), ...lines.map(line => h("p", {}, ...this.linked(line)))))));
  }
  private blank(title: string): void { this.element.classList.remove("is-stale"); this.element.replaceChildren(h("div", { className: "blank" }, icon("text", 30), h("h3", {}, title))); }

  /** Names of events can be followed. */
  private linked(line: string): (Node | string)[] {
    const events = new Set(this.app.store.shown?.vertices.map(each => each.name));
    return line.split(/([A-Za-z]\w*)/).map(part => (events.has(part) ? h("button", { className: "link", onclick: () => this.go(part) }, part) : part));
  }
  private go(name: string): void { this.app.pick({ kind: "event", name }); this.app.canvas.seek(name, true); }
}
