// The bar of tabs and the panel below the graph.
import { App, Tab } from "../app";
import { at, h, morph } from "../ui/dom";
import { icon } from "../ui/icons";
import { keep, kept_json } from "./kept";

type Dock = "open" | "max" | "closed";
const FIRST: Record<string, Dock> = { run: "open", experiments: "max", reduce: "max", compare: "max", conflicts: "open", problems: "open", describe: "open", console: "open" };

export class Tabs {
  readonly bar = h("div", { className: "tab-bar", role: "tablist", "aria-label": "Tabs" });
  readonly body = h("div", { className: "tab-body", id: "tab-body", role: "tabpanel" });
  private readonly docks = this.kept_docks();

  constructor(private readonly app: App) {
    this.body.append(...app.tabs.map(tab => tab.element));
    document.body.dataset.tab = app.tab;
    document.body.dataset.dock = this.docks[app.tab];
    this.show();
  }
  private kept_docks(): Record<string, Dock> {
    const found = kept_json("docks") as Record<string, unknown> | null;
    return Object.fromEntries(Object.entries(FIRST).map(([id, first]) => [id, ["open", "max", "closed"].includes(String(found?.[id])) ? found![id] as Dock : first]));
  }
  get now(): Tab { return this.app.tabs.find(each => each.id === this.app.tab)!; }

  open(id: string): void {
    const before = this.now;
    if (before.id !== id) before.hidden?.();
    this.app.tab = document.body.dataset.tab = id;
    // Each tab keeps the size that it was given last.
    document.body.dataset.dock = this.docks[id] === "closed" ? "open" : this.docks[id];
    this.show();
    at(`tab-${id}`).scrollIntoView({ block: "nearest", inline: "center" });
    this.now.shown?.();
    this.app.show_part("dock", false);
    this.app.store.tell("results");
  }
  set_dock(how: Dock): void {
    document.body.dataset.dock = this.docks[this.app.tab] = how;
    keep("docks", JSON.stringify(this.docks));
    this.show();
  }
  toggle_max(): void { this.set_dock(document.body.dataset.dock === "max" ? "open" : "max"); }

  show(): void {
    const { tabs } = this.app, { dock } = document.body.dataset, is_max = dock === "max", is_closed = dock === "closed";
    const step = (event: KeyboardEvent, tab: Tab) => {
      const by = { ArrowRight: 1, ArrowLeft: -1 }[event.key];
      if (!by) return;
      const next = tabs[(tabs.indexOf(tab) + by + tabs.length) % tabs.length];
      this.open(next.id);
      at(`tab-${next.id}`).focus();
      event.preventDefault();
    };
    const button = (title: string, name: string, run: () => void) => h("button", { className: "icon-button", title, "aria-label": title, onclick: run }, icon(name, 14));
    morph(this.bar, [
      ...tabs.map(tab => h("button", {
        role: "tab", id: `tab-${tab.id}`, "aria-selected": String(tab.id === this.app.tab), "aria-controls": "tab-body", tabIndex: tab.id === this.app.tab ? 0 : -1,
        onclick: () => this.open(tab.id), onkeydown: (event: KeyboardEvent) => step(event, tab),
      }, icon(tab.icon, 14), h("span", {}, tab.title), tab.badge?.() ? h("span", { className: "badge" }, tab.badge()) : null)),
      h("span", { className: "grow" }),
      button(is_max ? "Make the panel smaller" : "Maximise the panel", is_max ? "min" : "max", () => this.toggle_max()),
      button(is_closed ? "Open the panel" : "Close the panel", is_closed ? "up" : "down", () => this.set_dock(is_closed ? "open" : "closed")),
    ]);
    for (const tab of tabs) tab.element.hidden = tab.id !== this.app.tab;
  }
}
