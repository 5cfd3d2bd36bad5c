// On a telephone: what can be done with the event or edge that was tapped, in a strip that the thumb reaches.
import type { Picked } from "../graph/canvas";
import { h, morph } from "./dom";
import { icon } from "./icons";
import { command_of } from "./menu";

export class Strip {
  readonly element = h("div", { className: "strip", role: "toolbar", "aria-label": "What is selected", hidden: true });

  show(picked: Picked, target: string): void {
    this.element.hidden = picked === null;
    if (!picked) return;
    const button = (id: string, title: string, its: string): HTMLElement => h("button", { "data-key": id, onclick: () => command_of(id).run() }, icon(its), title);
    const is_event = picked.kind === "event";
    morph(this.element, [
      h("b", { "data-key": "name" }, is_event ? picked.name : `${picked.from} → ${target}`),
      button("edit-form", "Edit", "form"), is_event ? button("new-edge", "Edge", "edge") : null, button("delete", "Delete", "trash")]);
  }
}
