// A list of names below a field of a form, while a word is typed. Enter or a click takes one; Esc closes the list.
import { declared_in, Offer, offers_at, Place } from "../text/completion";
import { h } from "./dom";

type Field = HTMLInputElement | HTMLTextAreaElement;
const MOST = 8;

export class Completion {
  private readonly list = h("ul", { className: "offers", role: "listbox", id: "offers", hidden: true });
  private field: Field | null = null;
  private offers: readonly Offer[] = [];
  private from = 0;
  private now = 0;

  /** Serves the fields inside of `place` that have `data-complete`, which says what may stand there. */
  constructor(place: HTMLElement, private readonly text: () => string) {
    place.addEventListener("input", event => { if ((event as InputEvent).inputType !== "insertReplacementText") this.ask(event.target, false); });
    place.addEventListener("keydown", event => { if (this.pressed(event)) { event.preventDefault(); event.stopPropagation(); } }, true);
    place.addEventListener("focusout", () => this.close());
    addEventListener("resize", () => this.close());
    document.addEventListener("scroll", () => this.close(), true);
    document.body.append(this.list);
  }

  private ask(target: EventTarget | null, asked: boolean): void {
    const field = target as Field, kind = field.dataset?.complete as Place | undefined;
    if (!kind || field.selectionStart !== field.selectionEnd) { this.close(); return; }
    const { from, offers } = offers_at(field.value, field.selectionStart ?? 0, declared_in(this.text()), kind, asked);
    if (!offers.length) { this.close(); return; }
    Object.assign(this, { field, from, offers: offers.slice(0, MOST), now: 0 });
    this.show();
  }

  private show(): void {
    const { field, offers } = this, box = field!.getBoundingClientRect();
    this.list.replaceChildren(...offers.map(({ word, kind, hint }, k) => h("li", { role: "option", id: `offer-${k}`, "aria-selected": String(k === this.now), onpointerdown: (event: Event) => { event.preventDefault(); this.take(k); } }, h("b", {}, word), h("small", {}, hint || (kind === "word" ? "" : kind)))));
    this.list.hidden = false;
    const tall = this.list.offsetHeight, below = box.bottom + 4;
    this.list.style.left = `${Math.max(4, Math.min(box.left, innerWidth - this.list.offsetWidth - 4))}px`;
    this.list.style.top = `${below + tall < innerHeight ? below : box.top - tall - 4}px`;
    field!.setAttribute("aria-controls", "offers");
    field!.setAttribute("aria-activedescendant", `offer-${this.now}`);
  }
  close(): void {
    if (this.list.hidden) return;
    this.list.hidden = true;
    this.field?.removeAttribute("aria-controls");
    this.field?.removeAttribute("aria-activedescendant");
    this.field = null;
  }

  private take(k: number): void {
    const { field, from, offers } = this;
    if (!field) return;
    field.setRangeText(offers[k].word, from, field.selectionStart ?? from, "end");
    this.close();
    field.dispatchEvent(new InputEvent("input", { bubbles: true, inputType: "insertReplacementText" }));
  }

  private pressed(event: KeyboardEvent): boolean {
    if (event.key === " " && event.ctrlKey) { this.ask(event.target, true); return true; }
    if (this.list.hidden) return false;
    switch (event.key) {
      case "ArrowDown": this.now = (this.now + 1) % this.offers.length; this.show(); return true;
      case "ArrowUp": this.now = (this.now - 1 + this.offers.length) % this.offers.length; this.show(); return true;
      case "Enter": if (event.ctrlKey) { this.close(); return false; } this.take(this.now); return true;
      case "Escape": this.close(); return true;
      default: return false;
    }
  }
}
