// What the mouse and the finger do on the paper: pick, move, draw, select, edit in place.
import { h, s } from "../ui/dom";
import type { Canvas, Picked } from "./canvas";
import { Point } from "./layout";

/** Events that are dragged come to rest on a grid of so many units; with Alt they don't. */
const GRID = 8;
const snapped = (at: Point): Point => ({ x: Math.round(at.x / GRID) * GRID, y: Math.round(at.y / GRID) * GRID });

/** What lies under the pointer now: if the press ended a movement, that is another part than the one that the event names. */
const under = ({ clientX, clientY }: MouseEvent): Element | null => document.elementFromPoint(clientX, clientY);

export class Gestures {
  private dragged = false;

  constructor(private readonly canvas: Canvas) {
    const { svg, view, events } = canvas;
    svg.addEventListener("pointerdown", event => this.pressed(event as PointerEvent), true);
    svg.addEventListener("click", event => {
      if (this.dragged) { this.dragged = false; return; }
      const mouse = event as MouseEvent, target = under(mouse), group = target?.closest("[data-group]")?.getAttribute("data-group");
      if (group) { canvas.approach(group); return; }
      events.pick?.(canvas.part(target)?.picked ?? null, mouse.shiftKey || mouse.ctrlKey || mouse.metaKey);
    });
    svg.addEventListener("dblclick", event => {
      const part = canvas.part(event.target), field = (event.target as Element).closest("[data-field]")?.getAttribute("data-field");
      if (part && field && this.edit(part.picked, field, event.target as Element)) return;
      if (part) { events.open?.(part.picked); return; }
      if (canvas.is_grouped) return;
      canvas.stand_still();
      events.create?.(view.point(event as MouseEvent));
    });
    svg.addEventListener("contextmenu", event => {
      event.preventDefault();
      const mouse = event as MouseEvent;
      events.menu?.(canvas.part(event.target)?.picked ?? null, { x: mouse.clientX, y: mouse.clientY });
    });
  }

  private pressed(event: PointerEvent): void {
    this.canvas.settle();
    const { canvas } = this, target = under(event), part = canvas.part(target);
    canvas.view.may_pan = !part && !event.shiftKey && event.button !== 2;
    if (event.button !== 0 && event.pointerType === "mouse") return;
    if (part?.picked.kind === "event" && target!.closest(".handle")) this.drag_edge(event, part.picked.name);
    else if (part?.picked.kind === "event") this.drag_node(event, part.picked.name);
    else if (!part && event.shiftKey) this.drag_marquee(event);
  }

  private drag(event: PointerEvent, move: (now: PointerEvent) => void, end: (last: PointerEvent | null) => void): void {
    const start = { x: event.clientX, y: event.clientY };
    let is_drag = false;
    this.dragged = false;
    const moving = (now: PointerEvent): void => {
      if (!is_drag && Math.hypot(now.clientX - start.x, now.clientY - start.y) < 4) return;
      is_drag = this.dragged = true;
      move(now);
    };
    const ending = (last: PointerEvent): void => {
      removeEventListener("pointermove", moving);
      removeEventListener("pointerup", ending);
      removeEventListener("pointercancel", ending);
      end(is_drag && last.type === "pointerup" ? last : null);
      setTimeout(() => { this.dragged = false; }, 0);
    };
    addEventListener("pointermove", moving);
    addEventListener("pointerup", ending);
    addEventListener("pointercancel", ending);
  }

  private drag_node(event: PointerEvent, name: string): void {
    const { canvas } = this, start = canvas.view.point(event), names = canvas.selected.has(name) ? canvas.selected : new Set([name]);
    const from = { ...canvas.scene.nodes.get(name)!.box };
    this.drag(event, now => {
      const to = canvas.view.point(now), free = { x: from.x + to.x - start.x, y: from.y + to.y - start.y }, wanted = now.altKey ? free : snapped(free), { x, y } = canvas.scene.nodes.get(name)!.box;
      if (wanted.x !== x || wanted.y !== y) canvas.move(names, { x: wanted.x - x, y: wanted.y - y });
      canvas.view.is_own = true;
    }, last => { if (last) canvas.events.moved?.(canvas.places); });
  }

  private drag_edge(event: PointerEvent, from: string): void {
    const { canvas } = this, line = s("path", { class: "new-edge" }), { box } = canvas.scene.nodes.get(from)!;
    let target: string | null = null;
    canvas.over.append(line);
    this.drag(event, now => {
      const part = canvas.part(document.elementFromPoint(now.clientX, now.clientY)), to = canvas.view.point(now);
      target = part?.picked.kind === "event" ? part.picked.name : null;
      canvas.aim(target);
      line.setAttribute("d", `M${box.x} ${box.y + box.height / 2}L${to.x} ${to.y}`);
    }, last => {
      canvas.aim(null);
      line.remove();
      if (!last) return;
      if (!target) canvas.view.is_own = true;
      canvas.events.connect?.(from, target, canvas.view.point(last));
    });
  }

  private drag_marquee(event: PointerEvent): void {
    const { canvas } = this, start = canvas.view.point(event), box = s("rect", { class: "marquee" });
    canvas.over.append(box);
    let inside: string[] = [];
    this.drag(event, now => {
      const to = canvas.view.point(now), x = Math.min(start.x, to.x), y = Math.min(start.y, to.y), width = Math.abs(to.x - start.x), height = Math.abs(to.y - start.y);
      for (const [name, value] of Object.entries({ x, y, width, height })) box.setAttribute(name, String(value));
      inside = [...canvas.scene.nodes].filter(([, { box: b }]) => b.x > x && b.x < x + width && b.y > y && b.y < y + height).map(([name]) => name);
      canvas.mark_selected(new Set(inside));
    }, last => { box.remove(); if (last) canvas.events.marquee?.(inside); });
  }

  /** A name or a label is written where it stands. */
  edit(picked: Picked, field: string, where: Element): boolean {
    const { canvas } = this, { events } = canvas, now = events.value?.(picked, field) ?? null;
    if (now === null || !events.edit) return false;
    const box = where.getBoundingClientRect(), paper = canvas.element.getBoundingClientRect(), is_code = field !== "name";
    const input = h("input", { type: "text", className: `on-paper${is_code ? " code" : ""}`, value: now, "aria-label": `${field === "name" ? "Name" : field === "when" ? "Condition" : field[0].toUpperCase() + field.slice(1)}, edited on the paper`, spellcheck: "false", autocomplete: "off" });
    const width = Math.max(120, box.width + 40, now.length * 8 + 30);
    input.style.left = `${Math.max(4, Math.min(paper.width - width - 4, box.left + box.width / 2 - paper.left - width / 2))}px`;
    input.style.top = `${Math.max(4, box.top + box.height / 2 - paper.top - 16)}px`;
    input.style.width = `${width}px`;
    let is_done = false;
    const done = (keep: boolean): void => {
      if (is_done) return;
      is_done = true;
      const { value } = input;
      input.remove();
      if (keep && value.trim() !== now) events.edit!(picked, field, value);
    };
    input.onblur = () => done(true);
    input.onkeydown = event => {
      event.stopPropagation();
      if (event.key !== "Enter" && event.key !== "Escape") return;
      done(event.key === "Enter");
      if (picked) canvas.focus(picked.kind === "event" ? `event:${picked.name}` : `edge:${picked.from}:${picked.place}`);
      event.preventDefault();
    };
    canvas.element.append(input);
    input.focus();
    input.select();
    return true;
  }
}
