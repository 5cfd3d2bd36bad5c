// The graph by keys: one tab stop, from which the arrow keys lead along the edges. What has the focus keeps it when the graph changes.
import type { Canvas, Picked } from "./canvas";
import { bounds_of } from "./scene";

const NUDGE = 8, TYPING = 800;

export class Keyboard {
  private current = "";
  private typed = "";
  private typed_at = 0;
  constructor(private readonly canvas: Canvas) {}

  /** An event that stays drawn because the focus is on it. */
  get kept_event(): string { return this.current.startsWith("event:") && document.activeElement?.getAttribute("data-part") === this.current ? this.current.slice(6) : ""; }

  listen(): void {
    const { svg } = this.canvas;
    svg.addEventListener("keydown", event => { if (this.pressed(event as KeyboardEvent)) event.preventDefault(); });
    svg.addEventListener("focusin", event => {
      const part = this.canvas.part(event.target);
      if (!part) return;
      this.set_current(part.id);
      if (part.picked.kind === "event" && part.element.matches(":focus-visible")) this.canvas.seek(part.picked.name);
    });
  }

  /** The part that Tab comes to. */
  set_current(part: string): void {
    if (part !== this.current) this.canvas.element_of(this.current)?.setAttribute("tabindex", "-1");
    this.current = part;
    this.canvas.element_of(part)?.setAttribute("tabindex", "0");
  }

  focus(part: string): void {
    const [kind, name, place] = part.split(":"), { scene, view } = this.canvas, node = scene.nodes.get(name);
    if (!node) return;
    if (this.canvas.is_grouped) this.canvas.seek(name, true);
    if (kind === "event") this.canvas.seek(name);
    else {
      const line = scene.lines.find(each => each.bundle.labels.some(({ edge }) => edge.from === name && edge.place === Number(place)));
      if (line) view.bring_in(line.label ?? bounds_of([line.route.tip]));
    }
    const element = this.canvas.element_of(part);
    if (!element) return;
    this.set_current(part);
    element.focus({ preventScroll: true });
  }

  /** To the part that Tab comes to. */
  enter(): void { this.focus(this.current); }

  /** What has the focus, before all is drawn anew. */
  remember(): string {
    const { activeElement } = document;
    return activeElement && this.canvas.svg.contains(activeElement) ? this.current : "";
  }
  restore(focused: string): void {
    const { scene } = this.canvas, has = (part: string): boolean => this.canvas.element_of(part) !== null;
    if (!has(this.current)) {
      // Of an edge that is gone, its event is left; of an event that is gone, the first one.
      const from = `event:${this.current.split(":")[1] ?? ""}`, [first] = scene.nodes.keys();
      this.current = has(from) ? from : first ? `event:${first}` : "";
    }
    this.canvas.element_of(this.current)?.setAttribute("tabindex", "0");
    if (focused) this.canvas.element_of(this.current)?.focus({ preventScroll: true });
  }

  private get picked(): Picked {
    const [kind, name, place] = this.current.split(":");
    return kind === "event" ? { kind, name } : kind === "edge" ? { kind, from: name, place: Number(place) } : null;
  }

  private pressed(event: KeyboardEvent): boolean {
    const { events, scene } = this.canvas, { picked } = this;
    if (!picked || event.ctrlKey || event.metaKey) return false;
    if (event.altKey) return this.nudge(event);
    if (event.key.length === 1 && event.key !== " ") return this.type_ahead(event);
    switch (event.key) {
      case "Enter": case "F2": events.open?.(picked); return true;
      case " ": events.pick?.(picked, event.shiftKey); return true;
      case "Delete": case "Backspace": events.pick?.(picked, false); events.remove?.(); return true;
      case "Escape": events.pick?.(null, false); return true;
      case "Home": this.focus(`event:${[...scene.nodes.keys()][0]}`); return true;
      case "End": this.focus(`event:${[...scene.nodes.keys()].pop()}`); return true;
      case "ContextMenu": { const box = this.canvas.element_of(this.current)!.getBoundingClientRect(); events.menu?.(picked, { x: box.left + box.width / 2, y: box.bottom }); return true; }
      default: {
        const to = this.next(event.key);
        if (to) this.focus(to);
        return to !== null;
      }
    }
  }

  /** Right and left lead along an edge, up and down to the next event, or to the next edge of the same event. */
  private next(key: string): string | null {
    const { scene } = this.canvas, { picked } = this, names = [...scene.nodes.keys()], edges = scene.model?.vertices.flatMap(vertex => vertex.edges) ?? [];
    const step = { ArrowDown: 1, ArrowUp: -1 }[key], round = <T>(all: readonly T[], now: number): T => all[(now + step! + all.length) % all.length];
    if (picked?.kind === "event") {
      if (step) return `event:${round(names, names.indexOf(picked.name))}`;
      const edge = key === "ArrowRight" ? edges.find(each => each.from === picked.name) : key === "ArrowLeft" ? edges.find(each => each.target === picked.name && each.from !== picked.name) : undefined;
      return edge ? `edge:${edge.from}:${edge.place}` : key.startsWith("Arrow") ? this.current : null;
    }
    if (picked?.kind !== "edge") return null;
    const own = edges.filter(each => each.from === picked.from), edge = own[picked.place];
    if (step) return `edge:${picked.from}:${round(own, picked.place).place}`;
    return key === "ArrowRight" ? `event:${edge.target}` : key === "ArrowLeft" ? `event:${edge.from}` : null;
  }

  private nudge(event: KeyboardEvent): boolean {
    const by = { ArrowLeft: { x: -NUDGE, y: 0 }, ArrowRight: { x: NUDGE, y: 0 }, ArrowUp: { x: 0, y: -NUDGE }, ArrowDown: { x: 0, y: NUDGE } }[event.key], { picked } = this;
    if (!by || picked?.kind !== "event") return false;
    this.canvas.view.is_own = true;
    this.canvas.move(this.canvas.selected.has(picked.name) ? this.canvas.selected : new Set([picked.name]), by);
    this.canvas.events.moved?.(this.canvas.places);
    return true;
  }

  /** Letters lead to the next event that begins with them. N, E and 0 are left to the page as a first key. */
  private type_ahead(event: KeyboardEvent): boolean {
    const now = performance.now(), begun = now - this.typed_at < TYPING && this.typed !== "";
    if (event.key === "/") { this.canvas.events.find?.(); return true; }
    if (!/^\w$/.test(event.key) || (!begun && /^[ne0]$/i.test(event.key))) return false;
    this.typed = (begun ? this.typed : "") + event.key.toLowerCase();
    this.typed_at = now;
    const names = [...this.canvas.scene.nodes.keys()], at = names.indexOf(this.current.split(":")[1]), in_row = [...names.slice(at + (this.typed.length > 1 ? 0 : 1)), ...names];
    const found = in_row.find(name => name.toLowerCase().startsWith(this.typed));
    if (found) this.focus(`event:${found}`);
    event.stopPropagation();
    return true;
  }
}
