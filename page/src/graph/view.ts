// What is seen of the paper: zoom, pan, fit, and bringing something into view by the least movement.
import { select } from "d3-selection";
import { zoom, zoomIdentity, zoomTransform, Zoom } from "d3-zoom";
import { Box, Point } from "./layout";

export interface Transform { x: number; y: number; k: number }
export interface Room { width: number; height: number }
/** Air around what is shown whole, and around what is brought into view. */
const AIR = 18, EDGE = 8, LEAST = 0.02, MOST = 4;

/** The transform that shows a box whole in a room, at most so large. */
export function fitted(box: Box, room: Room, most: number): Transform {
  const k = Math.max(LEAST, Math.min(most, (room.width - 2 * AIR) / Math.max(1, box.width), (room.height - 2 * AIR) / Math.max(1, box.height)));
  return { k, x: room.width / 2 - box.x * k, y: room.height / 2 - box.y * k };
}

/** The least movement that brings a box whole into a room; none where it is in it. What is larger than the room shows its top left. */
export function brought_in(box: Box, at: Transform, room: Room): Point {
  const left = (box.x - box.width / 2) * at.k + at.x, right = (box.x + box.width / 2) * at.k + at.x;
  const top = (box.y - box.height / 2) * at.k + at.y, bottom = (box.y + box.height / 2) * at.k + at.y;
  const least = (from: number, to: number, size: number): number => (from < EDGE ? EDGE - from : to > size - EDGE ? Math.max(size - EDGE - to, EDGE - from) : 0);
  return { x: least(left, right, room.width), y: least(top, bottom, room.height) };
}

export class View {
  private readonly zoomed: Zoom;
  /** Once someone has zoomed, panned or drawn, the paper stands still until the whole is asked for. */
  is_own = false;
  may_pan = true;
  /** What lies over the lower edge of the paper. */
  foot = 0;

  constructor(private readonly svg: SVGElement, private readonly element: HTMLElement, changed: (at: Transform, by_hand: boolean) => void, still: boolean) {
    this.zoomed = zoom().scaleExtent([LEAST, MOST]).filter(() => this.may_pan && !still).on("zoom", () => changed(this.at, this.by_hand));
    select(svg).call(this.zoomed as never).on("dblclick.zoom", null).on("wheel.zoom", null);
    if (still) return;
    svg.addEventListener("pointerdown", () => { this.pressed = true; }, true);
    addEventListener("pointermove", event => { if (this.pressed && event.buttons && this.may_pan) this.is_own = true; });
    addEventListener("pointerup", () => { this.pressed = false; });
    svg.addEventListener("wheel", event => this.wheel(event as WheelEvent), { passive: false });
  }
  private pressed = false;

  get at(): Transform { return zoomTransform(this.svg); }
  /** The size of the paper on the screen, kept: to ask for it would lay out the page in each frame. */
  private size: Room = { width: 0, height: 0 };
  resize(): void {
    this.size = { width: this.element.clientWidth, height: this.element.clientHeight };
    this.zoomed.extent([[0, 0], [this.size.width, this.size.height]]);
  }
  get whole_room(): Room {
    if (!this.size.width) this.resize();
    return this.size;
  }
  get room(): Room {
    if (!this.size.width) this.resize();
    return { width: this.size.width, height: Math.max(60, this.size.height - this.foot) };
  }
  /** Whether the paper is moved by a hand now: then more movements follow. */
  private by_hand = true;
  set(at: Transform, by_hand = false): void {
    if (![at.x, at.y, at.k].every(Number.isFinite)) return;
    this.by_hand = by_hand;
    this.zoomed.transform(select(this.svg), zoomIdentity.translate(at.x, at.y).scale(at.k));
    this.by_hand = true;
  }

  fit(box: Box, most: number): void {
    this.resize();
    if (!this.size.width || !this.size.height) return;
    this.set(fitted(box, this.room, most));
    this.is_own = false;
  }
  bring_in(box: Box): void {
    const by = brought_in(box, this.at, this.room);
    if (!by.x && !by.y) return;
    const { x, y, k } = this.at;
    this.set({ x: x + by.x, y: y + by.y, k });
  }
  centre(box: Box, k: number): void {
    const { width, height } = this.room;
    this.set({ k, x: width / 2 - box.x * k, y: height / 2 - box.y * k });
    this.is_own = true;
  }
  zoom_by(by: number, around?: Point): void {
    const { x, y, k } = this.at, { width, height } = this.room, about = around ?? { x: width / 2, y: height / 2 }, to = Math.max(LEAST, Math.min(MOST, k * by));
    this.set({ k: to, x: about.x - (about.x - x) * to / k, y: about.y - (about.y - y) * to / k }, true);
    this.is_own = true;
  }
  pan_by(dx: number, dy: number): void {
    const { x, y, k } = this.at;
    this.set({ x: x + dx, y: y + dy, k }, true);
    this.is_own = true;
  }

  /** The wheel pans, as in other drawing programs; with Ctrl, or by a pinch, it zooms. */
  private wheel(event: WheelEvent): void {
    event.preventDefault();
    const unit = event.deltaMode === 1 ? 16 : event.deltaMode === 2 ? 400 : 1, box = this.svg.getBoundingClientRect();
    if (event.ctrlKey || event.metaKey) this.zoom_by(2 ** (-Math.max(-60, Math.min(60, event.deltaY * unit)) / 120), { x: event.clientX - box.left, y: event.clientY - box.top });
    else if (event.shiftKey && !event.deltaX) this.pan_by(-event.deltaY * unit, 0);
    else this.pan_by(-event.deltaX * unit, -event.deltaY * unit);
  }

  /** A place on the paper. */
  point({ clientX, clientY }: { clientX: number; clientY: number }): Point {
    const box = this.svg.getBoundingClientRect(), { x, y, k } = this.at;
    return { x: (clientX - box.left - x) / k, y: (clientY - box.top - y) / k };
  }
  /** The part of the paper that is seen, with some air. */
  seen(air = 0): Box {
    const { x, y, k } = this.at, { width } = this.room, { height } = this.size;
    return { x: (width / 2 - x) / k, y: (height / 2 - y) / k, width: width / k + 2 * air, height: height / k + 2 * air };
  }
}
