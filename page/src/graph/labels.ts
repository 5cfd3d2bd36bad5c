// Places labels beside their lines, off other labels, events and lines. Plain functions.
import { Box, Point, Size } from "./layout";

/** How far a label stands off its line. */
export const OFF = 6;

export interface Wanted extends Size { line: number; samples: readonly Point[]; near?: Point }

/** What is where, by squares: so that a label is compared with its neighbours alone. */
class Squares<T> {
  private readonly rooms = new Map<number, T[]>();
  constructor(private readonly size: number) {}
  private visit({ x, y, width, height }: Box, body: (key: number) => void): void {
    const { size } = this, right = Math.floor((x + width / 2) / size), bottom = Math.floor((y + height / 2) / size);
    for (let i = Math.floor((x - width / 2) / size); i <= right; i++)
      for (let j = Math.floor((y - height / 2) / size); j <= bottom; j++) body(i * 65536 + j);
  }
  add(box: Box, item: T): void {
    this.visit(box, key => {
      const room = this.rooms.get(key);
      if (room) room.push(item);
      else this.rooms.set(key, [item]);
    });
  }
  /** Each neighbour; what lies in several squares comes several times. */
  each(box: Box, body: (item: T) => void): void { this.visit(box, key => { for (const item of this.rooms.get(key) ?? []) body(item); }); }
}

const overlap = (a: Box, b: Box, by: number): number =>
  Math.max(0, (a.width + b.width) / 2 + by - Math.abs(a.x - b.x)) * Math.max(0, (a.height + b.height) / 2 + by - Math.abs(a.y - b.y));

/** The places that a label may take: at points along its line, on both sides of it. */
export function candidates({ samples, width, height }: Wanted): Point[] {
  const found: Point[] = [];
  for (let i = 1; i < samples.length - 1; i++) {
    const before = samples[i - 1], after = samples[i + 1], length = Math.hypot(after.x - before.x, after.y - before.y) || 1;
    const normal = { x: -(after.y - before.y) / length, y: (after.x - before.x) / length };
    const half = Math.abs(normal.x) * width / 2 + Math.abs(normal.y) * height / 2;
    for (const side of [-1, 1]) for (const more of [0, 14]) found.push({ x: samples[i].x + side * normal.x * (OFF + half + more), y: samples[i].y + side * normal.y * (OFF + half + more) });
  }
  return found;
}

/**
 * Chooses a place for each label. `fixed` are labels that stay where they are. A label would rather overlap nothing, then lie near
 * the middle of its line, or where the layout has left room for it.
 */
export function place_labels(wanted: readonly Wanted[], nodes: readonly Box[], lines: readonly (readonly Point[])[], fixed: readonly Box[] = []): Point[] {
  const boxes = new Squares<Box>(120), points = new Squares<Point & { line: number }>(60), placed = new Squares<Box>(120);
  for (const box of nodes) boxes.add(box, box);
  lines.forEach((samples, line) => dense(samples).forEach(at => points.add({ ...at, width: 0, height: 0 }, { ...at, line })));
  for (const box of fixed) placed.add(box, box);
  const order = wanted.map((_, i) => i).sort((a, b) => wanted[b].width * wanted[b].height - wanted[a].width * wanted[a].height);
  const places: Point[] = [];
  for (const i of order) {
    const label = wanted[i], { samples, width, height, line } = label, centre = label.near ?? samples[samples.length >> 1] ?? { x: 0, y: 0 };
    let best = centre, least = Infinity;
    for (const at of label.near ? [label.near, ...candidates(label)] : candidates(label)) {
      const box = { ...at, width, height };
      let cost = Math.hypot(at.x - centre.x, at.y - centre.y) * 1.5;
      if (cost >= least) continue;
      boxes.each(box, node => { cost += overlap(box, node, 6) * 12; });
      placed.each(box, other => { cost += overlap(box, other, 6) * 10; });
      if (cost >= least) continue;
      points.each(box, point => { if (Math.abs(point.x - at.x) < width / 2 + 2 && Math.abs(point.y - at.y) < height / 2 + 2) cost += point.line === line ? 240 : 160; });
      if (cost < least) { least = cost; best = at; }
    }
    places[i] = best;
    placed.add({ ...best, width, height }, { ...best, width, height });
  }
  return places;
}

/** Points of a line that are near each other, so that a label between two of them is seen to be crossed. */
function dense(samples: readonly Point[]): Point[] {
  const all: Point[] = [];
  for (let i = 1; i < samples.length; i++) {
    const a = samples[i - 1], b = samples[i], steps = Math.min(60, Math.ceil(Math.hypot(b.x - a.x, b.y - a.y) / 6));
    for (let k = 0; k < steps; k++) all.push({ x: a.x + (b.x - a.x) * k / steps, y: a.y + (b.y - a.y) * k / steps });
  }
  return all;
}
