// The plainest layout, at once for any number of events: rows from left to right. It serves where the planner stops a better one.
import type { Layout, Point, Request } from "./layout";

const GAP = 40;

export function in_rows({ nodes, edges, aspect }: Request): Layout {
  const area = nodes.reduce((sum, { width, height }) => sum + (width + GAP) * (height + GAP), 0), most = Math.max(Math.sqrt(area * aspect), ...nodes.map(each => each.width));
  const places: Point[] = [];
  let x = 0, y = 0, tall = 0, wide = 0;
  for (const { width, height } of nodes) {
    if (x && x + width > most) { x = 0; y += tall + GAP; tall = 0; }
    places.push({ x: x + width / 2, y: y + height / 2 });
    x += width + GAP;
    tall = Math.max(tall, height);
    wide = Math.max(wide, x - GAP);
  }
  return { width: wide, height: y + tall, nodes: places, edges: edges.map(() => null), groups: [], ms: 0 };
}
