// A large graph is laid out in parts, side by side: its events in groups, each group for itself, and the groups in a grid.
import { Gutters, grid_of } from "./grid";
import { groups_of } from "./groups";
import type { Layout, Point, Request } from "./layout";

/** Of more events than this, a graph is laid out in parts. */
export const LARGE = 40;
/** Sizes are rounded up to this, so that groups that are built alike have one layout. */
const STEP = 8;

/** The parts to lay out, each kind of group once, and what makes one layout of theirs. */
export interface Split { parts: Request[]; join(layouts: readonly Layout[]): Layout }

export function split({ nodes, edges, sideways, aspect }: Request): Split {
  const groups = groups_of(nodes.length, edges), group_of = new Map(groups.flatMap((members, g) => members.map(node => [node, g] as const)));
  const own_edges = groups.map(() => [] as number[]), parts: Request[] = [], known = new Map<string, number>();
  edges.forEach(({ from, to }, i) => { if (group_of.get(from) === group_of.get(to)) own_edges[group_of.get(from)!].push(i); });
  const up = (size: number): number => Math.ceil(size / STEP) * STEP;
  const part_of = groups.map((members, g) => {
    const place = new Map(members.map((node, i) => [node, i]));
    const part: Request = {
      sideways: sideways ?? false, aspect, nodes: members.map(i => ({ width: up(nodes[i].width), height: up(nodes[i].height) })),
      edges: own_edges[g].map(i => ({ from: place.get(edges[i].from)!, to: place.get(edges[i].to)!, width: up(edges[i].width), height: edges[i].height })),
    };
    const key = JSON.stringify(part);
    let number = known.get(key);
    if (number === undefined) known.set(key, number = parts.push(part) - 1);
    return number;
  });

  const join = (layouts: readonly Layout[]): Layout => {
    const laid = part_of.map(number => layouts[number]), grid = grid_of(laid, aspect), all: Layout = { width: grid.width, height: grid.height, nodes: [], edges: edges.map(() => null), groups, ms: 0 };
    laid.forEach((part, g) => {
      const { x, y } = grid.corners[g], move = (p: Point): Point => ({ x: p.x + x, y: p.y + y });
      groups[g].forEach((node, i) => { all.nodes[node] = move(part.nodes[i]); });
      own_edges[g].forEach((edge, i) => { const way = part.edges[i]; if (way) all.edges[edge] = { points: way.points.map(move), label: move(way.label) }; });
    });
    const gutters = new Gutters(grid);
    edges.forEach(({ from, to }, i) => {
      const a = group_of.get(from)!, b = group_of.get(to)!;
      if (a === b) return;
      const points = gutters.way(a, all.nodes[from], b, all.nodes[to]);
      all.edges[i] = { points, label: points[points.length >> 1], across: true };
    });
    return all;
  };
  return { parts, join };
}
