// The groups of a large graph in a grid, and the ways between them through its gutters. Plain functions.
import { Point, Size } from "./layout";

export interface Grid { columns: number; corners: Point[]; lefts: number[]; tops: number[]; width: number; height: number }

const GUTTER = 64;

function grid_with(columns: number, parts: readonly Size[]): Grid {
  const rows = Math.ceil(parts.length / columns), widths = new Array<number>(columns).fill(0), heights = new Array<number>(rows).fill(0);
  parts.forEach(({ width, height }, i) => {
    widths[i % columns] = Math.max(widths[i % columns], width);
    heights[Math.floor(i / columns)] = Math.max(heights[Math.floor(i / columns)], height);
  });
  // Each column and row begins with a gutter, and a last one follows.
  const starts = (sizes: readonly number[]): number[] => sizes.reduce((all, size) => [...all, all[all.length - 1] + size + GUTTER], [0]);
  const lefts = starts(widths), tops = starts(heights);
  const corners = parts.map(({ width, height }, i) => {
    const column = i % columns, row = Math.floor(i / columns);
    return { x: lefts[column] + GUTTER + (widths[column] - width) / 2, y: tops[row] + GUTTER + (heights[row] - height) / 2 };
  });
  return { columns, corners, lefts, tops, width: lefts[columns] + GUTTER, height: tops[rows] + GUTTER };
}

/** The grid that is shown largest in a room of this aspect. */
export function grid_of(parts: readonly Size[], aspect: number): Grid {
  let best = grid_with(1, parts);
  const shown = ({ width, height }: Size): number => Math.min(aspect / width, 1 / height);
  for (let columns = 2; columns <= parts.length; columns++) {
    const grid = grid_with(columns, parts);
    if (shown(grid) > shown(best)) best = grid;
  }
  return best;
}

/** Ways between groups: sideways into a gutter, along it, and sideways out of one. */
export class Gutters {
  private number = 0;
  constructor(private readonly grid: Grid) {}

  way(a: number, from: Point, b: number, to: Point): Point[] {
    const { columns, lefts, tops } = this.grid, lane = ((this.number++ % 7) - 3) * 5;
    const [column_a, column_b, row_a, row_b] = [a % columns, b % columns, Math.floor(a / columns), Math.floor(b / columns)];
    const middle = (starts: readonly number[], k: number): number => starts[k] + GUTTER / 2 + lane;
    const x = middle(lefts, column_b > column_a ? column_a + 1 : column_a);
    const into = middle(lefts, column_b < column_a ? column_b + 1 : column_b);
    if (Math.abs(x - into) < 1) return [{ x, y: from.y }, { x, y: to.y }];
    const y = middle(tops, row_b > row_a ? row_b : row_b < row_a ? row_b + 1 : row_a);
    return [{ x, y: from.y }, { x, y }, { x: into, y }, { x: into, y: to.y }];
  }
}
