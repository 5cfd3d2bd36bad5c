// How often two events met in one tick of a run: only then can their order matter.
import type { Frames } from "../engine/frames";

/** For each pair of numbers of events the number of ticks in which both occurred; of an event and itself, in which it occurred twice. */
export function meetings({ times, vertices }: Pick<Frames, "times" | "vertices">, pairs: readonly (readonly [number, number])[]): number[] {
  const met = pairs.map(() => 0);
  for (let from = 0; from < times.length;) {
    let to = from;
    const seen = new Map<number, number>();
    while (to < times.length && times[to] === times[from]) { seen.set(vertices[to], (seen.get(vertices[to]) ?? 0) + 1); to++; }
    if (to - from > 1) pairs.forEach(([a, b], k) => { if (a === b ? (seen.get(a) ?? 0) > 1 : seen.has(a) && seen.has(b)) met[k]++; });
    from = to;
  }
  return met;
}
