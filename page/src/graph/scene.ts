// What is drawn and where: events with their boxes, arrows with their routes, labels with their places. It knows no page, so it is
// tested as it is.
import { edges_of, Model } from "../text/model";
import { Places } from "../text/edits";
import { place_labels, Wanted } from "./labels";
import { Box, Layout, Point, Request, Way } from "./layout";
import { around, by_gutters, loop, Route, through } from "./routes";
import { Bundle, bundles_of, Measure, node_shape, NodeShape } from "./shapes";

export interface Node { shape: NodeShape; box: Box; number: number }
export interface Line { bundle: Bundle; key: string; route: Route; label: Box | null; across: boolean; number: number; bounds: Box }
export interface Group { name: string; members: string[] }
/** A way that was laid out, for as long as both ends lie where they lay then. */
interface Known { way: Way; from: Point; to: Point }

const NEAR = 1.01, APART = 8;
/** Up to so many events all is drawn at once; of more, what is seen. */
export const ALL_AT_ONCE = 120;
/** What is further off than this hinders no label. */
const REACH = 160;
const is_at = (a: Point, b: Point): boolean => Math.abs(a.x - b.x) <= NEAR && Math.abs(a.y - b.y) <= NEAR;
const touch = (a: Box, b: Box, by: number): boolean =>
  Math.abs(a.x - b.x) < (a.width + b.width) / 2 + by && Math.abs(a.y - b.y) < (a.height + b.height) / 2 + by;

export class Scene {
  nodes = new Map<string, Node>();
  lines: Line[] = [];
  groups: Group[] = [];
  model: Model | null = null;
  private known = new Map<string, Known>();
  private shapes: NodeShape[] = [];
  private bundles: Bundle[] = [];
  /** Whether labels are placed only once their lines are drawn. */
  private is_late = false;
  private had_places = false;
  private is_fresh = false;
  /** The arrows between two events, and the group of each event: looked up for each line. */
  private pairs = new Map<string, Bundle[]>();
  private group_of = new Map<string, number>();

  constructor(private readonly width_of: Measure) {}

  clear(): void {
    this.nodes.clear();
    this.lines = [];
    this.groups = [];
    this.model = null;
    this.had_places = false;
    this.known.clear();
  }

  get places(): Places { return Object.fromEntries([...this.nodes].map(([name, { box }]) => [name, { x: Math.round(box.x), y: Math.round(box.y) }])); }

  /** Whether all lies as a text has it. */
  is_placed(places: Places): boolean {
    return Object.entries(places).every(([name, place]) => { const box = this.nodes.get(name)?.box; return box && is_at(box, place); }) && (Object.keys(places).length > 0 || !this.had_places);
  }

  /** Takes a model up. Answers what has to be laid out, or null where every event has a place already. */
  begin(model: Model, places: Places, view: Pick<Request, "sideways" | "aspect" | "room">): Request | null {
    const first = this.model?.name !== model.name;
    // What is drawn stays until the other model is laid out.
    this.is_fresh = first;
    if (!first) this.follow_renames(model);
    this.model = model;
    this.shapes = model.vertices.map(vertex => node_shape(vertex, model, this.width_of));
    this.bundles = bundles_of(edges_of(model), this.width_of);
    const has_places = Object.keys(places).length > 0;
    const stays = !first && (has_places || (!this.had_places && this.shapes.every(shape => this.nodes.has(shape.name)) && !this.would_touch()));
    this.had_places = has_places;
    if (stays) return null;
    const number = new Map(this.shapes.map((shape, i) => [shape.name, i]));
    return { ...view, nodes: this.shapes, edges: this.bundles.map(({ width, height, from, target }) => ({ width, height, from: number.get(from)!, to: number.get(target)! })) };
  }

  /** Puts everything where it belongs: where the text says, else where it was, else where it was laid out. */
  finish(places: Places, layout: Layout | null): void {
    if (this.is_fresh) { this.known.clear(); this.groups = []; this.lines = []; }
    if (layout) this.remember(layout);
    const boxes = new Map<string, Box>(), before = this.is_fresh ? new Map<string, Node>() : this.nodes;
    this.is_fresh = false;
    const late: NodeShape[] = [];
    this.shapes.forEach((shape, i) => {
      const place = places[shape.name] ?? (layout ? layout.nodes[i] : before.get(shape.name)?.box);
      if (place) boxes.set(shape.name, { x: Math.round(place.x), y: Math.round(place.y), width: shape.width, height: shape.height });
      else late.push(shape);
    });
    for (const shape of late) boxes.set(shape.name, { ...this.free_place(shape, [...boxes.values()], this.neighbour(shape.name, boxes)), width: shape.width, height: shape.height });
    this.nodes = new Map(this.shapes.map((shape, number) => [shape.name, { shape, number, box: boxes.get(shape.name)! }]));
    this.groups = this.groups.map(group => ({ ...group, members: group.members.filter(name => this.nodes.has(name)) })).filter(group => group.members.length);
    this.group_of = new Map(this.groups.flatMap((group, i) => group.members.map(name => [name, i] as const)));
    this.pairs = new Map();
    for (const bundle of this.bundles) this.pairs.set(pair_of(bundle.from, bundle.target), [...this.pairs.get(pair_of(bundle.from, bundle.target)) ?? [], bundle]);
    const labels = new Map(this.lines.map(line => [line.key, line]));
    this.lines = this.bundles.map((bundle, number) => this.line(bundle, number));
    this.is_late = this.nodes.size > ALL_AT_ONCE;
    // A label stays where it was while its line does.
    for (const line of this.lines) {
      const old = labels.get(line.key);
      if (old?.label && old.route.path === line.route.path && old.label.width === line.bundle.width && old.label.height === line.bundle.height) line.label = old.label;
    }
    if (!this.is_late) this.place_labels(this.lines.filter(line => !line.label));
  }

  private remember(layout: Layout): void {
    this.known.clear();
    const number = new Map(this.shapes.map((shape, i) => [shape.name, i]));
    this.bundles.forEach((bundle, i) => {
      const way = layout.edges[i];
      if (way) this.known.set(key_of(bundle), { way, from: layout.nodes[number.get(bundle.from)!], to: layout.nodes[number.get(bundle.target)!] });
    });
    this.groups = layout.groups.map(members => ({ name: this.shapes[members[0]].name, members: members.map(i => this.shapes[i].name) }));
  }

  /** An event with another name keeps its place. */
  private follow_renames(model: Model): void {
    const before = [...this.nodes.keys()], after = model.vertices.map(vertex => vertex.name);
    if (before.length !== after.length) return;
    const changed = after.map((name, i) => [before[i], name] as const).filter(([old, name]) => old !== name);
    if (!changed.length || changed.some(([, name]) => this.nodes.has(name))) return;
    const called = new Map(changed);
    this.nodes = new Map([...this.nodes].map(([name, node]) => [called.get(name) ?? name, node]));
    this.known = new Map([...this.known].map(([key, known]) => [key.split(" ").map((word, i) => (i < 2 ? called.get(word) ?? word : word)).join(" "), known]));
    this.groups = this.groups.map(group => ({ name: called.get(group.name) ?? group.name, members: group.members.map(name => called.get(name) ?? name) }));
  }

  private would_touch(): boolean {
    const boxes = this.shapes.map(shape => ({ ...this.nodes.get(shape.name)!.box, width: shape.width, height: shape.height }));
    return boxes.length <= 400 && boxes.some((box, i) => boxes.some((other, k) => k > i && touch(box, other, APART) && !this.touched(i, k)));
  }
  /** Whether two events lay on each other already: then that is as it was wanted. */
  private touched(i: number, k: number): boolean {
    return touch(this.nodes.get(this.shapes[i].name)!.box, this.nodes.get(this.shapes[k].name)!.box, APART);
  }

  private neighbour(name: string, boxes: ReadonlyMap<string, Box>): Point {
    for (const { from, target } of this.bundles) {
      const other = from === name ? target : target === name ? from : "", box = boxes.get(other);
      if (box) return { x: box.x, y: box.y + box.height / 2 + 70 };
    }
    const all = [...boxes.values()];
    return all.length ? { x: Math.max(...all.map(box => box.x + box.width / 2)) + 90, y: all[0].y } : { x: 0, y: 0 };
  }

  /** The free place that is nearest to one; where none is near, below all. */
  free_place(size: { width: number; height: number }, boxes: readonly Box[] = [...this.nodes.values()].map(node => node.box), near: Point = { x: 0, y: 0 }): Point {
    const is_free = (at: Point): boolean => !boxes.some(box => touch({ ...at, width: size.width, height: size.height }, box, 24));
    for (let ring = 0; ring < 60; ring++)
      for (let k = 0; k < Math.max(1, ring * 8); k++) {
        const angle = (k / Math.max(1, ring * 8)) * 2 * Math.PI, at = { x: Math.round(near.x + Math.sin(angle) * ring * 32), y: Math.round(near.y + Math.cos(angle) * ring * 32) };
        if (is_free(at)) return at;
      }
    return { x: near.x, y: Math.round(Math.max(...boxes.map(box => box.y + box.height / 2)) + 25 + size.height / 2) };
  }

  private line(bundle: Bundle, number: number): Line {
    const key = key_of(bundle), route = this.route(bundle);
    return { bundle, key, number, route, label: null, across: this.known_way(bundle)?.across ?? this.is_across(bundle), bounds: bounds_of(route.samples) };
  }
  private is_across({ from, target }: Bundle): boolean {
    return this.groups.length > 0 && this.group_of.get(from) !== this.group_of.get(target);
  }
  private known_way(bundle: Bundle): Way | null {
    const known = this.known.get(key_of(bundle)), from = this.nodes.get(bundle.from)!.box, to = this.nodes.get(bundle.target)!.box;
    return known && is_at(known.from, from) && is_at(known.to, to) ? known.way : null;
  }

  private route(bundle: Bundle): Route {
    const from = this.nodes.get(bundle.from)!.box, to = this.nodes.get(bundle.target)!.box;
    if (from === to) {
      const loops = this.pairs.get(pair_of(bundle.from, bundle.target))!;
      return loop(from, loops.indexOf(bundle), loops.length, bundle);
    }
    const way = this.known_way(bundle);
    if (way) return way.across ? by_gutters(way.points, from, to) : through(way.points, from, to);
    // Arrows that lead back, and others beside it, are bent away from each other.
    const beside = this.pairs.get(pair_of(bundle.from, bundle.target))!, back = this.pairs.has(pair_of(bundle.target, bundle.from));
    const bend = (back ? 34 : 0) + beside.indexOf(bundle) * 40;
    return around(from, to, bend, this.nodes.size <= 400 ? [...this.nodes.values()].map(node => node.box) : []);
  }

  /** Places the labels of these lines; all other labels stay. */
  place_labels(lines: readonly Line[] = this.lines): void {
    // The labels of lines between groups are shown only when they are asked for, so they keep off nothing.
    for (const line of lines) if (line.across && line.bundle.height > 0) line.label = { ...aside(line), width: line.bundle.width, height: line.bundle.height };
    const named = lines.filter(line => line.bundle.height > 0 && !line.across), asked = new Set(named);
    const wanted = named.map((line): Wanted => ({ line: line.number, samples: line.route.samples, width: line.bundle.width, height: line.bundle.height, near: this.label_near(line) }));
    const around = bounds_of(named.flatMap(line => corners(line.bounds))), is_near = (box: Box): boolean => touch(box, around, REACH);
    const fixed = this.lines.flatMap(line => (line.label && !line.across && !asked.has(line) && is_near(line.label) ? [line.label] : []));
    const places = place_labels(wanted, [...this.nodes.values()].map(node => node.box).filter(is_near), this.lines.map(line => (line.across || !is_near(line.bounds) ? [] : line.route.samples)), fixed);
    named.forEach((line, i) => { line.label = { ...places[i], width: line.bundle.width, height: line.bundle.height }; });
  }
  /** Places the labels of lines that are to be drawn, with all of their groups, where that hasn't been done yet. */
  name_lines(seen: readonly Line[]): void {
    if (!this.is_late) return;
    const bare = seen.filter(line => !line.label && line.bundle.height > 0), group = (line: Line): number | undefined => this.group_of.get(line.bundle.from);
    for (const each of new Set(bare.map(group))) this.place_labels(each === undefined ? bare.filter(line => group(line) === undefined) : this.lines.filter(line => !line.label && group(line) === each));
  }

  private label_near({ bundle, route }: Line): Point | undefined {
    if (bundle.from === bundle.target) {
      const { box } = this.nodes.get(bundle.from)!, far = Math.max(...route.samples.map(point => point.x));
      return { x: Math.max(far, box.x + box.width / 2) + 8 + bundle.width / 2, y: route.samples[route.samples.length >> 1].y };
    }
    return this.known_way(bundle)?.label;
  }

  /** Moves events. Only their own lines get other routes, and only labels of these other places. */
  move(names: ReadonlySet<string>, by: Point): Line[] {
    for (const name of names) {
      const node = this.nodes.get(name);
      if (node) node.box = { ...node.box, x: node.box.x + by.x, y: node.box.y + by.y };
    }
    const touched = this.lines.filter(line => names.has(line.bundle.from) || names.has(line.bundle.target));
    const named = touched.filter(line => line.label || !this.is_late);
    for (const line of touched) {
      line.route = this.route(line.bundle);
      line.bounds = bounds_of(line.route.samples);
      line.label = null;
    }
    this.place_labels(named);
    return touched;
  }

  box_of(group: Group): Box {
    return bounds_of(group.members.flatMap(name => { const { x, y, width, height } = this.nodes.get(name)!.box; return [{ x: x - width / 2 - 18, y: y - height / 2 - 18 }, { x: x + width / 2 + 18, y: y + height / 2 + 18 }]; }));
  }

  bounds(): Box {
    if (!this.nodes.size) return { x: 0, y: 0, width: 0, height: 0 };
    return bounds_of([
      ...[...this.nodes.values()].flatMap(node => corners(node.box)),
      ...this.lines.flatMap(line => [...corners(line.bounds), ...(line.label ? corners(line.label) : [])]),
      ...this.groups.flatMap(group => corners(this.box_of(group))),
    ]);
  }
}

/** Beside the tip of a line. */
function aside({ route, bundle }: Line): Point {
  const { tip, toward } = route;
  return { x: tip.x - toward.x * (40 + bundle.width / 2) - Math.abs(toward.y) * (bundle.width / 2 + 8), y: tip.y - toward.y * (20 + bundle.height / 2) - Math.abs(toward.x) * (bundle.height / 2 + 6) };
}
const corners = (box: Box): Point[] => [{ x: box.x - box.width / 2, y: box.y - box.height / 2 }, { x: box.x + box.width / 2, y: box.y + box.height / 2 }];
const pair_of = (from: string, target: string): string => `${from} ${target}`;
export const key_of = ({ from, target, drawn }: Bundle): string => `${from} ${target} ${drawn}`;

export function bounds_of(points: readonly Point[]): Box {
  let left = Infinity, right = -Infinity, top = Infinity, bottom = -Infinity;
  for (const { x, y } of points) {
    if (x < left) left = x;
    if (x > right) right = x;
    if (y < top) top = y;
    if (y > bottom) bottom = y;
  }
  return { x: (left + right) / 2, y: (top + bottom) / 2, width: right - left, height: bottom - top };
}
