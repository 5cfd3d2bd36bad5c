// While a large graph is moved by hand it is painted frame by frame; once it rests it is drawn again, so that it can be pointed at.
import type { Marks } from "./canvas";
import { part_of_edge } from "./drawing";
import { Box } from "./layout";
import { Joined, Seen } from "./overview";
import { Painter, Picture } from "./painter";
import { Line, Scene } from "./scene";
import { View } from "./view";

/** After so many milliseconds without a movement the graph rests. */
const REST = 160;

/** What the parts of a graph wear: what is selected, and the marks of a run. */
export interface Worn { selected: ReadonlySet<string>; selected_edge: string; marks: Marks }
export type Distance = "far" | "mid" | "near";

/** What is seen of a scene, as it is painted. */
export function picture_of(scene: Scene, view: View, distance: Distance, { selected, selected_edge, marks }: Worn, overview: { groups: Seen[]; joined: Joined[] } | null): Picture {
  const seen = view.seen(), is_in = (box: Box): boolean => Math.abs(box.x - seen.x) < (box.width + seen.width) / 2 && Math.abs(box.y - seen.y) < (box.height + seen.height) / 2;
  const has = (line: Line, edge: (of: Line["bundle"]["labels"][number]) => boolean): boolean => line.bundle.labels.some(edge);
  return {
    overview, selected, distance,
    groups: scene.groups.map(group => scene.box_of(group)).filter(is_in), lines: scene.lines.filter(line => is_in(line.bounds)), nodes: [...scene.nodes.values()].filter(node => is_in(node.box)),
    is_selected: line => selected_edge !== "" && has(line, label => part_of_edge(label) === selected_edge),
    is_near: ({ bundle }) => selected.has(bundle.from) || selected.has(bundle.target),
    is_taken: line => marks.taken !== undefined && has(line, label => marks.taken!.has(label.edge.id)),
    lit: marks.lit ?? "", fault: marks.fault ?? "", badges: marks.badges ?? new Map(),
  };
}

export class Moving {
  readonly painter = new Painter();
  private frame = 0;
  private rest = 0;

  /** `rested` draws the graph where it has come to. */
  constructor(private readonly view: View, private readonly picture: () => Picture, private readonly rested: () => void) {}

  moved(): void {
    if (!this.painter.is_shown) {
      this.painter.show(this.view.whole_room);
      this.paint();
    } else if (!this.frame) this.frame = requestAnimationFrame(() => { this.frame = 0; this.paint(); });
    clearTimeout(this.rest);
    this.rest = window.setTimeout(() => this.end(), REST);
  }
  private paint(): void { this.painter.paint(this.picture(), this.view.at); }

  end(): void {
    if (!this.painter.is_shown) return;
    clearTimeout(this.rest);
    cancelAnimationFrame(this.frame);
    this.frame = 0;
    this.rested();
    this.painter.hide();
  }
}
