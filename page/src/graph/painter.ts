// A large graph while it moves: one picture, painted anew in each frame. It looks as the drawn graph does; what one points at is the
// drawn one, which comes back as soon as the movement ends.
import { h } from "../ui/dom";
import { EYE, far_size, label_place, START } from "./drawing";
import { Box } from "./layout";
import { group_views, Joined, joined_alpha, joined_width, Seen } from "./overview";
import { head } from "./routes";
import { Line, Node } from "./scene";
import { HEAD, LABEL, LINE, NodeShape } from "./shapes";
import { Room, Transform } from "./view";

/** What is painted: the parts that are seen, and what they wear. */
export interface Picture {
  groups: readonly Box[];
  lines: readonly Line[];
  nodes: readonly Node[];
  /** From afar: a box for each group, and what joins them. */
  overview: { groups: readonly Seen[]; joined: readonly Joined[] } | null;
  distance: "far" | "mid" | "near";
  selected: ReadonlySet<string>;
  is_selected(line: Line): boolean;
  is_near(line: Line): boolean;
  is_taken(line: Line): boolean;
  lit: string;
  fault: string;
  badges: ReadonlyMap<string, number>;
}

const COLOURS = ["canvas", "node", "node-line", "line", "text", "dim", "edge", "urgent", "cancel", "accent", "lit", "lit-line", "taken", "bad", "good", "bg", "line-strong", "panel"] as const;
type Colour = (typeof COLOURS)[number];

export class Painter {
  readonly element = h("canvas", { className: "moving-picture", "aria-hidden": "true", hidden: true });
  private readonly pen = this.element.getContext("2d", { alpha: false })!;
  private readonly paths = new WeakMap<object, { line: Path2D; head: Path2D }>();
  private colours = {} as Record<Colour, string>;
  /** Fonts of one pixel; the size is put in for each word. */
  private fonts = { bold: "", code: "", label: "" };

  private at: Transform = { x: 0, y: 0, k: 1 };
  private sharp = 1;

  get is_shown(): boolean { return !this.element.hidden; }

  /** Takes its place over the drawn graph, in the colours of now. */
  show(room: Room): void {
    const style = getComputedStyle(document.documentElement);
    this.sharp = devicePixelRatio || 1;
    this.colours = Object.fromEntries(COLOURS.map(name => [name, style.getPropertyValue(`--${name}`).trim()])) as Record<Colour, string>;
    const sans = style.getPropertyValue("--sans");
    this.fonts = { bold: `600 1px ${sans}`, code: `1px ${style.getPropertyValue("--mono")}`, label: `1px ${sans}` };
    this.element.width = Math.round(room.width * this.sharp);
    this.element.height = Math.round(room.height * this.sharp);
    this.element.hidden = false;
  }
  hide(): void { this.element.hidden = true; }

  paint(picture: Picture, at: Transform): void {
    const { pen, colours } = this;
    this.at = picture.overview ? { ...at, k: 1 } : at;
    pen.setTransform(1, 0, 0, 1, 0, 0);
    pen.fillStyle = colours.canvas;
    pen.fillRect(0, 0, this.element.width, this.element.height);
    this.to_paper();
    if (picture.overview) {
      this.overview(picture.overview.groups, picture.overview.joined, at);
      return;
    }
    for (const box of picture.groups) this.group(box);
    for (const line of picture.lines) this.line(line, picture);
    if (picture.distance !== "far") for (const line of picture.lines) if (!line.across || picture.is_near(line)) this.label(line, picture);
    for (const node of picture.nodes) this.node(node, picture);
  }
  private to_paper(): void {
    const { sharp, at: { x, y, k } } = this;
    this.pen.setTransform(k * sharp, 0, 0, k * sharp, x * sharp, y * sharp);
  }
  /** Words in whole sizes of the screen: while one zooms, the browser then finds most letters drawn already. */
  private words(words: string, x: number, y: number, font: string, size: number, colour: string, align: CanvasTextAlign): void {
    const { pen, sharp, at } = this, pixels = Math.round(size * at.k * sharp);
    if (pixels < 3) return;
    pen.setTransform(1, 0, 0, 1, 0, 0);
    pen.font = font.replace("1px", `${pixels}px`);
    pen.fillStyle = colour;
    pen.textAlign = align;
    pen.fillText(words, Math.round((x * at.k + at.x) * sharp), Math.round((y * at.k + at.y) * sharp));
    this.to_paper();
  }

  private overview(groups: readonly Seen[], joined: readonly Joined[], at: Transform): void {
    const { pen, colours, sharp } = this, width = this.element.width / sharp, height = this.element.height / sharp;
    pen.strokeStyle = colours.edge;
    pen.globalAlpha = joined_alpha(joined.length);
    for (const { from, to, count } of joined) {
      const a = groups[from].box, b = groups[to].box;
      pen.lineWidth = joined_width(count);
      pen.beginPath();
      pen.moveTo(a.x * at.k, a.y * at.k);
      pen.lineTo(b.x * at.k, b.y * at.k);
      pen.stroke();
    }
    pen.globalAlpha = 1;
    for (const { x, y, width: wide, height: tall, corner, lit, selected, texts } of group_views(groups, at.k)) {
      if (x + at.x > width || y + at.y > height || x + wide + at.x < 0 || y + tall + at.y < 0) continue;
      this.box({ x, y, width: wide, height: tall }, corner, lit ? colours.lit : colours.node, lit ? colours["lit-line"] : selected ? colours.accent : colours["node-line"], lit || selected ? 2 : 1);
      for (const { words, x: left, y: base, kind } of texts) this.words(words, left, base, kind === "says" ? this.fonts.label : this.fonts.bold, 12, kind === "title" || lit ? colours.text : colours.dim, "left");
    }
  }

  /** A box by its corner. */
  private box({ x, y, width, height }: Box, corner: number, fill: string, stroke: string, wide: number): void {
    const { pen } = this;
    pen.beginPath();
    pen.roundRect(x, y, width, height, corner);
    pen.fillStyle = fill;
    pen.fill();
    pen.strokeStyle = stroke;
    pen.lineWidth = wide;
    pen.stroke();
  }

  private group({ x, y, width, height }: Box): void {
    this.pen.globalAlpha = 0.65;
    this.box({ x: x - width / 2, y: y - height / 2, width, height }, 14, this.colours.panel, this.colours.line, 1);
    this.pen.globalAlpha = 1;
  }

  private line(line: Line, picture: Picture): void {
    const { pen, colours } = this, { route, bundle: { drawn } } = line, is_selected = picture.is_selected(line), is_taken = picture.is_taken(line);
    let paths = this.paths.get(route);
    if (!paths) this.paths.set(route, paths = { line: new Path2D(route.path), head: new Path2D(head(route.tip, route.toward, drawn === "urgent")) });
    const colour = is_selected ? colours.accent : is_taken ? colours.taken : drawn === "plain" ? colours.edge : colours[drawn];
    pen.globalAlpha = line.across && !is_selected && !is_taken && !picture.is_near(line) ? 0.45 : 1;
    pen.strokeStyle = pen.fillStyle = colour;
    pen.lineWidth = is_selected ? 2.5 : is_taken ? 3 : drawn === "urgent" ? 2 : drawn === "cancel" ? 1.75 : 1.5;
    if (drawn === "cancel") pen.setLineDash([6, 4]);
    pen.stroke(paths.line);
    if (drawn === "cancel") pen.setLineDash([]);
    pen.fill(paths.head);
    pen.globalAlpha = 1;
  }

  private label(line: Line, picture: Picture): void {
    const { pen, colours, fonts } = this, { label, bundle } = line;
    if (!label) return;
    const { anchor, x, tops } = label_place(line, label), size = picture.distance === "mid" ? 13 : 12, { width, height } = label;
    pen.fillStyle = colours.canvas;
    pen.globalAlpha = 0.7;
    pen.fillRect(label.x - width / 2, label.y - height / 2, width, height);
    pen.globalAlpha = 1;
    bundle.labels.forEach((own, i) => own.lines.forEach((each, k) => {
      const colour = each.kind === "delay" || each.kind === "when" ? colours.text : colours.dim;
      this.words((each.lead ?? "") + each.text + (each.more ?? ""), label.x + x, label.y + tops[i] + LABEL * (k + 0.76), each.kind === "when" ? fonts.code : fonts.label, size, colour, anchor === "middle" ? "center" : anchor);
    }));
  }

  private node({ shape, box }: Node, picture: Picture): void {
    const { colours, fonts } = this, { width, height, name } = shape, x = box.x - width / 2, y = box.y - height / 2;
    const is_lit = name === picture.lit, is_fault = name === picture.fault, is_selected = picture.selected.has(name);
    const edge = is_fault ? colours.bad : is_lit ? colours["lit-line"] : is_selected ? colours.accent : colours["node-line"];
    this.box({ x, y, width, height }, 10, is_lit ? colours.lit : colours.node, edge, is_fault ? 3 : is_lit || is_selected ? 2 : 1.25);
    const colour = is_fault ? colours.bad : colours.text;
    if (picture.distance === "far") {
      const size = far_size(shape);
      this.words(name, box.x, box.y + size * 0.36, fonts.bold, size, colour, "center");
      return;
    }
    const middle = y + (shape.lines.length ? HEAD : height) / 2;
    this.words(name + (shape.title ? ` ${shape.title}` : ""), box.x, middle + 4.5, fonts.bold, picture.distance === "mid" ? 15 : 13, colour, "center");
    this.lines(shape.lines, x, y, width);
    this.signs(shape, picture.badges.get(name) ?? 0, x, y, middle);
  }

  private lines(lines: readonly string[], x: number, y: number, width: number): void {
    const { pen, colours } = this;
    if (!lines.length) return;
    pen.strokeStyle = colours.line;
    pen.lineWidth = 1;
    pen.beginPath();
    pen.moveTo(x + 1, y + HEAD);
    pen.lineTo(x + width - 1, y + HEAD);
    pen.stroke();
    lines.forEach((line, i) => this.words(line, x + 14, y + HEAD + 17 + i * LINE, this.fonts.code, 12, colours.dim, "left"));
  }

  /** What stands in the head of an event: whether it is watched, whether it is the first, how many are pending. */
  private signs({ watched, first, width }: NodeShape, number: number, x: number, y: number, middle: number): void {
    const { pen, colours } = this;
    const placed = (left: number, top: number, by: number, body: () => void): void => { pen.save(); pen.translate(left, top); pen.scale(by, by); body(); pen.restore(); };
    if (watched) placed(x + 10, middle - 6, 0.8, () => { pen.strokeStyle = colours.dim; pen.lineWidth = 1.6; pen.stroke(new Path2D(EYE)); });
    if (first) placed(x, y, 1, () => {
      pen.fillStyle = colours.good;
      pen.beginPath();
      pen.arc(0, 0, 9, 0, 7);
      pen.fill();
      pen.fillStyle = colours.canvas;
      pen.fill(new Path2D(START));
    });
    if (!number) return;
    this.box({ x: x + width - 31, y: middle - 9, width: 24, height: 18 }, 9, colours.bg, colours["line-strong"], 1);
    this.words(number > 99 ? "99+" : String(number), x + width - 19, middle + 4, this.fonts.bold, 11, colours.dim, "center");
  }
}
