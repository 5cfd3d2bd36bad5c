// From afar a large graph is one box a group: its name, its events by name, how many of them are pending. It is drawn in the units of
// the screen, so that its text is always read.
import { s, text_width } from "../ui/dom";
import { Box } from "./layout";
import { Transform } from "./view";

export interface Seen { name: string; members: readonly string[]; box: Box; pending: number; lit: string; selected: boolean }
export interface Joined { from: number; to: number; count: number }
export const joined_width = (count: number): number => Math.min(4, 1 + Math.log2(count));
/** The more lines there are, the fainter they are, so that the boxes are seen. */
export const joined_alpha = (lines: number): number => Math.max(0.12, Math.min(0.5, 150 / lines));
/** A group in the units of the screen: the box by its corner, and its words. */
export interface GroupView extends Box { group: Seen; corner: number; lit: boolean; selected: boolean; texts: { words: string; x: number; y: number; kind: "title" | "waits" | "says" }[] }

const BOLD = "600 12px Inter, system-ui, sans-serif", PLAIN = "12px Inter, system-ui, sans-serif", LINE = 15;

/** As much of a text as there is room for, by the share of its width: to measure each shorter one would take too long in each frame. */
function cut(text: string, room: number, font: string): string {
  const whole = text_width(text, font);
  return whole <= room ? text : text.slice(0, Math.max(1, Math.floor(text.length * room / whole) - 1)) + "…";
}

/** Its first event names a group; below are how many are pending, and as many of its other events as there is room for. */
export function group_views(groups: readonly Seen[], k: number): GroupView[] {
  return groups.map(group => {
    const { name, members, box, pending, lit, selected } = group, width = Math.max(18, box.width * k), height = Math.max(14, box.height * k), x = box.x * k - width / 2, y = box.y * k - height / 2;
    const rows = Math.max(0, Math.floor((height - 10) / LINE)), waits = pending ? `${pending} pending` : "", texts: GroupView["texts"] = [];
    const others = members.slice(1), free = rows - 1 - (waits ? 1 : 0), names = free >= others.length ? others : others.slice(0, Math.max(0, free - 1)), rest = others.length - names.length;
    const say = (words: string, kind: "title" | "waits" | "says"): void => { texts.push({ words: cut(words, width - 8, kind === "title" ? BOLD : PLAIN), x: x + 5, y: y + 16 + texts.length * LINE, kind }); };
    if (width >= 34 && rows > 0) {
      say(lit || name, "title");
      if (waits && rows > 1) say(waits, "waits");
      for (const each of names) say(each === lit ? name : each, "says");
      if (rest > 0 && free > 0) say(`+ ${rest} more`, "says");
    }
    return { group, x, y, width, height, corner: Math.min(10, height / 3), lit: lit !== "", selected, texts };
  });
}

export class Overview {
  readonly element = s("g", { class: "overview" });
  private scale = 0;
  private drawn: readonly Seen[] = [];

  hide(): void { this.element.classList.add("none"); }

  show(groups: readonly Seen[], joined: readonly Joined[], at: Transform): void {
    this.element.classList.remove("none");
    this.element.setAttribute("transform", `translate(${at.x} ${at.y})`);
    if (at.k === this.scale && groups === this.drawn) return;
    this.scale = at.k;
    this.drawn = groups;
    const lines = joined.map(({ from, to, count }) => {
      const a = groups[from].box, b = groups[to].box;
      return s("path", { class: "joined", d: `M${a.x * at.k} ${a.y * at.k}L${b.x * at.k} ${b.y * at.k}`, "stroke-width": joined_width(count) }, s("title", {}, `${groups[from].name} … ${groups[to].name}: ${count}`));
    });
    this.element.replaceChildren(s("g", { "stroke-opacity": joined_alpha(lines.length) }, ...lines), s("g", {}, ...group_views(groups, at.k).map(drawn_group)));
  }
}

function drawn_group({ group: { name, members, pending }, x, y, width, height, corner, lit, selected, texts }: GroupView): SVGElement {
  const says = `${members.length} event${members.length === 1 ? "" : "s"}${pending ? `, ${pending} pending` : ""}`;
  return s("g", { class: `group-box${lit ? " lit" : ""}${selected ? " selected" : ""}`, "data-group": name }, s("title", {}, `${name}: ${says}\n${members.join(", ")}`),
    s("rect", { x, y, width, height, rx: corner }), ...texts.map(({ words, x: left, y: base, kind }) => s("text", { class: kind, x: left, y: base }, words)));
}
