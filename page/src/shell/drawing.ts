// What the mouse and the keys draw on the paper, written into the text.
import { App } from "../app";
import { Inspector } from "../forms/inspector";
import type { Point } from "../graph/layout";
import { bounds_of } from "../graph/scene";
import { add_event, apply_edits, free_name, read_places, write_places } from "../text/edits";
import { excerpt_of, is_excerpt, Joined, moved_places, with_excerpt } from "../text/excerpts";
import { parts_of } from "../text/places";
import { count, plural } from "../ui/format";
import { note, open_palette } from "../ui/menu";
import { MOST_TEXT } from "./links";

/** The size of an event that isn't drawn yet, and how far copies lie from what they are copied from. */
const NEW_EVENT = { width: 140, height: 60 }, BESIDE = 40;
const short_list = (names: readonly string[]): string => (names.length > 4 ? `${names.slice(0, 3).join(", ")} and ${names.length - 3} more` : names.join(", "));

export class Drawing {
  constructor(private readonly app: App, private readonly inspector: Inspector) {}

  get picked_events(): string[] {
    const { more, picked } = this.app;
    return more.length ? more : picked?.kind === "event" ? [picked.name] : [];
  }

  /** Whether the text can be drawn in: forms are written, and the program accepts it. */
  private async is_ready(): Promise<boolean> {
    const { store } = this.app, problem = await store.commit_forms();
    if (problem) { note(problem, "bad"); return false; }
    if (store.verdict.state === "checking") await store.check();
    if (store.verdict.state === "refused") { note("The text is refused: mend it first.", "bad", { title: "Show", run: this.app.show_fault }); return false; }
    return true;
  }

  /** A new event where one pointed; the others stay where they are. */
  async create(place: { x: number; y: number } | null, from?: string): Promise<void> {
    if (!(await this.is_ready())) return;
    const { app } = this, { store } = app, name = free_name(store.doc.text, "EVENT1"), places = app.canvas.places, at_place = place ?? (app.canvas.names.length ? app.canvas.free_place() : null);
    let text = apply_edits(store.doc.text, add_event(store.doc.text, name));
    if (at_place) text = write_places(text, { ...places, [name]: at_place });
    store.edit(text, `New event ${name}`);
    await store.check();
    if (from) await this.inspector.connect(from, name);
    app.pick({ kind: "event", name });
    app.show_part("form", false);
    this.inspector.focus_first();
  }

  /** Copies of the picked events beside them. */
  async duplicate(): Promise<void> {
    const { store, canvas } = this.app, names = this.picked_events;
    if (names.length && await this.is_ready()) await this.put_in(excerpt_of(store.doc.text, names, canvas.places), ["Duplicate", "duplicated"], null);
  }

  /** The events of an excerpt as new ones, at a place of the paper or beside those that it was copied from. */
  async paste(excerpt: string, place: Point | null): Promise<void> {
    const is_long = excerpt.length > MOST_TEXT;
    if (is_long || !is_excerpt(excerpt)) note(!excerpt.trim() ? "There is no text on the clipboard." : is_long ? `A text has at most ${count(MOST_TEXT)} bytes; that on the clipboard is longer.` : "What is on the clipboard isn't events of a model, so nothing is pasted. Copy events on the graph, or in the text from vertex to }.", "bad");
    else if (await this.is_ready()) await this.put_in(excerpt, ["Paste", "pasted"], place);
  }

  private async put_in(excerpt: string, [verb, done]: readonly [string, string], place: Point | null): Promise<void> {
    const { app } = this, { canvas, store } = app, made: { now?: Joined } = {}, copied = parts_of(excerpt).vertices.map(each => each.name.word);
    const clash = (): string | null => (made.now?.clashes.length ? `${made.now.clashes.join(", ")} is something else in this model: give it another name first.` : null);
    const is_in = await this.inspector.edit(`${verb} ${short_list(copied)}`, text => {
      made.now = with_excerpt(text, excerpt);
      const moved = moved_places(excerpt, made.now.names, this.way_to_room(excerpt, place));
      return [{ from: 0, to: text.length, text: Object.keys(moved).length ? write_places(made.now.text, { ...canvas.places, ...moved }) : made.now.text }];
    }, clash);
    if (!is_in) return;
    const { names, lost, otherwise } = made.now!, all = [...names.values()], absent = [...new Set(lost.map(edge => edge.to))];
    app.pick({ kind: "event", name: all[0] }, all.length > 1 ? all : []);
    canvas.seek(all[0]);
    const without = lost.length ? ` ${plural(lost.length, "edge")} left out: there is no ${short_list(absent)} here.` : "", other = otherwise.length ? ` This model's own ${short_list(otherwise)} is used, which is declared otherwise.` : "";
    note(`${short_list(all)} ${done}.${without}${other}`, lost.length || otherwise.length ? "" : "good", { title: "Undo", run: () => store.undo() });
  }

  /** How far the events of an excerpt are moved: to a place, or where nothing lies. */
  private way_to_room(excerpt: string, place: Point | null): Point {
    const { canvas } = this.app, { nodes } = canvas.scene, places = Object.entries(read_places(excerpt));
    if (!places.length) return { x: 0, y: 0 };
    const box = bounds_of(places.flatMap(([name, { x, y }]) => { const { width, height } = nodes.get(name)?.box ?? NEW_EVENT; return [{ x: x - width / 2, y: y - height / 2 }, { x: x + width / 2, y: y + height / 2 }]; }));
    if (place) return { x: Math.round(place.x - box.x), y: Math.round(place.y - box.y) };
    const seen = canvas.view.seen(), is_seen = Math.abs(box.x - seen.x) < seen.width / 2 && Math.abs(box.y - seen.y) < seen.height / 2;
    const to = canvas.free_place(box, is_seen ? { x: box.x + BESIDE, y: box.y + BESIDE } : seen);
    return { x: Math.round(to.x - box.x), y: Math.round(to.y - box.y) };
  }

  /** Asks where a new edge from the picked event goes. */
  ask_edge(): void {
    const { picked, store } = this.app;
    if (picked?.kind !== "event") return;
    const from = picked.name;
    open_palette(() => store.shown!.vertices.map(each => ({ title: each.name, hint: "event", icon: "edge", run: () => void this.connect(from, each.name) })), `An edge from ${from} to which event?`);
  }
  /** A new edge; its form is open, the cursor in its delay. */
  async connect(from: string, to: string): Promise<void> {
    await this.inspector.connect(from, to);
    this.app.show_part("form", false);
    this.inspector.focus_field("delay");
  }
}
