// The commands of the menus, the palette and the keys.
import { App } from "../app";
import { ExperimentsTab } from "../experiments/experiments_tab";
import { Inspector } from "../forms/inspector";
import type { LayOut } from "../graph/laying";
import type { Point } from "../graph/layout";
import { ReduceTab } from "../reduce/reduce_tab";
import { EMPTY } from "../store/store";
import { read_places, write_places } from "../text/edits";
import { download } from "../ui/dom";
import { Guide } from "../ui/guide";
import { commands, keys_shown, note, open_palette } from "../ui/menu";
import { Clipboard } from "./clipboard";
import { Drawing } from "./drawing";
import { Files } from "./files";
import { open_gallery } from "./gallery";
import { open_about, open_help } from "./help";
import { show_text } from "./frame";
import { GRAPH_RULES, picture_style, png_of, save_blob } from "./pictures";
import { print_report } from "./report";
import { Tabs } from "./tabs";
import { open_versions } from "./versions";

export interface Makers {
  app: App; files: Files; drawing: Drawing; clipboard: Clipboard; inspector: Inspector; experiments: ExperimentsTab; reduce: ReduceTab; tabs: Tabs; guide: Guide; lay_out: LayOut;
  redraw(fit: boolean): Promise<void>; turn_theme(): void; run(): void;
}

export function palette(app: App): void {
  const to_event = (name: string) => { app.pick({ kind: "event", name }); app.show_part("graph", false); app.canvas.seek(name, true); app.canvas.focus(`event:${name}`); };
  const to_variable = (name: string) => { app.pick(null); app.show_part("form", false); document.querySelector<HTMLInputElement>(`[data-field="var:${name}/name"]`)?.focus(); };
  open_palette(() => [
    ...(app.store.shown?.vertices ?? []).map(({ name }) => ({ title: name, hint: "event", icon: "graph", run: () => to_event(name) })),
    ...(app.store.shown?.vars ?? []).map(({ name }) => ({ title: name, hint: "variable", icon: "chart", run: () => to_variable(name) })),
    ...commands.filter(each => each.id !== "palette" && (each.can?.() ?? true)).map(each => ({ title: each.title, hint: each.keys ? keys_shown(each.keys) : each.group, icon: each.icon ?? "right", run: each.run })),
  ]);
}

export function add_commands({ app, files, drawing, clipboard, inspector, experiments, reduce, tabs, guide, lay_out, redraw, turn_theme, run }: Makers): void {
  const { store } = app, has_model = () => store.shown !== null, has_pick = () => app.picked !== null, has_event = () => app.picked?.kind === "event", is_accepted = () => store.verdict.state === "accepted";
  const picture_name = (ending: string) => (store.doc.file || "model.sigma").replace(/\.\w+$/, ending);
  const graph = () => app.canvas.svg_text(picture_style(GRAPH_RULES));
  const lay_out_text = () => {
    if (store.verdict.state !== "accepted") return;
    store.edit(store.verdict.model.text, "Lay out the text");
    note("The text is laid out as the program prints it. Its comments are gone.", "", { title: "Undo", run: () => store.undo() });
  };
  const on_paper = (place?: Point) => {
    if (!place) return null;
    app.canvas.stand_still();
    return app.canvas.view.point({ clientX: place.x, clientY: place.y });
  };
  const forget_places = () => { if (Object.keys(read_places(store.doc.text)).length) store.edit(write_places(store.doc.text, {}), "Lay out the graph"); };
  const turn = () => { app.canvas.sideways = !(app.canvas.sideways ?? app.canvas.is_wide); forget_places(); void redraw(true); };
  commands.push(
    { id: "new", title: "New model", group: "File", icon: "plus", run: () => void files.open(EMPTY, "New") },
    { id: "open", title: "Open …", keys: "Ctrl+O", group: "File", run: () => files.choose() },
    { id: "examples", title: "Examples …", group: "File", icon: "graph", run: () => open_gallery(app, files, lay_out) },
    { id: "save", title: "Save", keys: "Ctrl+S", group: "File", run: () => files.save() },
    { id: "rename", title: "Rename …", group: "File", run: () => files.rename() },
    { id: "link", title: "Link …", group: "File", can: has_model, run: () => void files.link() },
    { id: "svg", title: "Save picture as SVG", group: "File", can: has_model, run: () => download(picture_name(".svg"), graph(), "image/svg+xml") },
    { id: "png", title: "Save picture as PNG", group: "File", can: has_model, run: () => void png_of(graph()).then(blob => save_blob(picture_name(".png"), blob)) },
    { id: "print", title: "Print a report …", keys: "Ctrl+P", group: "File", run: () => void print_report(app, experiments) },
    { id: "undo", title: "Undo", keys: "Ctrl+Z", icon: "undo", group: "Edit", can: () => store.undo_label !== null, run: () => store.undo() },
    { id: "redo", title: "Redo", keys: "Ctrl+Y", icon: "redo", group: "Edit", can: () => store.redo_label !== null, run: () => store.redo() },
    { id: "versions", title: "Versions …", icon: "copy", group: "Edit", run: () => open_versions(app) },
    { id: "new-event", title: "New event", keys: "N", icon: "plus", group: "Edit", run: place => void drawing.create(on_paper(place)) },
    { id: "new-edge", title: "New edge from here …", keys: "E", icon: "edge", group: "Edit", can: has_event, run: () => drawing.ask_edge() },
    { id: "cut", title: "Cut", keys: "Ctrl+X", icon: "cut", group: "Edit", can: has_event, run: () => void clipboard.take(true) },
    { id: "copy", title: "Copy", keys: "Ctrl+C", icon: "copy", group: "Edit", can: has_event, run: () => void clipboard.take(false) },
    { id: "paste", title: "Paste", keys: "Ctrl+V", icon: "paste", group: "Edit", run: place => void clipboard.put(on_paper(place)) },
    { id: "duplicate", title: "Duplicate", keys: "Ctrl+D", icon: "copies", group: "Edit", can: has_event, run: () => void drawing.duplicate() },
    ...([["align-row", "Side by side"], ["align-column", "Below each other"], ["spread-row", "Equal spaces, side by side"], ["spread-column", "Equal spaces, below each other"]] as const).map(([id, title]) =>
      ({ id, title, group: "Edit", can: () => app.more.length > 1, run: () => app.canvas.align(app.more, id.replace("align-", "") as "row") })),
    { id: "edit-form", title: "Edit in the form", keys: "F2", icon: "form", group: "Edit", can: has_pick, run: () => { app.show_part("form", false); inspector.focus_first(); } },
    { id: "delete", title: "Delete", keys: "Del", icon: "trash", group: "Edit", can: has_pick, run: () => void inspector.remove() },
    { id: "number", title: "New number variable", group: "Edit", can: has_model, run: () => void inspector.add_variable(false) },
    { id: "truth", title: "New true-or-false variable", group: "Edit", can: has_model, run: () => void inspector.add_variable(true) },
    { id: "print-text", title: "Lay out the text", group: "Edit", can: is_accepted, run: lay_out_text },
    { id: "fit", title: "Show the whole graph", keys: "0", icon: "fit", group: "View", run: () => app.canvas.fit() },
    { id: "tidy", title: "Lay out the graph anew", icon: "tidy", group: "View", can: has_model, run: () => { forget_places(); void redraw(true); } },
    { id: "sideways", title: "From left to right", icon: "turn", group: "View", run: turn },
    { id: "text-pane", title: "Show or hide the text", icon: "text", group: "View", run: () => show_text(app, document.body.classList.contains("no-text")) },
    { id: "form-pane", title: "Show or hide the form", icon: "form", group: "View", run: () => document.body.classList.toggle("no-form") },
    { id: "dock-max", title: "Maximise the panel", keys: "Ctrl+M", icon: "max", group: "View", run: () => tabs.toggle_max() },
    { id: "theme", title: "Light or dark", icon: "moon", group: "View", run: turn_theme },
    { id: "run", title: "Run", keys: "Ctrl+Enter", icon: "play", group: "Run", run },
    { id: "experiment", title: "Experiments: run", icon: "flask", group: "Run", run: () => { tabs.open("experiments"); void experiments.compare(); } },
    { id: "add-design", title: "Add a design", icon: "plus", group: "Run", can: is_accepted, run: () => { tabs.open("experiments"); store.add_design(); } },
    { id: "reduce", title: "Reduce", icon: "reduce", group: "Run", run: () => { tabs.open("reduce"); void reduce.go("reduce"); } },
    { id: "compare", title: "Compare with another model", icon: "compare", group: "Run", run: () => tabs.open("compare") },
    { id: "show-conflicts", title: "Conflicts", icon: "conflict", group: "Run", run: () => tabs.open("conflicts") },
    { id: "palette", title: "Find or do …", keys: "Ctrl+K", icon: "search", group: "Help", run: () => palette(app) },
    { id: "guide", title: "Your first model, in five steps", icon: "flag", group: "Help", run: () => void files.open(EMPTY, "New").then(done => { if (done) guide.open(); }) },
    { id: "help", title: "Help", keys: "?", icon: "help", group: "Help", run: open_help },
    { id: "about", title: "About", group: "Help", run: () => void open_about(app) });
}
