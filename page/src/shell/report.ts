// The printed report: the graph, the variables, the model in words, the results as they stand, and the text.
import { App } from "../app";
import { ExperimentsTab } from "../experiments/experiments_tab";
import { at, h } from "../ui/dom";
import { plural } from "../ui/format";
import { note } from "../ui/menu";
import { GRAPH_RULES, picture_style } from "./pictures";

const section = (title: string, ...children: (Node | string)[]): HTMLElement => h("section", {}, h("h2", {}, title), ...children);

async function graph_of(app: App): Promise<HTMLElement> {
  const picture = h("img", { alt: "The event graph", src: URL.createObjectURL(new Blob([app.canvas.svg_text(picture_style(GRAPH_RULES))], { type: "image/svg+xml" })) });
  await picture.decode();
  return picture;
}

/** What a tab shows, as it is on the screen. */
function shown_in(place: Element | null): HTMLElement | null {
  if (!place || !place.querySelector("svg.plot")) return null;
  const copy = place.cloneNode(true) as HTMLElement;
  for (const each of copy.querySelectorAll("button, select, .pickers")) each.remove();
  return copy;
}

export async function print_report(app: App, experiments: ExperimentsTab): Promise<void> {
  const { store } = app, verdict = await store.check();
  if (verdict.state !== "accepted") { note("There is no report: the program doesn't accept the text.", "bad"); return; }
  const { model } = verdict, { changed, doc: { file, text } } = store, told = await app.engine.call({ words: ["describe"], input: model.text });
  const variables = model.vars.map(each => h("tr", {}, h("th", { scope: "row" }, each.name + (each.cells ? `[${each.cells}]` : "")), h("td", {}, each.bool ? "true or false" : each.kind), h("td", {}, each.initial), h("td", {}, model.watch.includes(each.name) ? "watched" : "")));
  const run = shown_in(document.querySelector(".run-tab .charts")), compared = shown_in(experiments.element.querySelector(".results"));
  const old = document.querySelector(".run-tab .stale span")?.textContent;
  at("report").replaceChildren(...[
    h("header", {}, h("h1", {}, model.name), h("p", {}, `${file || "Untitled"}${changed ? ", with changes that aren't saved" : ""} · ${plural(model.vertices.length, "event")} · ${new Date().toLocaleString("en")}`)),
    section("The graph", await graph_of(app)),
    model.vars.length ? section("Variables", h("table", {}, h("thead", {}, h("tr", {}, ...["name", "range", "first", ""].map(each => h("th", {}, each)))), h("tbody", {}, ...variables))) : null,
    section("In words", h("pre", {}, told.out)),
    run ? section("A run", ...(old ? [h("p", { className: "stale" }, old)] : []), h("p", {}, document.querySelector(".run-status")?.textContent ?? ""), run) : null,
    compared ? section("Experiments", compared) : null,
    section("The text", h("pre", {}, text)),
    h("footer", {}, `Made by SIGMA in a page, version ${app.data.version}. The program's verdict: ${app.data.verdict}`),
  ].filter((each): each is HTMLElement => each !== null));
  print();
}
