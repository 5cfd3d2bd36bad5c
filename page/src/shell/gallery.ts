// The gallery: each example as a picture of its graph, with the question that it answers.
import { App } from "../app";
import { Canvas } from "../graph/canvas";
import type { LayOut } from "../graph/laying";
import { read_model } from "../text/model";
import { h } from "../ui/dom";
import { dialog } from "../ui/menu";
import { example_doc, Files } from "./files";

export function open_gallery(app: App, files: Files, lay_out: LayOut): void {
  const { examples, questions } = app.data;
  const rank = (name: string) => { const at = Object.keys(questions).indexOf(name); return (questions[name]?.question ? 0 : 100) + (at < 0 ? 99 : at); };
  const names = Object.keys(examples).sort((a, b) => rank(a) - rank(b));
  const search = h("input", { type: "search", placeholder: "Search examples", "aria-label": "Search examples" }), cards = h("div", { className: "gallery" });
  const pictures = new Map<Element, string>();
  // A picture is drawn once its card comes into view.
  const seen = new IntersectionObserver(entries => {
    for (const { isIntersecting, target } of entries) {
      const name = pictures.get(target);
      if (!isIntersecting || name === undefined) continue;
      pictures.delete(target);
      void draw(app, lay_out, target as HTMLElement, name);
    }
  });
  const choose = async (name: string) => {
    box.close();
    if (await files.open(example_doc(app.data, name), "Open")) { app.open_tab("run"); app.show_part("graph", false); }
  };
  const card = (name: string) => {
    const { title = "", question = "" } = questions[name] ?? {}, picture = h("div", { className: "thumb" });
    seen.observe(picture);
    pictures.set(picture, name);
    return h("button", { className: "card", "data-example": name, onclick: () => void choose(name) }, picture, h("b", {}, name.replaceAll("_", " ")), h("p", {}, question || `${title.slice(0, 1).toUpperCase()}${title.slice(1)}.`));
  };
  const show = () => cards.replaceChildren(...names.filter(name => (name + (questions[name]?.title ?? "")).toLowerCase().includes(search.value.toLowerCase())).map(card));
  search.oninput = show;
  const box = dialog("Examples", search, cards);
  box.classList.add("wide");
  box.addEventListener("close", () => seen.disconnect());
  show();
  search.focus();
}

async function draw(app: App, lay_out: LayOut, place: HTMLElement, name: string): Promise<void> {
  const answer = await app.engine.call({ words: ["print"], input: app.data.examples[name] });
  if (answer.status !== 0) return;
  const small = new Canvas(lay_out, {}, { label: "", still: true });
  place.append(small.element);
  small.element.inert = true;
  await small.show(read_model(answer.out), {});
  small.fit();
}
