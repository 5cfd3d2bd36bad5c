// Versions of a document: states that were kept by a name or at a save, and the steps of Undo. One can go back to each, and Undo takes that back.
import { App } from "../app";
import { different_lines } from "../experiments/forms";
import { h } from "../ui/dom";
import { plural } from "../ui/format";
import { dialog, note } from "../ui/menu";

const when = (at: number): string => new Date(at).toLocaleString("en", { dateStyle: "medium", timeStyle: "short" });
const differs = (from: string, to: string): string => { const lines = different_lines(from, to).length; return lines ? `${plural(lines, "line")} other than now` : "as it is now"; };

export function open_versions(app: App): void {
  const { store } = app, list = h("ul", { className: "versions" }), steps = h("ol", { className: "versions" });
  const name = h("input", { type: "text", placeholder: "Name of this version", "aria-label": "Name of this version", onkeydown: (event: KeyboardEvent) => { if (event.key === "Enter") keep(); } });
  const keep = () => {
    store.keep_version(name.value.trim() || `Version ${store.doc.versions.length + 1}`);
    name.value = "";
    show();
  };
  const go = (label: string, act: () => void) => { box.close(); act(); note(`${label} is in place.`, "good", { title: "Undo", run: () => store.undo() }); };
  const show = () => {
    const { versions, text } = store.doc;
    list.replaceChildren(...[...versions].reverse().map(version => h("li", {}, h("b", {}, version.name), h("small", {}, `${when(version.at)} · ${differs(version.text, text)}`),
      h("button", { className: "small", disabled: version.text === text, onclick: () => go(version.name, () => store.edit(version.text, `Go back to ${version.name}`)) }, "Go back"),
      h("button", { className: "small", "aria-label": `Remove ${version.name}`, onclick: () => { store.remove_version(version); show(); } }, "Remove"))));
    if (!versions.length) list.replaceChildren(h("li", { className: "dim" }, "None is kept yet. A version is also kept at each save."));
    steps.replaceChildren(...store.steps.slice(-40).reverse().map(({ label, back }) => h("li", {}, h("span", {}, label), back ? h("button", { className: "small", onclick: () => { box.close(); store.undo(back); } }, back === 1 ? "Undo this" : `Undo ${back} steps`) : null)));
    if (!store.steps.length) steps.replaceChildren(h("li", { className: "dim" }, "Nothing was changed since the page was opened."));
  };
  const box = dialog("Versions", h("div", { className: "row" }, name, h("button", { className: "primary", onclick: keep }, "Keep this version")), list, h("h3", {}, "Steps, the last one first"), steps);
  show();
  name.focus();
}
