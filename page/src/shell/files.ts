// Documents come and go here: new ones, files, examples, links. None takes the place of work that isn't saved without asking.
import { App } from "../app";
import { FIRST_SETTINGS } from "../store/settings";
import { Doc, EMPTY } from "../store/store";
import { download, h } from "../ui/dom";
import { count } from "../ui/format";
import { dialog, note } from "../ui/menu";
import { file_name } from "./kept";
import { BadLink, link_of, model_in_link, MOST_LINK, MOST_TEXT } from "./links";

/** An example with the settings of its run. */
export function example_doc(app: App["data"], name: string): Doc {
  const text = app.examples[name] ?? "", words = app.words[name] ?? "";
  const word = (of: string, other: string) => new RegExp(`--${of}[ =](\\S+)`).exec(words)?.[1] ?? other;
  const settings = { ...FIRST_SETTINGS, until: count(Number(word("until", "480"))), seed: word("seed", "1"), events: count(Number(word("events", "100000"))), start: word("start", "") };
  return { ...EMPTY, text, saved: text, file: `${name}.sigma`, settings };
}

export class Files {
  constructor(private readonly app: App) {}

  /** Whether this document may go: it is as it was saved, or the person says so. */
  private may_go(coming: string): Promise<boolean> {
    const { store, drafts } = this.app, name = store.doc.file || "Your model";
    if (!store.changed && !drafts.all.length) return Promise.resolve(true);
    return new Promise(done => {
      let answer = false;
      const choose = (value: boolean, first?: () => void) => { first?.(); answer = value; box.close(); };
      const box = dialog("Save first?", h("p", {}, `${name} has changes that aren't saved in a file. ${coming} takes its place.`),
        h("div", { className: "choices" },
          h("button", { className: "primary", onclick: () => choose(true, () => this.save()) }, "Save, then open"),
          h("button", { onclick: () => choose(true) }, "Open without saving"),
          h("button", { onclick: () => choose(false) }, "Stay here")),
        h("p", { className: "dim" }, "Undo brings this model back as long as the page is open."));
      box.addEventListener("close", () => done(answer));
      box.querySelector<HTMLButtonElement>(".choices .primary")?.focus();
    });
  }

  /** Puts another document in place; true if it did. */
  async open(doc: Doc, label: string): Promise<boolean> {
    if (!(await this.may_go(doc.file || "A new model"))) return false;
    this.app.store.open(doc, label);
    this.app.pick(null);
    return true;
  }

  private text_is_too_long(bytes: number): boolean {
    if (bytes <= MOST_TEXT) return false;
    note(`A text has at most ${count(MOST_TEXT)} bytes; this one has ${count(bytes)}.`, "bad");
    return true;
  }

  /** The name and the text of a file, or null with a note if it is too long. */
  private async read(file: File): Promise<{ name: string; text: string } | null> {
    return this.text_is_too_long(file.size) ? null : { name: file_name(file.name), text: await file.text() };
  }
  async open_blob(file: File): Promise<void> {
    const read = await this.read(file);
    if (read) await this.open({ ...EMPTY, text: read.text, saved: read.text, file: read.name }, "Open");
  }

  private pick(take: (file: File) => void): void {
    const input = h("input", { type: "file", accept: ".sigma,.txt,text/plain" });
    input.onchange = () => { const [file] = input.files ?? []; if (file) take(file); };
    input.click();
  }
  choose(): void { this.pick(file => void this.open_blob(file)); }
  /** Asks for a file without opening it. */
  ask(take: (file: { name: string; text: string }) => void): void { this.pick(file => void this.read(file).then(read => { if (read) take(read); })); }

  save(): void {
    const { store } = this.app, file = file_name(store.doc.file) || "model.sigma";
    download(file, store.doc.text);
    store.set({ saved: store.doc.text, file });
    store.keep_version(`Saved as ${file}`);
  }

  rename(): void {
    const { store } = this.app, field = h("input", { type: "text", value: store.doc.file || "model.sigma", "aria-label": "Name of the file", spellcheck: "false" });
    const take = () => { const name = file_name(field.value); if (name) store.set({ file: name }); box.close(); };
    const box = dialog("Rename", h("form", { className: "rename", onsubmit: (event: Event) => { event.preventDefault(); take(); } }, field, h("button", { className: "primary", type: "submit" }, "Rename")));
    field.focus();
    field.setSelectionRange(0, field.value.replace(/\.sigma$/, "").length);
  }

  /** A link with the model in it, for texts that are short when packed. */
  async link(): Promise<void> {
    const { store } = this.app, fragment = await link_of(store.doc.text, store.doc.file), whole = location.href.replace(/#.*$/, "") + fragment;
    if (whole.length > MOST_LINK) {
      note(`The link would have ${count(whole.length)} characters; programs that pass links on cut those above ${count(MOST_LINK)}. Send the file.`, "bad");
      return;
    }
    const field = h("textarea", { rows: "6", readonly: true, "aria-label": "The link" }, whole);
    const copy = async () => { field.select(); try { await navigator.clipboard.writeText(whole); } catch { document.execCommand("copy"); } note("The link is copied.", "good"); };
    const box = dialog("Link", h("p", {}, "Anyone with this page opens the model by the link. The model stands in it, so nothing is sent anywhere."), field,
      location.protocol === "file:" ? h("p", { className: "hint" }, `It names where the page lies on this disk. On another machine, take the part from # on and put it behind the address of the page there.`) : "",
      h("div", { className: "choices" }, h("button", { className: "primary", onclick: () => void copy() }, "Copy the link"), h("button", { onclick: () => { field.value = fragment; field.select(); } }, "Only the part from # on")));
    box.addEventListener("close", () => field.remove());
    field.select();
  }

  /** Opens what the page's own link carries, and takes it out of the address, so that a reload keeps what is done since. */
  async open_link(): Promise<void> {
    const { hash } = location;
    if (!hash.startsWith("#model=")) return;
    history.replaceState(null, "", location.href.replace(/#.*$/, ""));
    try {
      const model = (await model_in_link(hash))!;
      if (model.text !== this.app.store.doc.text) await this.open({ ...EMPTY, text: model.text, saved: model.text, file: file_name(model.name) }, "Open the link");
    } catch (problem) {
      if (!(problem instanceof BadLink)) throw problem;
      note(`The link can't be opened: ${problem.message}.`, "bad");
    }
  }
}
