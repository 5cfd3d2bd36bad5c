// Copy, cut and paste of events. The browser's own clipboard holds them as model text, so they go to other windows and editors too.
import { App } from "../app";
import { Inspector } from "../forms/inspector";
import type { Point } from "../graph/layout";
import { excerpt_of } from "../text/excerpts";
import { plural } from "../ui/format";
import { keys_shown, note } from "../ui/menu";
import { Drawing } from "./drawing";

const TYPED_IN = "input, textarea, select, .CodeMirror, dialog";

/** Whether a key of the clipboard means the graph: nothing is typed in, and no words are selected elsewhere. */
function means_graph(): boolean {
  const focused = document.activeElement, selection = getSelection();
  if (document.querySelector("dialog[open]") || focused?.closest(TYPED_IN)) return false;
  return Boolean(focused?.closest(".canvas")) || (selection?.isCollapsed ?? true);
}

export class Clipboard {
  constructor(private readonly app: App, private readonly drawing: Drawing, private readonly inspector: Inspector) {
    document.addEventListener("copy", event => this.taken(event));
    document.addEventListener("cut", event => { if (this.taken(event)) void this.inspector.remove("Cut"); });
    document.addEventListener("paste", event => {
      if (!means_graph() || !event.clipboardData) return;
      event.preventDefault();
      void this.drawing.paste(event.clipboardData.getData("text/plain"), null);
    });
  }

  /** The picked events as model text; nothing where none are picked, or where the text is refused. */
  private excerpt(): string | null {
    const { app, drawing: { picked_events: names } } = this, { store } = app;
    if (!names.length) return null;
    if (store.verdict.state === "refused") { note("The text is refused: mend it first, then events can be copied.", "bad"); return null; }
    return excerpt_of(store.doc.text, names, app.canvas.places);
  }

  /** Puts the picked events on the clipboard; true if it did. */
  private taken(event: ClipboardEvent): boolean {
    const text = means_graph() && event.clipboardData ? this.excerpt() : null;
    if (text === null) return false;
    event.clipboardData!.setData("text/plain", text);
    event.preventDefault();
    if (event.type === "copy") this.tell_copied();
    return true;
  }
  private tell_copied(): void { note(`${plural(this.drawing.picked_events.length, "event")} copied, as model text.`, "good"); }

  /** Copy and Cut of a menu. */
  async take(cuts: boolean): Promise<void> {
    const text = this.excerpt(), { picked, more } = this.app;
    if (text === null) return;
    try { await navigator.clipboard.writeText(text); }
    catch { note(`The browser keeps its clipboard from menus: press ${keys_shown(cuts ? "Ctrl+X" : "Ctrl+C")}.`, "bad"); return; }
    if (cuts) await this.inspector.remove("Cut", { picked, more }); else this.tell_copied();
  }

  /** Paste of a menu, at a place of the paper. */
  async put(place: Point | null): Promise<void> {
    let text: string;
    try { text = await navigator.clipboard.readText(); }
    catch { note(`The browser keeps its clipboard from menus: press ${keys_shown("Ctrl+V")}.`, "bad"); return; }
    await this.drawing.paste(text, place);
  }
}
