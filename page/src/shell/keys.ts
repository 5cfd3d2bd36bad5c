// The keys of the page.
import { App } from "../app";
import { RunTab } from "../run/run_tab";
import { command_of } from "../ui/menu";

const WITH_CONTROL: Record<string, string> = { s: "save", o: "open", k: "palette", p: "print", m: "dock-max", enter: "run" };
/** Single letters are keys on the paper alone, so that none is pressed by mistake elsewhere. */
const ON_PAPER: Record<string, string> = { n: "new-event", e: "new-edge", "0": "fit", "?": "help" };

/** Takes back what was done last: what was typed into this field and isn't written yet, or else the last step of the document. */
function undo(app: App, event: KeyboardEvent, redo: boolean): void {
  const key = (event.target as Element).closest?.<HTMLElement>("[data-field]")?.dataset.field;
  if (key) {
    const [id, field] = [key.slice(0, key.lastIndexOf("/")), key.slice(key.lastIndexOf("/") + 1)];
    if (redo ? app.drafts.redo(id, field) : app.drafts.undo(id, field)) return;
  }
  if (redo) app.store.redo(); else app.store.undo();
}

export function listen_to_keys(app: App, run: RunTab, to_part: (back: boolean) => void): void {
  addEventListener("keydown", event => {
    const control = event.ctrlKey || event.metaKey, key = event.key.toLowerCase(), target = event.target as Element;
    const typing = Boolean(target.closest?.("input, textarea, select, .CodeMirror, dialog")), in_form = Boolean(target.closest?.(".inspector"));
    if (document.querySelector("dialog[open]") && key !== "escape") return;
    if (control && (key === "z" || key === "y") && (!typing || in_form)) undo(app, event, key === "y" || event.shiftKey);
    else if (control && key === "d" && !typing) command_of("duplicate").run();
    else if (control && WITH_CONTROL[key]) command_of(WITH_CONTROL[key]).run();
    else if (!control && !event.altKey && !typing && ON_PAPER[key] && target.closest?.(".canvas")) command_of(ON_PAPER[key]).run();
    else if (event.key === "F6") to_part(event.shiftKey);
    else if (event.key === "F9") run.toggle();
    else if (event.key === "F10") run.step(1);
    else if (event.key === "F8") run.step(-1);
    else return;
    event.preventDefault();
  });
}
