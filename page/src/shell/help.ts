// Help: the mouse, the keys, what may be written and what the graph shows; and what this page is made of.
import { App } from "../app";
import { text_in } from "../engine/packed";
import { h } from "../ui/dom";
import { plural } from "../ui/format";
import { legend } from "../ui/legend";
import { commands, dialog, keys_shown } from "../ui/menu";

const MOUSE = [
  ["Double-click", "a new event there"], ["Drag an event", "moves it; its place is kept in the text"], ["Drag its +", "a new edge; on empty paper also a new event"],
  ["Shift + drag", "selects several"], ["Double-click a word", "edits it there"], ["Right click", "what can be done there"], ["Ctrl+C, Ctrl+V", "copies of the picked events, with the edges among them; also into another window or an editor"], ["Drag, wheel", "moves the paper"], ["Ctrl + wheel, pinch", "zooms"],
  ["Arrow keys", "lead along the edges, and to the next event"], ["Letters, /", "to the event of that name; find"], ["Alt + arrow keys", "move the event"],
];
const EXPRESSIONS = [
  ["QUEUE := QUEUE + 1", "stores a value"], ["A, B := B, A", "finds all values first"], ["draw GAP from 0 in 1..6", "each of 1 to 6 as likely, by stream 0"],
  ["draw WHO from 2 by TABLE", "a value of a table, by weight"], ["+ - * / %", "whole numbers; / rounds toward 0"], ["= <> < <= > >=", "compare"], ["and or not", "join conditions"],
  ["if C then A else B", "one of two values"], ["min(A, B) max(A, B)", "the lesser, the greater"], ["WAITING[2]", "a cell of an array"], ["clk", "the time now"],
  ["version 2;", "begins a text in which an edge draws its delay"],
];
const PANEL = [
  ["Run", "one run, event by event"], ["Experiments", "many runs, and designs compared"], ["Reduce", "what the model doesn't need, taken out"], ["Compare", "whether another model is the same"],
  ["Conflicts", "pairs of events whose order can matter"], ["Problems", "what is wrong, and what is likely a slip"], ["Describe", "the model in English"], ["Console", "any command"],
];
const rows = (list: readonly (readonly string[])[], first: (text: string) => Node | string): HTMLElement[] => list.map(([a, b]) => h("tr", {}, h("td", {}, first(a)), h("td", {}, b)));

export function open_help(): void {
  const keys = [...commands.filter(each => each.keys).map(each => [keys_shown(each.keys!), each.title]), ["F6", "to the next part"], ["F8, F9, F10", "step back, play, step forwards"]];
  dialog("Help", h("div", { className: "help" },
    h("section", {}, h("h3", {}, "On the graph"), h("table", {}, ...rows(MOUSE, text => text))),
    h("section", {}, h("h3", {}, "Keys"), h("table", {}, ...rows(keys, text => h("kbd", {}, text)))),
    h("section", {}, h("h3", {}, "In the panel"), h("table", {}, ...rows(PANEL, text => text))),
    h("section", {}, h("h3", {}, "What may be written"), h("table", {}, ...rows(EXPRESSIONS, text => h("code", {}, text)))),
    h("section", {}, h("h3", {}, "On the graph you see"), legend())),
    h("p", { className: "hint" }, "The tutorial, and a page on each task and command, are in the folder docs/use of SIGMA."));
}

export async function open_about(app: App): Promise<void> {
  const licences = await text_in("licences");
  dialog("About",
    h("p", {}, "SIGMA in a page. The program inside is proved; around it is a modeller, which decides nothing about a model: it asks the program. Nothing is sent anywhere."),
    h("p", {}, "The kit's verdict on the program: ", h("code", {}, app.data.verdict)), h("p", {}, "Version: ", h("code", {}, app.data.version)),
    h("p", {}, `It runs on ${plural(app.engine.cores, "core")} of this machine.`),
    h("details", {}, h("summary", {}, "Licences of what is embedded"), h("pre", { className: "licences", tabIndex: 0 }, licences)));
}
