// The program's word on two models, drawn: what it means, what shows it, and what can be done next.
import { different_lines } from "../experiments/forms";
import { h } from "../ui/dom";
import { count, plural } from "../ui/format";
import { icon } from "../ui/icons";
import { Asked, Compared, line_of, Parting } from "./comparing";
import type { Lines, Verdict } from "./verdict";

const MOST_LINES = 60;

interface Said { title: string; icon: string; kind: "good" | "bad" | ""; words: string }

function said(verdict: Verdict, { runs, until }: Asked): Said {
  if (verdict.word === "same") return { title: "They mean the same", icon: "check", kind: "good", words: "The program has narrowed, reduced and fused both, and what is left is one model. So each run of one is a run of the other, for every seed, stop time and starting value." };
  if (verdict.word === "unknown") return { title: "No difference was found", icon: "help", kind: "", words: `In ${plural(runs, "run")} of each to tick ${count(until)} both wrote the same. That doesn't say that they mean the same: other seeds, a later stop time or other starting values may show a difference.` };
  if (verdict.how === "declared") return { title: "They differ in what they declare", icon: "warn", kind: "bad", words: "So their histories can't be the same, and no run was made. Let both watch the same, and begin with the same parameters." };
  return { title: `They differ: run ${count(verdict.run)} shows it`, icon: "warn", kind: "bad", words: `With seed ${verdict.seed} their histories part in line ${count(verdict.line)}. The lines before are the same in both.` };
}

/** A line word by word; words that the other one hasn't at their place stand out. */
function words_of_line(line: string, other: string): (Node | string)[] {
  const others = other.split(" ");
  return line.split(" ").flatMap((word, k) => [k ? " " : "", word === others[k] ? word : h("mark", {}, word)]);
}

function declared({ first, second }: Lines, name: string): HTMLElement {
  const row = (title: string, line: string, other: string) => h("tr", { className: "they-part" }, h("th", { scope: "row" }, title), h("td", {}, h("code", {}, ...words_of_line(line, other))));
  return h("div", { className: "table-box" }, h("table", { className: "parting" }, h("tbody", {}, row("This model", first, second), row(name, second, first))));
}

/** The two histories side by side, line by line; that in which they part is marked, and what follows no longer belongs together. */
function histories({ line, first, second }: Parting, name: string): HTMLElement {
  const last = Math.max(first.first + first.lines.length, second.first + second.lines.length), numbers = Array.from({ length: last - first.first }, (_, k) => first.first + k);
  const cell = (text: string | undefined, other: string | undefined, is_parting: boolean) => h("td", {}, text === undefined ? "" : h("code", {}, ...(is_parting ? words_of_line(text, other ?? "") : [text])));
  return h("div", { className: "table-box" }, h("table", { className: "parting" },
    h("thead", {}, h("tr", {}, h("th", { scope: "col" }, "line"), h("th", { scope: "col" }, "this model"), h("th", { scope: "col" }, name))),
    h("tbody", {}, ...numbers.map(number => {
      const one = line_of(first, number), other = line_of(second, number), is_parting = number === line;
      return h("tr", { className: is_parting ? "they-part" : number > line ? "after" : "" }, h("th", { scope: "row" }, count(number), is_parting ? h("small", {}, " they part") : null), cell(one, other, is_parting), cell(other, one, is_parting));
    }))));
}

function texts(compared: Compared, name: string): HTMLElement {
  const lines = different_lines(compared.first.text, compared.second.text), shown = lines.slice(0, MOST_LINES);
  return h("section", { className: "panel", "data-key": "texts" }, h("h3", {}, "The texts", h("small", {}, " as the program prints them")),
    lines.length ? h("div", { className: "diff" }, h("ul", {}, ...shown.map(line => h("li", { className: line[0] === "+" ? "plus" : "minus" }, line.slice(1)))), lines.length > MOST_LINES ? h("small", {}, `… ${count(lines.length - MOST_LINES)} more`) : null) : h("p", { className: "hint" }, "Both have the same lines."),
    lines.length ? h("p", { className: "hint" }, `− only this model has, + only ${name} has.`) : null);
}

export interface Next { more(): void; play(seed: string): void }

export function answer_of(compared: Compared, asked: Asked, command: string, { more, play }: Next): HTMLElement[] {
  const { verdict, parting, output } = compared, { name } = asked.other, { title, icon: its, kind, words } = said(verdict, asked);
  const act = verdict.word === "unknown" ? h("button", { onclick: more }, "Make ten times as many runs") : verdict.word === "differs" && verdict.how === "run" ? h("button", { onclick: () => play(verdict.seed) }, icon("play"), "Play this run") : null;
  return [
    h("section", { className: `panel word ${kind}`, "data-key": "word", role: "status" }, icon(its, 20), h("div", {}, h("h3", {}, title), h("p", {}, words), verdict.word === "unknown" && verdict.more.length ? h("pre", {}, verdict.more.join("\n")) : null), act),
    ...(verdict.word === "differs" ? [h("section", { className: "panel", "data-key": "shows" }, h("h3", {}, "What shows it"), parting ? histories(parting, name) : declared(verdict.lines, name))] : []),
    texts(compared, name),
    h("details", { className: "exact", "data-key": "exact" }, h("summary", {}, "The program's own answer"), h("pre", {}, output), h("code", { className: "shell-line", title: "The same in a shell" }, command)),
  ];
}
