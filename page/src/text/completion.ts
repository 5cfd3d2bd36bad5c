// What a word that is begun may become: names of the model that fit where it stands, functions, and words of the language.
import { tokens_of } from "./places";

export type Kind = "variable" | "array" | "table" | "event" | "function" | "word";
export interface Offer { word: string; kind: Kind; hint: string }
/** Where a word stands: in the text, or in a field of a form that holds changes, an expression or names of variables. */
export type Place = "text" | "changes" | "expression" | "names";

const FUNCTIONS: readonly Offer[] = [
  { word: "min", kind: "function", hint: "min(A, B), the lesser" }, { word: "max", kind: "function", hint: "max(A, B), the greater" }, { word: "if", kind: "function", hint: "if C then A else B" }, { word: "clk", kind: "function", hint: "the time now" },
];
const words = (list: string): Offer[] => list.split(" ").map(word => ({ word, kind: "word", hint: "" }));
const IN_EXPRESSIONS = words("then else and or not true false"), IN_CHANGES = words("draw from in by"), IN_TEXT = words("model var bool clip table watch vertex set draw from in by schedule urgent cancel all after priority when end version");

/** What is declared in a text, whether it is accepted or not. */
export function declared_in(text: string): Offer[] {
  const tokens = tokens_of(text), found = new Map<string, Offer>();
  tokens.forEach(({ word }, k) => {
    const name = tokens[k + 1]?.word ?? "", is_declared = (word === "var" || word === "table" || word === "vertex") && /^[A-Za-z]/.test(name);
    if (!is_declared || found.has(name)) return;
    if (word !== "var") { found.set(name, { word: name, kind: word === "table" ? "table" : "event", hint: word === "table" ? "table" : "event" }); return; }
    const is_array = tokens[k + 2]?.word === "[", colon = tokens.findIndex((token, at) => at > k && token.word === ":"), end = tokens.findIndex((token, at) => at > k && (token.word === "=" || token.word === ";"));
    const kind = colon > 0 && end > colon ? text.slice(tokens[colon].to, tokens[end].from).trim() : "";
    found.set(name, { word: name, kind: is_array ? "array" : "variable", hint: is_array ? `${kind} in ${tokens[k + 3]?.word ?? ""} cells` : kind });
  });
  return [...found.values()];
}

const of = (all: readonly Offer[], ...kinds: Kind[]): Offer[] => all.filter(each => kinds.includes(each.kind));

/** What fits after these letters of a line, at a place. */
function fitting(before: string, names: readonly Offer[], place: Place): Offer[] {
  const variables = of(names, "variable", "array");
  if (place === "names") return variables;
  if (/\bby\s+$/.test(before)) return of(names, "table");
  if (/\b(from|priority|version|model|var|table|vertex)\s+$/.test(before)) return [];
  const value = [...variables, ...FUNCTIONS, ...IN_EXPRESSIONS];
  if (place === "expression") return [...value, ...IN_CHANGES];
  if (place === "changes") return [...value, ...IN_CHANGES, ...words("set")];
  if (/\b(schedule|urgent|cancel|all)\s+$/.test(before)) return [...of(names, "event"), ...(/\bcancel\s+$/.test(before) ? words("all") : [])];
  if (/\bwatch\b[^;]*$/.test(before)) return [...variables, ...of(names, "event")];
  return [...value, ...IN_TEXT];
}

export interface Offers { from: number; word: string; offers: Offer[] }
/**
 * The offers for the word that ends at `index`. There are none where the word is whole, stands in a comment or isn't begun, but for `asked`,
 * which is when a person asks for them.
 */
export function offers_at(text: string, index: number, names: readonly Offer[], place: Place, asked = false): Offers {
  const line = text.slice(text.lastIndexOf("\n", index - 1) + 1, index), word = /[A-Za-z]\w*$/.exec(line)?.[0] ?? "", from = index - word.length, none: Offers = { from, word, offers: [] };
  if (line.includes("#") || /\d\w*$/.test(line.slice(0, line.length - word.length)) || (!word && !asked)) return none;
  const before = line.slice(0, line.length - word.length), all = fitting(before, names, place), low = word.toLowerCase();
  if (!asked && all.some(each => each.word === word)) return none;
  const seen = new Set<string>(), begins = all.filter(each => each.word.toLowerCase().startsWith(low) && each.word !== word && !seen.has(each.word) && seen.add(each.word));
  return { from, word, offers: begins };
}
