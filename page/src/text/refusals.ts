// A refusal of the program in words of a planner: what is wrong, what is right in its place, and often an edit that mends it. The
// program decides what is refused; here is only said what is usually meant.
import { RESERVED } from "./words";

export interface Fix extends Edit { title: string }
interface Edit { from: number; to: number; text: string }
/** `unknown` is a name that isn't declared. */
export interface Refusal { words: string; index: number; fix: Fix | null; unknown?: string }

/** The index of a byte in a text. */
export const index_of = (text: string, byte: number): number => new TextDecoder("utf-8", { ignoreBOM: true }).decode(new TextEncoder().encode(text).subarray(0, byte)).length;

/** What was begun before the place, without comments. */
function begun_at(text: string, index: number): string {
  const part = text.slice(Math.max(0, index - 2000), index).replace(/#[^\n]*/g, "");
  return part.slice(Math.max(part.lastIndexOf(";"), part.lastIndexOf("{"), part.lastIndexOf("}")) + 1).trim();
}

interface Hint { at: RegExp; after?: RegExp; words: string }
/** Of `unexpected` and `bad byte`: what stands there, what was begun before it, and what to do. The first that fits is given. */
const HINTS: readonly Hint[] = [
  { at: /^!/, words: "Write <> for “not equal”." },
  { at: /^&/, words: "Write and." },
  { at: /^\|/, words: "Write or." },
  { at: /^\/\//, words: "A comment begins with #." },
  { at: /^[/*]/, after: /\/$/, words: "A comment begins with #." },
  { at: /^\.\./, after: /\bafter \d+$/, words: "A delay that varies is drawn: draw from 1 in 3..9." },
  { at: /^\.\d/, words: "Numbers are whole: take a finer tick, such as a tenth of a minute." },
  { at: /^=/, after: /=$/, words: "Write one = to compare." },
  { at: /^=/, after: /^var\b/, words: "A range comes first: var N : 0..9 = 0;" },
  { at: /^=/, words: "Write := to store a value." },
  { at: /^\(/, after: /\b(exponential|triangular|normal|lognormal|erlang|uniform|gamma|weibull|poisson)$/i, words: "A distribution is a table: draw from 1 by SERVICE. + Table in the form of the model makes one." },
  { at: /^(minute|second|hour|day|week|tick|min|sec|hr)s?\b/i, after: /\d$/, words: "Write the number of ticks alone." },
  { at: /^[<>]/, after: /[<>=]/, words: "Comparisons don't chain: write 1 < N and N < 5." },
  { at: /^\+/, after: /^set\b/, words: "Write N := N + 1." },
  { at: /^;/, after: /\bthen\b(?!.*\belse\b)/s, words: "An if has a value, so it needs both parts: if N > 1 then 0 else N." },
  { at: /^;/, words: "Something is missing before the ;." },
  { at: /^,/, after: /^table\b|:/, words: "Write ; after each row of a table." },
  { at: /^(set|draw)\b/, after: /^$/, words: "Changes come before all edges of their event." },
  { at: /^after\b/, after: /^urgent\b/, words: "An urgent event occurs now: write schedule to give it a delay." },
  { at: /^(after|priority)\b/, words: "The order is after, priority, when." },
  { at: /^if\b/, words: "An edge's condition follows it: schedule V when N > 1;" },
  { at: /^\)/, after: /\($/, words: "Without values write no brackets." },
  { at: /^[A-Za-z]/, after: /\bin\b|\.\.$/, words: "Only numbers stand in a range: where its ends vary, draw from 0 up and add." },
  { at: /^var\b/, words: "Variables come before tables, tables before watch, and then events." },
  { at: /^(table|watch)\b/, words: "Variables, then tables, then watch, and then events." },
  { at: /^$/, words: "The text ends too soon: is end or } missing?" },
];
/** What the program's words mean. */
const MEANINGS: readonly (readonly [RegExp, string])[] = [
  [/^kind mismatch/, "A number and a truth value are mixed here."],
  [/^initial outside/, "The first value is outside the range."],
  [/^empty range/, "The least value is above the greatest."],
  [/^stream outside/, "A stream is a number from 0 to 63."],
  [/^priority outside/, "A priority is a number from 1 to 255."],
  [/^size outside/, "An array has at least one cell, and at most 65,536 with “version 2;” or 4,096 without."],
  [/^draw outside/, "A draw chooses among at most 4,294,967,296 values."],
  [/^weight outside/, "A weight is at least 1, and those of a table are at most 4,294,967,296 in all."],
  [/^name too long/, "A name has at most 32 letters."],
  [/^duplicate name/, "This name is taken already."],
  [/^wrong use/, "This name is something else here: an array needs an index, and an edge leads to an event."],
  [/^value count/, "It carries another number of values than its event takes."],
  [/^literal too large/, "This number is too large for a range or a delay."],
  [/^unknown version/, "There are version 1 and version 2."],
  [/^needs version 2/, "An edge draws its delay only in a text that begins with “version 2;”."],
  [/^too many/, "This list has more items than a model may have."],
  [/^too deep/, "This expression has more than 256 operators and brackets: split it."],
  [/^model too long|^text too long/, "The text is too long: it may have 4,194,304 bytes."],
];

/** How many letters differ between two names; two that changed places are one. */
export function distance(a: string, b: string): number {
  const rows = [Array.from({ length: b.length + 1 }, (_, j) => j)];
  for (let i = 1; i <= a.length; i++) {
    rows.push([i]);
    for (let j = 1; j <= b.length; j++) {
      rows[i][j] = Math.min(rows[i - 1][j] + 1, rows[i][j - 1] + 1, rows[i - 1][j - 1] + (a[i - 1] === b[j - 1] ? 0 : 1));
      if (i > 1 && j > 1 && a[i - 1] === b[j - 2] && a[i - 2] === b[j - 1]) rows[i][j] = Math.min(rows[i][j], rows[i - 2][j - 2] + 1);
    }
  }
  return rows[a.length][b.length];
}
const declared = (text: string): string[] => [...text.matchAll(/^\s*(?:var|table|vertex)\s+([A-Za-z]\w*)/gm)].map(found => found[1]);

/** A declared name that differs from this one by a letter or two. */
export function close_name(word: string, names: readonly string[]): string | null {
  if (names.includes(word)) return null;
  const [best] = names.map(name => ({ name, away: distance(word.toUpperCase(), name.toUpperCase()) })).sort((a, b) => a.away - b.away);
  return best && best.away <= 2 && best.away < word.length / 2 ? best.name : null;
}

const sentence = (text: string): string => { const whole = text.trim(); return whole ? whole[0].toUpperCase() + whole.slice(1) + (/[.?!]$/.test(whole) ? "" : ".") : ""; };

function unknown_name(text: string, index: number, word: string, message: string): Refusal {
  const near = close_name(word, declared(text));
  if (near) return { words: `There is no ${word}: is ${near} meant?`, index, unknown: word, fix: { from: index, to: index + word.length, text: near, title: `Write ${near}` } };
  return { words: word ? `Nothing is called ${word}: declare it, or write another name.` : sentence(message), index, fix: null, unknown: word || undefined };
}

function of_grammar(text: string, index: number, message: string): Refusal {
  const rest = text.slice(index), shown = rest.slice(0, 200).trimStart(), at = index + (rest.length - rest.trimStart().length), begun = begun_at(text, at), word = /^[A-Za-z]\w*/.exec(shown)?.[0] ?? "";
  const answer = (words: string, fix: Fix | null = null, place = at): Refusal => ({ words, index: place, fix });
  const before = text.slice(0, at).replace(/(\s|#[^\n]*)+$/, "");
  if (RESERVED.includes(word) && /\b(var|vertex|table|model|watch|schedule|urgent|cancel|set|draw|all)$/.test(begun) && !(begun.endsWith("cancel") && word === "all"))
    return answer(`“${word}” is a reserved word: take another name.`);
  if (/^(set|draw|schedule|urgent|cancel|vertex|var|table|watch|end)\b|^\}/.test(shown) && begun)
    return answer("A ; is missing at the end of this line.", { from: before.length, to: before.length, text: ";", title: "Add ;" }, before.length);
  if (/^[A-Za-z]/.test(shown) && /\b(vertex|var|table|schedule|urgent|cancel|all) [A-Za-z]\w*$/.test(begun)) {
    const first = /[A-Za-z]\w*$/.exec(before)![0];
    return answer(`A name is one word: ${first}_${word}.`, { from: before.length, to: at, text: "_", title: `Write ${first}_${word}` });
  }
  if (/^=/.test(shown) && begun.endsWith("=")) return answer("Write one = to compare.", { from: at, to: at + 1, text: "", title: "Write =" });
  if (/^=/.test(shown) && !begun.startsWith("var") && /^(set\b.*|[A-Za-z]\w*(\[.*\])?)$/s.test(begun)) return answer("Write := to store a value.", { from: at, to: at, text: ":", title: "Write :=" });
  if (!begun && /^[A-Za-z]\w*(\[[^\]]*\])?\s*(:=|=[^=])/.test(shown)) return answer("A change begins with set.", { from: at, to: at, text: "set ", title: "Write set" });
  const hint = HINTS.find(each => each.at.test(shown) && (!each.after || each.after.test(begun)));
  return answer(hint?.words ?? (shown ? `“${/^(\w+|\S+)/.exec(shown)![0]}” isn't expected here.` : sentence(message)));
}

/** A refusal of a text in words, with the index in the text where it points. */
export function refusal_in_words(text: string, { message, byte }: { message: string; byte: number | null }): Refusal {
  const index = byte === null ? 0 : index_of(text, byte);
  if (byte === null) return { words: sentence(message), index, fix: null };
  const word = /^[A-Za-z]\w*/.exec(text.slice(index))?.[0] ?? "";
  if (/^(unexpected|bad byte)/.test(message)) return of_grammar(text, index, message);
  if (/undeclared|unknown/.test(message)) return unknown_name(text, index, word, message);
  const meaning = MEANINGS.find(([of]) => of.test(message))?.[1] ?? sentence(message);
  const fix = /^needs version 2/.test(message) ? { from: 0, to: 0, text: "version 2;\n", title: "Add version 2;" } : null;
  return { words: meaning, index, fix };
}
