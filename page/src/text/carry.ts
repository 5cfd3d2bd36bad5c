// Writes another model into a text: what both have in common keeps its words, its layout and its comments.
import { apply_edits, change_item, Edit } from "./edits";
import { Model, variable_of, vertex_of } from "./model";
import { Part, Parts, parts_of, VertexPart } from "./places";

/** What becomes of each old item, and which new ones come after it (after index -1: before all). */
interface Difference { fate: ("keep" | "gone" | string)[]; more: Map<number, string[]> }

/** A longest common list of two lists of lines; what lies between is exchanged one by one, as far as it goes. */
export function difference_of(old: readonly string[], wanted: readonly string[]): Difference {
  const n = old.length, m = wanted.length, longest = Array.from({ length: n + 1 }, () => new Uint32Array(m + 1));
  for (let i = n - 1; i >= 0; i--) for (let j = m - 1; j >= 0; j--) longest[i][j] = old[i] === wanted[j] ? longest[i + 1][j + 1] + 1 : Math.max(longest[i + 1][j], longest[i][j + 1]);
  const fate: Difference["fate"] = [], more: Difference["more"] = new Map();
  for (let i = 0, j = 0; i < n || j < m;) {
    if (i < n && j < m && old[i] === wanted[j]) { fate[i++] = "keep"; j++; continue; }
    const from = i, added: string[] = [];
    while ((i < n || j < m) && !(i < n && j < m && old[i] === wanted[j])) if (j < m && (i === n || longest[i][j + 1] >= longest[i + 1][j])) added.push(wanted[j++]); else i++;
    for (let k = from; k < i; k++) fate[k] = added.length ? `=${added.shift()!}` : "gone";
    if (added.length) more.set(i - 1, added);
  }
  return { fate, more };
}

interface Gone { edit: Edit; comments: number }
/** Takes a part out, with the comment at the end of its line and the comments right above it. */
function taken_out(text: string, part: Part): Gone {
  const begin = text.lastIndexOf("\n", part.from - 1) + 1, end = text.indexOf("\n", part.to) < 0 ? text.length : text.indexOf("\n", part.to);
  const before = text.slice(begin, part.from), after = text.slice(part.to, end);
  if (!/^\s*$/.test(before) || !/^[ \t\r]*(#.*)?$/.test(after)) return { edit: { from: part.from, to: part.to, text: "" }, comments: 0 };
  let from = begin, comments = after.includes("#") ? 1 : 0;
  for (let above = from; above > 0;) {
    const start = text.lastIndexOf("\n", above - 2) + 1;
    if (!/^[ \t]*#/.test(text.slice(start, above))) break;
    // What stands at the top of a text is about the model.
    if (start === 0) break;
    from = above = start;
    comments++;
  }
  return { edit: { from, to: Math.min(text.length, end + 1), text: "" }, comments };
}

function list_edits(text: string, parts: readonly Part[], { fate, more }: Difference, first: number, indent: string): Gone[] {
  const made = parts.flatMap((part, k): Gone[] => (fate[k] === "keep" ? [] : fate[k] === "gone" ? [taken_out(text, part)] : [{ edit: { from: part.from, to: part.to, text: fate[k].slice(1) }, comments: 0 }]));
  for (const [k, items] of more) {
    const place = k < 0 ? first : parts[k].to, line = /^[ \t]*(#[^\n]*)?/.exec(text.slice(place))![0].length, at = place + line;
    made.push({ edit: { from: at, to: at, text: items.map(item => `\n${indent}${item}`).join("") }, comments: 0 });
  }
  return made;
}

function vertex_edits(text: string, part: VertexPart, before: Model, after: Model): Gone[] {
  const name = part.name.word, old = vertex_of(before, name)!, now = vertex_of(after, name)!, made: Gone[] = [];
  if (old.params.join() !== now.params.join()) made.push({ edit: { from: part.name.to, to: part.params?.to ?? part.name.to, text: now.params.length ? `(${now.params.join(", ")})` : "" }, comments: 0 });
  const last_change = part.changes.length ? part.changes[part.changes.length - 1].to : part.open;
  made.push(...list_edits(text, part.changes, difference_of(old.changes.map(change_item), now.changes.map(change_item)), part.open, "  "));
  return [...made, ...list_edits(text, part.edges, difference_of(old.edges.map(each => each.line), now.edges.map(each => each.line)), last_change, "  ")];
}

function head_edits(text: string, parts: Parts, before: Model, after: Model): Gone[] {
  const made: Gone[] = [];
  for (const part of parts.vars) {
    const now = variable_of(after, part.name.word), old = variable_of(before, part.name.word)!;
    if (!now) made.push(taken_out(text, part));
    else if (now.kind !== old.kind) made.push({ edit: { from: part.kind.from, to: part.kind.to, text: now.kind }, comments: 0 });
  }
  for (const part of parts.tables) if (!after.tables.some(each => each.name === part.name.word)) made.push(taken_out(text, part));
  if (parts.watch && before.watch.join() !== after.watch.join()) {
    const { names } = parts.watch;
    made.push(after.watch.length ? { edit: { from: names[0].from, to: names[names.length - 1].to, text: after.watch.join(", ") }, comments: 0 } : taken_out(text, parts.watch));
  }
  return made;
}

/** The text with the model `after` in place of `before`, and how many comments went with what is gone. Whether it is that model, the program says. */
export function carried(text: string, before: Model, after: Model): { text: string; comments: number } {
  const parts = parts_of(text), made = head_edits(text, parts, before, after);
  for (const part of parts.vertices) made.push(...(vertex_of(after, part.name.word) ? vertex_edits(text, part, before, after) : [taken_out(text, part)]));
  if (parts.version && before.version !== after.version) made.push({ edit: { from: parts.version.value.from, to: parts.version.value.to, text: after.version }, comments: 0 });
  const written = apply_edits(text, made.map(each => each.edit)), left = new Set(after.vertices.map(each => each.name));
  const kept = (line: string): string => line.replace(/ ([A-Za-z]\w*) -?\d+,-?\d+;/g, (all, name: string) => (left.has(name) ? all : ""));
  const placed = written.replace(/^# places .*\n?/gm, line => (/ -?\d+,/.test(kept(line)) ? kept(line) : ""));
  const declared = new Set([...left, ...after.vars.map(each => each.name)]), shown = placed.replace(/^# shown ([A-Za-z]\w*):.*\n?/gm, (line, name: string) => (declared.has(name) ? line : ""));
  return { text: shown, comments: made.reduce((sum, each) => sum + each.comments, 0) };
}
