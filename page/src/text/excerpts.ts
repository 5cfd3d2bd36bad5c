// Events as an excerpt of a text: what is copied, pasted and duplicated. It has the events, the variables and tables that they use, and
// where the events lie. Whether a text with an excerpt in it is right, the program says.
import { add_after, apply_edits, Edit, is_blank, last_of, name_not_in, Places, read_places, remove_part, version_two, words_of_text, write_places } from "./edits";
import { EdgePart, Part, Parts, parts_of, tokens_of, VertexPart, words_in } from "./places";

const slice = (text: string, { from, to }: Part): string => text.slice(from, to);
const declarations = ({ vars, tables }: Parts): Parts["vars" | "tables"][number][] => [...vars, ...tables];

/** These events of a text as an excerpt. */
export function excerpt_of(text: string, names: readonly string[], places: Places): string {
  const parts = parts_of(text), vertices = parts.vertices.filter(each => names.includes(each.name.word)), used = new Set(vertices.flatMap(each => words_of_text(slice(text, each))));
  const version = words_in(text, parts.version?.value ?? null) === "2" ? ["version 2;"] : [], declared = declarations(parts).filter(each => used.has(each.name.word));
  const lines = [...version, ...[...declared, ...vertices].map(each => slice(text, each))];
  return write_places(lines.join("\n"), Object.fromEntries(Object.entries(places).filter(([name]) => names.includes(name))));
}

/** Whether a text is an excerpt by its parts: events, and nothing that is no part of a model. */
export function is_excerpt(text: string): boolean {
  const { version, model, vars, tables, watch, vertices, end } = parts_of(text), parts: (Part | null)[] = [version, model, ...vars, ...tables, watch, ...vertices, end];
  const inside = parts.reduce((sum, part) => sum + (part ? tokens_of(slice(text, part)).length : 0), 0);
  const are_whole = vertices.every(each => each.name.word && text[each.to - 1] === "}");
  return are_whole && vertices.length > 0 && inside === tokens_of(text).length;
}

/** What a text becomes with an excerpt in it. */
export interface Joined {
  text: string;
  /** What each event of the excerpt is called in it. */
  names: ReadonlyMap<string, string>;
  /** The edges that were left out, since the event that they lead to isn't there. */
  lost: { from: string; to: string }[];
  /** Variables and tables that the text declares otherwise than the excerpt. */
  otherwise: string[];
  /** Names of the excerpt that are a thing of another kind in the text. */
  clashes: string[];
}

const kinds_of = (parts: Parts): Map<string, string> => new Map([...declarations(parts).map(each => [each.name.word, "rows" in each ? "table" : "variable"] as const), ...parts.vertices.map(each => [each.name.word, "event"] as const)]);

/** A vertex of an excerpt as it is called in the text; `targets` are the events that its edges may lead to, and what they are called. */
function renamed(excerpt: string, vertex: VertexPart, name: string, targets: ReadonlyMap<string, string>): { text: string; lost: EdgePart[] } {
  const lost = vertex.edges.filter(edge => !targets.has(edge.target.word)), edits: Edit[] = [{ from: vertex.name.from, to: vertex.name.to, text: name }];
  for (const edge of vertex.edges) edits.push(lost.includes(edge) ? remove_part(excerpt, edge) : { from: edge.target.from, to: edge.target.to, text: targets.get(edge.target.word)! });
  const within = edits.map(edit => ({ ...edit, from: edit.from - vertex.from, to: edit.to - vertex.from }));
  return { text: apply_edits(slice(excerpt, vertex), within), lost };
}

/** What the events of an excerpt are called in a text: as before where that is free there. */
function names_in(text: string, excerpt: string, vertices: readonly VertexPart[]): Map<string, string> {
  const used = new Set(words_of_text(text)), taken = new Set([...used, ...words_of_text(excerpt)]), names = new Map<string, string>();
  for (const { name: { word } } of vertices) {
    const name = used.has(word) ? name_not_in(taken, word) : word;
    names.set(word, name);
    taken.add(name);
  }
  return names;
}

/** Puts an excerpt into a text: its events as new ones with free names, with what they use and the text hasn't declared. */
export function with_excerpt(before: string, excerpt: string): Joined {
  const text = is_blank(before) ? `${before.trim() ? before.trimEnd() + "\n" : ""}model MODEL;\nend\n` : before, parts = parts_of(text), own = parts_of(excerpt), kinds = kinds_of(parts);
  const names = names_in(text, excerpt, own.vertices), targets = new Map([...parts.vertices.map(each => [each.name.word, each.name.word] as const), ...names]);
  const vertices = own.vertices.map(vertex => ({ vertex, ...renamed(excerpt, vertex, names.get(vertex.name.word)!, targets) }));
  const missing = <P extends { name: { word: string } } & Part>(list: readonly P[]): string => list.filter(each => !kinds.has(each.name.word)).map(each => slice(excerpt, each)).join("\n");
  const added = (previous: Part, items: string): Edit[] => (items ? [add_after(text, previous, items)] : []);
  const edits = [
    ...(words_in(excerpt, own.version?.value ?? null) === "2" ? version_two(text) : []),
    ...added(last_of(parts.vars) ?? parts.model!, missing(own.vars)),
    ...added(last_of(parts.tables, parts.vars) ?? parts.model!, missing(own.tables)),
    ...added(last_of(parts.vertices) ?? parts.watch ?? last_of(parts.tables, parts.vars) ?? parts.model!, vertices.map(each => each.text).join("\n")),
  ];
  const mine = new Map(declarations(own).map(each => [each.name.word, words_of_text(slice(excerpt, each)).join(" ")])), both = declarations(parts).filter(each => mine.has(each.name.word)), own_kinds = kinds_of(own);
  return {
    text: apply_edits(text, edits), names,
    lost: vertices.flatMap(({ vertex, lost }) => lost.map(edge => ({ from: names.get(vertex.name.word)!, to: edge.target.word }))),
    otherwise: both.filter(each => mine.get(each.name.word) !== words_of_text(slice(text, each)).join(" ")).map(each => each.name.word),
    clashes: declarations(own).map(each => each.name.word).filter(name => kinds.has(name) && kinds.get(name) !== own_kinds.get(name)),
  };
}

/** The places of an excerpt's events under their new names, moved as a whole. */
export function moved_places(excerpt: string, names: ReadonlyMap<string, string>, by: { x: number; y: number }): Places {
  return Object.fromEntries(Object.entries(read_places(excerpt)).filter(([name]) => names.has(name)).map(([name, { x, y }]) => [names.get(name)!, { x: x + by.x, y: y + by.y }]));
}
