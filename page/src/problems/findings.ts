// What is allowed in a model and often a slip. What can occur, and what is read and written, is taken from the program's answers to
// `narrow`, `reduce` and `uses`; the rules are those of `sigma-lab lint`.
import { follow, read_reduction } from "../reduce/certificates";
import { Edge, edges_of, Model, read_model, variable_of, vertex_of } from "../text/model";

export type Level = "wrong" | "slip" | "note";
/** Where a finding is: what a click on it selects. */
export type Where = { kind: "event"; name: string } | { kind: "edge"; from: string; place: number } | { kind: "field"; id: string };
export interface Finding { rule: string; level: Level; name: string; text: string; advice: string; at: Where }
/** What the program wrote of the model: `narrow`, `reduce` of what that wrote, and `uses`. */
export interface Answers { narrow: string; reduce: string; uses: string }

const event = (name: string): Where => ({ kind: "event", name });
const edge = ({ from, place }: Edge): Where => ({ kind: "edge", from, place });
const leads = ({ kind }: Edge): boolean => kind === "schedule" || kind === "urgent";
const is_at_once = (its: Edge): boolean => its.kind === "urgent" || (its.kind === "schedule" && ["", "0"].includes(its.delay));

function reached_from(first: string, edges: readonly Edge[]): Set<string> {
  const to = new Map<string, string[]>(), seen = new Set([first]), left = [first];
  for (const { from, target } of edges) to.set(from, [...to.get(from) ?? [], target]);
  while (left.length) for (const target of to.get(left.pop()!) ?? []) if (!seen.has(target)) { seen.add(target); left.push(target); }
  return seen;
}

/** Events and edges that never occur: those to which nothing leads, and those that the reduction of the narrowed model takes out. */
function unreached(model: Model, { narrow, reduce }: Answers): Finding[] {
  const edges = edges_of(model), reached = reached_from(model.vertices[0].name, edges.filter(leads)), narrowed = read_model(narrow);
  const alone = model.vertices.filter(({ name }) => !reached.has(name)).map(({ name }): Finding => ({ rule: "unreached", level: "slip", name, text: "It never occurs: no edge of an event that can occur leads to it.", advice: "Draw an edge to it, or delete it.", at: event(name) }));
  const ranges = (condition: string): string => [...new Set(condition.match(/[A-Za-z]\w*/g) ?? [])].flatMap(name => { const found = variable_of(narrowed, name); return found && !found.bool ? [`${name} is ${found.kind.replace(" clip", "")} in every run`] : []; }).join(", ").replace(/$/, ".").replace(/^\.$/, "");
  const is_merged = (name: string) => edges.some(each => each.kind === "urgent" && each.target === name && !each.when);
  const taken = follow(narrowed, read_reduction(reduce).lines).steps.flatMap(({ rule, edges: [id], about }): Finding[] => {
    const its = edges.find(each => each.id === id);
    if (rule === "prune" && its) return [{ rule: "unreached", level: "slip", name: its.from, text: `Its edge to ${its.target} is never taken: ${its.when} never holds.`, advice: ranges(its.when), at: edge(its) }];
    if (rule === "settle" && its) return [{ rule: "condition", level: "note", name: its.from, text: `The condition of its edge to ${its.target} always holds: ${its.when}.`, advice: ranges(its.when), at: edge(its) }];
    if (rule !== "drop") return [];
    return about.filter(name => reached.has(name) && !is_merged(name)).map(name => ({ rule: "unreached", level: "slip", name, text: "It never occurs: no edge to it is ever taken.", advice: "", at: event(name) }));
  });
  return [...alone, ...taken];
}

/** Variables that nothing reads or writes, and tables that nothing draws from. */
function unread(model: Model, { uses }: Answers): Finding[] {
  const parameters = new Set(model.vertices.flatMap(each => each.params)), rows = [...uses.matchAll(/^(\S+) readers (\S*) writers (\S*) watched (\S+)$/gm)], none = (names: string) => names === "" || names === "-";
  const found = rows.flatMap(([, name, readers, writers, watched]): Finding[] => {
    const at: Where = { kind: "field", id: `var:${name}/name` };
    if (none(readers) && watched === "no" && !parameters.has(name)) return [{ rule: "unread", level: "note", name, text: "No event reads it, and it isn't watched.", advice: "Watch it, or delete it.", at }];
    return none(writers) && !none(readers) && !parameters.has(name) ? [{ rule: "constant", level: "note", name, text: `No event changes it: it stays ${variable_of(model, name)?.initial ?? ""}.`, advice: "", at }] : [];
  });
  const drawn = new Set([...model.text.matchAll(/\bfrom \d+ by ([A-Za-z]\w*)/g)].map(([, name]) => name));
  return [...found, ...model.tables.filter(({ name }) => !drawn.has(name)).map(({ name }): Finding => ({ rule: "unread", level: "note", name, text: "No draw takes this table.", advice: "Draw from it, or delete it.", at: { kind: "field", id: `table:${name}/name` } }))];
}

/** Streams that several events draw from. The first event draws before all others where no edge leads back to it, so it doesn't count. */
function shared_streams(model: Model): Finding[] {
  const by = new Map<string, Set<string>>(), [{ name: first }] = model.vertices, is_once = !edges_of(model).some(each => each.target === first);
  for (const vertex of model.vertices)
    for (const line of [...vertex.changes, ...vertex.edges.map(each => each.line)]) for (const [, stream] of line.matchAll(/\bdraw (?:\w+(?:\[[^;]*?\])? )?from (\d+) (?:in|by)\b/g)) by.set(stream, (by.get(stream) ?? new Set()).add(vertex.name));
  return [...by].sort(([a], [b]) => Number(a) - Number(b)).flatMap(([stream, names]): Finding[] => {
    const all = [...names];
    if (all.filter(name => !(is_once && name === first)).length < 2) return [];
    return [{ rule: "stream", level: "note", name: `stream ${stream}`, text: `${all.slice(0, 5).join(", ")}${all.length > 5 ? ` and ${all.length - 5} others` : ""} draw from it, so one shifts what the others get.`, advice: "Give each source of chance a stream of its own: designs are then compared under the same chances.", at: event(all[1]) }];
  });
}

/** Events that lead to one another at once and always: a run that comes to them never ends. */
function endless(model: Model): Finding[] {
  const always = edges_of(model).filter(each => is_at_once(each) && !each.when), found: Finding[] = [], told = new Set<string>();
  for (const { name } of model.vertices) {
    if (told.has(name)) continue;
    const way = round_from(name, always);
    if (!way) continue;
    for (const each of way) told.add(each);
    found.push({ rule: "cycle", level: "wrong", name, text: `${[...way, name].join(" → ")} never ends: each leads to the next at once and always.`, advice: "Give one of the edges a delay or a condition.", at: event(name) });
  }
  return found;
}
/** The shortest way round from an event back to it, or null. */
function round_from(name: string, edges: readonly Edge[]): string[] | null {
  const before = new Map<string, string>(), left = [name];
  for (let next = left.shift(); next !== undefined; next = left.shift())
    for (const { target } of edges.filter(each => each.from === next)) {
      if (target === name) { const way = [next]; while (way[0] !== name) way.unshift(before.get(way[0])!); return way; }
      if (!before.has(target)) { before.set(target, next); left.push(target); }
    }
  return null;
}

/** A cancel that takes the next event whatever it carries, and one of what nothing schedules. */
function cancels(model: Model): Finding[] {
  const edges = edges_of(model), scheduled = new Set(edges.filter(leads).map(each => each.target));
  return edges.filter(each => each.kind.startsWith("cancel")).flatMap((its): Finding[] => {
    const params = vertex_of(model, its.target)?.params ?? [], what = its.line.replace(/;$/, "");
    const any: Finding[] = its.kind === "cancel" && params.length && !its.values ? [{ rule: "cancel", level: "slip", name: its.from, text: `“${what}” takes the next ${its.target} whatever it carries.`, advice: `Say which: cancel ${its.target}(${params.join(", ")}), or cancel all ${its.target}.`, at: edge(its) }] : [];
    return scheduled.has(its.target) ? any : [...any, { rule: "cancel", level: "slip", name: its.from, text: `“${what}” takes back what nothing schedules.`, advice: "", at: edge(its) }];
  });
}

const ORDER: readonly Level[] = ["wrong", "slip", "note"];
/** All findings, the worst first. */
export function findings_of(model: Model, answers: Answers): Finding[] {
  const all = [...endless(model), ...unreached(model, answers), ...cancels(model), ...shared_streams(model), ...unread(model, answers)];
  return all.map((each, k) => ({ each, k })).sort((a, b) => ORDER.indexOf(a.each.level) - ORDER.indexOf(b.each.level) || a.k - b.k).map(({ each }) => each);
}
