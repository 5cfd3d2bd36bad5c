// Variants of a model by which the program is asked more about a run than the model watches. What is watched changes no run, and neither
// do variables that nothing reads: so a variant has the same events at the same times with the same values.
import { Model, vertex_of, Vertex } from "./model";

/** A variant that watches all, and notes each edge's condition in a truth value of its own. */
export interface Variant { text: string; cells: { name: string; initial: string }[]; marks: string[] }

/** The canonical text line by line, with the marks declared after the variables and set after each vertex's changes. */
function marked_text(model: Model, marks: readonly string[], watch: readonly string[]): string {
  const lines: string[] = [];
  let vertex: Vertex | undefined, is_marked = false, declared = false, watched = false;
  for (const line of model.text.split("\n")) {
    if (!declared && /^(table|watch|vertex) /.test(line)) { for (const mark of marks) lines.push(`var ${mark} : bool = false;`); declared = true; }
    if (!watched && /^(watch|vertex) /.test(line)) { if (watch.length) lines.push(`watch ${watch.join(", ")};`); watched = true; }
    if (line.startsWith("watch ")) continue;
    if (line.startsWith("vertex ")) { vertex = vertex_of(model, /^vertex (\w+)/.exec(line)![1]); is_marked = false; }
    else if (vertex && !is_marked && !/^ {2}(set|draw) /.test(line)) {
      if (marks.length) vertex.edges.filter(edge => edge.when).forEach((edge, k) => lines.push(`  set ${marks[k]} := ${edge.when};`));
      is_marked = true;
    }
    if (line === "}") vertex = undefined;
    lines.push(line);
  }
  return lines.join("\n");
}

export function watching_all(model: Model): Variant {
  const count = Math.max(0, ...model.vertices.map(vertex => vertex.edges.filter(edge => edge.when).length));
  let stem = "TAKEN";
  while ([...model.vars, ...model.tables, ...model.vertices].some(each => each.name.startsWith(stem))) stem += "_";
  const marks = Array.from({ length: count }, (_, k) => stem + (k + 1));
  const names = [...model.vars.map(each => each.name), ...marks, ...model.vertices.map(each => each.name)];
  const cells = model.vars.flatMap(each => (each.cells ? Array.from({ length: each.cells }, (_, k) => ({ name: `${each.name}[${k}]`, initial: each.initial })) : [{ name: each.name, initial: each.initial }]));
  return { text: marked_text(model, marks, names), cells, marks };
}

/** The model with other things watched. */
export const watching = (model: Model, names: readonly string[]): string => marked_text(model, [], names);

/** A text in which a vertex has only its first changes, or all of them and its first edges. */
export function with_first_parts(text: string, name: string, count: number): string {
  const lines: string[] = [];
  let is_inside = false, part = 0;
  for (const line of text.split("\n")) {
    if (line.startsWith("vertex ")) is_inside = /^vertex (\w+)/.exec(line)![1] === name;
    else if (line === "}") is_inside = false;
    else if (is_inside && part++ >= count) continue;
    lines.push(line);
  }
  return lines.join("\n");
}
export const parts_of_vertex = (vertex: Vertex): string[] => [...vertex.changes, ...vertex.edges.map(edge => edge.line.replace(/;$/, ""))];
