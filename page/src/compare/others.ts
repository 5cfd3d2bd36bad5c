// What the model of the page can be compared with: what the page has of it, the examples, and files that were chosen here.
import { App } from "../app";
import { plural } from "../ui/format";
import { different_lines } from "../experiments/forms";
import type { Other } from "./comparing";

export interface Group { title: string; others: Other[] }
/** The models of the last reduction: as it was before, and the result. */
export interface Reduction { way: string; before: string; after: string }

const when = (at: number): string => new Date(at).toLocaleString("en", { dateStyle: "medium", timeStyle: "short" });

export function groups_of({ store, data }: App, files: readonly Other[], reduction: Reduction | null): Group[] {
  const { doc } = store, designs = store.designs.filter(each => each.id !== doc.active), other = (id: string, name: string, text: string): Other => ({ id, name, text });
  const groups = [
    { title: "Files", others: [...files] },
    { title: "The last reduction", others: reduction ? [other("before", `the model before “${reduction.way}”`, reduction.before), other("after", `the result of “${reduction.way}”`, reduction.after)] : [] },
    { title: "Designs", others: designs.map(({ id, name, text }) => other(`design:${id}`, `the design “${name}”`, text)) },
    { title: "Versions", others: [...doc.versions].reverse().map(({ name, at, text }) => ({ ...other(`version:${at}`, `“${name}”`, text), more: when(at) })) },
    { title: "As it was opened or saved last", others: doc.saved && doc.saved !== doc.text ? [other("saved", `${doc.file || "the model"} as it was saved`, doc.saved)] : [] },
    { title: "Examples", others: Object.keys(data.examples).sort().map(name => other(`example:${name}`, name.replaceAll("_", " "), data.examples[name])) },
  ];
  return groups.filter(({ others }) => others.length);
}

/** How far two texts are apart, at a glance. */
export function apart_in_words(text: string, { text: other }: Other): string {
  const lines = different_lines(text, other).length;
  return lines ? `${plural(lines, "line")} ${lines === 1 ? "stands" : "stand"} in one text alone.` : "Both texts have the same lines.";
}
