// Parts of models that come again and again: variables, tables and events to put in, with names that are free.
import { add_variable, apply_edits, free_name, set_watched, version_two } from "./edits";
import { parts_of, tokens_of } from "./places";

export interface Template { id: string; title: string; does: string; names: readonly string[]; vars: readonly string[]; watched: readonly string[]; events: string; first: string }

/** In these texts `$NAME` is a name that is made free, and `?K` a random stream that nothing uses yet. */
export const TEMPLATES: readonly Template[] = [
  {
    id: "queue", title: "Queue with servers", does: "Customers arrive, wait, and are served by one of two servers.", first: "ARRIVE", names: ["QUEUE", "IDLE", "ARRIVE", "SERVE", "LEAVE"],
    vars: ["var $QUEUE : 0..1000 = 0;", "var $IDLE : 0..2 = 2;"], watched: ["QUEUE", "IDLE"],
    events: "vertex $ARRIVE {\n  set $QUEUE := $QUEUE + 1;\n  schedule $ARRIVE after draw from ?1 in 1..6;\n  urgent $SERVE when $IDLE > 0;\n}\nvertex $SERVE {\n  set $QUEUE, $IDLE := $QUEUE - 1, $IDLE - 1;\n  schedule $LEAVE after draw from ?2 in 3..9;\n}\nvertex $LEAVE {\n  set $IDLE := $IDLE + 1;\n  urgent $SERVE when $QUEUE > 0;\n}",
  },
  {
    id: "breakdown", title: "Breakdown and repair", does: "A machine runs for a while, breaks down, and is repaired.", first: "FAIL", names: ["UP", "FAIL", "FIX"],
    vars: ["var $UP : bool = true;"], watched: ["UP"],
    events: "vertex $FAIL {\n  set $UP := false;\n  schedule $FIX after draw from ?1 in 10..30;\n}\nvertex $FIX {\n  set $UP := true;\n  schedule $FAIL after draw from ?2 in 200..600;\n}",
  },
  {
    id: "batch", title: "Batch", does: "Pieces are gathered, and go on together once there are ten.", first: "ADD", names: ["GATHERED", "BATCHES", "ADD", "SEND"],
    vars: ["var $GATHERED : 0..10 = 0;", "var $BATCHES : 0..1000000 = 0;"], watched: ["GATHERED", "BATCHES"],
    events: "vertex $ADD {\n  set $GATHERED := $GATHERED + 1;\n  schedule $ADD after draw from ?1 in 1..5;\n  urgent $SEND when $GATHERED = 10;\n}\nvertex $SEND {\n  set $GATHERED, $BATCHES := $GATHERED - 10, $BATCHES + 1;\n}",
  },
  {
    id: "shift", title: "Shift", does: "A shift begins, ends after eight hours of ticks, and begins again the next day.", first: "BEGIN_SHIFT", names: ["ON_SHIFT", "BEGIN_SHIFT", "END_SHIFT"],
    vars: ["var $ON_SHIFT : bool = false;"], watched: ["ON_SHIFT"],
    events: "vertex $BEGIN_SHIFT {\n  set $ON_SHIFT := true;\n  schedule $END_SHIFT after 480 priority 1;\n  schedule $BEGIN_SHIFT after 1440 priority 1;\n}\nvertex $END_SHIFT {\n  set $ON_SHIFT := false;\n}",
  },
];

/** The streams that nothing draws from, from 1 on. */
export function free_streams(text: string, count: number): number[] {
  const tokens = tokens_of(text), used = new Set(tokens.filter((_, k) => tokens[k - 1]?.word === "from").map(token => token.word)), free: number[] = [];
  for (let stream = 1; stream < 64 && free.length < count; stream++) if (!used.has(String(stream))) free.push(stream);
  while (free.length < count) free.push(63);
  return free;
}

/** The text with a template in it; its first event is scheduled by the first event of the model. */
export function with_template(text: string, template: Template): { text: string; first: string } {
  let names = text;
  const found = new Map<string, string>();
  for (const name of template.names) { const free = free_name(names, name); found.set(name, free); names += ` ${free} `; }
  const streams = free_streams(text, 2), filled = (part: string) => part.replace(/\$([A-Z_]+)/g, (_, name: string) => found.get(name)!).replace(/\?(\d)/g, (_, k: string) => String(streams[Number(k) - 1]));
  const first = found.get(template.first)!;
  let now = text.trim() ? text : "model MODEL;\nvertex OPEN {\n}\nend\n";
  for (const line of template.vars) now = apply_edits(now, add_variable(now, filled(line)));
  for (const name of template.watched) now = apply_edits(now, set_watched(now, found.get(name)!, true));
  const parts = parts_of(now), last = parts.vertices[parts.vertices.length - 1], begin = parts.vertices[0];
  const edge = `  schedule ${first};\n`, at = now.lastIndexOf("\n", begin.close - 1) + 1, own_line = /^\s*$/.test(now.slice(at, begin.close));
  now = apply_edits(now, [{ from: last.to, to: last.to, text: "\n" + filled(template.events) }, own_line ? { from: at, to: at, text: edge } : { from: begin.close, to: begin.close, text: `${edge.trim()} ` }]);
  if (/\bafter draw\b/.test(template.events)) now = apply_edits(now, version_two(now));
  return { text: now, first };
}
