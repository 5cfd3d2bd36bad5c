// What a planner says of a model beside it: what a tick is, when the clock begins, and what items are called. It stands in comments after
// `end`, so that it goes with the file and changes no model:
//
//     # tick minute from 9:00
//     # shown QUEUE: customers waiting [customers]

/** What an item is called where results are shown, and what it is counted in. */
export interface Shown { title: string; unit: string }
/** `unit` is what a tick is, empty for a tick; `opens` the clock at tick 0. */
export interface Notes { unit: string; opens: string; items: Readonly<Record<string, Shown>> }

const TICK = /^# tick (second|minute|hour|day)(?: from (\S+))?[ \t]*$/m, SHOWN = /^# shown ([A-Za-z]\w*):[ \t]*([^[\]\n]*?)[ \t]*(?:\[([^[\]\n]*)\])?[ \t]*$/gm, LINES = /^# (?:tick (?:second|minute|hour|day)(?: from \S+)?|shown [A-Za-z]\w*:[^\n]*)[ \t]*\n?/gm;

let last: { text: string; notes: Notes } | null = null;
export function read_notes(text: string): Notes {
  if (last?.text === text) return last.notes;
  const tick = TICK.exec(text), items = Object.fromEntries([...text.matchAll(SHOWN)].map(([, name, title, unit]) => [name, { title, unit: unit ?? "" }]));
  last = { text, notes: { unit: tick?.[1] ?? "", opens: tick?.[2] ?? "", items } };
  return last.notes;
}

/** A title or a unit as the text has it. */
export const plain = (words: string): string => words.replace(/[[\]\n\r]/g, " ").trim();
/** The text with these notes in place of its own. A clock time without a unit says nothing, so it isn't kept. */
export function write_notes(text: string, { unit, opens, items }: Notes): string {
  const lines = Object.entries(items).filter(([, { title, unit: its }]) => plain(title) || plain(its)).map(([name, { title, unit: its }]) => `# shown ${name}: ${plain(title)}${plain(its) ? ` [${plain(its)}]` : ""}`.trimEnd());
  if (unit) lines.unshift(`# tick ${unit}${opens.trim() ? ` from ${opens.trim().replace(/\s+/g, "")}` : ""}`);
  const bare = text.replace(LINES, ""), end = bare && !bare.endsWith("\n") ? "\n" : "";
  return lines.length ? `${bare}${end}${lines.join("\n")}\n` : bare;
}

/** What an item is called: its title with its name, or its name alone. A cell of an array is called as the array. */
export function title_of_item({ items }: Notes, name: string): string {
  const [whole, index] = name.split("["), title = (items[name] ?? items[whole])?.title;
  return title ? `${title}${index ? ` [${index}` : ""} (${name})` : name;
}
export const unit_of_item = ({ items }: Notes, name: string): string => (items[name] ?? items[name.split("[")[0]])?.unit ?? "";
