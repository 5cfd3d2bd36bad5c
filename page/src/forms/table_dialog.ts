// A new table, or other rows of one: from a distribution, from measured times, or row by row.
import { BadDistribution, Kind, KINDS, mean_of, Row, rows_as_text, rows_of_text, table_of } from "../text/distributions";
import { h, s } from "../ui/dom";
import { fixed, plural } from "../ui/format";
import { dialog } from "../ui/menu";

/** A small picture of a table: a bar for each value. */
export function spark(rows: readonly Row[]): SVGElement {
  const most = Math.max(...rows.map(row => row.weight), 1), first = rows[0]?.value ?? 0, width = Math.max(1, (rows[rows.length - 1]?.value ?? 0) - first + 1);
  return s("svg", { class: "spark", viewBox: `0 0 ${width} 40`, preserveAspectRatio: "none", role: "img", "aria-label": "How likely each value is" },
    ...rows.map(({ value, weight }) => s("rect", { x: value - first + 0.05, width: 0.9, y: 40 - (weight / most) * 40, height: (weight / most) * 40 })));
}

/** Asks for a table; `take` gets its name and rows, and answers whether the program accepted them. */
export function ask_table(name: string, rows: string, take: (name: string, rows: string) => Promise<boolean>): void {
  let kind: Kind | "rows" = rows ? "rows" : "exponential", numbers: string[] = ["10"], data = "", typed = rows ? rows_of_text(rows).map(({ value, weight }) => `${value} : ${weight}`).join("\n") : "";
  const name_field = h("input", { type: "text", value: name, "aria-label": "Name of the table", className: "code", spellcheck: "false" }), fields = h("div", { className: "table-fields" }), picture = h("div", { "aria-live": "polite" });
  const made = (): { rows: Row[]; wanted: number | null } => {
    if (kind !== "rows") return table_of(kind, numbers.map(Number), data);
    const found = rows_of_text(typed.split("\n").filter(line => line.trim()).map(line => `${line.replace(/;\s*$/, "")};`).join(" "));
    if (!found.length || found.length !== typed.split("\n").filter(line => line.trim()).length) throw new BadDistribution("Each line is a value, a colon and a weight: 5 : 3");
    return { rows: found, wanted: null };
  };
  const show = () => {
    try {
      const { rows: now, wanted } = made(), mean = mean_of(now);
      picture.replaceChildren(spark(now), h("p", { className: "hint" }, `${plural(now.length, "row")} from ${now[0].value} to ${now[now.length - 1].value}, mean ${fixed(mean, 3)}${wanted === null ? "" : ` (asked: ${fixed(wanted, 3)})`}`));
    } catch (problem) {
      if (!(problem instanceof BadDistribution)) throw problem;
      picture.replaceChildren(h("p", { className: "problem" }, problem.message));
    }
  };
  const area = (value: string, label: string, set: (text: string) => void) => h("textarea", { rows: "8", className: "code", value, "aria-label": label, spellcheck: "false", oninput: (event: Event) => { set((event.target as HTMLTextAreaElement).value); show(); } }, value);
  const fill = () => {
    const chosen = KINDS.find(each => each.id === kind);
    fields.replaceChildren(...(kind === "rows" ? [area(typed, "Rows: value : weight", text => { typed = text; })] : kind === "data" ? [area(data, "Measured times, one a line", text => { data = text; })]
      : chosen!.fields.map((title, k) => h("label", { className: "field" }, h("span", { className: "field-name" }, title), h("input", { type: "text", inputmode: "decimal", value: numbers[k] ?? "", "data-number": title, oninput: (event: Event) => { numbers[k] = (event.target as HTMLInputElement).value; show(); } })))));
    show();
  };
  const choose = (event: Event) => { kind = (event.target as HTMLSelectElement).value as Kind | "rows"; numbers = [...KINDS.find(each => each.id === kind)?.first ?? []]; fill(); };
  const refusal = h("p", { className: "problem", role: "alert" });
  const accept = async () => {
    try {
      const text = rows_as_text(made().rows);
      if (await take(name_field.value.trim(), text)) box.close(); else refusal.textContent = "The program refuses it: see the note below.";
    } catch (problem) { if (!(problem instanceof BadDistribution)) throw problem; refusal.textContent = problem.message; }
  };
  const kinds = h("select", { "aria-label": "Distribution", value: kind, onchange: choose }, ...[["rows", "Row by row"], ...KINDS.map(each => [each.id, each.title])].map(([id, title]) => h("option", { value: id, selected: id === kind }, title)));
  const box = dialog(rows ? `The table ${name}` : "New table", h("div", { className: "row" }, name_field, kinds), fields, picture, refusal, h("div", { className: "choices" }, h("button", { className: "primary", onclick: () => void accept() }, rows ? "Put in place" : "Add the table")));
  fill();
}
