// The style by numbers: contrast of what is read together, in light and dark, and the scales of type, space and corners.
import assert from "node:assert/strict";
import test from "node:test";
import { readFileSync } from "node:fs";

const FILES = ["tokens", "base", "compare", "head", "panes", "graph", "forms", "panel", "results", "windows"], STYLES = FILES.map(name => ({ name, css: readFileSync(`src/ui/${name}.css`, "utf8").replace(/\/\*[^]*?\*\//g, "") }));
const tokens = STYLES[0].css;
const colours = (block: string): Record<string, string> => Object.fromEntries([...block.matchAll(/--([\w-]+): (#[0-9a-f]{6});/g)].map(([, name, value]) => [name, value]));
const [light_block, dark_block] = tokens.split(":root[data-theme");
const light = colours(light_block), dark = { ...light, ...colours(dark_block) };

/** The contrast of WCAG 2.2: relative luminances, each with 0.05. */
function contrast(a: string, b: string): number {
  const luminance = (colour: string): number => {
    const [red, green, blue] = [1, 3, 5].map(i => Number.parseInt(colour.slice(i, i + 2), 16) / 255).map(part => (part <= 0.04045 ? part / 12.92 : ((part + 0.055) / 1.055) ** 2.4));
    return 0.2126 * red + 0.7152 * green + 0.0722 * blue;
  };
  const [more, less] = [luminance(a), luminance(b)].sort((x, y) => y - x);
  return (more + 0.05) / (less + 0.05);
}

const GROUNDS = ["bg", "panel", "raised", "canvas"];
/** Words on their grounds: 4.5. */
const READ: [string, string[]][] = [
  ["text", [...GROUNDS, "node", "lit", "accent-soft", "warn-soft", "bad-soft"]], ["dim", [...GROUNDS, "node", "accent-soft", "bad-soft", "line"]], ["faint", [...GROUNDS, "node"]],
  ["accent", [...GROUNDS, "accent-soft"]], ["on-accent", ["accent", "accent-strong"]], ["good", ["panel", "bg", "raised"]], ["bad", ["panel", "bg", "raised", "bad-soft", "node"]], ["on-bad", ["bad"]],
  ["warn", ["panel", "bg", "warn-soft"]], ["cancel", ["canvas", "panel", "bg"]], ["word", ["panel", "accent-soft", "bad-soft"]], ["act", ["panel", "accent-soft", "bad-soft"]], ["number", ["panel", "accent-soft", "bad-soft"]],
  ["on-note", ["note"]], ["note-link", ["note"]],
];
/** Lines, borders and marks that tell something: 3. */
const SEEN: [string, string[]][] = [
  ["line-strong", GROUNDS], ["node-line", ["canvas", "node"]], ["edge", ["canvas"]], ["urgent", ["canvas"]], ["cancel", ["canvas"]], ["accent", ["canvas", "node"]], ["lit-line", ["canvas", "lit", "panel"]],
  ["taken", ["canvas"]], ["warn", ["canvas", "node"]], ["good", ["canvas"]], ["bad", ["canvas", "node"]], ["note-good", ["note"]], ["note-bad", ["note"]],
  ...[1, 2, 3, 4, 5, 6].map((k): [string, string[]] => [`series-${k}`, ["panel", "bg"]]),
];

for (const [theme, palette] of [["light", light], ["dark", dark]] as const)
  test(`contrast, ${theme}`, () => {
    const low = [...READ.map(pair => [...pair, 4.5] as const), ...SEEN.map(pair => [...pair, 3] as const)].flatMap(([front, backs, least]) => backs.flatMap(back => {
      const found = contrast(palette[front], palette[back]);
      return found < least ? [`${front} on ${back}: ${found.toFixed(2)} < ${least}`] : [];
    }));
    assert.deepEqual(low, []);
  });

test("the formula gives the known contrasts", () => {
  assert.equal(contrast("#000000", "#ffffff"), 21);
  assert.ok(Math.abs(contrast("#767676", "#ffffff") - 4.54) < 0.005);
  assert.ok(contrast("#777777", "#ffffff") < 4.5);
});

test("each colour has its name: none is written outside of the tokens", () => {
  // The mark in the head keeps its colours in both themes.
  for (const { name, css } of STYLES.slice(1)) assert.deepEqual([...css.replace(/\.brand i \{.*\}/, "").matchAll(/#[0-9a-f]{3,8}\b/gi)].map(([colour]) => colour), [], name);
  const used = new Set(STYLES.flatMap(({ css }) => [...css.matchAll(/var\(--([\w-]+)\)/g)].map(([, name]) => name)));
  for (const name of used) assert.ok(new RegExp(`--${name}:`).test(tokens), name);
});

const values = (css: string, property: RegExp): string[] => [...css.matchAll(new RegExp(`(?:^|[;{\\s])(${property.source}): ([^;}]+)`, "g"))].map(found => found[2]);
const sizes = (value: string): number[] => [...value.matchAll(/(?<![\w.(-])(\d+(?:\.\d+)?)px/g)].map(([, size]) => Number(size));

test("type has five sizes and two weights", () => {
  for (const { name, css } of STYLES.slice(1)) {
    // Safari enlarges the page at a field of less than 16, so on a telephone fields have 16.
    const found = [...values(css, /font-size/), ...values(css, /font/)].flatMap(sizes).filter(size => !(name === "windows" && size === 16));
    assert.deepEqual(found.filter(size => ![11, 12, 13, 15, 18].includes(size)), [], name);
    assert.deepEqual([...values(css, /font-weight/), ...values(css, /font/).flatMap(value => /^(\d{3}) /.exec(value)?.[1] ?? [])].filter(weight => !["400", "600", "inherit"].includes(weight)), [], name);
  }
});
test("space has six steps, corners four", () => {
  for (const { name, css } of STYLES.slice(1)) {
    assert.deepEqual([...values(css, /(?:padding|margin|gap|column-gap|row-gap)(?:-\w+)?/)].flatMap(sizes).filter(size => ![0, 4, 8, 12, 16, 24, 32].includes(size)), [], name);
    assert.deepEqual(values(css, /border-radius/).filter(value => !/^(0|6px|10px|14px|999px|inherit)( !important)?$/.test(value)), [], name);
  }
});
test("what moves takes less than 150 ms, and nothing moves where that is asked for", () => {
  for (const { css } of STYLES) for (const value of [...values(css, /transition/), ...values(css, /animation/)]) for (const [, time] of value.matchAll(/(\d*\.?\d+)s\b/g)) assert.ok(Number(time) < 0.15, value);
  assert.match(STYLES[STYLES.length - 1].css, /prefers-reduced-motion: reduce\) \{\s*\* \{ transition: none !important; animation: none !important;/);
});
