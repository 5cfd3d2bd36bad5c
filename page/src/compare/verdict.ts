// What the program says of two models, as it wrote it. Nothing is concluded here: what isn't one of its answers is none.
import { Answer, complaint } from "../engine/wire";

/** The lines of both models that show that they differ. */
export interface Lines { first: string; second: string }
export type Verdict =
  | { word: "same" }
  | { word: "unknown"; more: string[] }
  | { word: "differs"; how: "declared"; lines: Lines }
  | { word: "differs"; how: "run"; run: number; seed: string; line: number; lines: Lines };

/** The status that goes with each word. */
const STATUSES: Readonly<Record<string, number>> = { same: 0, differs: 12, unknown: 13 };

const after = (word: string, line: string | undefined): string | null => (line?.startsWith(`${word} `) ? line.slice(word.length + 1) : null);

function difference([how, one, other, ...rest]: readonly string[]): Verdict | null {
  const first = after("first", one), second = after("second", other), run = /^run (\d+) seed (\d+) line (\d+)$/.exec(how ?? "");
  if (first === null || second === null || rest.length) return null;
  const lines = { first, second };
  if (how === "declared") return { word: "differs", how, lines };
  return run ? { word: "differs", how: "run", run: Number(run[1]), seed: run[2], line: Number(run[3]), lines } : null;
}

/** Reads an answer of `compare`; throws what stands in its way where there is none. */
export function verdict_of(answer: Answer): Verdict {
  const [word, ...more] = answer.out.replace(/\n$/, "").split("\n");
  if (answer.failure || STATUSES[word] !== answer.status) throw new Error(complaint(answer));
  const found: Verdict | null = word === "same" && !more.length ? { word } : word === "unknown" ? { word, more } : word === "differs" ? difference(more) : null;
  if (!found) throw new Error("The program's answer can't be read.");
  return found;
}
