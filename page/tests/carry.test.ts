// The result of reduce, fuse and narrow in the words of the text: the program says that it is that model, and comments of what stays stay.
import test from "node:test";
import assert from "node:assert/strict";
import { readdirSync } from "node:fs";
import { read_reduction } from "../src/reduce/certificates";
import { judge } from "../src/store/store";
import { carried, difference_of } from "../src/text/carry";
import { read_places, write_places } from "../src/text/edits";
import { read_model } from "../src/text/model";
import { example, Native } from "./native";

const engine = new Native(), names = readdirSync(`${process.env.SIGMA_CHECKOUT}/examples`).filter(file => file.endsWith(".sigma")).map(file => file.replace(/\.sigma$/, ""));
const comments = (text: string): string[] => text.match(/#[^\n]*/g) ?? [];
async function taken(text: string, way: string) {
  const before = read_model((await engine.call({ words: ["print"], input: text })).out), answer = await engine.call({ words: [way], input: text });
  assert.equal(answer.status, 0, answer.err);
  const after = read_model(read_reduction(answer.out).text), made = carried(text, before, after), verdict = await judge(engine, made.text, 0);
  return { after, made, is_that: verdict.state === "accepted" && verdict.model.text === after.text, before };
}

test("each example with each way is the model that the program wrote, and no comment is lost unsaid", async () => {
  let changed = 0;
  for (const name of names) for (const way of ["reduce", "fuse", "narrow"]) {
    const text = example(name), { made, is_that, before, after } = await taken(text, way);
    assert.ok(is_that, `${way} of ${name}:\n${made.text}`);
    assert.equal(comments(made.text).length + made.comments, comments(text).length, `${way} of ${name}`);
    if (before.text === after.text) assert.equal(made.text, text); else changed++;
  }
  assert.ok(changed > 15, `${changed}`);
});

const NOTED = `# The shop.
model SHOP; # its name
# how many wait
var QUEUE : 0..9 = 0;
var SPARE : 0..9 = 0; # nobody asks
watch QUEUE;
vertex OPEN {
  # first of all
  set QUEUE := QUEUE + 1; # one more
  set SPARE := 2;
  schedule OPEN after 5 when QUEUE < 5; # again
  schedule NEVER after 1 when QUEUE > 20; # not at all
}

# It never comes.
# Really.
vertex NEVER {
}
end
# places OPEN 1,2; NEVER 3,4;
`;

test("comments of what stays stay, those of what is gone go and are counted, and so do places", async () => {
  const { made, is_that } = await taken(NOTED, "reduce");
  assert.ok(is_that, made.text);
  assert.deepEqual(comments(made.text), ["# The shop.", "# its name", "# how many wait", "# first of all", "# one more", "# again", "# places OPEN 1,2;"]);
  assert.equal(made.comments, 4);
  assert.deepEqual(read_places(made.text), { OPEN: { x: 1, y: 2 } });
  assert.ok(!made.text.includes("\n\n\n"), made.text);
});

test("places of a large model that is reduced are those of the events that stay", async () => {
  const text = write_places(example("polling"), { POLL: { x: 1, y: 1 }, ALARM: { x: 5, y: 5 } }), { made, is_that } = await taken(text, "reduce");
  assert.ok(is_that);
  assert.deepEqual(read_places(made.text), { POLL: { x: 1, y: 1 } });
});

test("what stays in its place isn't written anew", () => {
  const { fate, more } = difference_of(["a", "b", "c", "d"], ["a", "x", "c", "d", "e"]);
  assert.deepEqual([fate, [...more]], [["keep", "=x", "keep", "keep"], [[3, ["e"]]]]);
  assert.deepEqual(difference_of(["a", "b", "c"], ["b"]).fate, ["gone", "keep", "gone"]);
  assert.deepEqual([...difference_of([], ["a", "b"]).more], [[-1, ["a", "b"]]]);
});
