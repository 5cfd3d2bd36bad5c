// Where a run is stopped: the event with which a condition begins to hold is the one that the program's own history says, however the
// run is cut into pieces.
import test from "node:test";
import assert from "node:assert/strict";
import { Comparison, Follower, holds, Stop } from "../src/engine/stopping";
import { compared_number, find_stop, Found, stop_in_words } from "../src/run/stops";
import { words_of } from "../src/run/words";
import { judge } from "../src/store/store";
import { Model } from "../src/text/model";
import { watching } from "../src/text/variants";
import { example, Native } from "./native";

const engine = new Native(), { signal } = new AbortController(), DAY = { until: 480, seed: "7", events: 100000, start: "" };
const model_of = async (text: string): Promise<Model> => ((await judge(engine, text, 0)) as { model: Model }).model;
/** What the program says of each event: its name and the values after it. */
async function history(model: Model, names: string[], settings = DAY): Promise<{ event: string; values: Record<string, string>; time: number }[]> {
  const answer = await engine.call({ words: words_of("run", model, settings), input: watching(model, [...names, ...model.vertices.map(each => each.name)]) });
  return answer.out.split("\n").filter(line => line.startsWith("on ")).map(line => { const [, time, event, ...values] = line.split(" "); return { time: Number(time), event, values: Object.fromEntries(values.map(each => each.split("="))) }; });
}

test("the first time and each next one are those of the history, with small pieces and with large ones", async () => {
  const model = await model_of(example("bank")), all = await history(model, ["QUEUE", "IDLE"]), is = (value: string) => Number(value) >= 2;
  const wanted = all.flatMap(({ values }, k) => (is(values.QUEUE) && !(k && is(all[k - 1].values.QUEUE)) ? [k + 1] : []));
  assert.ok(wanted.length > 2, `${wanted}`);
  for (const piece of [1, 7, 100, 20000]) {
    const found: number[] = [], stop: Stop = { cell: "QUEUE", how: ">=", than: "2" };
    for (let after: number | null = null; ;) {
      const met: Found = await find_stop(engine, model, DAY, stop, after, { signal }, piece);
      if (met.event === null) { assert.equal(met.last === "" || met.last === "stopped 480", true, met.last); break; }
      assert.equal(met.time, all[met.event - 1].time);
      found.push(after = met.event);
    }
    assert.deepEqual(found, wanted, `pieces of ${piece}`);
  }
});

test("each time that an event occurs is found, also twice in a row", async () => {
  const model = await model_of("model TWO;\nvertex ARRIVE {\n  schedule ARRIVE after 2;\n  schedule OTHER after 15;\n}\nvertex OTHER {\n}\nend\n"), all = await history(model, []), wanted = all.flatMap(({ event }, k) => (event === "ARRIVE" ? [k + 1] : [])).slice(0, 30);
  assert.ok(wanted.some((k, i) => wanted[i + 1] === k + 1));
  const found: number[] = [];
  for (let after: number | null = null; found.length < 30; found.push(after)) after = (await find_stop(engine, model, DAY, { event: "ARRIVE" }, after, { signal }, 11)).event!;
  assert.deepEqual(found, wanted);
});

test("what holds before the first event is found there, and then when it begins to hold again", async () => {
  const model = await model_of(example("bank")), all = await history(model, ["IDLE"]), stop: Stop = { cell: "IDLE", how: "=", than: "2" };
  assert.equal((await find_stop(engine, model, DAY, stop, null, { signal })).event, 0);
  const again = all.findIndex(({ values }, k) => k > 0 && values.IDLE === "2" && all[k - 1].values.IDLE !== "2") + 1;
  assert.equal((await find_stop(engine, model, DAY, stop, 0, { signal })).event, again);
});

test("cells of arrays, truth values and numbers below 0 and above 2^53 are compared exactly", () => {
  const said = "QUEUE=-3 FREE=true WAITING=0,9007199254740993,1 UP=0";
  for (const [cell, how, than, is] of [["QUEUE", "=", "-3", true], ["QUEUE", "<", "-3", false], ["QUEUE", "<=", "-3", true], ["QUEUE", "<>", "3", true], ["FREE", "=", "1", true], ["UP", "=", "1", false], ["WAITING[1]", ">", "9007199254740992", true], ["WAITING[1]", "=", "9007199254740992", false], ["WAITING[2]", ">=", "1", true], ["WAITING[3]", ">=", "0", false], ["UE", "=", "-3", false]] as [string, Comparison, string, boolean][])
    assert.equal(holds({ cell, how, than }, "ANY", said), is, `${cell} ${how} ${than}`);
  assert.deepEqual(["10", " -4 ", "1,000", "true", "FALSE", "", "x", "1.5"].map(compared_number), ["10", "-4", "1000", "1", "0", null, null, null]);
  assert.equal(stop_in_words({ cell: "QUEUE", how: ">=", than: "10" }), "QUEUE >= 10");
});

test("a condition that held before begins to hold only after it didn't", () => {
  const follower = new Follower({ cell: "Q", how: ">", than: "1" }, true), values = [2, 3, 1, 2, 2, 0, 5];
  assert.deepEqual(values.map(value => follower.begins("E", `Q=${value}`)), [false, false, false, true, false, false, true]);
});

test("what never holds is looked for to the end, to the last event that is asked for, and to a fault", async () => {
  const model = await model_of(example("bank")), never: Stop = { cell: "QUEUE", how: ">", than: "499" }, seen: number[] = [];
  assert.deepEqual(await find_stop(engine, model, DAY, never, null, { signal, grown: events => seen.push(events) }, 50), { event: null, time: 0, last: "stopped 480" });
  assert.deepEqual(seen.slice(0, 3), [50, 150, 350]);
  assert.equal((await find_stop(engine, model, { ...DAY, events: 60 }, never, null, { signal }, 50)).last, "budget 60");
  const small = await model_of(example("bank").replace("0..500", "0..2"));
  assert.match((await find_stop(engine, small, DAY, never, null, { signal })).last, /^fault /);
});

test("it can be stopped", async () => {
  const abort = new AbortController(), model = await model_of(example("bank"));
  await assert.rejects(find_stop(engine, model, { ...DAY, until: 10 ** 9 }, { cell: "QUEUE", how: ">", than: "499" }, null, { signal: abort.signal, grown: () => abort.abort() }, 20), { name: "Cancelled" });
});
