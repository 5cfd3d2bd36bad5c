// The graph without a page: what lies where, which way a line goes, where its label stands, what is seen.
import assert from "node:assert/strict";
import test from "node:test";
import { readFileSync } from "node:fs";
import { grid_of, Gutters } from "../src/graph/grid";
import { groups_of } from "../src/graph/groups";
import { place_labels } from "../src/graph/labels";
import { Box, lay_out } from "../src/graph/layout";
import { split } from "../src/graph/parts";
import { around, crossings, direct } from "../src/graph/routes";
import { Scene } from "../src/graph/scene";
import { broken, change_lines, delay_in_words, Measure } from "../src/graph/shapes";
import { brought_in, fitted } from "../src/graph/view";
import { Places } from "../src/text/edits";
import { read_model } from "../src/text/model";

const measure: Measure = text => text.length * 7;
const VIEW = { sideways: false, aspect: 1.6, room: { width: 1060, height: 660 } };

function scene_of(text: string, places: Places = {}): Scene {
  const scene = new Scene(measure), model = read_model(text), request = scene.begin(model, places, VIEW);
  scene.finish(places, request && lay_out(request));
  return scene;
}
const again = (scene: Scene, text: string, places: Places = {}): boolean => {
  const request = scene.begin(read_model(text), places, VIEW);
  scene.finish(places, request && lay_out(request));
  return request !== null;
};
const overlap = (a: Box, b: Box): boolean => Math.abs(a.x - b.x) < (a.width + b.width) / 2 && Math.abs(a.y - b.y) < (a.height + b.height) / 2;

const BANK = `model BANK;
var QUEUE : 0..500 = 0;
var IDLE : 0..2 = 2;
watch QUEUE;
vertex OPEN {
  schedule ARRIVE;
  schedule CLOSE after 480 priority 1;
}
vertex ARRIVE {
  set QUEUE := QUEUE + 1;
  schedule ARRIVE after draw from 0 in 1..6;
  urgent SERVE when IDLE > 0;
}
vertex SERVE {
  set QUEUE, IDLE := QUEUE - 1, IDLE - 1;
  schedule LEAVE after draw from 1 in 3..9;
}
vertex LEAVE {
  set IDLE := IDLE + 1;
  urgent SERVE when QUEUE > 0;
}
vertex CLOSE {
  cancel all ARRIVE;
}
end
`;

test("labels lie on no event, on no other label, and off their own line", () => {
  const scene = scene_of(BANK), labels = scene.lines.flatMap(line => (line.label ? [{ line, label: line.label }] : []));
  assert.equal(labels.length, 6);
  for (const { line, label } of labels) {
    for (const [name, { box }] of scene.nodes) assert.ok(!overlap(label, box), `${line.key} on ${name}`);
    for (const other of labels) assert.ok(other.label === label || !overlap(label, other.label), `${line.key} on ${other.line.key}`);
    for (const { x, y } of line.route.samples) assert.ok(Math.abs(x - label.x) >= label.width / 2 || Math.abs(y - label.y) >= label.height / 2, `${line.key} on its line`);
  }
});

test("a drag changes the lines of the event that is dragged, and no other", () => {
  const scene = scene_of(BANK), before = new Map(scene.lines.map(line => [line.key, { path: line.route.path, label: line.label }]));
  scene.move(new Set(["LEAVE"]), { x: 40, y: 16 });
  for (const line of scene.lines) {
    const is_touched = line.key.split(" ").includes("LEAVE"), { path, label } = before.get(line.key)!;
    assert.equal(line.route.path !== path, is_touched, line.key);
    if (!is_touched) assert.deepEqual(line.label, label, line.key);
  }
  // So it is too once the places are written into the text.
  const dragged = new Map(scene.lines.map(line => [line.key, line.route.path]));
  assert.equal(again(scene, BANK, scene.places), false);
  for (const line of scene.lines) if (!line.key.split(" ").includes("LEAVE")) assert.equal(line.route.path, dragged.get(line.key), line.key);
});

test("a place in a text that is opened spoils no line of the others", () => {
  const first = scene_of(BANK), moved = { ...first.places, LEAVE: { x: first.places.LEAVE.x + 40, y: first.places.LEAVE.y + 10 } }, opened = scene_of(BANK, moved);
  const points = (scene: Scene) => scene.lines.find(line => line.key === "OPEN ARRIVE plain")!.route.samples.map(({ x, y }) => [Math.round(x / 3), Math.round(y / 3)]);
  assert.deepEqual(points(opened), points(first));
});

test("a new edge, and another name, move no event", () => {
  const scene = scene_of(BANK), before = scene.places;
  assert.equal(again(scene, BANK.replace("cancel all ARRIVE;", "cancel all ARRIVE;\n  schedule OPEN after 10;")), false);
  assert.deepEqual(scene.places, before);
  assert.equal(again(scene, BANK.replaceAll("LEAVE", "GO")), false);
  assert.deepEqual(scene.places.GO, before.LEAVE);
});

test("taking the places back lays out anew", () => {
  const scene = scene_of(BANK), before = scene.places;
  again(scene, BANK, { ...before, LEAVE: { x: 900, y: 900 } });
  assert.equal(again(scene, BANK), true);
  assert.deepEqual(scene.places, before);
});

test("an event without a place goes where nothing lies", () => {
  const scene = scene_of(BANK), places = scene.places;
  again(scene, BANK.replace("vertex CLOSE", "vertex NEW {\n}\nvertex CLOSE"), places);
  const { box } = scene.nodes.get("NEW")!;
  for (const [name, node] of scene.nodes) assert.ok(name === "NEW" || !overlap(box, node.box), name);
});

test("edges that are drawn alike between two events share an arrow, with a label each", () => {
  const three = BANK.replace("  urgent SERVE when QUEUE > 0;\n", "  schedule SERVE after 1 when QUEUE = 1;\n  schedule SERVE after 2 when QUEUE = 2;\n  schedule SERVE after 3 when QUEUE = 3;\n");
  const [line, ...more] = scene_of(three).lines.filter(each => each.key.startsWith("LEAVE SERVE"));
  assert.equal(more.length, 0);
  assert.deepEqual(line.bundle.labels.map(label => label.lines.map(each => (each.lead ?? "") + each.text + (each.more ?? ""))), [["after 1, if QUEUE = 1"], ["after 2, if QUEUE = 2"], ["after 3, if QUEUE = 3"]]);
});

test("words for what is drawn and added", () => {
  assert.deepEqual(change_lines("draw GAP from 0 in 1..6"), ["GAP := 1..6, drawn"]);
  assert.deepEqual(change_lines("set QUEUE, IDLE := QUEUE - 1, f(A, B)"), ["QUEUE -= 1", "IDLE := f(A, B)"]);
  assert.equal(delay_in_words("draw from 3 by RED"), "RED, drawn");
});

test("a long condition is broken, and nothing of it is lost", () => {
  const long = "WAITING[0] + WAITING[1] + WAITING[2] > 0 and FREE > 0", lines = broken(long);
  assert.equal(lines.join(" "), long);
  assert.ok(lines.length > 1 && lines.every(line => line.length <= 24));
  assert.deepEqual(broken("A_SINGLE_NAME_OF_MANY_LETTERS"), ["A_SINGLE_NAME_OF_MANY_LETTERS"]);
});

test("a line keeps off an event that lies in its way", () => {
  const from = { x: 0, y: 0, width: 80, height: 40 }, between = { x: 0, y: 150, width: 80, height: 40 }, to = { x: 0, y: 300, width: 80, height: 40 };
  assert.ok(crossings(direct(from, to, 0), [between]) > 0);
  assert.equal(crossings(around(from, to, 0, [from, between, to]), [between]), 0);
});

test("what is seen already isn't moved; else by the least movement", () => {
  const room = { width: 800, height: 500 }, at = { x: 0, y: 0, k: 1 };
  assert.deepEqual(brought_in({ x: 60, y: 30, width: 100, height: 40 }, at, room), { x: 0, y: 0 });
  assert.deepEqual(brought_in({ x: 60, y: 20, width: 100, height: 40 }, at, room), { x: 0, y: 8 });
  assert.deepEqual(brought_in({ x: 900, y: 250, width: 100, height: 40 }, at, room), { x: -158, y: 0 });
  // What is shown whole needs no movement to bring any of it in.
  const box = { x: 300, y: 700, width: 900, height: 1400 }, fit = fitted(box, room, 1.25);
  for (const [x, y] of [[-150, 0], [750, 0], [0, 0], [0, 1400]]) assert.deepEqual(brought_in({ x: Math.max(-100, Math.min(700, x)), y: Math.max(20, Math.min(1380, y)), width: 100, height: 40 }, fit, room), { x: 0, y: 0 });
});

test("groups stand in a grid of the paper's shape, and the ways between them cross none", () => {
  const parts = Array.from({ length: 20 }, () => ({ width: 300, height: 200 })), wide = grid_of(parts, 3), tall = grid_of(parts, 0.4);
  assert.ok(wide.columns > tall.columns);
  assert.ok(Math.abs(Math.log(wide.width / wide.height / 3)) < Math.log(1.5));
  const gutters = new Gutters(wide), centre = (i: number) => ({ x: wide.corners[i].x + 150, y: wide.corners[i].y + 100 });
  for (const [a, b] of [[0, 13], [13, 0], [2, 3], [19, 1]]) {
    const way = gutters.way(a, centre(a), b, centre(b));
    for (let i = 1; i < way.length; i++)
      for (let t = 0; t <= 1; t += 0.02) {
        const x = way[i - 1].x + (way[i].x - way[i - 1].x) * t, y = way[i - 1].y + (way[i].y - way[i - 1].y) * t;
        assert.ok(!wide.corners.some(corner => x > corner.x && x < corner.x + 300 && y > corner.y && y < corner.y + 200), `${a} to ${b}`);
      }
  }
});

test("groups have at most 14 members, and each event is in one", () => {
  const edges = Array.from({ length: 199 }, (_, i) => ({ from: i, to: i + 1 })), groups = groups_of(200, edges);
  assert.ok(groups.every(group => group.length <= 14));
  assert.deepEqual(groups.flat().sort((a, b) => a - b), Array.from({ length: 200 }, (_, i) => i));
});

test("two hundred events are laid out whole, and no two lie on each other", () => {
  const scene = scene_of(readFileSync("models/plant.sigma", "utf8").replace(/^#.*\n/gm, "")), boxes = [...scene.nodes.values()].map(node => node.box);
  assert.equal(boxes.length, 201);
  boxes.forEach((box, i) => boxes.forEach((other, k) => assert.ok(k <= i || !overlap(box, other))));
  scene.place_labels();
  const own = scene.lines.flatMap(line => (line.label && !line.across ? [line.label] : []));
  const hits = own.filter((label, i) => boxes.some(box => overlap(label, box)) || own.some((other, k) => k > i && overlap(label, other)));
  assert.ok(hits.length <= own.length / 50, `${hits.length} of ${own.length} labels overlap something`);
});

test("a label that nothing hinders stands at the right of a line that leads down, at its middle", () => {
  const samples = Array.from({ length: 11 }, (_, i) => ({ x: 0, y: i * 10 })), [place] = place_labels([{ line: 0, samples, width: 40, height: 15 }], [], [samples]);
  assert.deepEqual(place, { x: 26, y: 50 });
});

test("parts that are built alike are laid out once, and each event lies in its own group's place", () => {
  // Twenty rings of five events each.
  const rings = 20, nodes = Array.from({ length: 5 * rings }, () => ({ width: 90, height: 40 }));
  const edges = nodes.map((_, i) => ({ from: i, to: i % 5 === 4 ? i - 4 : i + 1, width: 0, height: 0 })), { parts, join } = split({ nodes, edges, sideways: false, aspect: 1.6 });
  assert.ok(parts.length <= 3, `${parts.length} parts`);
  const layout = join(parts.map(lay_out)), boxes = layout.nodes.map(at => ({ ...at, width: 90, height: 40 }));
  assert.equal(layout.groups.flat().length, nodes.length);
  boxes.forEach((box, i) => boxes.forEach((other, k) => assert.ok(k <= i || !overlap(box, other), `${i} on ${k}`)));
});

test("labels of a large graph are placed group by group, and stay", () => {
  const scene = scene_of(readFileSync("models/plant.sigma", "utf8").replace(/^#.*\n/gm, ""));
  assert.ok(scene.lines.every(line => !line.label));
  const first = scene.lines.find(line => line.bundle.from === "START20")!;
  scene.name_lines([first]);
  const named = new Map(scene.lines.filter(line => line.label).map(line => [line.key, line.label]));
  assert.ok(named.has(first.key) && named.size < scene.lines.length / 4);
  scene.name_lines(scene.lines);
  for (const line of scene.lines) if (named.has(line.key)) assert.deepEqual(line.label, named.get(line.key));
  assert.ok(scene.lines.every(line => line.label || !line.bundle.height));
});
