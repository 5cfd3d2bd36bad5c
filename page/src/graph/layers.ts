// Places a few events in layers, by dagre.
import * as dagre from "dagre";
import type { Layout, Request } from "./layout";

/** Between two ranks there is room for the label and this much; beside a line its label stands off by this. */
const RANK = 32, BESIDE = 7;

export function in_layers({ nodes, edges, sideways }: Request): Layout {
  const graph = new dagre.graphlib.Graph({ multigraph: true });
  graph.setGraph({ rankdir: sideways ? "LR" : "TB", nodesep: 40, ranksep: RANK, edgesep: 22, marginx: 20, marginy: 20 });
  graph.setDefaultEdgeLabel(() => ({}));
  const loops = new Map<number, number>();
  for (const edge of edges) if (edge.from === edge.to) loops.set(edge.from, Math.max(loops.get(edge.from) ?? 0, edge.width + 48));
  // A loop is drawn at the right of its event, so its event gets the room on both sides.
  nodes.forEach((node, i) => graph.setNode(String(i), { width: node.width + (sideways ? 0 : (loops.get(i) ?? 0)), height: node.height + (sideways && loops.has(i) ? 50 : 0) }));
  edges.forEach((edge, i) => {
    if (edge.from === edge.to) return;
    // The room for a label is on the other side of the line than dagre says: it keeps it on the right at "l", and above at "r".
    graph.setEdge(String(edge.from), String(edge.to), { width: edge.width, height: edge.height, labelpos: sideways ? "r" : "l", labeloffset: BESIDE }, String(i));
  });
  dagre.layout(graph);
  const { width, height } = graph.graph();
  return {
    width, height, ms: 0, groups: [],
    nodes: nodes.map((_, i) => { const { x, y } = graph.node(String(i)); return { x: x - (sideways ? 0 : (loops.get(i) ?? 0) / 2), y }; }),
    edges: edges.map((edge, i) => {
      if (edge.from === edge.to) return null;
      const { points, x, y } = graph.edge(String(edge.from), String(edge.to), String(i)), middle = points[points.length >> 1];
      const label = x === undefined || y === undefined ? middle : sideways ? { x, y: y - edge.height - 2 * BESIDE } : { x: x + edge.width + 2 * BESIDE, y };
      return { points: points.slice(1, -1), label };
    }),
  };
}
