"use strict";
/* Places for the nodes of a graph without cycles, in layers from the top. Each text of an edge has a layer of its own
   between two layers of nodes, so nothing lies on anything else. An edge over several layers goes through small places
   in those between. */

const GAP = 18, LAYER_GAP = 26, SWEEPS = 12, STRAIGHTENINGS = 10;

/* The layer of each node: one more than the greatest of those that lead to it. Edges lead from nodes with smaller
   numbers to nodes with greater ones. */
function layersOf(nodes, edges) {
  const layer = new Map(nodes.map((node) => [node.name, 0]));
  const out = new Map(nodes.map((node) => [node.name, []]));
  edges.forEach((edge) => out.get(edge.from).push(edge.to));
  const order = (name) => Number(name.slice(1)) + (name[0] === "t" ? 0.5 : 0);
  for (const name of [...layer.keys()].sort((one, other) => order(one) - order(other))) {
    for (const to of out.get(name)) layer.set(to, Math.max(layer.get(to), layer.get(name) + 1));
  }
  return layer;
}

/* The parts of the picture in layers: nodes in even ones, texts of edges in odd ones, and small places. Each part knows
   the parts above and below that it is joined with; each edge gets the list of parts that it goes through. */
function partsOf(graph, sizeOf) {
  const layer = layersOf(graph.nodes, graph.edges), layers = [], parts = new Map();
  const add = (at, part) => {
    while (layers.length <= at) layers.push([]);
    layers[at].push({ ...part, layer: at, above: [], below: [] });
    return layers[at].at(-1);
  };
  for (const node of graph.nodes) parts.set(node.name, add(2 * layer.get(node.name), { node, ...sizeOf(node) }));
  const edges = graph.edges.map((edge) => {
    const way = [parts.get(edge.from)], end = parts.get(edge.to);
    for (let at = way[0].layer + 1; at < end.layer; at++) {
      way.push(add(at, at === way[0].layer + 1 ? { edge, ...sizeOf(edge) } : { width: 4, height: 0 }));
    }
    way.push(end);
    for (let at = 1; at < way.length; at++) {
      way[at - 1].below.push(way[at]);
      way[at].above.push(way[at - 1]);
    }
    return { edge, way };
  });
  return { layers, edges };
}

const numberParts = (layer) => layer.forEach((part, at) => (part.at = at));

/* How many pairs of joins cross between a layer and the next one, which has so many parts: pairs whose ends are not in
   order, counted by sums over powers of two (a Fenwick tree). */
function crossingsBelow(layer, size) {
  const ends = layer.flatMap((part) => part.below.map((other) => other.at).sort((one, other) => one - other));
  const sums = new Int32Array(size + 1);
  return ends.reduce((crossings, end, count) => {
    let before = 0;
    for (let at = end + 1; at > 0; at -= at & -at) before += sums[at];
    for (let at = end + 1; at <= size; at += at & -at) sums[at]++;
    return crossings + count - before;
  }, 0);
}

/* Orders a layer by the mean of the places of what its parts are joined with on one side. */
function orderBy(layer, side) {
  layer.forEach((part) => {
    const others = part[side];
    part.wish = others.length ? others.reduce((sum, other) => sum + other.at, 0) / others.length : part.at;
  });
  layer.sort((one, other) => one.wish - other.wish || one.at - other.at);
  numberParts(layer);
}

/* Orders all layers so that few joins cross: the best of some sweeps down and up. */
function order(layers) {
  layers.forEach(numberParts);
  const sizeBelow = (at) => layers[at + 1]?.length ?? 0;
  const crossings = () => layers.reduce((sum, layer, at) => sum + crossingsBelow(layer, sizeBelow(at)), 0);
  let best = layers.map((layer) => [...layer]), least = crossings();
  for (let sweep = 0; sweep < SWEEPS && least > 0; sweep++) {
    const isDown = sweep % 2 === 0, turn = isDown ? layers : [...layers].reverse();
    turn.forEach((layer) => orderBy(layer, isDown ? "above" : "below"));
    const now = crossings();
    if (now < least) {
      least = now;
      best = layers.map((layer) => [...layer]);
    }
  }
  best.forEach((layer, at) => {
    layers[at] = layer;
    numberParts(layer);
  });
}

/* The places in ascending order, each with a weight, that are nearest to the wished ones by least squares. */
function ascending(wishes, weights) {
  const blocks = [];
  wishes.forEach((wish, at) => {
    blocks.push({ mean: wish, weight: weights[at], count: 1 });
    while (blocks.length > 1 && blocks.at(-2).mean > blocks.at(-1).mean) {
      const last = blocks.pop(), before = blocks.at(-1), weight = last.weight + before.weight;
      before.mean = (before.mean * before.weight + last.mean * last.weight) / weight;
      before.weight = weight;
      before.count += last.count;
    }
  });
  return blocks.flatMap((block) => Array(block.count).fill(block.mean));
}

/* Moves the parts of a layer as near as possible to where they wish to be, and keeps them apart. */
function settle(layer, wishOf) {
  let offset = 0;
  const offsets = layer.map((part, at) => {
    if (at > 0) offset += layer[at - 1].width / 2 + GAP + part.width / 2;
    return offset;
  });
  const wishes = layer.map((part, at) => wishOf(part) - offsets[at]);
  const weights = layer.map((part) => (part.node || part.edge ? 1 : 4));
  ascending(wishes, weights).forEach((place, at) => (layer[at].x = place + offsets[at]));
}

/* The mean of the places of parts, or another value where there are none. */
function mean(parts, otherwise) {
  return parts.length ? parts.reduce((sum, part) => sum + part.x, 0) / parts.length : otherwise;
}

function straighten(layers) {
  layers.forEach((layer) => settle(layer, () => 0));
  for (let turn = 0; turn < STRAIGHTENINGS; turn++) {
    for (const layer of layers) settle(layer, (part) => mean(part.above, part.x));
    for (const layer of [...layers].reverse()) settle(layer, (part) => mean(part.below, part.x));
  }
}

/* Gives each part its middle (x, y) and where its layer begins and ends, and the picture its width and height. */
function layOut(graph, sizeOf) {
  const { layers, edges } = partsOf(graph, sizeOf);
  order(layers);
  straighten(layers);
  const parts = layers.flat(), left = Math.min(...parts.map((part) => part.x - part.width / 2));
  let y = GAP / 2;
  for (const layer of layers) {
    const height = Math.max(...layer.map((part) => part.height));
    for (const part of layer) {
      part.x += GAP / 2 - left;
      part.y = y + height / 2;
      [part.begin, part.end] = [y, y + height];
    }
    y += height + LAYER_GAP;
  }
  const width = Math.max(...parts.map((part) => part.x + part.width / 2)) + GAP / 2;
  return { parts, edges, width, height: y - LAYER_GAP + GAP / 2 };
}
