"use strict";
/* The picture of a decision tree: an SVG element made from the layout of its graph, and the same tree as a list. */

const SVG = "http://www.w3.org/2000/svg";
const LETTER = 7.3, LINE = 17, PAD = 9, MOST_TEXTS = 8, MOST_LETTERS = 44;
const WIDE = /[\u1100-\u115f\u2e80-\ua4cf\uac00-\ud7a3\uf900-\ufaff\ufe30-\ufe6f\uff00-\uff60\u{1f300}-\u{1faff}]/u;

/* A text cut to a length that can be drawn. */
function cut(text) {
  const letters = [...text];
  return letters.length > MOST_LETTERS ? `${letters.slice(0, MOST_LETTERS - 1).join("")}…` : text;
}

/* The lines that are drawn of the texts of an edge. */
function drawnTexts(texts) {
  const shown = texts.slice(0, texts.length > MOST_TEXTS ? MOST_TEXTS - 1 : MOST_TEXTS).map(cut);
  return shown.length < texts.length ? [...shown, `and ${texts.length - shown.length} more`] : shown;
}

/* The columns that a text takes: characters of East Asian scripts and emoji take two. */
function columnsOf(text) {
  return [...text].reduce((sum, char) => sum + (WIDE.test(char) ? 2 : 1), 0);
}

/* The size of a node or of the text of an edge. */
function sizeOf(part) {
  const texts = part.texts ? drawnTexts(part.texts) : [cut(part.text)];
  const width = Math.max(...texts.map(columnsOf)) * LETTER + 2 * PAD;
  const height = texts.length * LINE + (part.texts ? 2 : PAD);
  return { width: part.shape === "diamond" ? width + 2 * PAD : width, height };
}

/* Places as SVG writes them. */
const pointsOf = (points) => points.map((point) => point.map((it) => it.toFixed(1)).join(",")).join(" ");

/* An element of SVG with these attributes. */
function drawn(name, attributes, ...inner) {
  const element = document.createElementNS(SVG, name);
  for (const [key, value] of Object.entries(attributes)) {
    element.setAttribute(key, typeof value === "number" ? value.toFixed(1) : value);
  }
  element.append(...inner);
  return element;
}

/* The outline of a node. A guard, which Graphviz draws as a diamond, is a hexagon here, which has room for its text. */
function shapeOf({ node, x, y, width, height }) {
  const [left, top, right, bottom] = [x - width / 2, y - height / 2, x + width / 2, y + height / 2];
  if (node.shape === "diamond") {
    const [near, far] = [left + 2 * PAD, right - 2 * PAD];
    const corners = [[near, top], [far, top], [right, y], [far, bottom], [near, bottom], [left, y]];
    return drawn("polygon", { class: "shape", points: pointsOf(corners) });
  }
  const round = node.shape === "ellipse" ? height / 2 : 2;
  return drawn("rect", { class: "shape", x: left, y: top, width, height, rx: round });
}

/* Lines of text around a middle. */
function linesAt(texts, x, y) {
  const first = y - ((texts.length - 1) * LINE) / 2;
  return texts.map((text, at) => drawn("text", { x, y: first + at * LINE, dy: "0.35em" }, text));
}

function drawnNode(part) {
  const { node, x, y } = part, end = node.text === "no arm" && node.shape === "ellipse" ? " end" : "";
  const group = drawn("g", { class: `node ${node.shape}${end}`, "data-name": node.name, "data-text": node.text });
  group.append(drawn("title", {}, node.text), shapeOf(part), ...linesAt([cut(node.text)], x, y));
  return group;
}

function drawnLabel({ edge, x, y, width, height }) {
  const group = drawn("g", { class: "label" });
  const [left, top] = [x - width / 2 + PAD / 2, y - height / 2];
  const back = drawn("rect", { class: "back", x: left, y: top, width: width - PAD, height });
  group.append(drawn("title", {}, edge.texts.join(", ")), back, ...linesAt(drawnTexts(edge.texts), x, y));
  return group;
}

/* The line of an edge: straight through each layer, and bent between two of them. */
function lineOf(way) {
  let line = `M${pointsOf([[way[0].x, way[0].y]])}`;
  for (let at = 1; at < way.length; at++) {
    const above = way[at - 1], part = way[at], middle = (above.end + part.begin) / 2;
    line += `L${pointsOf([[above.x, above.end]])}`;
    line += `C${pointsOf([[above.x, middle], [part.x, middle], [part.x, part.begin]])}`;
  }
  const end = way.at(-1);
  return `${line}L${pointsOf([[end.x, end.y - end.height / 2 - 6]])}`;
}

/* An edge with its line and its head. */
function drawnEdge({ edge, way }) {
  const end = way.at(-1), tip = end.y - end.height / 2, line = lineOf(way);
  const head = pointsOf([[end.x, tip], [end.x - 4, tip - 8], [end.x + 4, tip - 8]]);
  const data = { "data-from": edge.from, "data-to": edge.to, "data-texts": JSON.stringify(edge.texts) };
  const group = drawn("g", { class: "edge", ...data });
  group.append(drawn("path", { d: line }), drawn("polygon", { points: head }));
  return group;
}

/* The picture of a tree. */
function pictureOf(name, tree, lines) {
  const { parts, edges, width, height } = layOut(graphOf(tree, lines), sizeOf);
  const box = pointsOf([[0, 0], [width, height]]);
  const svg = drawn("svg", { class: "tree", role: "img", viewBox: box, width, height });
  svg.setAttribute("aria-label", `The decision tree of ${name}. The list below says the same in words.`);
  svg.append(...edges.map(drawnEdge));
  svg.append(...parts.filter((part) => part.edge).map(drawnLabel), ...parts.filter((part) => part.node).map(drawnNode));
  return svg;
}

/* The tree as a list of its nodes, numbered from 0. */
function wordsOf(tree, lines) {
  const list = document.createElement("ol");
  list.start = 0;
  for (const node of tree) {
    const item = document.createElement("li");
    item.textContent = nodeText(node, lines);
    list.append(item);
  }
  return list;
}
