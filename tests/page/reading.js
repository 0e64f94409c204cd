"use strict";
/* What the scripts of the page make of reports: reads cases as JSON from standard input and writes as JSON what came
   of them. tests/page/run has what is to come. */
const fs = require("fs"), vm = require("vm");

const { folder, scripts, rules, cases } = JSON.parse(fs.readFileSync(0, "utf8"));
const texts = { TextEncoder, TextDecoder, URLSearchParams, btoa, atob };
const streams = { Blob, CompressionStream, DecompressionStream, Uint8Array };
const inside = vm.createContext({ ...texts, ...streams, RULES: rules });
for (const filename of scripts) {
  vm.runInContext(fs.readFileSync(`${folder}/${filename}`, "utf8"), inside, { filename });
}
const call = (text, ...given) => vm.runInContext(text, inside)(...given);

/* A place as people write it, or null. */
const PLACE = `(source, span) => {
  if (!span) return null;
  const { line, column } = source.places.placeOf(span.from);
  return line + ":" + column;
}`;

/* The findings of a report, each as a list; the report of `arms`, or null. */
function findings(text, report, arms) {
  const source = call("(text) => new Source(text)", text);
  return call("(...given) => findingsOf(...given)", source, report, arms).map((it) => {
    const [place, other] = [it.span, it.other].map((span) => call(PLACE, source, span));
    const toAdd = it.toAdd && [it.toAdd.text, ...it.toAdd.lines];
    return [it.isError ? "error" : "warning", it.title, place, it.label, other, it.notes, toAdd];
  });
}

/* The graph of a function's tree, and whether parts of its picture lie on one another. */
function graph(text, report, name) {
  const source = call("(text) => new Source(text)", text);
  const number = report.functions.findIndex((it) => it.name === name), { tree } = report.functions[number];
  const made = call("(tree, lines) => graphOf(tree, lines)", tree, source.armLines(number));
  const sizeOf = (part) => ({ width: 8 * (part.text ?? part.texts.join("")).length, height: 20 });
  const { parts, width, height } = call("(graph, sizeOf) => layOut(graph, sizeOf)", made, sizeOf);
  const apart = (one, other) => Math.abs(one.x - other.x) * 2 >= one.width + other.width - 0.001;
  const meets = (one, others) => others.some((other) => one.layer === other.layer && !apart(one, other));
  const isOut = (it) => it.x - it.width / 2 < 0 || it.x + it.width / 2 > width || it.y < 0 || it.y > height;
  const isClear = !parts.some((one, at) => isOut(one) || meets(one, parts.slice(at + 1)));
  return { nodes: made.nodes, edges: made.edges, isClear };
}

/* The source with arms put into the match of a function. */
function inserted(text, number, patterns) {
  const source = call("(text) => new Source(text)", text);
  const edit = call("(...given) => armsEdit(...given)", source, number, patterns);
  return edit ? text.slice(0, edit.from) + edit.text + text.slice(edit.to) : null;
}

/* What a link holds that was made of a source. */
async function linked(text, options) {
  const hash = await call("(...given) => linkOf(...given)", text, options);
  const { source, options: others } = await call("(hash) => fromLink(hash)", `#${hash}`);
  return { isSame: source === text, options: { ...others }, isPlain: /^[-A-Za-z0-9_=&.%+*]*$/.test(hash) };
}

/* Whether a link is told to be damaged. */
async function damaged(hash) {
  try {
    return (await call("(hash) => fromLink(hash)", hash)) === null ? "none" : "read";
  } catch {
    return "damaged";
  }
}

const KINDS = { findings, graph, inserted, linked, damaged };
(async () => {
  const came = [];
  for (const [kind, ...given] of cases) came.push(await KINDS[kind](...given));
  fs.writeFileSync(1, JSON.stringify(came));
})();
