"use strict";
/* A decision tree of the report as a graph, as `matchexplain --dot` has it: a box is a place that is looked at, a
   diamond the guard of an arm, an ellipse an end. */

/* A text with its control characters as Rust escapes them. */
function visible(text) {
  const named = { "\n": "\\n", "\r": "\\r", "\t": "\\t" };
  const coded = (char) => `\\x${char.charCodeAt(0).toString(16).padStart(2, "0")}`;
  return text.replace(/[\u0000-\u001f\u007f]/g, (char) => named[char] ?? coded(char));
}

/* A text as Rust writes it. */
function literal(text) {
  return `"${visible(text.replace(/["\\]/g, "\\$&"))}"`;
}

function rangeText(low, high) {
  if (low !== null && low === high) return low;
  return high === null ? `${low ?? ""}..` : `${low ?? ""}..=${high}`;
}

/* A case, as people write it. */
function caseText([kind, ...parts]) {
  switch (kind) {
    case "variant": return visible(parts[0]);
    case "flag": return String(parts[0]);
    case "range": return rangeText(...parts);
    case "text": return literal(parts[0]);
    case "length": return `len = ${parts[0]}`;
    case "longer": return `len >= ${parts[0]} + ${parts[1]}`;
    default: return "else";
  }
}

/* An arm of which the line is known on which its pattern ends. */
function armText(arm, lines) {
  return lines[arm] === undefined ? `arm ${arm}` : `arm ${arm}, line ${lines[arm]}`;
}

/* Edges from one node with several cases that lead to the same node are one edge with several texts. */
function edgesOf(from, cases) {
  const byTarget = new Map();
  for (const [one, to] of cases) {
    if (!byTarget.has(to)) byTarget.set(to, []);
    byTarget.get(to).push(caseText(one));
  }
  return [...byTarget].map(([to, texts]) => ({ from, to: `n${to}`, texts }));
}

/* The graph of a tree: its nodes with name, shape and text, and its edges with their texts. */
function graphOf(tree, lines) {
  const nodes = [], edges = [];
  tree.forEach(([kind, ...parts], number) => {
    const name = `n${number}`;
    if (kind === "switch") {
      nodes.push({ name, shape: "box", text: visible(parts[0]) });
      edges.push(...edgesOf(name, parts[1]));
    } else if (kind === "ask") {
      const arm = armText(parts[0], lines);
      nodes.push({ name, shape: "diamond", text: `guard of ${arm}` });
      nodes.push({ name: `t${number}`, shape: "ellipse", text: arm });
      edges.push({ from: name, to: `t${number}`, texts: ["holds"] });
      edges.push({ from: name, to: `n${parts[2]}`, texts: ["refuses"] });
    } else {
      const text = kind === "take" ? armText(parts[0], lines) : kind === "miss" ? "no arm" : "no value";
      nodes.push({ name, shape: "ellipse", text });
    }
  });
  return { nodes, edges };
}

/* What a node binds, in words. */
function boundText(binds) {
  const bound = binds.map(([name, mode, place]) => `${name} (${mode}) to ${visible(place)}`);
  return bound.length ? `; binds ${bound.join(", ")}` : "";
}

/* What a node does, in words, for those who do not see the picture. */
function nodeText([kind, ...parts], lines) {
  switch (kind) {
    case "switch": {
      const ways = parts[1].map(([one, to]) => `${caseText(one)} goes to ${to}`);
      return `looks at ${visible(parts[0])}: ${ways.join("; ")}`;
    }
    case "ask": {
      const refuses = `if it refuses, goes to ${parts[2]}`;
      return `asks the guard of ${armText(parts[0], lines)}${boundText(parts[1])}; ${refuses}`;
    }
    case "take": return `takes ${armText(parts[0], lines)}${boundText(parts[1])}`;
    case "miss": return "no arm matches the value";
    default: return "there is no value";
  }
}
