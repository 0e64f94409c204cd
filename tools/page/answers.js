"use strict";
/* Answers of the checker as elements of the page: findings, arms to add, trees, and what one value does. */

const MOST_FINDINGS = 200, MOST_ARMS = 100;
// The rules that a function breaks, and not a file.
const isOfFunction = ({ rule }) => rule >= 20 && rule <= 35;
// How many trees are shown, and how many nodes are drawn in one picture and in all of them.
const MOST_TREES = 200, MOST_NODES = 250, MOST_DRAWN = 1000;

/* An element with these properties and this inside. */
function made(tag, properties, ...inner) {
  const element = Object.assign(document.createElement(tag), properties);
  element.append(...inner);
  return element;
}

const code = (text) => made("code", {}, text);

/* A text of which the parts between backquotes are code. */
function worded(text) {
  return text.split("`").map((part, at) => (at % 2 ? code(part) : part));
}

function several(count, word) {
  return `${count} ${word}${count === 1 ? "" : "s"}`;
}

/* A button that says where something is, and goes there. */
function placeButton(source, span, go) {
  const { line, column } = source.places.placeOf(span.from);
  const properties = { type: "button", className: "place", onclick: () => go(span) };
  return made("button", properties, `line ${line}, column ${column}`);
}

/* The line of a place, with what is meant marked. */
function codeLine(source, span) {
  const places = source.places, { line } = places.placeOf(span.from), begin = places.lineUnits[line - 1];
  const text = places.text.slice(begin, begin + 2000).split("\n")[0], from = span.from - begin;
  const to = Math.max(Math.min(span.to - begin, text.length), from);
  const mark = made("mark", {}, text.slice(from, to) || " ");
  const head = made("span", { className: "number" }, `${line} | `);
  return made("pre", { className: "line" }, head, text.slice(0, from), mark, text.slice(to));
}

/* A broken rule in words: its title and label, and its number with its name. */
function ruleText(source, refused) {
  const span = isOfFunction(refused) ? brokenAt(source, refused) : refusedAt(source, refused);
  const [title, label] = ruleWords(source, span, refused);
  return `${title}: ${label} (rule ${refused.rule}, ${refused.name})`;
}

/* The help with the arms to add to a match, and a button that puts all of them in. */
function armsToAdd({ text, lines }, arms, number, insert) {
  const what = arms.arms.length === 1 ? "this arm" : `all ${arms.arms.length} arms`;
  const properties = { type: "button", className: "insert", onclick: () => insert(number, arms.arms) };
  const list = made("ul", { className: "arms" }, ...lines.map((line) => made("li", {}, code(line))));
  return [made("p", {}, text), list, made("button", properties, `Insert ${what} into ${arms.name}`)];
}

/* Why arms cannot be written, where a rule refuses them. */
function armsRefused(source, arms) {
  if (!arms?.refused) return [];
  return [made("p", {}, "The arms cannot be written: ", ...worded(ruleText(source, arms.refused)))];
}

/* A place with its line. */
function placed(source, span, go, before = "") {
  return span ? [made("p", {}, before, placeButton(source, span, go)), codeLine(source, span)] : [];
}

/* A finding, with its line and its notes. */
function findingItem(source, finding, arms, on) {
  const level = finding.isError ? "error" : "warning";
  const head = made("h3", {}, made("span", { className: "level" }, level), ": ", ...worded(finding.title));
  const item = made("li", { className: `finding ${level}` }, head, ...placed(source, finding.span, on.go));
  item.append(made("p", { className: "label" }, ...worded(finding.label)));
  item.append(...placed(source, finding.other, on.go, "... with this range, "));
  item.append(made("ul", { className: "notes" }, ...finding.notes.map((note) => made("li", {}, ...worded(note)))));
  if (finding.missing === undefined) return item;
  const entry = arms?.functions?.[finding.missing];
  item.append(...armsRefused(source, entry));
  if (finding.toAdd) item.append(...armsToAdd(finding.toAdd, entry, finding.missing, on.insert));
  return item;
}

/* All findings; `arms` is the answer of `arms`, or null. */
function findingItems(source, findings, arms, on) {
  const items = findings.slice(0, MOST_FINDINGS).map((finding) => findingItem(source, finding, arms, on));
  const rest = findings.length - MOST_FINDINGS;
  if (rest > 0) items.push(made("li", { className: "finding" }, `and ${rest} more`));
  return items;
}

/* What `arms` says of each function. */
function armsOfAll(source, answer, on) {
  return answer.functions.map((entry, number) => {
    const part = made("section", { className: "arms-of" }, made("h3", {}, "Arms of ", code(entry.name)));
    if (entry.refused) part.append(...armsRefused(source, entry));
    else if (entry.arms.length === 0) part.append(made("p", {}, "The match is exhaustive: there is no arm to add."));
    else part.append(...armsToAdd(armsHelp(entry.arms, MOST_ARMS), entry, number, on.insert));
    return part;
  });
}

/* A picture in a frame that scrolls, or a sentence where there is none. */
function framed(picture, { name, tree }) {
  if (!picture) return made("p", {}, `The tree has ${several(tree.length, "node")}, too many to be drawn here.`);
  const frame = made("div", { className: "frame", tabIndex: 0, role: "group" }, picture);
  frame.setAttribute("aria-label", `The picture of the tree of ${name}, which scrolls`);
  return frame;
}

/* A tree in words, which are made when they are asked for. */
function inWords(tree, lines) {
  const summary = made("summary", {}, `The same in words: ${several(tree.length, "node")}`);
  const words = made("details", {}, summary);
  words.addEventListener("toggle", () => words.append(wordsOf(tree, lines)), { once: true });
  return words;
}

/* The tree of a function as a picture, if it is to be drawn, and in words. */
function treeOf(source, entry, number, isDrawn) {
  const lines = source.armLines(number), picture = isDrawn ? pictureOf(entry.name, entry.tree, lines) : null;
  const part = made("section", { className: "tree-of" }, made("h3", {}, "The tree of ", code(entry.name)));
  part.dataset.name = entry.name;
  part.append(framed(picture, entry), inWords(entry.tree, lines));
  return part;
}

/* The trees of a report. */
function treesOf(source, report) {
  const parts = [];
  let drawn = 0, count = 0;
  (report.functions ?? []).forEach((entry, number) => {
    if (!entry.tree || ++count > MOST_TREES) return;
    const isDrawn = entry.tree.length <= Math.min(MOST_NODES, MOST_DRAWN - drawn);
    if (isDrawn) drawn += entry.tree.length;
    parts.push(treeOf(source, entry, number, isDrawn));
  });
  if (count > MOST_TREES) parts.push(made("p", {}, `and ${several(count - MOST_TREES, "tree")} more`));
  return parts;
}

/* What names are bound to, in words. */
function bindings(list) {
  if (list.length === 0) return ["binds nothing"];
  const parts = list.map(({ mode, name, value }) => [code(name), ` (${mode}) to `, code(value)]);
  return parts.flatMap((part, at) => [at === 0 ? "binds " : ", ", ...part]);
}

/* What one value does, by the answer of `eval`. */
function outcomeOf(source, answer, name) {
  if (answer.refused) return [made("p", { className: "outcome" }, ...worded(ruleText(source, answer.refused)))];
  const lines = source.armLinesOf(name);
  const said = {
    took: () => `The value takes ${armText(answer.arm, lines)}.`,
    missed: () => "No arm takes the value.",
    short: () => "A guard is asked, and no answer is left for it.",
  }[answer.outcome]();
  const guard = ({ arm, bindings: bound }) => [`the guard of ${armText(arm, lines)} is asked; it `, ...bindings(bound)];
  const asked = answer.asked.map((it) => made("li", {}, ...guard(it)));
  const parts = [made("p", { className: "outcome" }, made("strong", {}, said))];
  if (asked.length) parts.push(made("ol", {}, ...asked));
  if (answer.arm !== null) parts.push(made("p", {}, "The arm ", ...bindings(answer.bindings), "."));
  return parts;
}
