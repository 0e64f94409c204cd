"use strict";
/* What tools/page/try looks at in the page. It is no part of the page. */

/* What is shown of a report, with its status: findings, and graphs of the pictures. */
function seen() {
  const text = (element) => element?.textContent ?? null;
  const place = (button) => (button ? text(button).replace(/line (\d+), column (\d+)/, "$1:$2") : null);
  const findings = [...document.querySelectorAll("#found > .finding")].map((it) => {
    const [first = null, other = null] = [...it.querySelectorAll(".place")].map(place);
    const title = text(it.querySelector("h3")).replace(/^\w+: /, "");
    const notes = [...it.querySelectorAll(".notes > li")].map(text);
    const help = it.querySelector(".arms")?.previousElementSibling, lines = [...it.querySelectorAll(".arms > li")];
    const toAdd = help ? [text(help), ...lines.map(text)] : null;
    return [text(it.querySelector(".level")), title, first, text(it.querySelector(".label")), other, notes, toAdd];
  });
  const graphs = [...document.querySelectorAll(".tree-of")].map((it) => {
    const shape = (node) => [node.dataset.name, node.dataset.text, node.classList[1]];
    const nodes = [...it.querySelectorAll(".node")].map(shape);
    const ways = ({ dataset }) => JSON.parse(dataset.texts).map((one) => [dataset.from, dataset.to, one]);
    return [it.dataset.name, nodes, [...it.querySelectorAll(".edge")].flatMap(ways)];
  });
  const { status, output, took } = shown.answers.trees;
  return { status, output, took, findings, graphs };
}

/* How bright a colour is, by the definition of WCAG. */
function brightness(parts) {
  const linear = (part) => (part <= 0.04045 ? part / 12.92 : ((part + 0.055) / 1.055) ** 2.4);
  const [red, green, blue] = parts.map((part) => linear(part / 255));
  return 0.2126 * red + 0.7152 * green + 0.0722 * blue;
}

const colour = (text) => text.match(/[\d.]+/g).map(Number);

/* The colour behind the text of an element. */
function behind(element) {
  const shape = element.closest("svg g")?.querySelector(".shape, .back");
  if (shape) return colour(getComputedStyle(shape).fill);
  for (let it = element; it; it = it.parentElement) {
    const parts = colour(getComputedStyle(it).backgroundColor);
    if (parts.length < 4 || parts[3] > 0) return parts;
  }
  return colour(getComputedStyle(document.body).backgroundColor);
}

/* The least contrast of all texts that are seen, where it is, and how many texts there are. */
function leastContrast() {
  const walker = document.createTreeWalker(document.body, NodeFilter.SHOW_TEXT);
  let least = 99, where = "", count = 0;
  for (let node = walker.nextNode(); node; node = walker.nextNode()) {
    const element = node.parentElement;
    if (!node.data.trim() || element.closest(".marks, script, title") || !element.checkVisibility()) continue;
    const style = getComputedStyle(element), front = colour(element.closest("svg") ? style.fill : style.color);
    const [low, high] = [brightness(front), brightness(behind(element))].sort((one, other) => one - other);
    const contrast = (high + 0.05) / (low + 0.05);
    if (contrast < least) [least, where] = [contrast, `${element.tagName}: ${node.data.trim().slice(0, 30)}`];
    count++;
  }
  return [least, where, count];
}

/* All that the keyboard is to reach. */
function reachable() {
  const every = document.querySelectorAll('a[href], button, select, input, textarea, summary, [tabindex="0"]');
  return [...every].filter((it) => !it.disabled && it.checkVisibility());
}

const focusable = () => reachable().length;

/* The number of what has the focus, or null where nothing has it. */
function focused() {
  const at = reachable().indexOf(document.activeElement);
  return at < 0 ? null : at;
}

function lowestButton() {
  return Math.min(...[...document.querySelectorAll("button")].map((it) => it.getBoundingClientRect().height));
}

/* Fields and pictures without a name. */
function unlabelled() {
  const fields = [...document.querySelectorAll("input, select, textarea")].filter((it) => !it.labels.length);
  const pictures = [...document.querySelectorAll("svg.tree")].filter((it) => !it.getAttribute("aria-label"));
  return [...fields, ...pictures].map((it) => it.id || it.tagName);
}
