"use strict";
/* The page: its text area, options and buttons, and what it asks of the checker. */

const PAUSE = 350, MOST_JSON = 300_000;
const at = (id) => document.getElementById(id);
const checker = new Checker();
// What was last shown: the source, the words, and the program's answers by their commands.
const shown = { number: 0, source: null, words: [], answers: {} };
let timer = 0;

/* Says in the live region what has happened, once. */
function say(text) {
  if (at("said").textContent !== text) at("said").textContent = text;
}

/* The words behind the file's name that are options. */
function optionWords() {
  const given = (id) => (at(id).value ? [`--${id}`, at(id).value] : []);
  return [...given("width"), ...given("edition")];
}

/* The words for a command. */
function wordsFor(command) {
  if (command !== "eval") return [command, "page.rs", ...optionWords()];
  const answers = at("answers").value ? [at("answers").value] : [];
  return [command, "page.rs", at("function").value, at("value").value, ...answers, ...optionWords()];
}

/* Numbers beside the lines, and marks where findings are: their levels by line. */
function numberLines(count, levels) {
  const signs = { error: "✖ ", warning: "▲ " };
  const lines = Array.from({ length: count }, (_, at) => {
    const level = levels.get(at + 1) ?? "";
    return made("div", { className: level }, `${signs[level] ?? ""}${at + 1}`);
  });
  at("gutter").replaceChildren(made("div", {}, ...lines));
}

/* Shows beside and below the text where findings are. */
function markFindings(findings) {
  const places = shown.source.places, levels = new Map();
  for (const { span, isError } of findings) {
    if (!span) continue;
    const { line } = places.placeOf(span.from);
    levels.set(line, isError || levels.get(line) === "error" ? "error" : "warning");
  }
  numberLines(places.lines, levels);
  underline(findings);
  follow();
}

/* Takes the marks away where the text has changed since they were made. */
function unmark() {
  const count = at("source").value.split("\n").length;
  if (at("gutter").firstChild?.children.length !== count) numberLines(count, new Map());
  underline([]);
  follow();
}

/* Lines below what findings are about, behind the text. */
function underline(findings) {
  const text = at("source").value, parts = [];
  let end = 0;
  for (const { span, isError } of findings) {
    if (!span || span.from < end) continue;
    const to = Math.max(span.to, span.from + 1);
    const mark = made("mark", { className: isError ? "error" : "warning" }, text.slice(span.from, to));
    parts.push(text.slice(end, span.from), mark);
    end = to;
  }
  at("marks").replaceChildren(made("div", {}, ...parts, `${text.slice(end)}\n`));
}

/* Keeps numbers and marks beside the text where it scrolls. */
function follow() {
  const { scrollTop, scrollLeft } = at("source");
  if (at("gutter").firstChild) at("gutter").firstChild.style.transform = `translateY(${-scrollTop}px)`;
  if (at("marks").firstChild) at("marks").firstChild.style.transform = `translate(${-scrollLeft}px, ${-scrollTop}px)`;
}

/* Selects a place in the text area, and brings it into view. */
function go(span) {
  const area = at("source"), { line } = shown.source.places.placeOf(span.from);
  area.focus();
  area.setSelectionRange(span.from, Math.max(span.to, span.from));
  const height = area.scrollHeight / Math.max(shown.source.places.lines, 1);
  area.scrollTop = Math.max(0, (line - 4) * height);
}

/* Puts a text in place of a part of the source, in a way that the browser can undo. */
function replaceSource(edit) {
  const area = at("source");
  area.focus();
  area.setSelectionRange(edit.from, edit.to);
  if (!document.execCommand("insertText", false, edit.text)) area.setRangeText(edit.text, edit.from, edit.to, "end");
}

/* Puts arms into the match of a function, selects them, and checks again. */
function insert(number, patterns) {
  if (at("source").value !== shown.source.places.text) return say("The source has changed: check it again first");
  const edit = armsEdit(shown.source, number, patterns);
  if (!edit) return say("The match was not found");
  replaceSource(edit);
  at("source").setSelectionRange(edit.from, edit.from + edit.text.length);
  check();
}

/* Shows what the program wrote. */
function showJson(words, { status, output }) {
  const rest = output.length > MOST_JSON ? `\n(and ${output.length - MOST_JSON} characters more)` : "";
  at("json").textContent = `matchcheck ${words.join(" ")}\nstatus ${status}\n${output.slice(0, MOST_JSON)}${rest}`;
}

/* Why there is no answer, by the status. */
function noAnswer(status) {
  if (status === 2) return "The words have no form: a function, a value, and answers of t and f are wanted";
  return status === 6 ? "Memory was refused" : `The program ended with status ${status}`;
}

function clear() {
  at("found").replaceChildren();
  at("others").replaceChildren();
  at("trees").replaceChildren();
}

/* Shows the answers of `check` or `trees`, and of `arms`. */
function showFindings(report, arms) {
  const source = shown.source, on = { go, insert }, findings = findingsOf(source, report, arms);
  at("found").replaceChildren(...findingItems(source, findings, arms, on));
  at("trees").replaceChildren(...treesOf(source, report));
  markFindings(findings);
  const none = report.functions?.length === 0 ? "; the source has no function" : "";
  say(`${counted(findings)}${none}`);
}

function showArms(answer) {
  if (answer.refused) return showFindings(answer, null);
  at("others").replaceChildren(...armsOfAll(shown.source, answer, { go, insert }));
  markFindings([]);
  say(`${several(answer.functions.reduce((sum, it) => sum + (it.arms?.length ?? 0), 0), "arm")} to add`);
}

function showOutcome(answer) {
  const parts = outcomeOf(shown.source, answer, at("function").value);
  at("others").replaceChildren(...parts);
  markFindings([]);
  say(parts[0].textContent);
}

/* Asks the program for the answer to a command, and keeps it. */
async function answerTo(command, bytes) {
  const words = wordsFor(command), answer = await checker.run(words, bytes);
  shown.answers[command] = { words, ...answer };
  return answer.status === 0 || answer.status === 1 || answer.status === 3 ? JSON.parse(answer.output) : null;
}

/* Runs what the options say, and shows it; a later call takes the place of this one. */
async function checkBy(command, mine) {
  const source = new Source(at("source").value), bytes = source.places.bytes;
  shown.answers = {};
  const answer = await answerTo(command, bytes);
  const lacks = answer?.functions?.some((it) => it.exhaustive === false);
  const arms = lacks ? await answerTo("arms", bytes) : null;
  if (mine !== shown.number) return;
  shown.source = source;
  clear();
  const first = shown.answers[command];
  showJson(first.words, first);
  at("times").textContent = `The program took ${first.took.toFixed(1)} ms and ${first.memory >> 20} MiB.`;
  if (!answer) {
    markFindings([]);
    say(noAnswer(first.status));
  } else if (command === "eval") showOutcome(answer);
  else if (command === "arms") showArms(answer);
  else showFindings(answer, arms);
}

/* Checks the source. What an earlier call began is stopped. */
async function check() {
  clearTimeout(timer);
  const mine = ++shown.number;
  if (!at("stop").disabled) checker.stop("a newer text is checked");
  at("stop").disabled = false;
  try {
    await checkBy(at("command").value, mine);
  } catch (fault) {
    if (mine === shown.number) {
      clear();
      say(fault instanceof Stopped ? `No answer: ${fault.message}` : `The checker failed: ${fault.message}`);
    }
  } finally {
    if (mine === shown.number) at("stop").disabled = true;
  }
}

function checkSoon() {
  clearTimeout(timer);
  if (at("typing").checked) timer = setTimeout(check, PAUSE);
}

/* Shows the fields that `eval` alone has. */
function showFields() {
  document.querySelectorAll(".field.one").forEach((field) => (field.hidden = at("command").value !== "eval"));
}

/* Takes a source and options, as of a link or an example. */
function take(source, options = {}) {
  at("source").value = source;
  at("source").scrollTop = 0;
  at("command").value = "trees";
  for (const name of ["command", "width", "edition", "function", "value", "answers"]) {
    const value = options[name] ?? (name === "command" ? "trees" : "");
    at(name).value = value;
    if (at(name).value !== value) at(name).selectedIndex = 0;
  }
  showFields();
  return check();
}

async function share() {
  const ofEval = at("command").value === "eval" ? ["function", "value", "answers"] : [];
  const names = ["command", "width", "edition", ...ofEval];
  const hash = await linkOf(at("source").value, Object.fromEntries(names.map((name) => [name, at(name).value])));
  history.replaceState(null, "", `#${hash}`);
  at("shared").hidden = false;
  at("link").value = location.href;
  at("link").select();
  const isCopied = await navigator.clipboard?.writeText(location.href).then(() => true, () => false);
  say(isCopied ? "The link is copied" : "The link is selected: copy it");
}

/* Takes what the link holds; tells whether it holds a source. */
async function takeLink() {
  try {
    const linked = await fromLink(location.hash);
    if (linked) await take(linked.source, linked.options);
    return linked !== null;
  } catch {
    say("The link is damaged: it holds no source");
    return true;
  }
}

/* What the page says of its program. */
function tellAbout() {
  const size = ABOUT.bytes.toLocaleString("en");
  const same = `Its module for LLVM also makes the proved program, whose SHA-256 is ${ABOUT.program}.`;
  const proved = `The program of this page is the proved one, by ${ABOUT.kit}. ${same}`;
  const what = ABOUT.proved ? proved : "The program of this page is an unproved one.";
  at("about").textContent = `${what} The WebAssembly has ${size} bytes and the SHA-256 ${ABOUT.module}.`;
  at("trial").hidden = ABOUT.proved;
}

function listen() {
  at("source").addEventListener("input", () => {
    unmark();
    checkSoon();
  });
  at("source").addEventListener("scroll", follow);
  at("source").addEventListener("keydown", (event) => {
    if (event.key === "Enter" && (event.ctrlKey || event.metaKey)) check();
  });
  at("options").addEventListener("submit", (event) => {
    event.preventDefault();
    check();
  });
  at("options").addEventListener("change", (event) => {
    showFields();
    if (event.target.id !== "typing") checkSoon();
  });
  at("stop").addEventListener("click", () => checker.stop("stopped"));
  at("share").addEventListener("click", share);
  addEventListener("hashchange", takeLink);
  for (const [name, source] of EXAMPLES) {
    at("examples").append(made("button", { type: "button", onclick: () => take(source) }, name));
  }
}

async function begin() {
  tellAbout();
  listen();
  try {
    await checker.load();
    shown.loaded = performance.now();
  } catch (fault) {
    at("run").disabled = true;
    const wanted = "WebAssembly with a memory of 64 bits, as Chromium has since 133";
    say(`This browser cannot run the checker, which takes ${wanted}: ${fault.message}`);
    return;
  }
  if (!(await takeLink())) await take(EXAMPLES[0][1]);
}

begin();
