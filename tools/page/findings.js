"use strict";
/* The findings of a report, in the words of `matchexplain`: each with its level, its title, where it is, what is wrong
   there, its notes, and the arms to add. RULES has the title, the label and the advice of each rule: a phrase is one
   text, or the texts before and behind the name of what stands at the place. */

const CASES_NAMED = 3, CASES_HELPED = 8, ARMS_HELPED = 16, NAME_CHARACTERS = 80;
const NO_RULE = [["no rule has this number"], ["no rule has this number"], null];

/* Cases as rustc lists them. */
function listed(texts) {
  const names = texts.slice(0, CASES_NAMED).map((text) => `\`${text}\``);
  if (names.length === 0) return "some values";
  if (texts.length > CASES_NAMED) return `${names.join(", ")} and ${texts.length - CASES_NAMED} more`;
  if (names.length === 1) return names[0];
  return `${names.slice(0, -1).join(", ")} and ${names.at(-1)}`;
}

/* What finds the parts of a source: its places, its tokens and its matches. */
class Source {
  constructor(text) {
    this.places = new Places(text);
    this.tokens = tokensOf(text);
    this.matches = matchesOf(this.tokens);
  }

  /* From where to where the pattern or alternative stands that begins at a byte. */
  patternAt(byte, isWhole) {
    const from = this.places.unitOf(byte);
    return { from, to: patternEnd(this.tokens, from, isWhole) };
  }

  /* From where to where the first tokens from a byte on stand. */
  tokensAt(byte, count) {
    const from = this.places.unitOf(byte);
    const tokens = tokensFrom(this.tokens, from).slice(0, count);
    return { from, to: tokens.length ? tokens.at(-1).to : from };
  }

  /* From where to where the name of the item stands that begins at a byte, or else its first token. */
  itemNameAt(byte) {
    let depth = 0;
    for (const token of tokensFrom(this.tokens, this.places.unitOf(byte))) {
      if (opens(token)) depth++;
      else if (closes(token)) depth--;
      else if (depth === 0 && isName(token)) return { from: token.from, to: token.to };
    }
    return this.tokensAt(byte, 1);
  }

  /* From where to where the name of the binding stands that begins at a byte, behind `ref` and `mut`; or else its first
     token. */
  bindingAt(byte) {
    const token = tokensFrom(this.tokens, this.places.unitOf(byte)).find(isName);
    return token ? { from: token.from, to: token.to } : this.tokensAt(byte, 1);
  }

  /* What stands at a place on its first line: no more than 80 characters, with blanks for a tab, nothing for a carriage
     return, and `?` for any other control character. */
  nameAt(span) {
    const text = span ? this.places.text.slice(span.from, Math.min(span.to, span.from + 2 * NAME_CHARACTERS)) : "";
    const shown = [...text.split("\n", 1)[0]].slice(0, NAME_CHARACTERS).join("");
    return shown.replaceAll("\t", "    ").replaceAll("\r", "").replace(/[\0-\x1f\x7f]/g, "?");
  }

  /* The lines on which the patterns of a function's arms end, from 1. */
  armLines(number) {
    return (this.matches[number]?.arrows ?? []).map((at) => this.places.placeOf(at).line);
  }

  /* The lines of the arms of the function of this name. */
  armLinesOf(name) {
    return this.armLines(this.matches.findIndex((match) => match.name === name));
  }
}

/* Where a file breaks a rule, or null. */
function refusedAt(source, refused) {
  if (refused.at === null) return null;
  if (refused.rule <= 5) {
    const from = source.places.unitOf(refused.at);
    return { from, to: from };
  }
  return refused.rule === 6 ? source.tokensAt(refused.at, 1) : source.itemNameAt(refused.at);
}

/* Where a function breaks a rule, or null. */
function brokenAt(source, refused) {
  if (refused.at === null) return null;
  if (refused.rule === 34) return source.tokensAt(refused.at, 2);
  return [21, 30].includes(refused.rule) ? source.bindingAt(refused.at) : source.patternAt(refused.at, false);
}

/* The title, the label and the advice of a broken rule, by the place; no advice is null. */
function ruleWords(source, span, { rule }) {
  const name = `\`${source.nameAt(span)}\``;
  return (RULES[rule] ?? NO_RULE).map((phrase) => phrase?.join(name) ?? null);
}

/* The finding of a broken rule: where it is, and who breaks it. */
function broken(source, span, refused, who) {
  const [title, label, advice] = ruleWords(source, span, refused);
  const notes = [`note: ${who} breaks rule ${refused.rule} (${refused.name})`];
  if (advice !== null) notes.push(`help: ${advice}`);
  return { span, isError: true, title, label, other: null, notes, toAdd: null };
}

/* The arms to add as a help: its words, and its lines, of which the last one may stand for arms that are not shown. */
function armsHelp(patterns, most) {
  const one = "a match arm with an explicit pattern", what = patterns.length === 1 ? one : "multiple match arms";
  const lines = patterns.slice(0, most).map((pattern) => `${pattern} => todo!(),`);
  if (patterns.length > most) lines.push(`_ => todo!(), // the other cases: ${patterns.length - most}`);
  return { text: `help: ensure that all possible cases are being handled by adding ${what} as shown`, lines };
}

/* What is missing in a function; its arms to add, or none where they are not known. */
function missing(source, entry, number, arms) {
  const texts = entry.witnesses.map((it) => it.text), match = source.matches[number];
  const word = texts.length === 0 ? "" : texts.length === 1 ? "pattern " : "patterns ";
  const helps = texts.slice(0, CASES_HELPED).map((text) => `help: add an arm for \`${text}\``);
  if (texts.length > CASES_HELPED) helps.push(`help: and for ${texts.length - CASES_HELPED} more`);
  const count = `note: the match of \`${entry.name}\` leaves cases out: ${texts.length}`;
  return {
    span: match?.from === undefined ? null : { from: match.from, to: match.to },
    isError: true,
    title: `non-exhaustive patterns: ${listed(texts)} not covered`,
    label: `${word}${listed(texts)} not covered`,
    other: null,
    notes: arms.length ? [count] : [...helps, count],
    toAdd: arms.length ? armsHelp(arms, ARMS_HELPED) : null,
    missing: number,
  };
}

function unreachable(source, entry, dead) {
  const kind = dead.whole ? "arm" : "alternative";
  return {
    span: source.patternAt(dead.at, dead.whole),
    isError: false,
    title: "unreachable pattern",
    label: "no value can reach this",
    other: null,
    notes: [`note: no value of the match of \`${entry.name}\` reaches this ${kind}`],
    toAdd: null,
  };
}

function overlapping(source, overlap) {
  return {
    span: source.patternAt(overlap.at, false),
    isError: false,
    title: "multiple patterns overlap on their endpoints",
    label: `this range overlaps on \`${overlap.value}\`...`,
    other: source.patternAt(overlap.with, false),
    notes: ["note: you likely meant to write mutually exclusive ranges"],
    toAdd: null,
  };
}

/* The findings of a function, in the order of its entry. */
function findingsOfFunction(source, entry, number, arms) {
  const refused = entry.refused;
  if (refused) return [broken(source, brokenAt(source, refused), refused, `\`${entry.name}\``)];
  return [
    ...(entry.exhaustive ? [] : [missing(source, entry, number, arms)]),
    ...entry.unreachable.map((dead) => unreachable(source, entry, dead)),
    ...entry.overlaps.map((overlap) => overlapping(source, overlap)),
  ];
}

/* All findings of a report of `check` or `trees`, by their places; the report of `arms`, or null. */
function findingsOf(source, report, arms) {
  const refused = report.refused, armsOf = (number) => arms?.functions?.[number]?.arms ?? [];
  if (refused) return [broken(source, refusedAt(source, refused), refused, "the file")];
  const found = report.functions.flatMap((entry, at) => findingsOfFunction(source, entry, at, armsOf(at)));
  return found.sort((one, other) => (one.span?.from ?? 0) - (other.span?.from ?? 0));
}

/* How many findings break a build, and how many only warn, in words. */
function counted(findings) {
  const errors = findings.filter((it) => it.isError).length, warnings = findings.length - errors;
  const several = (count, word) => `${count} ${word}${count === 1 ? "" : "s"}`;
  return `${several(errors, "error")}, ${several(warnings, "warning")}`;
}
