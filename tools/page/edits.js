"use strict";
/* Arms put into a match, behind its last arm. */

/* The blanks with which a line begins that has a place. */
function indentAt(text, unit) {
  const begin = text.lastIndexOf("\n", unit - 1) + 1;
  return /^[ \t]*/.exec(text.slice(begin))[0];
}

/* Where the line of the closing bracket begins, if nothing but blanks stands before it; else the bracket's place. */
function behindArms(text, close) {
  const begin = text.lastIndexOf("\n", close - 1) + 1;
  return /^[ \t]*$/.test(text.slice(begin, close)) ? begin : close;
}

/* Whether the last arm of a match wants a comma before another one: a block that is a body wants none. */
function wantsComma(tokens, match) {
  const last = match.close - 1;
  if (last === match.open || isMark(tokens[last], ",")) return false;
  const arrow = tokens.findIndex((token) => token.from === match.arrows.at(-1));
  return !isMark(tokens[arrow + 1], "{");
}

/* The edit that puts arms with these patterns into the match of a function: from where to where the text is replaced,
   and by what. It is null where the function has no match that was found. */
function armsEdit(source, number, patterns) {
  const match = source.matches[number], text = source.places.text;
  if (match?.close === undefined || patterns.length === 0) return null;
  const from = source.tokens[match.close - 1].to, close = source.tokens[match.close].from;
  const at = behindArms(text, close), outer = indentAt(text, close);
  const isOwnLine = at < close || text[close - 1] === "\n";
  const hasArms = match.close > match.open + 1;
  const indent = hasArms && isOwnLine ? indentAt(text, source.tokens[match.open + 1].from) : `${outer}    `;
  const arms = patterns.map((pattern) => `${indent}${pattern} => todo!(),\n`).join("");
  const comma = wantsComma(source.tokens, match) ? "," : "", between = text.slice(from, at);
  return { from, to: at, text: comma + (isOwnLine ? between + arms : `${between.trimEnd()}\n${arms}${outer}`) };
}
