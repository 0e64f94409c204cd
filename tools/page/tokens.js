"use strict";
/* The tokens of a source that the checker could read, and what stands where: the scrutinee, the arms and the end of
   each match, and the end of a pattern. */

const KINDS = ["blank", "comment", "raw", "text", "char", "life", "name", "number", "mark"];
const TOKEN = new RegExp(
  [
    String.raw`(?<blank>[\s\u200e\u200f\ufeff]+|\/\/[^\n]*)`,
    String.raw`(?<comment>\/\*)`,
    String.raw`(?<raw>(?:b|c)?r(?<hashes>#*)"[^]*?"\k<hashes>)`,
    String.raw`(?<text>(?:b|c)?"(?:[^"\\]|\\[^])*")`,
    String.raw`(?<char>b?'(?:\\(?:x[^']*|u\{[^']*\}|[^])|[^\\'])')`,
    String.raw`(?<life>'(?:r#)?[\p{XID_Start}_]\p{XID_Continue}*)`,
    String.raw`(?<name>(?:r#)?[\p{XID_Start}_]\p{XID_Continue}*)`,
    String.raw`(?<number>[0-9][0-9A-Za-z_]*(?:\.[0-9][0-9A-Za-z_]*)?)`,
    String.raw`(?<mark>=>|\.\.=|\.\.\.|\.\.|::|->|&&|\|\||==|!=|<=|>=|[^])`,
  ].join("|"),
  "uy",
);
// The keywords, which are no names, and `_`.
const KEYWORDS = new Set(
  `Self as async await abstract break become box const continue crate dyn do else enum extern false fn for final if
   impl in let loop match mod move mut macro override pub priv ref return self static struct super trait true type try
   typeof unsafe use unsized virtual where while yield _`.split(/\s+/),
);
const COMMENT_PART = /\/\*|\*\//g;

/* The end of a block comment that begins at a place; comments stand in one another. */
function commentEnd(text, from) {
  COMMENT_PART.lastIndex = from;
  let depth = 0;
  for (let part = COMMENT_PART.exec(text); part; part = COMMENT_PART.exec(text)) {
    depth += part[0] === "/*" ? 1 : -1;
    if (depth === 0) return COMMENT_PART.lastIndex;
  }
  return text.length;
}

/* The tokens of a text, each with its kind, its text, and from where to where it stands, in units. */
function tokensOf(text) {
  const found = [];
  for (let at = 0; at < text.length; ) {
    TOKEN.lastIndex = at;
    const groups = TOKEN.exec(text).groups;
    const kind = KINDS.find((it) => groups[it] !== undefined);
    const end = kind === "comment" ? commentEnd(text, at) : TOKEN.lastIndex;
    if (kind !== "blank" && kind !== "comment") found.push({ kind, text: text.slice(at, end), from: at, to: end });
    at = end;
  }
  return found;
}

const opens = (token) => token.kind === "mark" && "([{".includes(token.text);
const closes = (token) => token.kind === "mark" && ")]}".includes(token.text);
const isMark = (token, text) => token.kind === "mark" && token.text === text;
const isWord = (token, text) => token.kind === "name" && token.text === text;
const isName = (token) => token?.kind === "name" && !KEYWORDS.has(token.text);

/* What stands where in the match of a function, whose body opens at this token: from where to where its scrutinee does,
   where the `=>` of its arms do, and the numbers of the tokens that open and close the match. Nothing where there is no
   match. */
function matchFrom(tokens, body) {
  let open = body + 2;
  while (open < tokens.length && !isMark(tokens[open], "{")) open++;
  if (open >= tokens.length) return {};
  const arrows = [];
  let depth = 0;
  for (let at = open; at < tokens.length; at++) {
    if (opens(tokens[at])) depth++;
    else if (closes(tokens[at]) && --depth === 0) {
      return { from: tokens[body + 2].from, to: tokens[open - 1].to, arrows, open, close: at };
    } else if (depth === 1 && isMark(tokens[at], "=>")) arrows.push(tokens[at].from);
  }
  return {};
}

/* The matches of all functions with their names, in the order of the file: the first `fn` with a name outside all
   brackets is the first function, and its body begins with the next `{` outside all brackets. */
function matchesOf(tokens) {
  const found = [];
  let depth = 0, name = null;
  tokens.forEach((token, at) => {
    if (opens(token)) {
      if (name !== null && depth === 0 && token.text === "{") {
        found.push({ name, ...matchFrom(tokens, at) });
        name = null;
      }
      depth++;
    } else if (closes(token)) depth--;
    else if (depth === 0 && name === null && isWord(token, "fn") && isName(tokens[at + 1])) {
      name = tokens[at + 1].text.replace(/^r#/, "").normalize("NFC");
    }
  });
  return found;
}

/* The tokens from a place on, also from the second half of a `&&`; none where no token begins there. */
function tokensFrom(tokens, unit) {
  const at = tokens.findIndex((token) => token.to > unit);
  if (at < 0) return [];
  const first = tokens[at];
  if (first.from === unit) return tokens.slice(at);
  if (first.text !== "&&" || first.from + 1 !== unit) return [];
  return [{ kind: "mark", text: "&", from: unit, to: first.to }, ...tokens.slice(at + 1)];
}

/* Where a pattern ends that begins at a place; an alternative also ends before `|`. */
function patternEnd(tokens, from, isWhole) {
  let depth = 0, end = from;
  for (const token of tokensFrom(tokens, from)) {
    if (opens(token)) depth++;
    else if (closes(token)) {
      if (--depth < 0) break;
    } else if (depth === 0) {
      if (isMark(token, "=>") || isMark(token, ",") || isWord(token, "if")) break;
      if (!isWhole && isMark(token, "|")) break;
    }
    end = token.to;
  }
  return end;
}
