"use strict";
/* The link that holds the source: behind `#`, the options, and the source, packed by deflate and written in the letters
   of base64url. Nothing of it is sent to a server. */

// A link with more than this is not read.
const MOST_BYTES = 1 << 24;

function toLetters(bytes) {
  let text = "";
  for (let at = 0; at < bytes.length; at += 0x8000) text += String.fromCharCode(...bytes.subarray(at, at + 0x8000));
  return btoa(text).replaceAll("+", "-").replaceAll("/", "_").replace(/=+$/, "");
}

function fromLetters(letters) {
  return Uint8Array.from(atob(letters.replaceAll("-", "+").replaceAll("_", "/")), (char) => char.charCodeAt(0));
}

/* What comes of bytes that go through a stream, at most so many. */
async function through(bytes, stream, most) {
  const reader = new Blob([bytes]).stream().pipeThrough(stream).getReader(), parts = [];
  for (let length = 0, part = await reader.read(); !part.done; part = await reader.read()) {
    length += part.value.length;
    if (length > most) {
      await reader.cancel();
      throw new RangeError("too long");
    }
    parts.push(part.value);
  }
  return new Uint8Array(await new Blob(parts).arrayBuffer());
}

/* The part of a link behind `#`, for a source and its options: a record of texts. */
async function linkOf(source, options) {
  const packed = await through(new TextEncoder().encode(source), new CompressionStream("deflate-raw"), Infinity);
  const words = Object.entries(options).filter(([, value]) => value !== "");
  return new URLSearchParams([...words, ["source", toLetters(packed)]]).toString();
}

/* The source and the options of a link, or null where it holds no source; fails where it is damaged. */
async function fromLink(hash) {
  const words = new URLSearchParams(hash.replace(/^#/, ""));
  if (!words.has("source")) return null;
  const bytes = await through(fromLetters(words.get("source")), new DecompressionStream("deflate-raw"), MOST_BYTES);
  const source = new TextDecoder("utf-8", { fatal: true, ignoreBOM: true }).decode(bytes);
  words.delete("source");
  return { source, options: Object.fromEntries(words) };
}
