"use strict";
/* Places of a source: the report counts bytes of UTF-8, the text area counts units of UTF-16, and people count lines
   and characters. A byte order mark is no part of its line. */

const MARK = "\ufeff";

class Places {
  constructor(text) {
    this.text = text;
    this.bytes = new TextEncoder().encode(text);
    this.decoder = new TextDecoder("utf-8", { ignoreBOM: true });
    // Where each line begins, in bytes and in units.
    this.lineBytes = [0];
    for (let at = this.bytes.indexOf(10); at >= 0; at = this.bytes.indexOf(10, at + 1)) this.lineBytes.push(at + 1);
    this.lineUnits = [0];
    for (let at = text.indexOf("\n"); at >= 0; at = text.indexOf("\n", at + 1)) this.lineUnits.push(at + 1);
  }

  /* The number, from 0, of the line with this place, where each line begins at one of the given places. */
  static lineIn(begins, at) {
    let low = 0, high = begins.length;
    while (high - low > 1) {
      const middle = (low + high) >> 1;
      if (begins[middle] <= at) low = middle;
      else high = middle;
    }
    return low;
  }

  /* The unit at which a byte of the source begins. */
  unitOf(byte) {
    const line = Places.lineIn(this.lineBytes, byte);
    return this.lineUnits[line] + this.decoder.decode(this.bytes.subarray(this.lineBytes[line], byte)).length;
  }

  /* The line and the column of a unit, from 1; columns count characters. */
  placeOf(unit) {
    const line = Places.lineIn(this.lineUnits, unit);
    const before = [...this.text.slice(this.lineUnits[line], unit)];
    const marks = line === 0 && before[0] === MARK ? 1 : 0;
    return { line: line + 1, column: before.length - marks + 1 };
  }

  /* The text of a line, from 1, without its line feed. */
  lineText(line) {
    const end = line < this.lineUnits.length ? this.lineUnits[line] - 1 : this.text.length;
    const text = this.text.slice(this.lineUnits[line - 1], end);
    return line === 1 && text.startsWith(MARK) ? text.slice(1) : text;
  }

  get lines() {
    return this.lineUnits.length;
  }
}
