"use strict";
/* What runs beside the page. It gets the bytes of the program once, and then words and sources. Each run has an
   instance of its own, so nothing is left of one for the next. The page makes the worker from the text of this
   function, since a browser takes no worker from a file on the disk. */

function workInWorker() {
  let program = null;

  /* Has the program do what the words say with the source; gives its status and its output. */
  async function run(words, source) {
    const began = performance.now();
    const { exports } = await WebAssembly.instantiate(await program, {});
    const put = (bytes, at) => {
      if (at === 0n) throw new RangeError("the source does not fit in the memory");
      new Uint8Array(exports.memory.buffer).set(bytes, Number(at));
      return at;
    };
    put(source, exports.room_for_source(BigInt(source.length)));
    const text = new TextEncoder().encode(words.map((word) => `${word}\n`).join(""));
    const status = exports.run(put(text, exports.room_for_words(BigInt(text.length))), BigInt(text.length));
    const at = Number(exports.output_at()), length = Number(exports.output_length());
    const output = new TextDecoder().decode(new Uint8Array(exports.memory.buffer, at, length));
    return { status, output, took: performance.now() - began, memory: exports.memory.buffer.byteLength };
  }

  onmessage = async ({ data }) => {
    try {
      if (data.program) {
        program = WebAssembly.compile(data.program);
        await program;
        postMessage({ id: data.id, took: 0 });
      } else postMessage({ id: data.id, ...(await run(data.words, data.source)) });
    } catch (fault) {
      postMessage({ id: data.id, fault: String(fault) });
    }
  };
}
