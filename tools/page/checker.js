"use strict";
/* The checker for the page: a worker that runs the program. It is stopped and made anew where a run takes too long or
   is not wanted any more. */

const MOST_SECONDS = 20;

/* The program's bytes, of the text of module.js. */
async function unpacked() {
  const packed = Uint8Array.from(atob(PACKED_MODULE), (char) => char.charCodeAt(0));
  return new Response(new Blob([packed]).stream().pipeThrough(new DecompressionStream("gzip"))).arrayBuffer();
}

class Stopped extends Error {}

class Checker {
  constructor() {
    this.program = null;
    this.worker = null;
    this.ready = null;
    this.waiting = new Map();
    this.count = 0;
    const text = `"use strict";\n${workInWorker}\nworkInWorker();\n`;
    this.url = URL.createObjectURL(new Blob([text], { type: "text/javascript" }));
  }

  /* Ends the worker, and all runs that wait for it. */
  stop(why) {
    this.worker?.terminate();
    this.worker = null;
    for (const { refuse } of this.waiting.values()) refuse(new Stopped(why));
    this.waiting.clear();
  }

  /* Starts a worker where there is none, and gives it the program. */
  start() {
    if (this.worker) return this.ready;
    this.worker = new Worker(this.url);
    this.worker.onmessage = ({ data }) => this.answered(data);
    this.worker.onerror = (event) => this.stop(event.message || "the worker failed");
    this.ready = this.ask({ program: this.program });
    return this.ready;
  }

  answered(data) {
    const asked = this.waiting.get(data.id);
    this.waiting.delete(data.id);
    if (data.fault) asked?.refuse(new Error(data.fault));
    else asked?.give(data);
  }

  ask(message) {
    const id = this.count++;
    return new Promise((give, refuse) => {
      this.waiting.set(id, { give, refuse });
      this.worker.postMessage({ id, ...message });
    });
  }

  /* Loads the program; fails where the browser cannot. */
  async load() {
    this.program = await unpacked();
    await this.start();
  }

  /* The status and the output of the program for these words; fails with Stopped where it was stopped. */
  async run(words, source) {
    await this.start();
    const limit = setTimeout(() => this.stop(`stopped after ${MOST_SECONDS} seconds`), MOST_SECONDS * 1000);
    try {
      return await this.ask({ words, source });
    } finally {
      clearTimeout(limit);
    }
  }
}
