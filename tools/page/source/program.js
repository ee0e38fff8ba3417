// The proved program, as WebAssembly, in workers.

const Program = (() => {
  "use strict";

  let compiled = null;

  const bytesOf = (base64) => Uint8Array.from(atob(base64), (sign) => sign.charCodeAt(0));

  async function unpacked(bytes) {
    const stream = new Blob([bytes]).stream().pipeThrough(new DecompressionStream("gzip"));
    return new Uint8Array(await new Response(stream).arrayBuffer());
  }

  // The module, compiled once.
  function start() {
    compiled = compiled ||
      unpacked(bytesOf(PROGRAM.wasm)).then((bytes) => WebAssembly.compile(bytes));
    return compiled;
  }

  // Runs one after another in a worker; `stop` ends the one that is under way, and those that wait.
  class Runner {
    constructor() {
      this.worker = null;
      this.waiting = new Map();
      this.count = 0;
    }
    async begin() {
      const module = await start();
      if (this.worker) return;
      const source = new Blob([PROGRAM.worker], { type: "text/javascript" });
      this.worker = new Worker(URL.createObjectURL(source));
      this.worker.onmessage = ({ data }) => this.hear(data);
      this.worker.postMessage({ module });
    }
    hear(data) {
      const run = this.waiting.get(data.id);
      if (!run) return;
      if (data.piece !== undefined) {
        run.text += data.piece;
        if (run.heard) run.heard(run.text);
        return;
      }
      this.waiting.delete(data.id);
      run.done({ ...data, text: run.text + data.text, words: run.words });
    }
    // Answers { status, text, milliseconds, memory, words }; `isStopped` where it was ended,
    // `fault` where the browser could not go on. `heard` is given the text so far from time to
    // time.
    async run(words, input, heard = null) {
      await this.begin();
      this.count += 1;
      const id = this.count;
      const bytes = typeof input === "string" ? new TextEncoder().encode(input) : input;
      return new Promise((done) => {
        this.waiting.set(id, { done, heard, text: "", words });
        this.worker.postMessage(
          { id, words: words.map(String), input: bytes, streams: Boolean(heard) }
        );
      });
    }
    stop() {
      if (!this.worker) return;
      this.worker.terminate();
      this.worker = null;
      for (const run of this.waiting.values()) {
        run.done(
          { status: null, isStopped: true, text: run.text, milliseconds: 0, words: run.words }
        );
      }
      this.waiting.clear();
    }
  }

  return { Runner, start };
})();
