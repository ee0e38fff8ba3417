// The five calls that the WebAssembly module of the program asks of its host: what stands under the
// program here, in place of the C library and the system.

const Host = (() => {
  "use strict";

  // The calls for one run. `take(into)` puts bytes of the input into an array and answers how many;
  // `put(bytes)` takes bytes of the output; `memory()` is the memory of the instance.
  function calls(words, take, put, memory) {
    const given = new TextEncoder().encode(words.map((word) => `${word}\0`).join(""));
    const bytes = (place, length) => new Uint8Array(memory().buffer, place, length);
    return {
      word_count: () => words.length,
      word_bytes: () => given.length,
      words: (place) => bytes(place >>> 0, given.length).set(given),
      take: (place, length) => take(bytes(place >>> 0, length >>> 0)),
      put: (place, length) => {
        put(bytes(place >>> 0, length >>> 0));
        return length;
      },
    };
  }

  // Gives the bytes of an array, as much as is asked for each time.
  function reader(input) {
    let at = 0;
    return (into) => {
      const some = input.subarray(at, at + into.length);
      into.set(some);
      at += some.length;
      return some.length;
    };
  }

  // Runs a compiled module once over a memory of its own; answers the status and the size of the
  // memory.
  async function run(module, words, take, put) {
    let instance = null;
    const host = calls(words, take, put, () => instance.exports.memory);
    instance = await WebAssembly.instantiate(module, { host });
    const status = instance.exports.run();
    return { status, memory: instance.exports.memory.buffer.byteLength };
  }

  return { run, reader };
})();

if (typeof module !== "undefined") module.exports = Host;
