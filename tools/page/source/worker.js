// Runs the program in a worker of its own, which the page may end at any time. The first message
// has the module; each further one a run, with the words, the input as bytes, and whether the
// output is sent while it comes.

(() => {
  "use strict";

  const SENT_EVERY = 100; // milliseconds
  let compiled = null;

  // Collects the output, and sends it on while it comes where that is asked for.
  function collector(id, streams) {
    const decoder = new TextDecoder();
    let pieces = [];
    let sent = performance.now();
    const taken = () => {
      const text = pieces.join("");
      pieces = [];
      sent = performance.now();
      return text;
    };
    const put = (bytes) => {
      pieces.push(decoder.decode(bytes, { stream: true }));
      const isDue = streams && performance.now() - sent > SENT_EVERY;
      if (isDue) self.postMessage({ id, piece: taken() });
    };
    return { put, taken };
  }

  self.onmessage = async ({ data }) => {
    if (data.module) {
      compiled = data.module;
      return;
    }
    const began = performance.now();
    const output = collector(data.id, data.streams);
    const result = { id: data.id, status: null };
    try {
      Object.assign(
        result, await Host.run(compiled, data.words, Host.reader(data.input), output.put),
      );
    } catch (fault) {
      result.fault = String(fault);
    }
    result.text = output.taken();
    result.milliseconds = performance.now() - began;
    self.postMessage(result);
  };
})();
