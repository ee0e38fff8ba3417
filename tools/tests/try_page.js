// Tries the page from within, in a browser that no web driver steers: runs, a first layout, an
// object that is moved, a search that is stopped. What came of it is sent to GIVEN.address.

(async () => {
  "use strict";

  const message = () => document.getElementById("message").innerText;
  const pause = (milliseconds) => new Promise((done) => setTimeout(done, milliseconds));

  async function until(words, seconds) {
    const end = performance.now() + seconds * 1000;
    while (!message().includes(words)) {
      if (performance.now() > end) throw new Error(`${words} did not come: ${message()}`);
      await pause(30);
    }
    return message();
  }

  async function runs() {
    const found = [];
    for (const [words, text] of GIVEN.runs) {
      const run = await Commands.quick.run(words, text);
      found.push([run.status, run.text + (run.fault || "")]);
    }
    return found;
  }

  // How many points of the canvas have a colour.
  function painted() {
    const canvas = document.getElementById("solid");
    const { data } = canvas.getContext("2d").getImageData(0, 0, canvas.width, canvas.height);
    return data.filter((value, n) => n % 4 === 3 && value > 0).length;
  }

  async function layouts() {
    Files.open("kitchen", GIVEN.kitchen, "");
    await until("the text is a problem", 30);
    document.getElementById("first").click();
    const first = await until("the first layout", 30);
    Moves.move("stove", { 0: 1 });
    const moved = await until("broken", 30);
    return { first, moved };
  }

  async function stop() {
    Files.open("hard", GIVEN.hard, "");
    await until("the text is a problem", 30);
    Picture.choose("solid");
    Picture.paintNow(false);
    document.getElementById("steps").value = "1000000000000";
    document.getElementById("first").click();
    await until("1000000000000", 30);
    await pause(500);
    const began = performance.now();
    document.getElementById("stop").click();
    const stopped = await until("stopped", 30);
    return { stopped, stopping: performance.now() - began, painted: painted() };
  }

  const answer = { agent: navigator.userAgent };
  try {
    answer.runs = await runs();
    Object.assign(answer, await layouts(), await stop());
  } catch (fault) {
    answer.fault = String(fault);
  }
  fetch(GIVEN.address, { method: "POST", mode: "no-cors", body: JSON.stringify(answer) });
})();
