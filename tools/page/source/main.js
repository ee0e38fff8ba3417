// Starts the page.

(() => {
  "use strict";

  const $ = (id) => document.getElementById(id);

  // The line between the two halves is drawn with the mouse.
  function startGrip() {
    $("grip").addEventListener("pointerdown", (event) => {
      const drag = (now) => {
        const share = Math.max(20, Math.min(80, (now.clientX / innerWidth) * 100));
        $("left").style.width = `${share}%`;
        Picture.render();
        Editors.problem().refresh();
        Editors.plan().refresh();
      };
      const drop = () => {
        removeEventListener("pointermove", drag);
        removeEventListener("pointerup", drop);
      };
      addEventListener("pointermove", drag);
      addEventListener("pointerup", drop);
      event.preventDefault();
    });
  }

  Turning.start();
  Editors.start({ onFirst: Commands.first, onStop: () => Commands.search.stop() });
  Commands.start();
  Files.start();
  Moves.start();
  Paper.start();
  startGrip();
  Picture.state.onPick = (name) => {
    if (name) Editors.showObject(name);
  };
  Program.start().catch((fault) => {
    Editors.say("bad", `<b>this browser cannot run the program</b>\n${Flat.safe(String(fault))}`);
  });
  Files.begin();
})();
