// The mouse and the keys over the picture: turning, moving and zooming it, and what is under the
// mouse.

const Turning = (() => {
  "use strict";

  const $ = (id) => document.getElementById(id);
  const { state } = Picture;
  const KEYS = {
    ArrowLeft: [0.12, 0], ArrowRight: [-0.12, 0], ArrowUp: [0, 0.08], ArrowDown: [0, -0.08],
  };
  const ZOOMS = { "+": 1.15, "=": 1.15, "-": 1 / 1.15 };
  const CLICK = 4; // pixels that the mouse may move while a click stays a click

  const within = (low, value, high) => Math.max(low, Math.min(high, value));

  function turn(across, up) {
    state.camera.turn += across;
    state.camera.tilt = within(0.06, state.camera.tilt + up, 1.5);
  }
  function zoom(factor) {
    state.camera.zoom = within(0.3, state.camera.zoom * factor, 12);
  }
  function turnBack() {
    state.camera = { ...Solid.START };
  }

  function spotOf(event) {
    const box = $("solid").getBoundingClientRect();
    return [event.clientX - box.left, event.clientY - box.top];
  }

  function tip(name, event) {
    const said = name ? Picture.saidOf(name) : "";
    $("tip").hidden = !said;
    if (!said) return;
    $("tip").textContent = said;
    const [stage, box] = [$("stage"), $("stage").getBoundingClientRect()];
    const most = stage.scrollLeft + box.width - 10 - $("tip").offsetWidth;
    $("tip").style.left = `${Math.min(event.clientX - box.left + stage.scrollLeft + 14, most)}px`;
    $("tip").style.top = `${event.clientY - box.top + stage.scrollTop + 14}px`;
  }

  let held = null;
  // A drag turns the picture, with shift or the right button moves it; one that begins on the thing
  // that is picked drags that along the floor, with shift upwards.
  function press(event) {
    const thing = Picture.seenAt(spotOf(event));
    const isThing = Boolean(state.onDrag && thing && thing.name === state.picked);
    const isShifted = event.button === 2 || event.shiftKey;
    const { clientX: x, clientY: y } = event;
    held = {
      x, y, from: [x, y], isThing, isShifted, moved: 0, begun: isThing && state.onDrag(thing.name),
    };
    $("solid").setPointerCapture(event.pointerId);
    $("solid").classList.add("held");
  }
  function move(event) {
    if (!held) {
      const thing = Picture.seenAt(spotOf(event));
      tip(thing && thing.name, event);
      return;
    }
    const [across, down] = [event.clientX - held.x, event.clientY - held.y];
    const moved = held.moved + Math.abs(across) + Math.abs(down);
    held = { ...held, x: event.clientX, y: event.clientY, moved };
    tip(null);
    if (held.isThing) {
      const [x, y] = held.from;
      held.begun(Picture.cellsAlong(event.clientX - x, event.clientY - y, held.isShifted));
    } else if (held.isShifted) {
      const { shift } = state.camera;
      state.camera.shift = [shift[0] + across, shift[1] + down];
    } else turn(-across * 0.009, down * 0.007);
    Picture.paint(true);
  }
  function release(event) {
    $("solid").classList.remove("held");
    const isClick = held && held.moved < CLICK;
    held = null;
    if (isClick) {
      const thing = Picture.seenAt(spotOf(event));
      Picture.pick(thing ? thing.name : null);
    }
    Picture.paint();
  }

  function key(event) {
    if (state.picked && event.key.startsWith("Arrow")) return; // the arrows move what is picked
    if (KEYS[event.key]) turn(...KEYS[event.key]);
    else if (ZOOMS[event.key]) zoom(ZOOMS[event.key]);
    else if (event.key === "Home") turnBack();
    else return;
    event.preventDefault();
    Picture.paint();
  }

  const nameAt = (event) => {
    const found = event.target.closest("[data-name]");
    return found && found.dataset.name;
  };

  function start() {
    const canvas = $("solid");
    canvas.addEventListener("pointerdown", press);
    canvas.addEventListener("pointermove", move);
    canvas.addEventListener("pointerup", release);
    canvas.addEventListener("pointerleave", () => tip(null));
    canvas.addEventListener("contextmenu", (event) => event.preventDefault());
    canvas.addEventListener("keydown", key);
    canvas.addEventListener("dblclick", () => {
      turnBack();
      Picture.paint();
    });
    canvas.addEventListener("wheel", (event) => {
      event.preventDefault();
      zoom(Math.exp(-event.deltaY * 0.001));
      Picture.paint(true);
    }, { passive: false });
    $("flat").addEventListener("pointermove", (event) => tip(nameAt(event), event));
    $("flat").addEventListener("pointerleave", () => tip(null));
    $("flat").addEventListener("click", (event) => Picture.pick(nameAt(event)));
    $("views").addEventListener("click", (event) => {
      const found = event.target.closest("[data-view]");
      if (found) Picture.choose(found.dataset.view);
    });
    for (const id of ["step", "level", "slices"]) $(id).addEventListener("input", Picture.render);
    for (const id of ["time", "lane"]) $(id).addEventListener("change", Picture.render);
    for (const id of ["colour", "sequence"]) {
      $(id).addEventListener("change", () => {
        state[id] = $(id).value;
        Picture.render();
      });
    }
    window.addEventListener("resize", Picture.render);
  }

  return { start, turn, tip };
})();
