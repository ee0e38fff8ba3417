// Objects of a plan are moved by the mouse or by keys: the plan's text is rewritten, and then
// judged as any text.

const Moves = (() => {
  "use strict";

  const $ = (id) => document.getElementById(id);
  const { state } = Picture;
  // for each key the dimension along which it moves, and how far
  const KEYS = {
    ArrowLeft: [0, -1], ArrowRight: [0, 1], ArrowDown: [1, -1], ArrowUp: [1, 1],
    PageDown: [2, -1], PageUp: [2, 1],
  };

  const thingOf = (name) => state.things.find((thing) => thing.name === name);

  const firstValuesOf = (name) => Cells.firstValues(state.problem, thingOf(name));
  const lineOf = (name, shape, origin) => Flat.titleOf({ name, shape, origin });

  // Gives an object another shape or origin in the plan's text, without the token line, which would
  // say another layout then.
  function rewrite(name, change) {
    const lines = Editors.planText().split("\n").filter((line) => !/^\s*token\b/.test(line));
    const placed = "as\\s+(\\w+)\\s+at((?:\\s+-?\\d+)+)";
    const form = new RegExp(`^(\\s*)${name}\\s+(?:${placed}|${Cells.ABSENT}\\b)(.*)$`);
    const made = lines.map((line) => {
      const it = form.exec(line);
      if (!it) return line;
      const [, front, shape, origin, rest] = it;
      const from = origin ? origin.trim().split(/\s+/).map(Number) : firstValuesOf(name);
      return `${front}${lineOf(name, ...change(shape || Cells.ABSENT, from))}${rest}`;
    });
    Editors.plan().setValue(made.join("\n"));
  }

  function move(name, steps) {
    rewrite(name, (shape, origin) => [shape, origin.map((value, d) => value + (steps[d] || 0))]);
  }

  // Gives an object its next shape; behind the last one it is left out where it may be.
  function turn(name) {
    const { shapes } = thingOf(name);
    rewrite(name, (shape, origin) => [shapes[(shapes.indexOf(shape) + 1) % shapes.length], origin]);
  }

  function key(event) {
    const isWriting = event.target.closest(".CodeMirror, input, select, textarea");
    if (!state.picked || isWriting || event.ctrlKey || event.metaKey) return;
    if (event.key === "Escape") Picture.pick(null);
    else if (event.key === "r") turn(state.picked);
    else if (KEYS[event.key]) {
      const [d, by] = KEYS[event.key];
      if (d >= state.problem.dims) return;
      event.preventDefault();
      move(state.picked, { [d]: by });
    }
  }

  // How many cells a drag has gone to the right and upwards in a drawing in a plane, which is shown
  // larger or smaller by `shown`.
  function cellsOf({ scale, right, up, row }, shown, across, down) {
    const found = {};
    found[right] = Math.round(across / shown / scale);
    if (up !== "") found[up] = -Math.round(down / shown / (row || scale));
    return found;
  }

  // Begins a drag of an object; what is given back takes how many cells it has gone along each
  // dimension.
  function drag(name) {
    const start = thingOf(name).origin.slice();
    let last = "";
    return (steps) => {
      const key = JSON.stringify(steps);
      if (key === last || (!last && Object.values(steps).every((step) => !step))) return;
      last = key;
      state.picked = name;
      rewrite(name, (shape) => [shape, start.map((value, d) => value + (steps[d] || 0))]);
    };
  }

  // An object of a drawing in a plane, or of a time line, is dragged by whole cells.
  function press(event) {
    const part = event.target.closest("[data-name]");
    const group = event.target.closest("g.plan");
    const drawing = event.target.closest("svg.drawing");
    if (!part || !group || !drawing) return;
    const go = drag(part.dataset.name);
    // the drawing is made anew while it is dragged over
    const shown = drawing.getBoundingClientRect().width / drawing.viewBox.baseVal.width;
    const cells = { ...group.dataset };
    const move = (now) => {
      go(cellsOf(cells, shown, now.clientX - event.clientX, now.clientY - event.clientY));
    };
    const drop = () => {
      removeEventListener("pointermove", move);
      removeEventListener("pointerup", drop);
    };
    addEventListener("pointermove", move);
    addEventListener("pointerup", drop);
    event.preventDefault();
  }

  function start() {
    state.onDrag = drag;
    $("flat").addEventListener("pointerdown", press);
    document.addEventListener("keydown", key);
  }

  return { start, move, turn };
})();
