// The picture of a plan beside its controls: views, colours, sliders for height and for the loading
// step.

const Picture = (() => {
  "use strict";

  const $ = (id) => document.getElementById(id);
  const { safe } = Flat;
  const VIEWS = [
    { name: "solid", label: "3D", least: 3 },
    { name: "plan", label: "plan", least: 2 },
    { name: "layers", label: "layers", least: 3 },
    { name: "sides", label: "sides", least: 3 },
    { name: "time", label: "time line", least: 1 },
    { name: "table", label: "table", least: 1 },
  ];
  const MANY = 60; // from so many objects on their names are left out while they are turned
  const MOST_SHEETS = 60;
  const MOST_LABELS = 80;

  const state = {
    problem: null, things: [], broken: [], extra: [], // `extra` are views that a page adds
    loading: null, // the names in the sequence in which objects come in, where it is known
    view: null, colour: "object", sequence: "file", picked: null, camera: { ...Solid.START },
    onPick: () => {},
    onDrag: null, // begins a drag of a thing, where things may be moved
  };
  // the scene of the last drawing in three dimensions
  let kept = { key: null, scene: null, things: [] };
  let lastCamera = null;

  // ---- what is chosen

  const dims = () => (state.problem ? state.problem.dims : 0);
  const views = () => [...VIEWS.filter((view) => dims() >= view.least), ...state.extra];
  const breaksOf = () => {
    const found = new Map();
    for (const one of state.broken) {
      for (const name of one.names) found.set(name, [...(found.get(name) || []), one.name]);
    }
    return found;
  };
  const look = () => {
    return Colours.look(Colours.palette(shownThings(), state.colour), new Set(breaksOf().keys()));
  };
  const shownThings = () => state.things.filter((thing) => thing.boxes.length);
  const overlaps = () => {
    return state.broken.some((one) => one.isApart) ? Cells.overlaps(shownThings()) : [];
  };
  const frame = () => Cells.frame(state.problem, state.things);

  // The things in the sequence of the slider of steps.
  function inSequence() {
    const lowest = (thing) => Math.min(...thing.boxes.map((box) => box.low[2] || 0));
    const rank = {
      file: (thing) => thing.number,
      order: (thing) => state.problem.order.indexOf(thing.name),
      height: lowest,
      loading: (thing) => state.loading.indexOf(thing.name),
    }[state.sequence] || ((thing) => thing.attributes[state.sequence] || 0);
    return shownThings().sort((a, b) => rank(a) - rank(b) || a.number - b.number);
  }
  const visible = () => {
    return new Set(inSequence().slice(0, Number($("step").value)).map((thing) => thing.name));
  };

  // The slab across the dimensions from the fourth on that the sliders pick.
  function slab() {
    return [...$("slices").querySelectorAll("input")].map((input) => {
      return [Number(input.dataset.dimension), Number(input.value), Number(input.value) + 1];
    });
  }

  // ---- controls

  function fill(select, entries, value) {
    const options = entries.map(([key, label]) => {
      return `<option value="${safe(key)}">${safe(label)}</option>`;
    });
    select.innerHTML = options.join("");
    select.value = entries.some(([key]) => key === value) ? value : entries[0][0];
  }

  function settleChoices() {
    const attributes = Cells.attributesOf(state.problem).map((name) => [name, name]);
    fill($("colour"), [["object", "object"], ["shape", "shape"], ...attributes], state.colour);
    state.colour = $("colour").value;
    const height = dims() > 2 ? [["height", "height"]] : [];
    const loading = state.loading ? [["loading", "loading order"]] : [];
    const sequences = [
      ["file", "the text"], ["order", "search order"], ...loading, ...height, ...attributes,
    ];
    fill($("sequence"), sequences, state.sequence);
    state.sequence = $("sequence").value;
    const places = Cells.counted(dims()).map((d) => [String(d), `x${d + 1}`]);
    fill($("time"), places, $("time").value || "0");
    fill(
      $("lane"), [["none", "objects"], ...places], $("lane").value || (dims() > 1 ? "1" : "none"),
    );
  }

  function sliceSlider(d, around) {
    const ends = `min="${around.low[d]}" max="${around.high[d] - 1}" value="${around.low[d]}"`;
    const id = `slice${d + 1}`;
    const slider = `<input type="range" id="${id}" data-dimension="${d}" ${ends}>`;
    return `<span><label for="${id}">x${d + 1} = </label><output></output> ${slider}</span>`;
  }

  // Gives a slider its ends, and puts it to the high one where it is new or has other ends than
  // before.
  function settleSlider(slider, low, high, isNew) {
    const isOther = Number(slider.min) !== low || Number(slider.max) !== high;
    Object.assign(slider, { min: low, max: high });
    if (isNew || isOther) slider.value = high;
  }

  function settleSliders(isNew) {
    const around = frame();
    settleSlider($("step"), 0, shownThings().length, isNew);
    if (dims() > 2) settleSlider($("level"), around.low[2], around.high[2] - 1, isNew);
    if (isNew) {
      const further = Cells.counted(dims()).slice(3);
      $("slices").innerHTML = further.map((d) => sliceSlider(d, around)).join("");
    }
  }

  function settleButtons() {
    $("views").innerHTML = views().map(({ name, label }) => {
      const isOn = name === state.view;
      return `<button data-view="${name}" aria-pressed="${isOn}">${label}</button>`;
    }).join("");
    const has = (...names) => names.includes(state.view);
    $("solid").style.display = has("solid") ? "" : "none";
    $("flat").style.display = has("solid") ? "none" : "";
    $("lanes").hidden = !has("time");
    $("levels").style.display = dims() > 2 && has("solid", "plan") ? "" : "none";
    $("slices").style.display = has("solid", "plan", "sides") ? "" : "none";
    $("levelvalue").value = $("level").value;
    $("stepvalue").value = `${$("step").value} of ${shownThings().length}`;
    for (const input of $("slices").querySelectorAll("input")) {
      input.parentNode.querySelector("output").value = input.value;
    }
  }

  // ---- flat views, as SVG

  function planSheet(options, size) {
    const level = Number($("level").value);
    const cut = dims() > 2 ? [[2, level, level + 1], ...slab()] : [];
    const title = cut.length ? `layer ${Cells.slabTitle(cut)}` : "";
    return [Flat.plane(options.things, options.frame, {
      ...options, plane: { right: 0, up: 1 }, width: size[0], height: size[1], slab: cut, title,
    })];
  }

  function layerSheets(options, size) {
    const dimensions = Cells.counted(dims()).slice(2);
    const cuts = Cells.slabs(Cells.boxesOf(shownThings()), dimensions).slice(0, MOST_SHEETS);
    return cuts.map((cut) => Flat.plane(options.things, options.frame, {
      ...options, plane: { right: 0, up: 1 }, width: Math.min(520, size[0]), height: 380,
      slab: cut, title: `layer ${Cells.slabTitle(cut)}`,
    }));
  }

  function sideSheets(options, size) {
    const cut = slab();
    return Flat.SIDES.map(({ title, plane }) => Flat.plane(options.things, options.frame, {
      ...options, plane, width: Math.min(620, size[0]), height: 400, slab: cut,
      title: [title, Cells.slabTitle(cut)].filter(Boolean).join(", "),
    }));
  }

  function timeSheet(options, size) {
    const lane = $("lane").value === "none" ? null : Number($("lane").value);
    return [Flat.timeLine(options.things, options.frame, {
      ...options, time: Number($("time").value), lane, width: Math.min(1500, size[0]),
    })];
  }

  const SHEETS = { plan: planSheet, layers: layerSheets, sides: sideSheets, time: timeSheet };

  // A view as HTML for a room of this size.
  function sheet(view, size) {
    const seen = visible();
    const things = shownThings().filter((thing) => seen.has(thing.name));
    const options = {
      look: look(), picked: state.picked, overlaps: overlaps(), things, frame: frame(),
    };
    if (view === "table") return Flat.table(state.problem, state.things, options.look, breaksOf());
    const label = views().find((one) => one.name === view).label;
    const drawings = SHEETS[view](options, size);
    const sheets = drawings.map((one) => Flat.svg(one, `${label} of the plan`));
    return `<div class="sheets">${sheets.join("")}</div>`;
  }

  // ---- three dimensions, on the canvas

  const cutBox = (box, level) => ({
    low: box.low.slice(0, 3), high: [box.high[0], box.high[1], Math.min(box.high[2], level + 1)],
  });

  // The things with their boxes up to the level, and the cells that two of them share.
  function solidThings() {
    const [seen, level, cut] = [visible(), Number($("level").value), slab()];
    const kept3 = (boxes) => {
      return boxes.filter((box) => {
        return box.low[2] <= level && Cells.isInSlab(box, cut);
      }).map((box) => cutBox(box, level));
    };
    const things = shownThings().filter((thing) => seen.has(thing.name)).map((thing) => {
      return { ...thing, boxes: kept3(thing.boxes) };
    });
    const isSeen = (box) => box.names.every((name) => seen.has(name));
    const shared = overlaps().filter(isSeen).map((box) => {
      return { name: box.names.join(" and "), isShared: true, boxes: kept3([box]) };
    });
    return [...things, ...shared].filter((thing) => thing.boxes.length);
  }

  function scene() {
    const places = state.things.map((thing) => `${thing.name} ${thing.shape} ${thing.origin}`);
    const key = JSON.stringify([
      places, [...breaksOf().keys()], [...visible()], $("level").value, slab(), state.colour,
    ]);
    if (key !== kept.key) {
      const things = solidThings();
      kept = { key, things, scene: Solid.sceneOf(things, look()) };
    }
    return kept;
  }

  function paintNow(isPlain) {
    const canvas = $("solid");
    const size = [canvas.clientWidth, canvas.clientHeight];
    if (!size[0] || !size[1]) return;
    const ratio = window.devicePixelRatio || 1;
    Object.assign(canvas, { width: size[0] * ratio, height: size[1] * ratio });
    const context = canvas.getContext("2d");
    context.scale(ratio, ratio);
    context.clearRect(0, 0, ...size);
    if (dims() < 3) return;
    lastCamera = Solid.cameraFor(frame(), size, state.camera);
    const options = { look: look(), picked: state.picked, isPlain };
    Solid.draw(Solid.canvasPen(context), lastCamera, frame(), scene().scene, options);
  }

  let isAsked = false;
  let isPlainAsked = false;
  // Paints when the browser next draws; `isTurning` leaves out the names of many objects.
  function paint(isTurning = false) {
    isPlainAsked = isTurning && shownThings().length >= MANY;
    if (isAsked) return;
    isAsked = true;
    requestAnimationFrame(() => {
      isAsked = false;
      paintNow(isPlainAsked);
    });
  }

  // How many cells along x1 and x2 so many pixels are on the floor; with `isUp` along x3.
  function cellsAlong(across, down, isUp) {
    const { right, up, scale } = lastCamera;
    const [x, y] = [across / scale, -down / scale];
    if (isUp) return { 2: Math.round(y / up[2]) };
    const area = right[0] * up[1] - right[1] * up[0];
    return {
      0: Math.round(
        (x * up[1] - y * right[1]) / area
      ), 1: Math.round((y * right[0] - x * up[0]) / area),
    };
  }

  // The thing at a point of the canvas, or null.
  function seenAt(spot) {
    if (!lastCamera || !shownThings().length) return null;
    return Solid.firstSeen(lastCamera, scene().things.filter((thing) => !thing.isShared), spot);
  }

  // ---- all together

  const stageSize = () => [
    Math.max(300, $("stage").clientWidth - 34), Math.max(240, $("stage").clientHeight - 34),
  ];

  function describe() {
    const count = shownThings().length;
    const names = state.broken.map((one) => one.name);
    const said = names.length ? `it breaks ${names.join(", ")}` : "";
    const help = "Arrow keys turn it, plus and minus zoom it, Home turns it back. " +
      "The table below says where each object is.";
    const what = `the plan in three dimensions, ${count} objects ${said}. ${help}`;
    $("solid").setAttribute("aria-label", what);
    $("spoken").innerHTML = state.view === "table" || !count
      ? "" : Flat.table(state.problem, state.things, look(), breaksOf());
  }

  function legend() {
    const entries = Colours.palette(shownThings(), state.colour).legend.slice(0, MOST_LABELS);
    $("legend").innerHTML = entries.map(({ label, colour }) => {
      return `<span><i style="background:${colour}"></i>${safe(label)}</span>`;
    }).join("");
  }

  function render() {
    if (!state.problem) return;
    settleButtons();
    legend();
    describe();
    const extra = state.extra.find((view) => view.name === state.view);
    if (state.view === "solid") paint();
    else if (extra) extra.show($("flat"));
    else $("flat").innerHTML = sheet(state.view, stageSize());
  }

  // The view that dimensions ask for.
  const usualView = () => (dims() >= 3 ? "solid" : dims() === 2 ? "plan" : "time");

  // Shows a plan. `isNew` puts the sliders to their ends; `view` is what is shown first, where
  // there is one.
  function show({ problem, things, broken = [], isNew = true, view = null }) {
    if (state.problem && state.problem.dims !== problem.dims) state.view = null;
    const isOther = !state.problem || things.length !== state.things.length;
    if (isOther) state.loading = null;
    Object.assign(state, { problem, things, broken });
    const names = views().map((one) => one.name);
    if (view || !names.includes(state.view)) state.view = names.includes(view) ? view : usualView();
    if (!things.some((thing) => thing.name === state.picked)) state.picked = null;
    settleChoices();
    settleSliders(isNew);
    sayBroken();
    render();
  }

  function sayBroken() {
    $("verdict").innerHTML = state.broken.map((one) => {
      const groups = one.groups.slice(0, 12).map((group) => {
        return group.join(" and ") || "all objects together";
      });
      return `<div><b>rule ${safe(one.name)}</b> is broken by ${safe(groups.join("; "))}
        <br><code>${safe(one.line)}</code></div>`;
    }).join("");
  }

  // Shows the objects in the sequence in which they come in, all of them at first.
  function comeIn(names) {
    Object.assign(state, { loading: names, sequence: "loading" });
    if (!VIEWS.some((view) => view.name === state.view)) state.view = usualView();
    settleChoices();
    settleSliders(true);
    render();
  }

  function choose(view) {
    state.view = view;
    render();
  }

  function pick(name) {
    state.picked = name;
    render();
    state.onPick(name);
  }

  // What an object is, for the line beside the mouse.
  function saidOf(name) {
    const thing = state.things.find((one) => one.name === name);
    if (!thing || !thing.boxes.length) return "";
    const around = Cells.hull(thing.boxes, dims());
    const spans = around.low.map((low, d) => `${low}..${around.high[d] - 1}`);
    const attributes = Object.entries(thing.attributes).map(([key, value]) => `${key} = ${value}`);
    const breaks = breaksOf().get(name);
    const lines = [Flat.titleOf(thing), `cells ${spans.join("  ")}`, ...attributes];
    return [...lines, ...(breaks ? [`breaks ${breaks.join(", ")}`] : [])].join("\n");
  }

  return {
    state, show, render, choose, comeIn, pick, paint, paintNow, seenAt, cellsAlong, sheet, saidOf,
    look, frame, dims, breaksOf,
  };
})();
