// Drawings of plans in a plane as SVG: planes, time lines, and the table of objects as HTML.
// Lengths are pixels.

const Flat = (() => {
  "use strict";

  const LETTER = 0.6; // the width of a letter, as a share of its size
  const [LARGEST_NAME, SMALLEST_NAME] = [16, 6.5];
  const MOST_LANES = 60;
  // the sides from which a plan of three dimensions is seen
  const SIDES = [
    { title: "from above", plane: { right: 0, up: 1, depth: 2, isFromHigh: true } },
    { title: "from the front, at low x2", plane: { right: 0, up: 2, depth: 1, isFromHigh: false } },
    { title: "from the right, at high x1", plane: { right: 1, up: 2, depth: 0, isFromHigh: true } },
  ];

  const SIGNS = { "&": "&amp;", "<": "&lt;", ">": "&gt;", '"': "&quot;" };
  const safe = (text) => String(text).replace(/[&<>"]/g, (sign) => SIGNS[sign]);
  const n = (value) => String(Math.round(value * 100) / 100);

  function svg(drawing, label) {
    const size = `width="${n(drawing.width)}" height="${n(drawing.height)}"`;
    const box = `viewBox="0 0 ${n(drawing.width)} ${n(drawing.height)}"`;
    const name = `role="img" aria-label="${safe(label)}"`;
    const head = `<svg xmlns="http://www.w3.org/2000/svg" class="drawing" ${name} ${size} ${box}>`;
    return `${head}${drawing.parts.join("")}</svg>`;
  }

  const textAt = (x, y, words, classes) => {
    return `<text x="${n(x)}" y="${n(y)}" class="${classes}">${safe(words)}</text>`;
  };
  const rectangle = ([left, top, width, height], rest) => {
    const place = `x="${n(left)}" y="${n(top)}" width="${n(width)}" height="${n(height)}"`;
    return `<rect ${place} ${rest}/>`;
  };
  const lines = (ends, classes) => {
    const path = ends.map(([a, b, c, d]) => `M${n(a)} ${n(b)}L${n(c)} ${n(d)}`).join("");
    return `<path d="${path}" class="${classes}"/>`;
  };

  // The least of 1, 2, 5, 10, 20 .. cells that are so many pixels apart.
  function stepFor(scale, least) {
    let ten = 1;
    for (;;) {
      const found = [1, 2, 5].find((digit) => digit * ten * scale >= least);
      if (found) return found * ten;
      ten *= 10;
    }
  }

  // The multiples of a step from one number up to another.
  function ticks(low, high, step) {
    const first = Math.ceil(low / step) * step;
    const count = Math.max(0, Math.floor((high - first) / step) + 1);
    return Cells.counted(count).map((k) => first + k * step);
  }

  // The pixels that a number between these takes, with a gap.
  const numberWidth = (low, high) => 10 + 7.2 * Math.max(String(low).length, String(high).length);

  const titleOf = (thing) => {
    if (thing.shape === Cells.ABSENT) return `${thing.name} ${Cells.ABSENT}`;
    return `${thing.name} as ${thing.shape} at ${thing.origin.join(" ")}`;
  };

  // The classes of a thing's part: whether it is blamed, faded or picked.
  function classesOf(thing, look, picked) {
    const marks = [look.isBlamed(thing) && "blamed", look.isFaded(thing) && "faded"];
    return ["thing", ...marks, thing.name === picked && "held"].filter(Boolean).join(" ");
  }
  const group = (thing, classes, inner) => {
    const title = `<title>${safe(titleOf(thing))}</title>`;
    return `<g class="${classes}" data-name="${safe(thing.name)}">${title}${inner}</g>`;
  };

  // ---- names in boxes

  // How large a name can be written in a box, and whether it is turned upright.
  function writingIn(name, width, height) {
    const wide = LETTER * name.length;
    const flat = Math.min((width * 0.92) / wide, height * 0.72, LARGEST_NAME);
    const upright = Math.min((height * 0.92) / wide, width * 0.72, LARGEST_NAME);
    const isFlat = flat >= SMALLEST_NAME || flat >= upright;
    return { size: isFlat ? flat : upright, turn: isFlat ? "" : " rotate(-90)" };
  }
  function write(name, x, y, writing, fill) {
    if (writing.size < SMALLEST_NAME) return "";
    const turned = `transform="translate(${n(x)} ${n(y)})${writing.turn}"`;
    const place = `${turned} font-size="${n(writing.size)}"`;
    const colour = Colours.isDark(fill) ? "#ffffff" : "#1b1f24";
    return `<text ${place} class="name" fill="${colour}">${safe(name)}</text>`;
  }

  // ---- a plane with things

  // Where the cells of a frame lie on a drawing of at most this size.
  function paperFor(frame, plane, width, height, isPlain) {
    const [left, bottom, right, top] = Cells.rectOf(frame, plane.right, plane.up);
    const side = Math.max(44, 20 + numberWidth(bottom, top));
    const margin = isPlain
      ? { left: 4, top: 4, across: 8, down: 8 }
      : { left: side, top: 26, across: side + 14, down: 60 };
    const scale = Math.min(
      (width - margin.across) / (right - left),
      (height - margin.down) / (top - bottom),
    );
    const x = (value) => margin.left + (value - left) * scale;
    const y = (value) => margin.top + (top - value) * scale;
    const span = (rect) => {
      return [x(rect[0]), y(rect[3]), (rect[2] - rect[0]) * scale, (rect[3] - rect[1]) * scale];
    };
    return { plane, scale, x, y, span, whole: [left, bottom, right, top], margin };
  }

  function roomParts(paper) {
    const { x, y, plane } = paper;
    const [left, bottom, right, top] = paper.whole;
    const least = Math.max(24, numberWidth(left, right));
    const across = ticks(left, right, stepFor(paper.scale, least));
    const upward = ticks(bottom, top, stepFor(paper.scale, 24));
    const grid = [
      ...across.map((k) => [x(k), y(bottom), x(k), y(top)]),
      ...upward.map((k) => [x(left), y(k), x(right), y(k)]),
    ];
    const middle = n(y((bottom + top) / 2));
    return [
      rectangle(paper.span(paper.whole), 'class="room"'),
      lines(grid, "grid"),
      ...across.map((k) => textAt(x(k), y(bottom) + 14, k, "number")),
      ...upward.map((k) => textAt(x(left) - 7, y(k) + 4, k, "number end")),
      textAt(x((left + right) / 2), y(bottom) + 29, `x${plane.right + 1}`, "axis"),
      `<text transform="translate(13 ${middle}) rotate(-90)" class="axis">x${plane.up + 1}</text>`,
    ];
  }

  // The greater, the nearer to the eye a box ends.
  function nearness(box, plane) {
    if (plane.depth === undefined) return 0;
    return plane.isFromHigh ? box.high[plane.depth] : -box.low[plane.depth];
  }

  // The pieces of all things that end equally near to the eye, the farthest first; of equal ones
  // those of blamed things behind others, and that of the picked thing last.
  function piecesOf(things, plane, slab, { look, picked }) {
    const found = things.flatMap((thing) => {
      const boxes = thing.boxes.filter((box) => Cells.isInSlab(box, slab));
      return Cells.unique(boxes.map((box) => nearness(box, plane))).map((near) => {
        const here = boxes.filter((box) => nearness(box, plane) === near);
        const rects = here.map((box) => Cells.rectOf(box, plane.right, plane.up));
        return { thing, near, ...Cells.outline(rects) };
      });
    });
    const rank = ({ thing }) => (thing.name === picked ? 2 : Number(look.isBlamed(thing)));
    return found.sort((a, b) => a.near - b.near || rank(a) - rank(b));
  }

  function pieceParts(paper, piece, options) {
    const fill = options.look.flatFill(piece.thing);
    const cells = piece.parts.map(paper.span).map(([x, y, width, height]) => {
      return rectangle([x - 0.3, y - 0.3, width + 0.6, height + 0.6], `fill="${fill}"`);
    });
    const ends = piece.segments.map(([a, b, c, d]) => {
      return [paper.x(a), paper.y(b), paper.x(c), paper.y(d)];
    });
    const classes = classesOf(piece.thing, options.look, options.picked);
    return group(piece.thing, classes, cells.join("") + lines(ends, "edge"));
  }

  const meets = (one, other) => {
    return one[0] < other[2] && other[0] < one[2] && one[1] < other[3] && other[1] < one[3];
  };

  // For each thing the largest rectangle over which nothing nearer lies, where there is one.
  function namedPieces(pieces) {
    const best = new Map();
    pieces.forEach((piece, number) => {
      const over = pieces.slice(number + 1).flatMap((nearer) => nearer.parts);
      const free = piece.parts.filter((rect) => !over.some((other) => meets(rect, other)));
      const before = best.get(piece.thing.name);
      const rects = [...(before ? [before.rect] : []), ...free];
      rects.sort((a, b) => Cells.areaOf(b) - Cells.areaOf(a));
      if (rects.length) best.set(piece.thing.name, { thing: piece.thing, rect: rects[0] });
    });
    return [...best.values()];
  }

  // The things as seen along a plane's depth. Options: look, plane, width, height, title, slab,
  // overlaps, picked, isPlain (without numbers and names).
  function plane(things, frame, options) {
    const { plane: seen, slab = [], overlaps = [], isPlain = false } = options;
    const paper = paperFor(frame, seen, options.width, options.height, isPlain);
    const pieces = piecesOf(things, seen, slab, options);
    const shared = overlaps.filter((box) => Cells.isInSlab(box, slab)).map((box) => {
      const title = `<title>${safe(box.names.join(" and "))} share these cells</title>`;
      const span = paper.span(Cells.rectOf(box, seen.right, seen.up));
      return `<g>${title}${rectangle(span, 'class="overlap"')}</g>`;
    });
    const names = namedPieces(pieces).map(({ thing, rect }) => {
      const [x, y, width, height] = paper.span(rect);
      const writing = writingIn(thing.name, width, height);
      return write(
        thing.name, x + width / 2, y + height / 2, writing, options.look.flatFill(thing),
      );
    });
    const data = `data-right="${seen.right}" data-up="${seen.up}" data-scale="${n(paper.scale)}"`;
    const parts = [
      `<g class="plan" ${data}>`,
      ...(isPlain ? [rectangle(paper.span(paper.whole), 'class="room"')] : roomParts(paper)),
      ...(options.title ? [textAt(paper.margin.left, 16, options.title, "title")] : []),
      ...pieces.map((piece) => pieceParts(paper, piece, options)),
      ...shared, ...(isPlain ? [] : names), "</g>",
    ];
    const [, bottom, right] = paper.whole;
    return {
      width: paper.x(right) + (isPlain ? 4 : 14),
      height: paper.y(bottom) + (isPlain ? 4 : 34),
      parts,
    };
  }

  // ---- time lines

  // Rows by the cells of a dimension, the highest first, or one for each thing.
  function lanesOf(things, frame, lane) {
    if (lane === null || frame.high[lane] - frame.low[lane] > MOST_LANES) {
      return { names: things.map((thing) => thing.name), lane: null };
    }
    const count = frame.high[lane] - frame.low[lane];
    const cells = Cells.counted(count).map((k) => frame.high[lane] - 1 - k);
    return { names: cells.map((cell) => `x${lane + 1} = ${cell}`), lane };
  }

  function timePaper(things, frame, options) {
    const { time, width } = options;
    const lanes = lanesOf(things, frame, options.lane === time ? null : options.lane);
    const left = 20 + 7.2 * Math.max(4, ...lanes.names.map((name) => name.length));
    const row = Math.max(18, Math.min(lanes.lane === null ? 28 : 46, 520 / lanes.names.length));
    const scale = (width - left - 24) / (frame.high[time] - frame.low[time]);
    const x = (value) => left + (value - frame.low[time]) * scale;
    const bar = (box, number) => {
      const first = lanes.lane === null ? number : frame.high[lanes.lane] - box.high[lanes.lane];
      const rows = lanes.lane === null ? 1 : box.high[lanes.lane] - box.low[lanes.lane];
      const [begin, end] = [x(box.low[time]), x(box.high[time])];
      return [begin + 0.5, 26 + first * row + 3, end - begin - 1, rows * row - 6];
    };
    return { lanes, left, row, scale, x, bar, top: 26, bottom: 26 + row * lanes.names.length };
  }

  function laneParts(paper, frame, { time, width }) {
    const { x, left, row, top, bottom } = paper;
    const rows = paper.lanes.names.flatMap((name, number) => {
      const y = top + number * row;
      const kind = number % 2 ? "odd" : "even";
      return [
        rectangle([left, y, width - left - 24, row], `class="${kind}"`),
        textAt(left - 8, y + row / 2 + 4, name, "line end"),
      ];
    });
    const least = Math.max(24, numberWidth(frame.low[time], frame.high[time]));
    const marks = ticks(frame.low[time], frame.high[time], stepFor(paper.scale, least));
    const grid = lines(marks.map((k) => [x(k), top, x(k), bottom]), "grid");
    return [...rows, grid, ...marks.map((k) => textAt(x(k), top - 8, k, "number"))];
  }

  function barParts(paper, thing, number, options) {
    const fill = options.look.flatFill(thing);
    const bars = thing.boxes.map((box) => paper.bar(box, number));
    const shapes = bars.map((bar) => rectangle(bar, `rx="3" fill="${fill}" class="bar"`));
    const [[x, y, width, height]] = bars.slice().sort((a, b) => b[2] * b[3] - a[2] * a[3]);
    const size = Math.min(
      (width * 0.92) / (LETTER * thing.name.length), height * 0.72, LARGEST_NAME,
    );
    const name = write(thing.name, x + width / 2, y + height / 2, { size, turn: "" }, fill);
    return group(thing, classesOf(thing, options.look, options.picked), shapes.join("") + name);
  }

  // Time to the right, lanes by another dimension or by things (lane null).
  // Options: look, time, lane, width, picked.
  function timeLine(things, frame, options) {
    const paper = timePaper(things, frame, options);
    const { lane } = paper.lanes;
    const what = `x${options.time + 1}${lane === null ? "" : `, lanes by x${lane + 1}`}`;
    const data = `data-right="${options.time}" data-up="${lane === null ? "" : lane}"`;
    const parts = [
      `<g class="plan" ${data} data-scale="${n(paper.scale)}" data-row="${n(paper.row)}">`,
      ...laneParts(paper, frame, options),
      ...things.map((thing, number) => {
        return thing.boxes.length ? barParts(paper, thing, number, options) : "";
      }),
      textAt(paper.left, paper.bottom + 18, what, "title"), "</g>",
    ];
    return { width: options.width, height: paper.bottom + 26, parts };
  }

  // ---- the table of objects

  function cellsOf(thing, dims) {
    if (!thing.boxes.length) return dims.map(() => "");
    const around = Cells.hull(thing.boxes, dims.length);
    return dims.map((d) => `${around.low[d]}..${around.high[d] - 1}`);
  }

  // The rows are those of the given things; `breaks` has the names of the rules that each breaks.
  function table(problem, things, look, breaks) {
    const dims = Cells.counted(problem.dims);
    const keys = Cells.attributesOf(problem);
    const head = [
      "object", "shape", ...dims.map((d) => `x${d + 1}`), ...dims.map((d) => `cells in x${d + 1}`),
      ...keys, ...(breaks.size ? ["breaks"] : []),
    ];
    const rows = things.map((thing) => {
      const data = [
        thing.shape, ...dims.map((d) => thing.origin[d] ?? ""), ...cellsOf(thing, dims),
        ...keys.map((key) => thing.attributes[key] ?? ""),
        ...(breaks.size ? [(breaks.get(thing.name) || []).join(", ")] : []),
      ];
      const colour = `<i style="background:${thing.boxes.length ? look.fill(thing) : "none"}"></i>`;
      const name = `<th scope="row">${colour}${safe(thing.name)}</th>`;
      const classes = look.isBlamed(thing) ? ' class="blamed"' : "";
      const cells = data.map((one) => `<td>${safe(one)}</td>`).join("");
      return `<tr data-name="${safe(thing.name)}"${classes}>${name}${cells}</tr>`;
    });
    const heads = head.map((it) => `<th scope="col">${safe(it)}</th>`).join("");
    return `<table class="objects"><caption>the objects of the plan</caption>
<thead><tr>${heads}</tr></thead><tbody>${rows.join("")}</tbody></table>`;
  }

  return {
    SIDES, LETTER, safe, n, svg, plane, timeLine, table, stepFor, ticks, numberWidth, titleOf,
  };
})();
