// Problems and plans as objects with cells, and what drawings of them are made of.
//
// A box has its cells from `low` up to `high`, which is one past the last cell in each dimension.
// Dimensions count from 0. A rectangle of a plane is [left, bottom, right, top], and a segment is
// such a rectangle with one side of no length.

const Cells = (() => {
  "use strict";

  const counted = (length) => Array.from({ length }, (_, n) => n);
  const unique = (list) => [...new Set(list)];
  const integersIn = (text) => {
    return (text.match(/-?\s*\d+/g) || []).map((it) => Number(it.replace(/\s/g, "")));
  };

  function rangesIn(text) {
    const found = text.match(/-?\s*\d+\s*\.\.\s*-?\s*\d+/g) || [];
    return found.map((it) => integersIn(it.replace("..", " ")));
  }

  // ---- texts

  const listed = (text) => text.split(",").map((it) => it.trim());

  function readShape(line) {
    return line.split(" box ").slice(1).map((part) => {
      const [offsets, sizes] = part.split(" size ").map(integersIn);
      return { offsets, sizes };
    });
  }

  function readObject(line, number) {
    const [, name, shapes, rest] = /^object (\S+) as (.*?) at (.*) ;$/.exec(line);
    const given = rest.split(" with ")[1];
    const attributes = {};
    for (const part of given ? given.split(",") : []) {
      const [key, value] = part.split("=");
      [attributes[key.trim()]] = integersIn(value);
    }
    return { name, number, shapes: listed(shapes), ranges: pieces(rest), attributes };
  }

  // For each coordinate the first and the last number of its range, which may have several pieces.
  function pieces(text) {
    const each = text.split(" with ")[0].match(/\S+\.\.\S+(?:, \S+\.\.\S+)*/g) || [];
    return each.map((it) => {
      const found = rangesIn(it);
      return [found[0][0], found[found.length - 1][1]];
    });
  }

  function readRule(line) {
    const [, name, body] = /^rule (\S+) : (.*) ;$/.exec(line);
    const ranges = body.startsWith("within ") ? rangesIn(body.slice("within ".length)) : null;
    return { name, body, line, within: ranges, isApart: body === "apart" };
  }

  // The problem that a canonical text spells, which has one statement a line, as `show` prints it.
  function readProblem(text) {
    const made = {
      dims: 3, shapes: new Map(), objects: [], rules: [], order: null, sides: [], front: [],
    };
    const readers = {
      geost: (line) => (made.dims = Number(line.split(" ")[3])),
      shape: (line) => made.shapes.set(line.split(" ")[1], readShape(line)),
      object: (line) => made.objects.push(readObject(line, made.objects.length)),
      order: (line) => (made.order = listed(line.slice("order ".length, -" ;".length))),
      sides: (line) => (made.sides = line.split(" ").slice(1, -1)),
      rule: (line) => made.rules.push(readRule(line)),
    };
    for (const line of text.split("\n")) {
      const word = line.split(" ")[0];
      if (readers[word]) readers[word](line);
      if (["geost", "shape", "object", "macro"].includes(word)) made.front.push(line);
    }
    made.order = made.order || made.objects.map((it) => it.name);
    return made;
  }

  // The first value of each coordinate in the search, which an object that is left out has.
  const firstValues = (problem, object) => {
    return object.ranges.map(([low, high], d) => (problem.sides[d] === "high" ? high : low));
  };

  const PLACE = /^\s*(\w+)\s+as\s+(\w+)\s+at((?:\s+-?\s*\d+)+)\s*$/;
  const LEFT_OUT = /^\s*(\w+)\s+absent\s*$/;
  const ABSENT = "absent";

  // The lines of a layout that place an object, by its name, and the token, if any.
  function readLayout(text) {
    const places = new Map();
    let token = null;
    for (const line of text.split("\n")) {
      const bare = line.replace(/#.*/, "");
      const it = PLACE.exec(bare);
      if (it) places.set(it[1], { shape: it[2], origin: integersIn(it[3]) });
      const out = LEFT_OUT.exec(bare);
      if (out) places.set(out[1], { shape: ABSENT, origin: [] });
      const said = /^\s*token\s+(\S+)/.exec(bare);
      if (said) [, token] = said;
    }
    return { text, places, token };
  }

  // The layouts of an answer of `first` or `all`.
  function layoutsIn(answer) {
    const blocks = answer.split(/^(?=layout$)/m).filter((it) => it.startsWith("layout"));
    return blocks.map((it) => readLayout(it.replace(/^(more|end|budget \d+)\n?$/m, "")));
  }

  const attributesOf = (problem) => {
    return unique(problem.objects.flatMap((it) => Object.keys(it.attributes)));
  };

  // ---- plans

  // The objects of a layout with their boxes. One that is absent, has no line, or no such shape, has
  // none.
  function placedThings(problem, layout) {
    return problem.objects.map((object) => {
      const place = layout.places.get(object.name);
      const shape = place && problem.shapes.get(place.shape);
      if (place && place.shape === ABSENT) {
        return { ...object, shape: ABSENT, origin: [], boxes: [] };
      }
      if (!shape || place.origin.length !== problem.dims) {
        return { ...object, shape: "", origin: [], boxes: [] };
      }
      const boxes = shape.map(({ offsets, sizes }) => {
        const low = offsets.map((offset, d) => place.origin[d] + offset);
        return { low, high: low.map((end, d) => end + sizes[d]) };
      });
      return { ...object, shape: place.shape, origin: place.origin, boxes };
    });
  }

  const boxesOf = (things) => things.flatMap((thing) => thing.boxes);
  const rectOf = (box, right, up) => [box.low[right], box.low[up], box.high[right], box.high[up]];

  // The cells of both boxes, or null.
  function meet(one, other) {
    const low = one.low.map((end, d) => Math.max(end, other.low[d]));
    const high = one.high.map((end, d) => Math.min(end, other.high[d]));
    return low.every((end, d) => end < high[d]) ? { low, high } : null;
  }

  // The least box around some; one cell where there are none.
  function hull(boxes, dims) {
    const all = counted(dims);
    if (!boxes.length) return { low: all.map(() => 0), high: all.map(() => 1) };
    return {
      low: all.map((d) => Math.min(...boxes.map((it) => it.low[d]))),
      high: all.map((d) => Math.max(...boxes.map((it) => it.high[d]))),
    };
  }

  // The cells that every `within` allows; without such a rule the least box around all cells.
  function room(problem, things) {
    const allowed = problem.rules.filter((rule) => rule.within).map((rule) => rule.within);
    if (!allowed.length) return hull(boxesOf(things), problem.dims);
    const low = counted(problem.dims).map((d) => {
      return Math.max(...allowed.map((ranges) => ranges[d][0]));
    });
    const high = low.map((end, d) => {
      return Math.max(end + 1, Math.min(...allowed.map((ranges) => ranges[d][1])) + 1);
    });
    return { low, high };
  }

  // The room with all that reaches out of it.
  const frame = (problem, things) => {
    return hull([room(problem, things), ...boxesOf(things)], problem.dims);
  };

  // The cells that belong to two things, as boxes with both names.
  function overlaps(things) {
    const found = [];
    const compare = (one, other) => {
      const shared = one.boxes.flatMap((a) => other.boxes.map((b) => meet(a, b))).filter(Boolean);
      found.push(...shared.map((box) => ({ ...box, names: [one.name, other.name] })));
    };
    things.forEach((one, n) => things.slice(n + 1).forEach((other) => compare(one, other)));
    return found;
  }

  // ---- slabs: cuts across some dimensions, in each of which the plan is the same

  const isInSlab = (box, slab) => {
    return slab.every(([d, low, high]) => box.low[d] <= low && high <= box.high[d]);
  };

  // Each slab as a list of [dimension, first cell, one past the last], those with cells alone.
  function slabs(boxes, dimensions) {
    let found = [[]];
    for (const d of dimensions) {
      const cuts = unique(boxes.flatMap((box) => [box.low[d], box.high[d]])).sort((a, b) => a - b);
      const spans = cuts.slice(1).map((end, n) => [d, cuts[n], end]);
      found = found.flatMap((slab) => spans.map((span) => [...slab, span]));
    }
    return found.filter((slab) => boxes.some((box) => isInSlab(box, slab)));
  }

  function slabTitle(slab) {
    const parts = slab.map(([d, low, high]) => {
      return `x${d + 1} = ${low}${high > low + 1 ? `..${high - 1}` : ""}`;
    });
    return parts.join(", ");
  }

  // ---- outlines in a plane

  // Which cells of the grid of their own ends some rectangles cover.
  function gridOf(rects) {
    const ends = (low, high) => {
      return unique(rects.flatMap((rect) => [rect[low], rect[high]])).sort((a, b) => a - b);
    };
    const [lefts, bottoms] = [ends(0, 2), ends(1, 3)];
    const covers = (rect, i, j) => {
      const isAcross = rect[0] <= lefts[i] && lefts[i + 1] <= rect[2];
      return isAcross && rect[1] <= bottoms[j] && bottoms[j + 1] <= rect[3];
    };
    const rows = counted(Math.max(0, bottoms.length - 1));
    const columns = counted(Math.max(0, lefts.length - 1));
    const full = columns.map((i) => rows.map((j) => rects.some((rect) => covers(rect, i, j))));
    return { lefts, bottoms, full, has: (i, j) => Boolean(full[i] && full[i][j]) };
  }

  // The covered cells as rectangles, each as wide and then as high as can be.
  function partsOf(grid) {
    const left = grid.full.map((column) => column.slice());
    const isLeft = (i, j) => Boolean(left[i] && left[i][j]);
    const found = [];
    const take = (i, j) => {
      let [wide, high] = [i + 1, j + 1];
      while (isLeft(wide, j)) wide += 1;
      while (counted(wide - i).every((n) => isLeft(i + n, high))) high += 1;
      for (let n = i; n < wide; n++) left[n].fill(false, j, high);
      found.push([grid.lefts[i], grid.bottoms[j], grid.lefts[wide], grid.bottoms[high]]);
    };
    for (let j = 0; j + 1 < grid.bottoms.length; j++) {
      for (let i = 0; i + 1 < grid.lefts.length; i++) if (isLeft(i, j)) take(i, j);
    }
    return found;
  }

  // Where marks are set without a gap: the first, and one past the last.
  function runs(marks) {
    const found = [];
    marks.forEach((mark, n) => {
      if (mark && !marks[n - 1]) found.push([n, n + 1]);
      else if (mark) found[found.length - 1][1] = n + 1;
    });
    return found;
  }

  // The pieces of border between a covered cell and a free one, each as long as it goes on.
  function segmentsOf(grid) {
    const { lefts, bottoms, has } = grid;
    const level = bottoms.flatMap((bottom, j) => {
      const marks = lefts.map((_, i) => has(i, j) !== has(i, j - 1));
      return runs(marks).map(([first, end]) => [lefts[first], bottom, lefts[end], bottom]);
    });
    const upright = lefts.flatMap((left, i) => {
      const marks = bottoms.map((_, j) => has(i, j) !== has(i - 1, j));
      return runs(marks).map(([first, end]) => [left, bottoms[first], left, bottoms[end]]);
    });
    return [...level, ...upright];
  }

  // Rectangles that cover cells once, and the segments between a covered cell and a free one.
  function outline(rects) {
    if (rects.length === 1) {
      const [[a, b, c, d]] = rects;
      return { parts: rects, segments: [[a, b, c, b], [a, d, c, d], [a, b, a, d], [c, b, c, d]] };
    }
    const grid = gridOf(rects);
    return { parts: partsOf(grid), segments: segmentsOf(grid) };
  }

  function restOf(rect, other) {
    const [left, bottom, right, top] = rect;
    if (other[0] >= right || other[2] <= left || other[1] >= top || other[3] <= bottom) {
      return [rect];
    }
    const [first, last] = [Math.max(left, other[0]), Math.min(right, other[2])];
    const pieces = [
      [left, bottom, first, top],
      [last, bottom, right, top],
      [first, bottom, last, Math.max(bottom, other[1])],
      [first, Math.min(top, other[3]), last, top],
    ];
    return pieces.filter((it) => it[0] < it[2] && it[1] < it[3]);
  }

  // The rectangles less the cells of the others.
  function without(rects, others) {
    return others.reduce((left, other) => left.flatMap((rect) => restOf(rect, other)), rects);
  }

  // The part of a segment that lies in a rectangle, its sides included, or null.
  function clipped(segment, rect) {
    const [left, bottom] = [Math.max(segment[0], rect[0]), Math.max(segment[1], rect[1])];
    const [right, top] = [Math.min(segment[2], rect[2]), Math.min(segment[3], rect[3])];
    const isThere = left <= right && bottom <= top && (left < right || bottom < top);
    return isThere ? [left, bottom, right, top] : null;
  }

  const areaOf = (rect) => (rect[2] - rect[0]) * (rect[3] - rect[1]);

  return {
    counted, unique, readProblem, readLayout, layoutsIn, attributesOf, placedThings, boxesOf,
    rectOf, meet, hull, room, frame, overlaps, isInSlab, slabs, slabTitle, outline, without,
    clipped, areaOf, firstValues, ABSENT,
  };
})();
