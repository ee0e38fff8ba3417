// Drawings of plans in three dimensions: true boxes, seen from above and aside, in parallel.
//
// The outer faces of all boxes stand in a tree of planes, which cut the faces that lie across them.
// Walked from the far side of each plane to the near one, the tree gives the faces in a sequence in
// which none is drawn over one that stands before it, from wherever it is seen. So the tree is made
// once for a plan, and turning it costs a walk.

const Solid = (() => {
  "use strict";

  const PLANES = [[1, 2], [2, 0], [0, 1]];
  const LIGHTS = [0.86, 0.98, 1.12]; // of faces across x1, x2 and x3
  // angles in radians, shift in pixels
  const START = { turn: -0.95, tilt: 0.5, zoom: 1, shift: [0, 0] };
  const SHARED = "#b00020";
  const [LINE, GREY] = ["#20262d", "#8a949f"];
  const FONT = '"DejaVu Sans", system-ui, sans-serif';

  // ---- faces and their tree

  function facesAcross(thing, axis, isUp) {
    const [right, up] = PLANES[axis];
    const endOf = (box) => (isUp ? box.high : box.low)[axis];
    const places = Cells.unique(thing.boxes.map(endOf)).sort((a, b) => a - b);
    return places.flatMap((place) => {
      const here = thing.boxes.filter((box) => endOf(box) === place);
      const cell = isUp ? place : place - 1;
      const over = thing.boxes.filter((box) => box.low[axis] <= cell && cell < box.high[axis]);
      const rects = (boxes) => boxes.map((box) => Cells.rectOf(box, right, up));
      const { parts, segments } = Cells.outline(Cells.without(rects(here), rects(over)));
      return parts.map((rect) => faceWithin({ thing, axis, isUp, place }, rect, segments));
    });
  }

  // A face with those parts of its object's edges that lie on it.
  function faceWithin(face, rect, edges) {
    return { ...face, rect, edges: edges.map((edge) => Cells.clipped(edge, rect)).filter(Boolean) };
  }

  const facesOf = (thing) => [0, 1, 2].flatMap((axis) => {
    return [...facesAcross(thing, axis, false), ...facesAcross(thing, axis, true)];
  });

  // The parts of a face below, on and above a plane: each with -1, 0 or 1.
  function parted(face, axis, place) {
    if (face.axis === axis) return [[Math.sign(face.place - place), face]];
    const at = PLANES[face.axis].indexOf(axis);
    if (face.rect[at + 2] <= place) return [[-1, face]];
    if (face.rect[at] >= place) return [[1, face]];
    const cut = (side) => {
      return faceWithin(face, face.rect.map((end, n) => (n === side ? place : end)), face.edges);
    };
    return [[-1, cut(at + 2)], [1, cut(at)]];
  }

  function treeOf(faces) {
    if (!faces.length) return null;
    const { axis, place } = faces[Math.floor(faces.length / 2)];
    const sides = { "-1": [], 0: [], 1: [] };
    for (const face of faces) {
      for (const [side, part] of parted(face, axis, place)) sides[side].push(part);
    }
    return { axis, here: sides[0], low: treeOf(sides[-1]), high: treeOf(sides[1]) };
  }

  // Gives the faces that look to the eye, the farthest first.
  function walk(node, eye, give) {
    if (!node) return;
    const isHigh = eye[node.axis] > 0;
    walk(isHigh ? node.low : node.high, eye, give);
    for (const face of node.here) if (face.isUp === eye[face.axis] > 0) give(face);
    walk(isHigh ? node.high : node.low, eye, give);
  }

  // What is kept of things while they are turned: trees of the faded ones and of the others, which
  // are drawn over them. A thing has boxes in three dimensions, a name, and where it `isShared` is
  // the cells that two objects share.
  function sceneOf(things, look) {
    const faded = things.filter((thing) => look.isFaded(thing) && !thing.isShared);
    const plain = things.filter((thing) => !look.isFaded(thing) || thing.isShared);
    const groups = [{ things: faded, alpha: 0.38 }, { things: plain, alpha: 1 }];
    return groups.map((group) => {
      const faces = group.things.flatMap(facesOf);
      return { ...group, whole: faces, tree: treeOf(faces) };
    });
  }

  // ---- the camera

  // How points of the room fall onto the drawing; `eye` is the direction to the eye.
  function cameraAt(turn, tilt, scale, middle, centre) {
    const [ct, st, cp, sp] = [Math.cos(turn), Math.sin(turn), Math.cos(tilt), Math.sin(tilt)];
    const [right, up, eye] = [[-st, ct, 0], [-ct * sp, -st * sp, cp], [ct * cp, st * cp, sp]];
    const dot = (one, other) => one[0] * other[0] + one[1] * other[1] + one[2] * other[2];
    const onto = (point) => {
      const away = point.map((part, d) => part - middle[d]);
      return [centre[0] + scale * dot(right, away), centre[1] - scale * dot(up, away)];
    };
    return { right, up, eye, onto, scale, middle, centre };
  }

  function cornersOf(box) {
    const ends = (d) => [box.low[d], box.high[d]];
    return ends(0).flatMap((x) => ends(1).flatMap((y) => ends(2).map((z) => [x, y, z])));
  }

  // The camera under which the frame fills a drawing, with a margin for the numbers, and then
  // zoomed.
  function cameraFor(frame, [width, height], view) {
    const middle = [0, 1, 2].map((d) => (frame.low[d] + frame.high[d]) / 2);
    const spots = cornersOf(frame).map(cameraAt(view.turn, view.tilt, 1, middle, [0, 0]).onto);
    const [least, most] = [Math.min, Math.max].map((pick) => {
      return [0, 1].map((n) => pick(...spots.map((spot) => spot[n])));
    });
    const margin = Math.min(width, height) * 0.11;
    const fits = [width, height].map((size, n) => (size - 2 * margin) / (most[n] - least[n] || 1));
    const scale = Math.min(...fits) * view.zoom;
    const centre = [width, height].map((size, n) => {
      return size / 2 - ((least[n] + most[n]) / 2) * scale + view.shift[n];
    });
    return cameraAt(view.turn, view.tilt, scale, middle, centre);
  }

  function pointOn(axis, place, right, up) {
    const found = [0, 0, 0];
    found[axis] = place;
    [found[PLANES[axis][0]], found[PLANES[axis][1]]] = [right, up];
    return found;
  }

  // How far towards the eye a line through a point leaves a box; null where it misses it.
  function nearest(box, start, eye) {
    let [far, near] = [-Infinity, Infinity];
    for (let d = 0; d < 3; d++) {
      const ends = [(box.low[d] - start[d]) / eye[d], (box.high[d] - start[d]) / eye[d]];
      far = Math.max(far, Math.min(...ends));
      near = Math.min(near, Math.max(...ends));
    }
    return far <= near ? near : null;
  }

  // The thing whose cells are nearest to the eye at a point of the drawing, or null.
  function firstSeen(camera, things, [x, y]) {
    const right = (x - camera.centre[0]) / camera.scale;
    const up = (camera.centre[1] - y) / camera.scale;
    const start = camera.middle.map((part, d) => {
      return part + camera.right[d] * right + camera.up[d] * up;
    });
    let best = { reach: -Infinity, thing: null };
    for (const thing of things) {
      const reaches = thing.boxes.map((box) => nearest(box, start, camera.eye) ?? -Infinity);
      const reach = Math.max(...reaches);
      if (reach > best.reach) best = { reach, thing };
    }
    return best.thing;
  }

  // ---- the room

  function drawRoom(pen, camera, frame) {
    for (const axis of [0, 1, 2]) {
      const [right, up] = PLANES[axis];
      const place = axis === 2 || camera.eye[axis] > 0 ? frame.low[axis] : frame.high[axis];
      const at = (a, b) => camera.onto(pointOn(axis, place, a, b));
      const [[left, bottom], [end, top]] = [frame.low, frame.high].map((it) => [it[right], it[up]]);
      const corners = [at(left, bottom), at(end, bottom), at(end, top), at(left, top)];
      const fill = axis === 2 ? "#eef1f4" : "#f6f8fa";
      pen.polygon(corners, { fill, stroke: "#c3cad2", width: 1 });
      const step = Flat.stepFor(camera.scale, 9);
      const across = Flat.ticks(left + 1, end - 1, step).map((k) => [at(k, bottom), at(k, top)]);
      const level = Flat.ticks(bottom + 1, top - 1, step).map((k) => [at(left, k), at(end, k)]);
      pen.lines([...across, ...level], { stroke: "#dde2e8", width: 1 });
    }
  }

  const withPart = (point, d, value) => point.map((part, n) => (n === d ? value : part));

  // The three edges of the room that stand before everything.
  function drawNearEdges(pen, camera, frame) {
    const near = [0, 1, 2].map((d) => (camera.eye[d] > 0 ? frame.high[d] : frame.low[d]));
    const edges = [0, 1, 2].map((d) => {
      return [frame.low[d], frame.high[d]].map((end) => camera.onto(withPart(near, d, end)));
    });
    pen.lines(edges, { stroke: GREY, width: 1, dash: [3, 5], alpha: 0.7 });
  }

  // A corner of the room from which the edge for the numbers goes along `d`: of the edges on the
  // floor the one that lies lowest on the drawing, for the height the leftmost.
  function edgeFor(camera, frame, d) {
    const corners = cornersOf(frame).filter((it) => it[d] === frame.low[d]);
    const onFloor = corners.filter((it) => d === 2 || it[2] === frame.low[2]);
    const rank = (corner) => {
      const [low, high] = [frame.low[d], frame.high[d]].map((end) => {
        return camera.onto(withPart(corner, d, end));
      });
      return d === 2 ? -(low[0] + high[0]) : low[1] + high[1];
    };
    return onFloor.reduce((best, corner) => (rank(corner) > rank(best) ? corner : best));
  }

  // The direction across an edge away from a point, one pixel long.
  function awayFrom(inner, low, high) {
    const length = Math.hypot(high[0] - low[0], high[1] - low[1]) || 1;
    const off = [(high[1] - low[1]) / length, (low[0] - high[0]) / length];
    const middle = [(low[0] + high[0]) / 2, (low[1] + high[1]) / 2];
    const isInward = off[0] * (middle[0] - inner[0]) + off[1] * (middle[1] - inner[1]) < 0;
    return isInward ? off.map((part) => -part) : off;
  }

  function drawAxis(pen, camera, frame, d) {
    const base = edgeFor(camera, frame, d);
    const at = (k) => camera.onto(withPart(base, d, k));
    const ends = [frame.low[d], frame.high[d]];
    const [low, high] = ends.map(at);
    const off = awayFrom(camera.onto(camera.middle), low, high);
    const away = (spot, pixels) => [spot[0] + off[0] * pixels, spot[1] + off[1] * pixels];
    const wide = Flat.numberWidth(...ends);
    const length = Math.hypot(high[0] - low[0], high[1] - low[1]);
    const step = Flat.stepFor(length / (ends[1] - ends[0]), d === 2 ? 16 : Math.max(26, wide));
    const far = Math.max(14, 4 + wide / 2);
    for (const k of Flat.ticks(...ends, step)) {
      pen.lines([[at(k), away(at(k), 4)]], { stroke: GREY, width: 1 });
      pen.note(String(k), away(at(k), far), { fill: "#5b6570", size: 11 });
    }
    const middle = [(low[0] + high[0]) / 2, (low[1] + high[1]) / 2];
    pen.note(`x${d + 1}`, away(middle, 18 + far), { fill: "#2b333b", size: 13, isBold: true });
  }

  // ---- the things

  function styleOf(thing, look, picked, alpha) {
    if (thing.isShared) return { stroke: "#5a0010", width: 1.5, alpha };
    if (thing.name === picked) return { stroke: "#0b3d91", width: 2.8, alpha: 1 };
    if (look.isBlamed(thing)) return { stroke: "#8e1512", width: 2.2, alpha };
    return { stroke: look.isFaded(thing) ? GREY : LINE, width: 1.1, alpha };
  }

  const fillOf = (face, look) => {
    return Colours.lit(face.thing.isShared ? SHARED : look.fill(face.thing), LIGHTS[face.axis]);
  };

  function drawFace(pen, camera, face, options, alpha) {
    const at = (right, up) => camera.onto(pointOn(face.axis, face.place, right, up));
    const [left, bottom, right, top] = face.rect;
    const fill = fillOf(face, options.look);
    const corners = [at(left, bottom), at(right, bottom), at(right, top), at(left, top)];
    // faces of one object touch: a line of their own colour closes the gap between them
    const stroke = alpha === 1 ? fill : null;
    pen.polygon(corners, { fill, alpha, stroke, width: 0.6, thing: face.thing });
    const edges = face.edges.map(([a, b, c, d]) => [at(a, b), at(c, d)]);
    pen.lines(edges, styleOf(face.thing, options.look, options.picked, alpha));
  }

  // Whether the writing goes along the second dimension of a face: on sides, so that it stands
  // upright.
  function isTurned(face, first, second) {
    if (face.axis < 2) return face.axis === 1;
    const [long, high] = [face.rect[2] - face.rect[0], face.rect[3] - face.rect[1]];
    const flatness = (step) => Math.abs(step[0]) / Math.hypot(...step);
    return long < high * 0.6 || (flatness(second) > flatness(first) + 0.2 && high >= long * 0.6);
  }

  // The directions of a line of writing and across it on the drawing, for one cell, and the cells
  // there are.
  function writingOn(camera, face) {
    const start = camera.onto(pointOn(face.axis, face.place, 0, 0));
    const [first, second] = [[1, 0], [0, 1]].map((step) => {
      const end = camera.onto(pointOn(face.axis, face.place, ...step));
      return [end[0] - start[0], end[1] - start[1]];
    });
    const sizes = [face.rect[2] - face.rect[0], face.rect[3] - face.rect[1]];
    let [along, across, long, high] = [first, second, ...sizes];
    if (isTurned(face, first, second)) {
      [along, across, long, high] = [second, first, sizes[1], sizes[0]];
    }
    if (along[0] < 0) along = along.map((it) => -it);
    if (along[0] * across[1] - along[1] * across[0] > 0) across = across.map((it) => -it);
    return { along, across, long, high };
  }

  // A name as if it were written on a face, or null where it is too small or partly hidden.
  function labelOn(camera, look, face, things) {
    const [left, bottom, right, top] = face.rect;
    const { along, across, long, high } = writingOn(camera, face);
    const wide = Flat.LETTER * face.thing.name.length;
    const size = Math.min((long * 0.86) / wide, high * 0.62, 26 / Math.hypot(...along));
    if (size * Math.min(Math.hypot(...along), 1.3 * Math.hypot(...across)) < 7) return null;
    const middle = camera.onto(
      pointOn(face.axis, face.place, (left + right) / 2, (bottom + top) / 2)
    );
    const matrix = [...along.map((it) => it * size), ...across.map((it) => -it * size), ...middle];
    const [a, b, c, d, x, y] = matrix;
    const spots = [-wide / 2, 0, wide / 2].flatMap((go) => {
      return [-0.35, 0.35].map((down) => [x + a * go + c * down, y + b * go + d * down]);
    });
    if (spots.some((spot) => firstSeen(camera, things, spot) !== face.thing)) return null;
    const fill = Colours.isDark(fillOf(face, look)) ? "#ffffff" : "#1b1f24";
    return { text: face.thing.name, matrix, fill };
  }

  function withHalves(face) {
    const [left, bottom, right, top] = face.rect;
    const [across, level] = [Math.floor((left + right) / 2), Math.floor((bottom + top) / 2)];
    const halves = [
      [left, bottom, across, top], [across, bottom, right, top],
      [left, bottom, right, level], [left, level, right, top],
    ];
    const withCells = halves.filter((rect) => rect[0] < rect[2] && rect[1] < rect[3]);
    return [face, ...withCells.map((rect) => ({ ...face, rect }))];
  }

  // A name on each side of each thing, in the largest of its places where it is seen whole.
  function labelsOf(camera, look, group) {
    const found = new Map();
    const seen = (face) => face.isUp === camera.eye[face.axis] > 0 && !face.thing.isShared;
    const faces = group.whole.filter(seen).sort((a, b) => {
      return Cells.areaOf(b.rect) - Cells.areaOf(a.rect);
    });
    for (const face of faces) {
      const key = `${face.thing.name} ${face.axis}`;
      const write = (part) => labelOn(camera, look, part, group.things);
      for (const part of found.get(key) ? [] : withHalves(face)) {
        if (!found.get(key)) found.set(key, write(part));
      }
    }
    return [...found.values()].filter(Boolean);
  }

  // Draws a scene. Options: look, picked, isPlain (without names, as while many things are turned).
  function draw(pen, camera, frame, scene, options) {
    drawRoom(pen, camera, frame);
    for (const group of scene) {
      walk(group.tree, camera.eye, (face) => drawFace(pen, camera, face, options, group.alpha));
      const isNamed = !options.isPlain && group.alpha === 1;
      for (const label of isNamed ? labelsOf(camera, options.look, group) : []) pen.text(label);
    }
    drawNearEdges(pen, camera, frame);
    for (const d of [0, 1, 2]) drawAxis(pen, camera, frame, d);
  }

  // ---- pens

  function writeOn(context, text, [x, y], fill, font) {
    const place = { textAlign: "center", textBaseline: "middle" };
    Object.assign(context, { globalAlpha: 1, fillStyle: fill, font, ...place });
    context.fillText(text, x, y);
  }

  function canvasPen(context) {
    const trace = (points) => {
      points.forEach(([x, y], n) => (n ? context.lineTo(x, y) : context.moveTo(x, y)));
    };
    return {
      polygon(points, { fill, stroke, width, alpha = 1 }) {
        const line = { strokeStyle: stroke, lineWidth: width };
        Object.assign(context, { globalAlpha: alpha, fillStyle: fill, ...line });
        context.setLineDash([]);
        context.beginPath();
        trace(points);
        context.closePath();
        context.fill();
        if (stroke) context.stroke();
      },
      lines(ends, { stroke, width, dash = [], alpha = 1 }) {
        const line = { strokeStyle: stroke, lineWidth: width, lineCap: "round" };
        Object.assign(context, { globalAlpha: alpha, ...line });
        context.setLineDash(dash);
        context.beginPath();
        ends.forEach(trace);
        context.stroke();
      },
      text({ text, matrix, fill }) {
        context.save();
        context.transform(...matrix);
        writeOn(context, text, [0, 0], fill, `1px ${FONT}`);
        context.restore();
      },
      note(text, spot, { fill, size, isBold }) {
        writeOn(context, text, spot, fill, `${isBold ? "bold " : ""}${size}px ${FONT}`);
      },
    };
  }

  function svgPen(out) {
    const { n, safe } = Flat;
    const anchor = 'text-anchor="middle" dominant-baseline="central"';
    const middle = `${anchor} font-family="DejaVu Sans, sans-serif"`;
    return {
      polygon(points, { fill, stroke, width, alpha = 1, thing }) {
        const spots = points.map(([x, y]) => `${n(x)},${n(y)}`).join(" ");
        const line = stroke ? ` stroke="${stroke}" stroke-width="${width}"` : "";
        const name = thing ? ` data-name="${safe(thing.name)}"` : "";
        out.push(
          `<polygon points="${spots}" fill="${fill}" fill-opacity="${alpha}"${line}${name}/>`
        );
      },
      lines(ends, { stroke, width, dash, alpha = 1 }) {
        const path = ends.map((points) => {
          return points.map(([x, y], k) => `${k ? "L" : "M"}${n(x)} ${n(y)}`).join("");
        });
        const dashes = dash ? ` stroke-dasharray="${dash.join(" ")}"` : "";
        const line = `stroke="${stroke}" stroke-width="${width}" stroke-opacity="${alpha}"`;
        const rest = `fill="none" ${line}${dashes} stroke-linecap="round"`;
        out.push(`<path d="${path.join("")}" ${rest}/>`);
      },
      text({ text, matrix, fill }) {
        const place = `transform="matrix(${matrix.map(n).join(" ")})" font-size="1"`;
        out.push(`<text ${place} ${middle} fill="${fill}">${safe(text)}</text>`);
      },
      note(text, [x, y], { fill, size, isBold }) {
        const weight = isBold ? ' font-weight="bold"' : "";
        const place = `x="${n(x)}" y="${n(y)}" font-size="${size}"${weight}`;
        out.push(`<text ${place} ${middle} fill="${fill}">${safe(text)}</text>`);
      },
    };
  }

  // A drawing of things as SVG, as Flat.svg takes it.
  function drawing(things, frame, size, options) {
    const parts = [];
    const camera = cameraFor(frame, size, options.view || START);
    draw(svgPen(parts), camera, frame, sceneOf(things, options.look), options);
    return { width: size[0], height: size[1], parts };
  }

  return { START, sceneOf, cameraFor, firstSeen, draw, canvasPen, drawing };
})();
