// Draws the plan GIVEN by the scripts of the page, as tools/tests/check_plan.py draws it, and
// prints the drawings as JSON.

const problem = Cells.readProblem(GIVEN.problem);
const things = Cells.placedThings(problem, Cells.readLayout(GIVEN.layout));
const frame = Cells.frame(problem, things);
const blamed = new Set(GIVEN.broken.flatMap((broken) => broken.names));
const look = Colours.look(Colours.palette(things, "object"), blamed);
const overlaps = GIVEN.broken.some((broken) => broken.isApart) ? Cells.overlaps(things) : [];
const [width, height] = [900, 600];
const options = { look, overlaps, width, height };
const planes = (slabs, plane) => {
  return slabs.map((slab) => Flat.plane(things, frame, { ...options, plane, slab }));
};
const shared = overlaps.map((box) => {
  return { name: box.names.join(" and "), isShared: true, boxes: [box] };
});
const lane = problem.dims > 1 ? 1 : null;
const drawings = [Flat.timeLine(things, frame, { look, width, time: 0, lane })];
if (problem.dims === 2) drawings.push(...planes([[]], { right: 0, up: 1 }));
if (problem.dims === 3) {
  drawings.push(...planes(Cells.slabs(Cells.boxesOf(things), [2]), { right: 0, up: 1 }));
  drawings.push(...Flat.SIDES.flatMap(({ plane }) => planes([[]], plane)));
  drawings.push(Solid.drawing([...things, ...shared], frame, [width, height], { look }));
}
console.log(JSON.stringify(drawings.map((drawing) => Flat.svg(drawing, "a test"))));
