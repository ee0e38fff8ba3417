// The page of one plan: what is shown stands in PLAN, which tools/plan writes, and the Python package
// with labels: the names of the data for those of the text.

(() => {
  "use strict";
  const problem = Cells.readProblem(PLAN.problem);
  const things = Cells.placedThings(problem, Cells.readLayout(PLAN.layout));
  const label = (name) => (PLAN.labels && PLAN.labels[name]) || name;
  for (const one of [...problem.objects, ...things]) one.name = label(one.name);
  problem.order = problem.order.map(label);
  Turning.start();
  Picture.state.colour = PLAN.colour;
  Picture.show({ problem, things, broken: PLAN.broken, view: PLAN.view });
  document.getElementById("print").addEventListener("click", () => window.print());
})();
