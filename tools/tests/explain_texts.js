// What the page's scripts say of refused texts and of broken plans, which a file lists, as JSON. It
// is run behind the scripts of the page, with GIVEN: the program, refusals (word, place, problem,
// second) and plans (the problem as `show` prints it, the layout).

const { spawnSync } = require("child_process");

const judge = async (text) => spawnSync(GIVEN.program, ["judge"], { input: text }).status;

async function main() {
  const refusals = GIVEN.refusals.map(({ word, place, problem, second }) => {
    return Refusals.explain(word, place, problem, second === null ? undefined : second).lines;
  });
  const plans = [];
  for (const { shown, layout } of GIVEN.plans) {
    const problem = Cells.readProblem(shown);
    const things = Cells.placedThings(problem, Cells.readLayout(layout));
    const broken = await Blame.brokenRules(problem, things, judge);
    plans.push(broken.map(({ name, groups }) => [name, groups]));
  }
  console.log(JSON.stringify({ refusals, plans }));
}

main();
