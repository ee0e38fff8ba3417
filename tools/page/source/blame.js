// Which objects break a rule: found by asking the program's `judge` again, for one rule and for
// single objects at a time, as python/src/geost/blame.py does. A question is a problem in which
// every object may only stand where the plan has it, with one rule: a part of the rule that is
// looked into, under quantifiers over single objects.

const Blame = (() => {
  "use strict";

  const [GOOD, BROKEN] = [0, 1]; // statuses of `judge`

  class Judge {
    // `ask(text)` gives the status of `judge` on a text.
    constructor(problem, things, ask) {
      this.ask = ask;
      this.names = problem.objects.map((object) => object.name);
      this.gone = things.filter((thing) => thing.shape === Cells.ABSENT).map((it) => it.name);
      const fixed = new Map(things.map((thing) => [thing.name, fixedLine(problem, thing)]));
      this.front = problem.front.map((line) => {
        const [word, name] = line.split(" ");
        return word === "object" ? fixed.get(name) : line;
      });
      this.layout = ["layout", ...things.map((thing) => Flat.titleOf(thing)), ""].join("\n");
    }

    async holds(body) {
      const text = [...this.front, `rule asked : ${body} ;`, "end", this.layout].join("\n");
      const status = await this.ask(text);
      if (status !== GOOD && status !== BROKEN) throw new NotAsked();
      return status === GOOD;
    }
    holdsUnder(prefix, text) {
      const front = prefix.map(({ variable, name }) => {
        return `forall ${variable} in objects (${name}) : `;
      });
      return this.holds(`${front.join("")}[ ${text} ]`);
    }

    // The objects among these for which the body of a `forall` does not hold, found by halves.
    async breaking(prefix, formula, names) {
      if (!names.length) return [];
      try {
        const listed = Formulas.quantified({ ...formula, listed: names });
        if (await this.holdsUnder(prefix, listed.text)) return [];
      } catch (fault) {
        if (!(fault instanceof NotAsked) || names.length === 1) throw fault;
      }
      if (names.length === 1) return names;
      const half = Math.floor(names.length / 2);
      const low = await this.breaking(prefix, formula, names.slice(0, half));
      return [...low, ...(await this.breaking(prefix, formula, names.slice(half)))];
    }

    // Groups of objects, each of which is why a formula that does not hold does not.
    async blames(prefix, formula) {
      const { kind, word } = formula;
      if (kind === "joined" && word === "and") return this.blamesOfParts(prefix, formula);
      if (kind === "joined" && word === "implies") return this.blames(prefix, formula.parts[1]);
      if (kind === "not") {
        const turned = Formulas.pushedIn(formula);
        return turned === formula ? this.leaf(prefix, formula) : this.blames(prefix, turned);
      }
      if (kind !== "quantified" || formula.boxesOf) return this.leaf(prefix, formula);
      if (formula.quantifier === "forall") return this.blamesOfEach(prefix, formula);
      const found = await this.satisfying(prefix, formula);
      const names = prefix.map((fixed) => fixed.name);
      return [formula.quantifier === "atmost" ? [...names, ...found] : names];
    }
    async blamesOfParts(prefix, formula) {
      const found = [];
      for (const part of formula.parts) {
        if (!(await this.holdsUnder(prefix, part.text))) {
          found.push(...(await this.blames(prefix, part)));
        }
      }
      return found;
    }
    // The pairs among these for which the body of two `forall` does not hold.
    async blamesOfPairs(pairs, formula) {
      const variables = [formula.variable, formula.body.variable];
      const found = [];
      for (const pair of pairs) {
        const prefix = pair.map((name, n) => ({ variable: variables[n], name }));
        if (!(await this.holdsUnder(prefix, formula.body.body.text))) found.push(pair);
      }
      return found;
    }
    async blamesOfEach(prefix, formula) {
      const found = [];
      for (const name of await this.breaking(prefix, formula, this.elements(formula))) {
        found.push(
          ...(await this.blames([...prefix, { variable: formula.variable, name }], formula.body))
        );
      }
      return found;
    }
    // The objects that a quantifier goes over: it passes those by that are left out.
    elements(formula) {
      return (formula.listed || this.names).filter((name) => !this.gone.includes(name));
    }
    // The elements for which the body of a quantifier holds.
    satisfying(prefix, formula) {
      const unwanted = {
        ...formula, quantifier: "forall", count: 0, body: Formulas.not(formula.body),
      };
      return this.breaking(prefix, unwanted, this.elements(formula));
    }
    leaf(prefix, formula) {
      const bound = new Set(prefix.map((fixed) => fixed.variable));
      const isObject = (name) => this.names.includes(name) && !bound.has(name);
      const names = Formulas.mentioned(formula).filter(isObject);
      return [[...new Set([...prefix.map((fixed) => fixed.name), ...names])]];
    }
  }

  class NotAsked extends Error {}

  // The pairs of things whose least boxes have a cell in common.
  function meetingPairs(problem, all) {
    const things = all.filter((thing) => thing.boxes.length);
    const around = things.map((thing) => Cells.hull(thing.boxes, problem.dims));
    return things.flatMap((one, n) => {
      const others = Cells.counted(things.length).slice(n + 1);
      return others.filter((m) => {
        return Cells.meet(around[n], around[m]);
      }).map((m) => [one.name, things[m].name]);
    });
  }

  // The statement of an object that may only stand where it is, or be left out where it is.
  function fixedLine(problem, thing) {
    const isGone = thing.shape === Cells.ABSENT;
    const origin = isGone ? Cells.firstValues(problem, thing) : thing.origin;
    const ranges = origin.map((value) => `${value}..${value}`).join(" ");
    const shapes = isGone ? thing.shapes.join(", ") : thing.shape;
    const given = Object.entries(thing.attributes).map(([name, value]) => `${name} = ${value}`);
    const attributes = given.length ? ` with ${given.join(", ")}` : "";
    return `object ${thing.name} as ${shapes} at ${ranges}${attributes} ;`;
  }

  // ---- `apart` and `within` as formulas

  const endOf = (owner, box, d, isFar) => {
    return `${owner}.x${d} + ${box}.t${d}${isFar ? ` + ${box}.l${d}` : ""}`;
  };

  function apartFormula(dims) {
    const parts = Cells.counted(dims).flatMap((n) => [
      `${endOf("p", "s", n + 1, true)} <= ${endOf("q", "t", n + 1, false)}`,
      `${endOf("q", "t", n + 1, true)} <= ${endOf("p", "s", n + 1, false)}`,
    ]);
    const pairs = "forall p in objects : forall q in objects";
    const boxes = "forall s in boxes of p : forall t in boxes of q";
    return `${pairs} : ${boxes} : [ p.id >= q.id or ${parts.join(" or ")} ]`;
  }
  function withinFormula(ranges) {
    const spelled = (value) => (value < 0 ? `- ${-value}` : String(value));
    const parts = ranges.flatMap(([low, high], n) => [
      `${endOf("p", "s", n + 1, false)} >= ${spelled(low)}`,
      `${endOf("p", "s", n + 1, true)} <= ${spelled(high + 1)}`,
    ]);
    return `forall p in objects : forall s in boxes of p : [ ${parts.join(" and ")} ]`;
  }
  // The groups that break a rule that does not hold. Of `apart` only those pairs are asked whose
  // least boxes meet.
  function groupsOf(judge, rule, problem, things) {
    if (rule.isApart) {
      return judge.blamesOfPairs(
        meetingPairs(problem, things), Formulas.read(apartFormula(problem.dims)),
      );
    }
    return judge.blames([], Formulas.read(rule.within ? withinFormula(rule.within) : rule.body));
  }

  // One group for each set of objects.
  function withoutTwins(groups) {
    const seen = new Set();
    return groups.filter((group) => {
      const key = [...group].sort().join(" ");
      return !seen.has(key) && seen.add(key);
    });
  }

  // Every rule that a plan breaks, with the groups of objects that break it.
  async function brokenRules(problem, things, ask) {
    const judge = new Judge(problem, things, ask);
    const found = [];
    for (const rule of problem.rules) {
      if (await judge.holds(rule.body)) continue;
      const groups = withoutTwins(await groupsOf(judge, rule, problem, things));
      found.push({ ...rule, groups, names: Cells.unique(groups.flat()) });
    }
    return found;
  }

  return { brokenRules };
})();
