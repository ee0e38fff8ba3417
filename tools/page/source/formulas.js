// Formulas of rules as trees, each with the text that spells it.

const Formulas = (() => {
  "use strict";

  const OPPOSITES = { "<": ">=", "<=": ">", "=": "!=", "!=": "=", ">=": "<", ">": "<=" };
  const isNode = (part) => part.parts !== undefined;
  const bracketed = (text) => `[ ${text} ]`;

  // ---- made formulas

  const not = (inner) => (
    { kind: "not", inner, parts: [inner], text: `not ${bracketed(inner.text)}` }
  );
  const joined = (word, parts) => {
    return {
      kind: "joined",
      word,
      parts,
      text: parts.map((part) => bracketed(part.text)).join(` ${word} `),
    };
  };
  function quantified({ quantifier, count = 0, variable, listed = null, boxesOf = null, body }) {
    const number = quantifier === "atleast" || quantifier === "atmost" ? ` ${count}` : "";
    const objects = listed ? `objects (${listed.join(", ")})` : "objects";
    const collection = boxesOf ? `boxes of ${boxesOf}` : objects;
    const front = `${quantifier}${number} ${variable} in ${collection}`;
    const text = `${front} : ${bracketed(body.text)}`;
    return {
      kind: "quantified", quantifier, count, variable, listed, boxesOf, body, parts: [body], text,
    };
  }

  // ---- formulas that are read

  class Reading {
    constructor(text) {
      this.text = text;
      this.tokens = Tokens.read(text);
    }
    formula() {
      return this.made(Grammar.parse("formula", this.tokens).tree);
    }
    spelling(node) {
      return this.text.slice(this.tokens[node.first].start, this.tokens[node.last].end);
    }
    made(node) {
      if (node.rule === "unary") return this.unary(node);
      const parts = node.parts.filter(isNode);
      if (parts.length === 1) return this.made(parts[0]);
      const word = node.parts.find((part) => !isNode(part)).text;
      return {
        kind: "joined", word, parts: parts.map((part) => {
          return this.made(part);
        }), text: this.spelling(node),
      };
    }
    unary(node) {
      const [first, second] = node.parts;
      const text = this.spelling(node);
      if (first.text === "[") return this.made(second);
      if (first.text === "not") {
        const inner = this.made(second);
        return { kind: "not", inner, parts: [inner], text };
      }
      if (first.rule === "quantifier") return { ...this.quantified(node), text };
      const kind = first.rule === "expr" ? "compare" : "plain";
      return { kind, parts: [], text, mentioned: mentionedIn(node), ...this.sides(node, kind) };
    }
    sides(node, kind) {
      if (kind !== "compare") return {};
      const [left, relation, right] = node.parts;
      return {
        left: this.spelling(left), relation: relation.parts[0].text, right: this.spelling(right),
      };
    }
    quantified(node) {
      const [quantifier, variable, , collection, , body] = node.parts;
      const names = collection.parts.filter((part) => {
        return part.kind === "name";
      }).map((part) => part.text);
      const isBoxes = collection.parts[0].text === "boxes";
      const count = quantifier.parts.find((part) => part.kind === "number");
      const inner = this.made(body);
      return {
        kind: "quantified", quantifier: quantifier.parts[0].text, count: count ? Number(
          count.text
        ) : 0,
        variable: variable.text, listed: !isBoxes && names.length ? names : null,
        boxesOf: isBoxes ? names[0] : null, body: inner, parts: [inner],
      };
    }
  }

  // The names with a field, and those alone as arguments of calls, of a comparison or a call.
  function mentionedIn(node) {
    const found = [];
    const visit = (part) => {
      if (!isNode(part)) return;
      if (part.rule === "factor" && part.parts.length === 3 && part.parts[1].text === ".") {
        found.push(part.parts[0].text);
      }
      if (part.rule === "args") found.push(...bareArguments(part));
      part.parts.forEach(visit);
    };
    visit(node);
    return found;
  }
  function bareArguments(node) {
    const list = node.parts.find((part) => part.rule === "arguments");
    const names = list.parts.filter((part) => part.rule === "expr" && part.first === part.last);
    return names.map(bareName).filter((name) => name !== null);
  }
  // The name that an expression of one token is, or null for a number.
  function bareName(node) {
    let part = node;
    while (isNode(part)) [part] = part.parts;
    return part.kind === "name" ? part.text : null;
  }

  const read = (text) => new Reading(text).formula();

  // The names that a formula says outside its own quantifiers' variables, in their sequence.
  function mentioned(formula) {
    const [found, hidden] = [[], new Set()];
    const visit = (part) => {
      if (part.kind === "quantified") {
        hidden.add(part.variable);
        found.push(...(part.listed || []), ...(part.boxesOf ? [part.boxesOf] : []));
      }
      found.push(...(part.mentioned || []));
      part.parts.forEach(visit);
    };
    visit(formula);
    return [...new Set(found)].filter((name) => !hidden.has(name));
  }

  // The same as a negation, said by the opposite of what it negates where it has one; else itself.
  function pushedIn(formula) {
    const { inner } = formula;
    if (inner.kind === "not") return inner.inner;
    if (inner.kind === "joined" && inner.word === "or") return joined("and", inner.parts.map(not));
    if (inner.kind === "joined" && inner.word === "implies") {
      return joined("and", [inner.parts[0], not(inner.parts[1])]);
    }
    if (inner.kind === "quantified" && inner.quantifier === "exists") {
      return quantified({ ...inner, quantifier: "forall", body: not(inner.body) });
    }
    if (inner.kind === "quantified" && inner.quantifier === "atleast" && inner.count > 0) {
      return quantified({ ...inner, quantifier: "atmost", count: inner.count - 1 });
    }
    if (inner.kind === "compare") {
      const relation = OPPOSITES[inner.relation];
      return { ...inner, relation, text: `${inner.left} ${relation} ${inner.right}` };
    }
    return formula;
  }

  return { read, mentioned, pushedIn, not, quantified };
})();
