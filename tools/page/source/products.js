// What is said of a rule that multiplies coordinates, or has them where only numbers may stand.

const Products = (() => {
  "use strict";

  const MOST_SHOWN = 3;
  const isNode = (part) => part.parts !== undefined;

  // The nodes of a tree of the grammar, each before those in it.
  const nodesOf = (node) => (isNode(node) ? [node, ...node.parts.flatMap(nodesOf)] : []);

  // The tokens of a node as the canonical spelling has them.
  function spelled(node, tokens) {
    const texts = tokens.slice(node.first, node.last + 1).map((token) => token.text);
    return texts.join(" ").replace(/ ?\. ?/g, ".").replace(/([@$]) /g, "$1").replace(/ ,/g, ",")
      .replace(/\( /g, "(").replace(/ \)/g, ")").replace(/([A-Za-z_]\w*) \(/g, "$1(");
  }

  const isFieldOf = (node) => {
    return node.rule === "factor" && node.parts.length === 3 && node.parts[1].text === ".";
  };
  const hasCoordinate = (node) => {
    return nodesOf(node).some((one) => isFieldOf(one) && /^x\d$/.test(one.parts[2].text));
  };

  const isExtreme = (node) => node.rule === "factor" && node.parts[0].rule === "extreme";
  const isProduct = (node) => node.rule === "term" && node.parts.length > 1;
  const divides = (node) => node.parts.slice(1).some((step) => step.parts[0].text !== "*");

  // Whether a node multiplies coordinates or has them where only numbers may stand, as far as it is
  // seen without its calls.
  function multiplies(node) {
    if (isExtreme(node)) return hasCoordinate(node);
    if (!isProduct(node)) return false;
    const count = node.parts.filter(hasCoordinate).length;
    return count > 1 || (divides(node) && hasCoordinate(node.parts[0]));
  }

  // What to write in place of such a node.
  function inPlaceOf(node) {
    if (isExtreme(node)) {
      return "write `[ a.x1 <= 3 and b.x1 <= 3 ]` in place of `max(a.x1, b.x1) <= 3`, and `or` " +
        "for `min`";
    }
    if (divides(node)) {
      return "write `[ 6 <= e and e < 9 ]` in place of `e div 3 = 2`; under `mod` stand " +
        "attributes alone";
    }
    return "write `[ a.x1 = 0 or b.x1 = 0 ]` for a product that is 0, and else one comparison a " +
      "coordinate";
  }

  // The body of a statement that makes a rule or a macro of this name, as a tree; null for others.
  function bodyOf(tree, isWanted) {
    const [word, name] = tree.parts[0].parts;
    return isWanted(word.text, name && name.text)
      ? tree.parts[0].parts[tree.parts[0].parts.length - 1]
      : null;
  }

  function hints(refusal) {
    const tokens = refusal.problemTokens();
    const { tree, index } = Grammar.parse(Grammar.problemRule(tokens), tokens);
    if (!tree || index < tokens.length) return [];
    const statements = nodesOf(tree).filter((node) => /^statement(_2)?$/.test(node.rule));
    const rule = statements.map((one) => {
      return bodyOf(one, (word, name) => word === "rule" && name === refusal.token);
    });
    const macros = statements.map((one) => bodyOf(one, (word) => word === "macro"));
    const bodies = [...rule.filter(Boolean).slice(0, 1), ...macros.filter(Boolean)];
    const bad = bodies.flatMap(nodesOf).filter(multiplies);
    const shown = bad.slice(0, MOST_SHOWN).map((node) => `see \`${spelled(node, tokens)}\``);
    return [...shown, ...new Set(bad.map(inPlaceOf))];
  }

  return { hints };
})();
