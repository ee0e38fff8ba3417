// What newcomers write who are used to other languages, and what to write instead. The slips stand
// in python/src/geost/data/slips.txt, whose head says how they are written; slips.py of the package
// reads the same file in the same way.

const Slips = (() => {
  "use strict";

  const MARK = "▮";
  const [MOST_BEFORE, MOST_BEHIND] = [200, 20];
  const {
    classes: CLASSES, named: NAMED, beforeFormulas: BEFORE_FORMULAS, known: KNOWN,
  } = LANGUAGE.slips;
  // a token of a problem, or else one character
  const LOOSE = /[ \t\n\r]+|#[^\n]*|([A-Za-z_][A-Za-z0-9_]*|[0-9]+|\.\.|<=|>=|!=|[^ \t\n\r#])/gu;

  function looseTokens(text) {
    const found = [...text.matchAll(LOOSE)].filter((match) => match[1]);
    return found.map((match) => ({ text: match[1], start: match.index }));
  }

  // The number of the token with which the statement of a token begins.
  function statementBegin(tokens, at) {
    const hasHead = tokens.length > 2 && tokens[0].text === "geost" && tokens[2].text === "dims";
    const head = at >= Tokens.HEAD && hasHead ? Tokens.HEAD : 0;
    for (let n = at - 1; n >= head; n--) if (tokens[n].text === ";") return n + 1;
    return head;
  }

  // The statement in which a place is, as tokens with a mark before the one at the place. The first
  // line of a problem is one of its own; a layout is one statement.
  function markedStatement(text, place, isLayout) {
    const tokens = looseTokens(text);
    const found = tokens.findIndex((token) => token.start >= place);
    const at = found < 0 ? tokens.length : found;
    const begin = Math.max(isLayout ? 0 : statementBegin(tokens, at), at - MOST_BEFORE);
    const texts = tokens.slice(begin, at + MOST_BEHIND).map((token) => token.text);
    return [...texts.slice(0, at - begin), MARK + texts.slice(at - begin).join(" ")].join(" ");
  }

  const escaped = (name) => name.replace(/[.*+?^${}()|[\]\\]/g, "\\$&");

  // A pattern with the problem's names in place of their classes.
  function compiled(pattern, names) {
    let made = pattern;
    for (
      const [word, stands] of Object.entries(CLASSES)
    ) made = made.split(`<${word}>`).join(stands);
    for (const word of NAMED) {
      const listed = (names[word] || []).map(escaped).join("|");
      made = made.split(`<${word}>`).join(listed ? `(${listed})\\b` : "((?!))");
    }
    return new RegExp(made);
  }

  // A reserved word in other letters, at the mark or right before it, or null.
  function shouting(statement) {
    const near = new RegExp(`(\\S+ )?${MARK}(\\S*)`, "u").exec(statement);
    if (!near) return null;
    const before = (near[1] || "").trim();
    const words = [near[2], BEFORE_FORMULAS.includes(before.toLowerCase()) ? before : ""];
    const { reserved } = LANGUAGE;
    return words.find((word) => {
      return reserved.includes(word.toLowerCase()) && !reserved.includes(word);
    }) ||
      null;
  }

  // What to write instead, by the first slip that fits; null where none does. `names` has the names
  // of the problem by their classes.
  function advice(word, statement, names) {
    const shouted = word === "syntax" && shouting(statement);
    if (shouted) return `reserved words have small letters: write \`${shouted.toLowerCase()}\``;
    for (const slip of KNOWN.filter((one) => one.refusals.includes(word))) {
      const found = compiled(slip.pattern, names).exec(statement);
      if (found) {
        return slip.advice.replace(/\{(\d)\}/g, (_, number) => (found[number] || "").trim());
      }
    }
    return null;
  }

  return { markedStatement, advice };
})();
