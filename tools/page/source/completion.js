// What may be written at a place of a problem: words of the language, and names that the text
// makes.

const Completion = (() => {
  "use strict";

  function fieldsOf(made, owner, known) {
    const places = Cells.counted(made.dims).map((d) => d + 1);
    if (known.get(owner) === "box") {
      return ["t", "l"].flatMap((letter) => places.map((n) => letter + n));
    }
    return [...places.map((n) => `x${n}`), "id", "sid", ...made.attribute];
  }

  // The tokens of the statement that a place is in, and the rule by which they are read.
  function statementAt(before) {
    const rule = Grammar.problemRule(before);
    if (before.length < Tokens.HEAD) return { rule, tokens: before };
    let begin = before.length;
    while (begin > Tokens.HEAD && before[begin - 1].text !== ";") begin -= 1;
    return { rule: rule.replace("problem", "statements"), tokens: before.slice(begin) };
  }

  // The names that a terminal of the grammar stands for, with what they are.
  function namesFor(terminal, made, known, before, listed) {
    if (terminal.isMade || !terminal.name) return [];
    const of = (names, kind) => names.map((label) => ({ label, kind }));
    if (terminal.name === "owner") {
      return [
        ...[...known].map(([label, kind]) => ({ label, kind })), ...of(made.object, "object"),
      ];
    }
    if (terminal.name === "field") {
      return of(fieldsOf(made, before[before.length - 2].text, known), "field");
    }
    if (terminal.name === "object") {
      return of(made.object.filter((name) => !listed.has(name)), "object");
    }
    return of(made[terminal.name] || [], terminal.name);
  }

  const isInComment = (front) => /#[^\n]*$/.test(front.slice(front.lastIndexOf("\n") + 1));

  // The words and names that may stand at a place and begin as what stands before it, each with
  // what it is; and the place from which they replace the text.
  function at(text, place) {
    const front = text.slice(0, place);
    const begun = (/[A-Za-z_][A-Za-z0-9_]*$/.exec(front) || [""])[0];
    const from = place - begun.length;
    if (isInComment(front)) return { from, options: [] };
    const made = Tokens.names(Tokens.read(text));
    const before = Tokens.read(text.slice(0, from));
    const { rule, tokens } = statementAt(before);
    const { index, expected } = Grammar.parse(rule, tokens);
    if (index < tokens.length) return { from, options: [] };
    const known = Tokens.variables(tokens);
    const listed = new Set(tokens.map((token) => token.text));
    const names = expected.flatMap((terminal) => namesFor(terminal, made, known, before, listed));
    const words = expected.filter((terminal) => /^\w+$/.test(terminal.word || ""));
    const all = [...names, ...words.map(({ word }) => ({ label: word, kind: "word" }))];
    return { from, options: all.filter((one, n) => isOffered(one, n, all, begun)) };
  }

  function isOffered(one, n, all, begun) {
    const isFirst = all.findIndex((other) => other.label === one.label) === n;
    const { label } = one;
    return isFirst && label !== begun && label.toLowerCase().startsWith(begun.toLowerCase());
  }

  return { at, fieldsOf };
})();
