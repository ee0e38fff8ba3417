// What a refusal means: where it is, the sentences of docs/FORMAT.md, what to write instead, and
// what may be meant. python/src/geost/refusals.py says the same of the same texts.

const Refusals = (() => {
  "use strict";

  const STATEMENTS = ["shape", "object", "order", "sides", "macro", "rule"];
  const LARGEST_NUMBER = 1000000000;
  const LONGEST_NAME = 40;
  const MOST_PIECES = 8;
  const PIECE = /^(?:- )?\d+ \.\. (?:- )?\d+/;
  const PIECES = /(?:(?:- )?\d+ \.\. (?:- )?\d+ , )+$/;
  const [LEAST_LIKENESS, MOST_NEAR, MOST_LISTED] = [0.6, 3, 12];
  const [PROBLEM, LAYOUT, DERIVATION] = ["problem", "layout", "derivation"];
  // What is wanted where such a word may stand, the first one that may.
  const WANTED = [
    ["rule", "a statement begins here: write one of these words first"],
    ["<=", "two sides are compared: write `=`, `<` or another mark of comparison between them"],
    ["and", "what stands before is whole: write `and`, `or` or `implies` here, or its end"],
    ["[", "a formula is wanted here: write one, such as `a.x1 = 0`"],
    ["(", "a number is wanted here: write one, or a field, such as `a.x1`"],
  ];

  // ---- the refusal, with the tokens of its text and the number of the token at the place

  class Refusal {
    constructor({ word, text, at, problem, kind }) {
      Object.assign(this, { word, text, at, problem, kind });
      this.tokens = Tokens.read(text);
      const found = this.tokens.findIndex((token) => token.start >= at);
      this.index = found < 0 ? this.tokens.length : found;
      const here = this.tokens[this.index];
      this.token = here && here.start === at ? here.text : "";
      this.first = this.index;
      while (this.first > Tokens.HEAD && this.textAt(this.first - 1) !== ";") this.first -= 1;
      this.statement = this.textAt(this.first);
    }
    textAt(number) {
      return this.tokens[number] ? this.tokens[number].text : "";
    }
    before(steps = 1) {
      return this.index >= steps ? this.textAt(this.index - steps) : "";
    }
    after(steps = 1) {
      return this.textAt(this.index + steps);
    }
    problemTokens() {
      return Tokens.read(this.problem);
    }
    // The names behind such a word at the beginning of a statement, in the sequence of the problem.
    made(word) {
      const tokens = this.problemTokens();
      const begins = (n) => n === Tokens.HEAD || (n > Tokens.HEAD && tokens[n - 1].text === ";");
      const starts = Cells.counted(tokens.length).filter((n) => {
        return tokens[n].text === word && begins(n);
      });
      return starts.filter((n) => tokens[n + 1]).map((n) => tokens[n + 1].text);
    }
    attributes() {
      const tokens = this.problemTokens();
      const found = [];
      let isInside = false;
      tokens.slice(0, -1).forEach((token, n) => {
        isInside = (isInside || token.text === "with") && token.text !== ";";
        if (isInside && token.kind === "name" && tokens[n + 1].text === "=") found.push(token.text);
      });
      return Cells.unique(found);
    }
    // The variables and parameters that this statement has up to the place.
    variables() {
      const before = this.tokens.slice(this.first, this.index);
      const pairs = before.slice(0, -1).map((token, n) => [token, before[n + 1]]);
      const isName = ([name, mark], sign) => name.kind === "name" && mark.text === sign;
      const quantified = pairs.filter((pair) => isName(pair, "in"));
      const parameters = pairs.slice(2).filter((pair) => {
        return isName(pair, ":") && this.statement === "macro";
      });
      return Cells.unique([...quantified, ...parameters].map(([name]) => name.text));
    }
    dims() {
      const token = this.problemTokens()[3];
      return token && token.kind === "number" ? Number(token.text) : 0;
    }
    // Whether the problem is a text of the second version.
    isSecond() {
      return Grammar.problemRule(this.problemTokens()) === "problem_2";
    }
    // The statement of the problem that makes such an object, as its tokens.
    objectStatement(name) {
      const isOf = ([word, made]) => word.text === "object" && made && made.text === name;
      return Tokens.statements(this.problemTokens()).find(isOf) || [];
    }
  }

  // ---- which item of the list a refusal belongs to

  function rowOf(refusal, kind = refusal.kind) {
    const fitting = LANGUAGE.rows[kind].filter((row) => row.words.includes(refusal.word));
    const needle = kind === PROBLEM ? needleOf(refusal) : "";
    const named = fitting.find((row) => row.where.includes(needle)) || fitting[0];
    return named && named.where.includes("as above") ? rowOf(refusal, PROBLEM) : named;
  }

  // Words of the row that is meant, where a word has several.
  function needleOf(refusal) {
    if (refusal.word === "limit") return limitNeedle(refusal);
    if (refusal.word === "range") {
      return endTooNear(refusal) === null ? "low end is above" : "at most one above";
    }
    if (refusal.word === "twice") {
      return isInCollection(refusal) ? "that `objects ( )` has" : "a name that its list has";
    }
    if (refusal.word !== "unknown") return "";
    if (["object", "order"].includes(refusal.statement)) return "a shape behind `as`";
    return refusal.before() === "." ? "a field that" : "in a formula: a name";
  }
  function limitNeedle(refusal) {
    const { index, token, tokens } = refusal;
    if (index < Tokens.HEAD) return "a version that is";
    if (piecesBefore(refusal).length >= MOST_PIECES) return "a 9th piece";
    if (["div", "mod"].includes(refusal.before())) return "the number behind `div`";
    if (["box", Cells.ABSENT].includes(token) || (tokens[index] && tokens[index].kind === "name")) {
      return "a name past its limit";
    }
    const isList = ["box", "size", "at", "within", "sides"].includes(refusal.before());
    return isList && members(refusal) !== refusal.dims()
      ? "the first token of offsets"
      : "an end of a range or an offset";
  }

  // How many numbers, ranges or sides stand from the place on. What stands behind a `,` is a piece
  // more of the range before it.
  function members(refusal) {
    let [count, last] = [0, " "];
    for (const token of refusal.tokens.slice(refusal.index)) {
      const isNumber = token.kind === "number";
      const isNext = isNumber && !["..", ","].includes(last);
      if (["low", "high"].includes(token.text) || isNext) count += 1;
      else if (!isNumber && !["-", "..", ","].includes(token.text)) break;
      if (token.text !== "-") last = token.text;
    }
    return count;
  }

  // The pieces of the same range that stand before a piece, as they are spelled.
  function piecesBefore(refusal) {
    const tokens = refusal.tokens.slice(refusal.first, refusal.index);
    const found = PIECES.exec(tokens.map((token) => `${token.text} `).join(""));
    return found ? found[0].split(" , ").slice(0, -1) : [];
  }

  // The ends of a piece that is spelled with a space between its tokens.
  const endsOf = (piece) => piece.replace(/- /g, "-").split(" .. ").map(Number);

  // The end of the piece before the one at the place, where that one is not upside down; or null.
  function endTooNear(refusal) {
    const tokens = refusal.tokens.slice(refusal.index, refusal.index + 5);
    const found = PIECE.exec(tokens.map((token) => token.text).join(" "));
    const before = piecesBefore(refusal);
    if (!found || !before.length || endsOf(found[0])[0] > endsOf(found[0])[1]) return null;
    return endsOf(before[before.length - 1])[1];
  }

  function isInCollection(refusal) {
    let at = refusal.index - 1;
    while (at > 0 && (refusal.tokens[at].kind === "name" || refusal.textAt(at) === ",")) at -= 1;
    return at > 0 && refusal.textAt(at) === "(" && refusal.textAt(at - 1) === "objects";
  }

  // ---- what may be meant

  // How many signs two names have in common, as Python's difflib counts them: those of the longest
  // block that both have, and of the blocks to its left and to its right.
  function common(one, other) {
    let best = { length: 0, left: 0, right: 0 };
    for (let left = 0; left < one.length; left++) {
      for (let right = 0; right < other.length; right++) {
        const length = commonFrom(one.slice(left), other.slice(right));
        if (length > best.length) best = { length, left, right };
      }
    }
    if (!best.length) return 0;
    const before = common(one.slice(0, best.left), other.slice(0, best.right));
    const behind = common(
      one.slice(best.left + best.length), other.slice(best.right + best.length),
    );
    return best.length + before + behind;
  }
  function commonFrom(one, other) {
    let length = 0;
    while (length < one.length && one[length] === other[length]) length += 1;
    return length;
  }

  // The names that are most like one, the likest first.
  function near(name, others) {
    const scored = others.filter((other) => other !== name).map((other) => {
      return { other, likeness: (2 * common(other, name)) / (name.length + other.length) };
    });
    const like = scored.filter(({ likeness }) => likeness >= LEAST_LIKENESS);
    like.sort((a, b) => b.likeness - a.likeness || (a.other < b.other ? 1 : -1));
    return like.slice(0, MOST_NEAR).map(({ other }) => other);
  }

  const quoted = (names) => names.map((name) => `\`${name}\``);
  function didYouMean(name, others) {
    const found = near(name, others);
    return found.length ? [`did you mean ${quoted(found).join(" or ")}?`] : [];
  }
  function listed(title, names) {
    if (!names.length) return [`${title}: none`];
    const shown = quoted(names.slice(0, MOST_LISTED)).join(", ");
    const more = names.length > MOST_LISTED ? ` and ${names.length - MOST_LISTED} more` : "";
    return [`${title}: ${shown}${more}`];
  }
  const orElse = (found, other) => (found.length ? found : other());

  // What to write in place of a slip that is known; `word` is that of the refusal or a finer one.
  function slipHints(refusal, word) {
    if (refusal.kind === DERIVATION || (word === "syntax" && isUnended(refusal))) return [];
    const names = {
      object: refusal.made("object"), shape: refusal.made("shape"), macro: refusal.made("macro"),
      attribute: refusal.attributes(), variable: refusal.variables(),
    };
    const isLayout = refusal.kind === LAYOUT;
    const statement = Slips.markedStatement(refusal.text, refusal.at, isLayout);
    const found = Slips.advice(isLayout ? `plan:${word}` : word, statement, names);
    return found === null ? [] : [found];
  }

  function byteHints(refusal) {
    const sign = String.fromCodePoint(refusal.text.codePointAt(refusal.at) || 0);
    if (/\p{L}/u.test(sign)) {
      const letters = "which are made of a to z, A to Z, digits and `_`";
      const other = "write another; it may stand in a comment";
      return [`\`${sign}\` is no letter of names, ${letters}: ${other}`];
    }
    const told = `\`${sign}\` may stand in a comment alone: write it there, or leave it out`;
    return /[\p{C}\p{Zl}\p{Zp}]/u.test(sign) ? [] : [told];
  }

  function numberHints(refusal) {
    const next = refusal.tokens[refusal.index + 1];
    const isTouched = next && next.start === refusal.at + refusal.token.length;
    if (!isTouched) {
      const advice = "write a lesser number, in a larger unit";
      return [`${refusal.token} is above ${LARGEST_NUMBER}: ${advice}`];
    }
    const whole = refusal.token + refusal.after();
    const advice = "units are not written, and a name begins with a letter or `_`, such as";
    return [`\`${whole}\` is neither a number nor a name; ${advice} \`_${whole}\``];
  }

  const nameHints = (refusal) => {
    return [
      `the name has ${refusal.token.length} bytes: write a shorter one, of ${LONGEST_NAME} at most`,
    ];
  };

  // The first token that fits no longer, where that is the place of the refusal.
  function faultHere(refusal) {
    const isLayout = refusal.kind === LAYOUT;
    const rule = isLayout ? "layout" : Grammar.problemRule(refusal.tokens);
    const fault = Grammar.firstFault(rule, refusal.tokens);
    return fault && fault.index === refusal.index ? fault : null;
  }
  function isUnended(refusal) {
    if (![...STATEMENTS, "end"].includes(refusal.token)) return false;
    const fault = faultHere(refusal);
    return fault !== null && fault.spoken.includes("`;`");
  }
  function syntaxHints(refusal) {
    const fault = faultHere(refusal);
    if (!fault) return [];
    const expected = fault.spoken.map((word) => word.replace(/`/g, ""));
    const lines = [`here may stand ${fault.spoken.join(", ")}`];
    if (isUnended(refusal)) {
      const missing = `a \`;\` is missing behind \`${refusal.before()}\``;
      return [...lines, `the statement before is not ended: ${missing}`];
    }
    lines.push(...wordHints(refusal.token, expected));
    const isTold = lines.length > 1 || slipHints(refusal, "syntax").length > 0;
    return isTold ? lines : [...lines, wantedHint(expected)];
  }
  // What may be meant by the word that stands there.
  function wordHints(token, expected) {
    if (LANGUAGE.reserved.includes(token) && expected.includes("a name")) {
      const other = expected.length === 1 ? `: write \`${token}_\` or another` : "";
      return [`\`${token}\` is a reserved word and no name${other}`];
    }
    if (!token || expected.includes(token)) return [];
    return didYouMean(token, expected.filter((word) => /^[A-Za-z]+$/.test(word)));
  }
  // What is wanted where so much may stand, said in general.
  function wantedHint(expected) {
    if (expected.length === 1) {
      return `write ${expected[0].includes(" ") ? expected[0] : `\`${expected[0]}\``} here`;
    }
    const found = WANTED.find(([word]) => expected.includes(word));
    return found ? found[1] : "write one of these here";
  }

  function unknownHints(refusal) {
    const { token: name, statement } = refusal;
    const before = refusal.before();
    const [shapes, objects] = [refusal.made("shape"), refusal.made("object")];
    if (statement === "object" || before === "shape") {
      const made = [`write \`shape ${name} box ..\` somewhere, or another name`];
      return orElse(didYouMean(name, shapes), () => [...made, ...listed("shapes", shapes)]);
    }
    if (statement === "order" || isInCollection(refusal)) {
      const made = [`write \`object ${name} as ..\` somewhere, or another name`];
      return orElse(didYouMean(name, objects), () => [...made, ...listed("objects", objects)]);
    }
    if (before === ".") return fieldHints(refusal);
    if (before === "@" || before === "$") return macroHints(refusal);
    if (refusal.variables().includes(name)) {
      return [`\`${name}\` is in sight in the body of its quantifier alone, which has ended here:` +
        " put a compound body in `[ ]`, so write `: [ .. ]`"];
    }
    const known = [...refusal.variables(), ...objects];
    return orElse(
      didYouMean(name, known), () => [...farHints(refusal), ...listed("objects", objects)],
    );
  }
  // What to write in place of a name that is like no known one, where no slip said more.
  const farHints = (refusal) => {
    return slipHints(refusal, "unknown").length ? [] : slipHints(refusal, "unknown-far");
  };
  function fieldHints(refusal) {
    const places = Cells.counted(refusal.dims()).map((d) => d + 1);
    const ofObjects = ["id", "sid", ...places.map((n) => `x${n}`), ...refusal.attributes()];
    const ofBoxes = ["t", "l"].flatMap((letter) => places.map((n) => letter + n));
    const meant = orElse(
      didYouMean(refusal.token, [...ofObjects, ...ofBoxes]), () => farHints(refusal),
    );
    return [
      ...meant, ...listed("fields of objects", ofObjects), ...listed("fields of boxes", ofBoxes),
    ];
  }
  function macroHints(refusal) {
    const names = refusal.made("macro");
    if (names.includes(refusal.token)) {
      return [
        `the macro \`${refusal.token}\` is made further down, or is this one: ` +
          "put its statement above",
      ];
    }
    const made = [`write \`macro ${refusal.token}(..)\` further up, or the name of another`];
    return orElse(didYouMean(refusal.token, names), () => [...made, ...listed("macros", names)]);
  }

  function twiceHints(refusal) {
    const { token, tokens, index } = refusal;
    if (["id", "sid"].includes(token) || /^x[1-9]$/.test(token)) {
      return [`every object has the field \`${token}\` anyway: write another name`];
    }
    const earlier = Cells.counted(index).find((n) => {
      return tokens[n].text === token && isSameList(refusal, n);
    });
    if (earlier === undefined) return [];
    const before = refusal.text.slice(0, tokens[earlier].start).split("\n");
    const where = `line ${before.length}, column ${[...before[before.length - 1]].length + 1}`;
    return [`\`${token}\` stands first in ${where}: write another name, or it once`];
  }
  // Whether the token at this number may belong to the list of the token at the place.
  function isSameList(refusal, at) {
    if (STATEMENTS.includes(refusal.token)) return true;
    if (STATEMENTS.includes(refusal.before())) return refusal.textAt(at - 1) === refusal.before();
    return at >= refusal.first;
  }

  function kindHints(refusal) {
    const { token } = refusal;
    if (token === "@" || token === "$") {
      const [other, name] = [token === "@" ? "$" : "@", refusal.after()];
      return [`write \`${other}${name}(..)\`: \`${name}\` is called with \`${other}\`;` +
        " `@` is for macros with `means`, `$` for those with `is`"];
    }
    if (token === ".") return [`\`${refusal.before()}\` is a number and has no fields`];
    if (refusal.before() === "of") return listed("objects", refusal.made("object"));
    if ([...refusal.made("object"), ...refusal.variables()].includes(token)) {
      return [
        `\`${token}\` alone is no number here; a field of it may be meant, such as \`${token}.x1\``,
      ];
    }
    return [];
  }

  function argsHints(refusal) {
    const tokens = refusal.problemTokens();
    const isOf = (token, n) => {
      return token.text === "macro" && tokens[n + 1] && tokens[n + 1].text === refusal.after();
    };
    const at = tokens.findIndex(isOf);
    if (at < 0) return [];
    const end = tokens.findIndex((token, n) => n >= at && token.text === ")");
    const made = tokens.slice(at, end + 1).map((token) => token.text).join(" ");
    return [`it is made as \`${made}\`: write one argument for each parameter`];
  }

  function limitHints(refusal) {
    const needle = limitNeedle(refusal);
    if (needle.startsWith("the first token")) {
      return [
        `${members(refusal)} stand there, and ${refusal.dims()} are wanted: ` +
          "write one for each dimension",
      ];
    }
    if (needle === "a 9th piece") {
      const advice = "write fewer, or a rule for the rest";
      return [`a range has at most ${MOST_PIECES} pieces: ${advice}`];
    }
    if (!needle.startsWith("a version")) return [];
    const version = refusal.isSecond() ? 2 : 1;
    const most = refusal.isSecond() ? 6 : 4;
    return [`write \`geost ${version} dims K\` at the front, where K is 1 to ${most}`];
  }

  function rangeHints(refusal) {
    const end = endTooNear(refusal);
    if (end !== null) {
      const first = `the piece before it ends at ${end}: write one that begins at ${end + 2}`;
      return [`${first} or later, or one piece in place of both`];
    }
    const tokens = refusal.tokens.slice(refusal.index, refusal.index + 5);
    const found = PIECE.exec(tokens.map((token) => token.text).join(" "));
    if (!found) return [];
    const [low, high] = endsOf(found[0]);
    return [`\`${high}..${low}\` may be meant: write that`];
  }

  function orderHints(refusal) {
    const rest = refusal.tokens.slice(refusal.index);
    const end = rest.findIndex((token) => token.text === ";");
    const names = new Set((end < 0 ? rest : rest.slice(0, end)).map((token) => token.text));
    return listed(
      "write them too; it leaves out", refusal.made("object").filter((name) => !names.has(name)),
    );
  }

  function layoutOrderHints(refusal) {
    const names = refusal.made("object");
    const before = linesBegun(refusal, refusal.index).length;
    if (before < names.length) {
      const lines = "write one line for each object, in the sequence of the problem";
      return [`the line of \`${names[before]}\` has to stand here: ${lines}`];
    }
    const all = `the problem has ${names.length} objects, and each has its line already`;
    return [`${all}: write no other`];
  }
  // The numbers of the tokens up to an end that stand behind the name of an object's line.
  function linesBegun(refusal, end) {
    return Cells.counted(end).filter((n) => ["as", Cells.ABSENT].includes(refusal.textAt(n)));
  }
  // The object in whose line the place is.
  function layoutObject(refusal) {
    const marks = linesBegun(refusal, refusal.index + 1);
    return marks.length ? refusal.textAt(marks[marks.length - 1] - 1) : "";
  }
  function layoutUnknownHints(refusal) {
    const name = layoutObject(refusal);
    const statement = refusal.objectStatement(name);
    const at = statement.findIndex((token) => token.text === "at");
    const shapes = statement.slice(2, at).filter((token) => {
      return token.kind === "name" || token.text === Cells.ABSENT;
    }).map((token) => token.text);
    if (refusal.token === Cells.ABSENT) {
      return [`\`${name}\` may not be left out: write \`${name} as ${shapes[0]} at ..\``];
    }
    return [...didYouMean(refusal.token, shapes), ...listed(`shapes of \`${name}\``, shapes)];
  }
  function layoutRangeHints(refusal) {
    const name = layoutObject(refusal);
    const before = refusal.tokens.slice(0, refusal.index).map((token) => token.text);
    const line = refusal.tokens.slice(before.lastIndexOf("at"), refusal.index);
    const dimension = line.filter((token) => token.kind === "number").length;
    const spelled = refusal.objectStatement(name).map((token) => token.text).join(" ");
    const ranges = (
      / at (.*?)(?: with | ;)/.exec(spelled) || ["", ""]
    )[1].match(/(?:- )?\d+ \.\. (?:- )?\d+(?: , (?:- )?\d+ \.\. (?:- )?\d+)*/g) || [];
    const range = (ranges[dimension] || "").replace(/ /g, "").replace(/,/g, ", ");
    const where = `x${dimension + 1} of \`${name}\` lies in ${range}`;
    return [`${where}: write a number from there, or another range into the problem`];
  }

  const PROBLEM_HINTS = {
    byte: byteHints, number: numberHints, name: nameHints, syntax: syntaxHints, limit: limitHints,
    twice: twiceHints, unknown: unknownHints, range: rangeHints, order: orderHints, kind: kindHints,
    args: argsHints, product: (refusal) => Products.hints(refusal),
  };
  const LAYOUT_HINTS = {
    order: layoutOrderHints, unknown: layoutUnknownHints, range: layoutRangeHints, token: () => [],
    limit: (refusal) => {
      return [`${refusal.dims()} coordinates are wanted: write one for each dimension`];
    },
  };

  // Lines that say what to write instead, what stands there, and what may stand there.
  function hints(refusal) {
    const ofLayout = refusal.kind === LAYOUT ? LAYOUT_HINTS[refusal.word] : null;
    const find = ofLayout || PROBLEM_HINTS[refusal.word] || (() => []);
    const own = refusal.kind === DERIVATION ? [] : find(refusal);
    const first = refusal.index === 0 ? slipHints(refusal, `${refusal.word}-first`) : [];
    const slips = orElse(first, () => slipHints(refusal, refusal.word));
    return refusal.word === "byte" && slips.length ? slips : [...slips, ...own];
  }

  // What a refusal means. The place counts bytes of the problem and of the text behind it, of the
  // kind `layout` or `derivation`. Answers in which of the two it is, the characters there from
  // which to which the token goes, and lines of explanation.
  function explain(word, place, problem, second, kind = LAYOUT) {
    const at = Tokens.charOf(problem + (second || ""), place);
    const isSecond = second !== undefined && at >= problem.length;
    const given = isSecond
      ? { word, text: second, at: at - problem.length, problem, kind }
      : { word, text: problem, at, problem, kind: PROBLEM };
    const refusal = new Refusal(given);
    const row = rowOf(refusal);
    const front = row ? [`this is: ${row.where}`, `what to do: ${row.advice}`] : [];
    const to = given.at + (refusal.token.length || 1);
    return { isSecond, from: given.at, to, lines: [...front, ...hints(refusal)] };
  }

  return { explain };
})();
