// Tokens of problems and layouts, with their places in characters, and what statements make.

const Tokens = (() => {
  "use strict";

  const RESERVED = new Set(LANGUAGE.reserved);
  const SPACE = /(?:[ \t\n\r]+|#[^\n]*)+/y;
  const WORD = /[A-Za-z_][A-Za-z0-9_]*/y;
  const DIGITS = /[0-9]+/y;
  const SYMBOL = /\.\.|<=|>=|!=|[.,:;()[\]+\-*/<>=@$]/y;
  const HEAD = 4; // `geost`, its number, `dims`, its number

  function matchAt(pattern, text, at) {
    pattern.lastIndex = at;
    const found = pattern.exec(text);
    return found ? found[0] : "";
  }

  // The token at a place, or null where none begins there.
  function tokenAt(text, start) {
    const made = (kind, spelled) => ({ kind, text: spelled, start, end: start + spelled.length });
    const word = matchAt(WORD, text, start);
    if (word) return made(RESERVED.has(word) ? "word" : "name", word);
    const digits = matchAt(DIGITS, text, start);
    if (digits) return made("number", digits);
    const symbol = matchAt(SYMBOL, text, start);
    return symbol ? made("symbol", symbol) : null;
  }

  // The tokens of a text; characters that begin none are passed over.
  function read(text) {
    const found = [];
    let at = 0;
    while (at < text.length) {
      const space = matchAt(SPACE, text, at);
      const token = space ? null : tokenAt(text, at);
      if (token) found.push(token);
      at += space.length || (token ? token.end - token.start : 1);
    }
    return found;
  }

  // The statements of a text, each as its tokens; the last one may lack its `;`.
  function statements(tokens) {
    const found = [];
    let begin = Math.min(HEAD, tokens.length);
    tokens.forEach((token, n) => {
      if (n >= begin && token.text === ";") {
        found.push(tokens.slice(begin, n + 1));
        begin = n + 1;
      }
    });
    return begin < tokens.length ? [...found, tokens.slice(begin)] : found;
  }

  // The names that an object statement lists behind `with`.
  function attributesIn(statement) {
    const from = statement.findIndex((token) => token.text === "with");
    if (from < 0) return [];
    const rest = statement.slice(from);
    return rest.filter((token, n) => {
      return token.kind === "name" && rest[n + 1] && rest[n + 1].text === "=";
    });
  }

  // The names that a text makes: shapes, objects, rules, macros with `means` and with `is`,
  // attributes; the heads of macros; and the number of dimensions.
  function names(tokens) {
    const made = {
      shape: [], object: [], rule: [], means: [], is: [], attribute: [], heads: {}, dims: 3,
    };
    if (tokens[3] && tokens[3].kind === "number") made.dims = Number(tokens[3].text);
    for (const statement of statements(tokens)) {
      const [word, name] = statement;
      if (!name || name.kind !== "name") continue;
      if (word.text === "macro") addMacro(made, statement);
      else if (made[word.text]) made[word.text].push(name.text);
      if (word.text === "object") {
        made.attribute.push(...attributesIn(statement).map((it) => it.text));
      }
    }
    made.attribute = [...new Set(made.attribute)];
    return made;
  }

  function addMacro(made, statement) {
    const close = statement.findIndex((token) => token.text === ")");
    const isValue = close > 0 && statement[close + 1] && statement[close + 1].text === "is";
    const name = statement[1].text;
    made[isValue ? "is" : "means"].push(name);
    made.heads[name] = statement.slice(0, close + 1).map((token) => token.text).join(" ");
  }

  // The variables and parameters that tokens of one statement make, with `object`, `box` or `int`.
  function variables(tokens) {
    const found = new Map();
    tokens.forEach((token, n) => {
      const [mark, kind] = [tokens[n + 1], tokens[n + 2]];
      if (token.kind !== "name" || !mark) return;
      if (mark.text === "in") {
        found.set(token.text, kind && kind.text === "boxes" ? "box" : "object");
      }
      const isParameter = mark.text === ":" && n > 2 && tokens[0].text === "macro";
      if (isParameter && kind) found.set(token.text, kind.text);
    });
    return found;
  }

  // Where the first text of an input ends: behind its first word `end`.
  function endOfProblem(text) {
    const end = read(text).find((token) => token.kind === "word" && token.text === "end");
    return end ? end.end : text.length;
  }

  // The character before which so many bytes of the text stand.
  function charOf(text, bytes) {
    let [count, at] = [0, 0];
    while (at < text.length && count < bytes) {
      const code = text.codePointAt(at);
      count += code < 0x80 ? 1 : code < 0x800 ? 2 : code < 0x10000 ? 3 : 4;
      at += code < 0x10000 ? 1 : 2;
    }
    return at;
  }

  return { HEAD, read, statements, names, variables, endOfProblem, charOf };
})();
