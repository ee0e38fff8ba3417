// The grammar of python/src/geost/data/grammar.txt, read as it is written there: where tokens stop
// to be of it, what may stand at that place, and the tree of those that are of it. grammar.py of the
// package reads the same file in the same way.

const Grammar = (() => {
  "use strict";

  const BIT = /'[^']+'|NAME[+:]\w+|\w+|[=|{}[\]]/g;

  // ---- the notation
  // A part is { all }, { any }, { many } or { maybe } of parts, a { rule }, or a terminal: { word
  // }, { number }, or { name } with what it names, which is `made` here or elsewhere.

  class Notation {
    constructor(document) {
      this.bits = document.replace(/^#.*$/gm, "").match(BIT);
      this.at = 0;
    }
    rules() {
      const found = {};
      while (this.at < this.bits.length) {
        const name = this.bits[this.at];
        this.at += 2;
        found[name] = this.choice();
      }
      return found;
    }
    choice() {
      const ways = [this.sequence()];
      while (this.bits[this.at] === "|") {
        this.at += 1;
        ways.push(this.sequence());
      }
      return ways.length === 1 ? ways[0] : { any: ways };
    }
    sequence() {
      const parts = [];
      const isOver = () => {
        const ends = this.at >= this.bits.length || ["|", "}", "]"].includes(this.bits[this.at]);
        return ends || this.bits[this.at + 1] === "=";
      };
      while (!isOver()) parts.push(this.item());
      return parts.length === 1 ? parts[0] : { all: parts };
    }
    item() {
      const bit = this.bits[this.at++];
      if (bit === "{" || bit === "[") {
        const inner = this.choice();
        this.at += 1;
        return bit === "{" ? { many: inner } : { maybe: inner };
      }
      if (bit.startsWith("'")) return { word: bit.slice(1, -1) };
      if (bit === "NUMBER") return { number: true };
      if (bit.startsWith("NAME")) return { name: bit.slice(5), isMade: bit[4] === "+" };
      return { rule: bit };
    }
  }

  const RULES = new Notation(LANGUAGE.grammar).rules();

  const isTerminal = (part) => part.word !== undefined || part.number || part.name !== undefined;
  const firsts = new Map();

  // The terminals with which a part may begin, and whether it may be empty.
  function firstOf(part) {
    if (!firsts.has(part)) firsts.set(part, findFirst(part));
    return firsts.get(part);
  }
  function findFirst(part) {
    if (isTerminal(part)) return { terminals: [part], isEmpty: false };
    if (part.rule) return firstOf(RULES[part.rule]);
    if (part.any) {
      return { terminals: part.any.flatMap((way) => firstOf(way).terminals), isEmpty: false };
    }
    if (!part.all) return { terminals: firstOf(part.many || part.maybe).terminals, isEmpty: true };
    const terminals = [];
    for (const inner of part.all) {
      const first = firstOf(inner);
      terminals.push(...first.terminals);
      if (!first.isEmpty) return { terminals, isEmpty: false };
    }
    return { terminals, isEmpty: true };
  }

  function fits(terminal, token) {
    if (terminal.word) {
      return (token.kind === "word" || token.kind === "symbol") && token.text === terminal.word;
    }
    return token.kind === (terminal.number ? "number" : "name");
  }

  function spokenOne(terminal) {
    if (terminal.word) return `\`${terminal.word}\``;
    return terminal.number ? "a number" : "a name";
  }
  const spoken = (terminals) => [...new Set(terminals.map(spokenOne))];

  // ---- walks over tokens

  class Stop extends Error {}

  // A node of the tree of a text: the rule, the tokens and nodes of its parts, and its first and
  // last token.
  class Walk {
    constructor(tokens) {
      this.tokens = tokens;
      this.at = 0;
      this.expected = [];
      this.open = [{ rule: "", parts: [] }];
    }
    token() {
      return this.tokens[this.at] || { kind: "end", text: "" };
    }
    asks(part) {
      const { terminals } = firstOf(part);
      this.expected.push(...terminals);
      return terminals.some((terminal) => fits(terminal, this.token()));
    }
    // Reads a part. The last part of a sequence is read here too, however many follow.
    read(given) {
      const depth = this.open.length;
      let part = given;
      while (part && !isTerminal(part)) part = this.lastOf(part);
      if (part) this.take(part);
      while (this.open.length > depth) this.close();
    }
    // What is left to be read of a part when all before it is read; null for nothing.
    lastOf(part) {
      if (part.many) {
        while (this.asks(part.many)) this.read(part.many);
        return null;
      }
      if (part.maybe) return this.asks(part.maybe) ? part.maybe : null;
      if (part.any) return this.wayOf(part);
      if (part.rule) {
        this.open.push({ rule: part.rule, parts: [], first: this.at });
        return RULES[part.rule];
      }
      part.all.slice(0, -1).forEach((inner) => this.read(inner));
      return part.all[part.all.length - 1];
    }
    wayOf(part) {
      const begins = (way) => {
        return firstOf(way).terminals.some((terminal) => fits(terminal, this.token()));
      };
      const way = part.any.find(begins);
      if (way) return way;
      this.asks(part);
      throw new Stop();
    }
    take(terminal) {
      this.expected.push(terminal);
      if (!fits(terminal, this.token())) throw new Stop();
      this.open[this.open.length - 1].parts.push(this.token());
      this.at += 1;
      this.expected = [];
    }
    close() {
      const node = this.open.pop();
      node.last = this.at - 1;
      this.open[this.open.length - 1].parts.push(node);
    }
  }

  // Reads tokens by a rule: the number of the token where that stops, what may stand there, whether
  // the rule is complete there, and the tree where it is.
  function parse(rule, tokens) {
    const walk = new Walk(tokens);
    let isWhole = true;
    try {
      walk.read({ rule });
    } catch (fault) {
      if (!(fault instanceof Stop)) throw fault;
      isWhole = false;
    }
    return {
      index: walk.at,
      isWhole,
      expected: walk.expected,
      tree: isWhole ? walk.open[0].parts[0] : null,
    };
  }

  // The first token that is no longer of the rule, as its number, with what may stand there in
  // words, and as terminals; null where all are.
  function firstFault(rule, tokens) {
    const { index, isWhole, expected } = parse(rule, tokens);
    if (isWhole && index === tokens.length) return null;
    return {
      index, expected, spoken: [...spoken(expected), ...(isWhole ? ["the end of the text"] : [])],
    };
  }

  // The rule of a problem's text, which the value of its second token chooses.
  function problemRule(tokens) {
    const version = tokens[1];
    const isSecond = version && version.kind === "number" && Number(version.text) === 2;
    return isSecond ? "problem_2" : "problem";
  }

  return { parse, firstFault, problemRule, spoken };
})();
