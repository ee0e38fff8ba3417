// The two editors, of the problem and of the plan: colours of words, completion, marks at faults
// and at broken rules, and the message below.

const Editors = (() => {
  "use strict";

  const $ = (id) => document.getElementById(id);
  const { safe } = Flat;
  // the reserved words that are neither of these kinds begin statements or join their parts
  const KINDS = {
    builtin: "apart within int true false low high absent",
    operator: "not and or implies iff forall exists atleast atmost div mod min max in of objects " +
      "boxes",
  };
  const MAKERS = ["shape", "object", "macro", "rule"];

  function kindsOfWords() {
    const found = new Map(LANGUAGE.reserved.map((word) => [word, "keyword"]));
    for (const [kind, words] of Object.entries(KINDS)) {
      for (const word of words.split(" ")) found.set(word, kind);
    }
    return found;
  }

  // The kind of a token, behind the token `last`.
  function kindOf(text, last, kinds) {
    if (/^\d/.test(text)) return "number";
    if (!/^\w/.test(text)) return null;
    if (kinds.has(text)) return kinds.get(text);
    if (last === ".") return "property";
    if (MAKERS.includes(last)) return "def";
    return last === "@" || last === "$" ? "variable-2" : null;
  }

  function defineMode() {
    const kinds = kindsOfWords();
    CodeMirror.defineMode("geost", () => ({
      startState: () => ({ last: "" }),
      token(stream, state) {
        if (stream.eatSpace()) return null;
        if (stream.match(/#.*/)) return "comment";
        const [text] = stream.match(/[A-Za-z_]\w*|\d+|\.\.|<=|>=|!=|./);
        const kind = kindOf(text, state.last, kinds);
        state.last = text;
        return kind;
      },
      lineComment: "#",
    }));
  }

  function hintLine(option) {
    return {
      text: option.label,
      render: (node) => {
        node.textContent = option.label;
        const kind = document.createElement("small");
        kind.textContent = option.kind;
        node.appendChild(kind);
      },
    };
  }
  function hint(editor) {
    const cursor = editor.getCursor();
    const { from, options } = Completion.at(editor.getValue(), editor.indexFromPos(cursor));
    return { from: editor.posFromIndex(from), to: cursor, list: options.map(hintLine) };
  }
  // Offers words: Tab and a click take one, and Enter where they were asked for.
  function offer(editor, isAsked) {
    const keys = {
      Up: (_, handle) => handle.moveFocus(-1),
      Down: (_, handle) => handle.moveFocus(1),
      Tab: (_, handle) => handle.pick(),
      Esc: (_, handle) => handle.close(),
    };
    if (isAsked) keys.Enter = keys.Tab;
    editor.showHint({ hint, completeSingle: false, customKeys: keys });
  }

  let problem = null;
  let plan = null;

  function start({ onFirst, onStop }) {
    defineMode();
    const keys = {
      "Ctrl-Space": (editor) => offer(editor, true),
      "Ctrl-/": "toggleComment",
      "Ctrl-Enter": onFirst,
      // Tab goes on to the next control, so that the keyboard alone suffices
      Tab: false,
      "Shift-Tab": false,
    };
    const common = {
      mode: "geost", matchBrackets: true, indentUnit: 2, lineWrapping: true, extraKeys: keys,
    };
    problem = CodeMirror(
      $("problem"), { ...common, lineNumbers: true, screenReaderLabel: "the problem" },
    );
    plan = CodeMirror($("plan"), { ...common, screenReaderLabel: "the plan" });
    problem.on("inputRead", (editor, change) => {
      const isWord = change.text.length === 1 && /^[\w.@$]$/.test(change.text[0]);
      if (isWord && !editor.state.completionActive) offer(editor, false);
    });
    document.addEventListener("keydown", (event) => {
      if (event.key === "Escape") onStop();
    });
  }

  // The two texts as the program is given them: the problem with an end of line, and the plan.
  function problemText() {
    const text = problem.getValue();
    return text.endsWith("\n") ? text : `${text}\n`;
  }
  const planText = () => plan.getValue();

  let isSetting = false;
  // Puts a text into the plan's editor without telling that it changed.
  function setPlan(text) {
    isSetting = true;
    plan.setValue(text.replace(/\n*$/, "\n"));
    isSetting = false;
  }

  // ---- the message, and marks in the text

  function say(kind, html) {
    $("message").className = kind;
    $("message").innerHTML = html;
  }

  const marks = { faults: [], broken: [] };
  function clear(kind) {
    for (const undo of marks[kind]) undo();
    marks[kind] = [];
  }

  function markLine(editor, number, kind, classes) {
    const line = editor.addLineClass(number, "background", classes);
    marks[kind].push(() => editor.removeLineClass(line, "background", classes));
  }

  // Shows a refusal at its place; answers the editor and the position.
  function refuse(word, place, layout) {
    const fault = Refusals.explain(word, place, problemText(), layout);
    const editor = fault.isSecond ? plan : problem;
    const [from, to] = [editor.posFromIndex(fault.from), editor.posFromIndex(fault.to)];
    clear("faults");
    const isEmpty = from.line === to.line && from.ch === to.ch;
    const begin = isEmpty ? { line: from.line, ch: Math.max(0, from.ch - 1) } : from;
    const marker = editor.markText(begin, to, { className: "fault" });
    marks.faults.push(() => marker.clear());
    markLine(editor, Math.min(from.line, editor.lastLine()), "faults", "faultline");
    const where = `${fault.isSecond ? "plan, " : ""}line ${from.line + 1}, column ${from.ch + 1}`;
    const lines = fault.lines.map(safe).join("\n").replace(/`([^`]*)`/g, "<code>$1</code>");
    say("bad", `<b>${where}: refused, ${safe(word)}</b>\n${lines}`);
    return { editor, from };
  }

  // Marks the lines on which broken rules begin.
  function markBroken(broken) {
    clear("broken");
    const text = problem.getValue();
    for (const { name } of broken) {
      const at = text.search(new RegExp(`\\brule\\s+${name}\\b`));
      if (at >= 0) markLine(problem, problem.posFromIndex(at).line, "broken", "brokenline");
    }
  }

  // Brings the line of an object in the plan into sight.
  function showObject(name) {
    const line = planText().split("\n").findIndex((it) => it.trimStart().startsWith(`${name} `));
    if (line < 0) return;
    plan.setCursor({ line, ch: 0 });
    plan.scrollIntoView({ line, ch: 0 }, 30);
  }

  return {
    start, problemText, planText, setPlan, say, refuse, clear, markBroken, showObject,
    problem: () => problem, plan: () => plan, isSetting: () => isSetting,
  };
})();
