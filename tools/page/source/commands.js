// What is asked of the program, and what its answers are shown as.

const Commands = (() => {
  "use strict";

  const $ = (id) => document.getElementById(id);
  const { safe } = Flat;
  const { say } = Editors;
  const STATUS = { good: 0, no: 1, refused: 2, budget: 3, words: 4, token: 5, memory: 8 };
  // the commands that read a plan, or another second text, behind the problem
  const TWO_TEXTS = ["judge", "draw", "check", "load"];
  const NODES = /\b(split|drop|raise|lower|gone|dead)\b/g;
  const MOST_CARDS = 200;
  const LATER = 350; // milliseconds without a key before a text is read

  const search = new Program.Runner(); // what may run for long
  const quick = new Program.Runner(); // reading and judging while a text is written
  const shown = { layouts: [], at: 0, from: 1, answer: "", problem: null, headline: "" };
  let turn = 0; // counts what was asked, so that an answer that comes late is passed over
  let waiting = null;

  const timeOf = (run) => {
    return run.milliseconds < 1000
      ? `${run.milliseconds.toFixed(0)} ms`
      : `${(run.milliseconds / 1000).toFixed(1)} s`;
  };
  const stepsAsked = () => $("steps").value.trim();

  // ---- runs

  // Whether a run came to an answer; else it says why not.
  function isAnswered(run) {
    if (run.isStopped) say("warn", "<b>stopped</b>");
    else if (run.fault) say(
      "bad", `<b>the program could not go on in this browser</b>\n${safe(run.fault)}`,
    );
    else if (run.status === STATUS.memory) say("bad", "<b>memory ran out</b>");
    else return true;
    return false;
  }

  function busy(isOn) {
    for (const id of ["first", "all", "judge", "words"]) $(id).disabled = isOn;
    $("stop").disabled = !isOn;
    if (isOn) $("next").disabled = true;
  }

  // Runs words that may take long, with a clock in the message.
  async function seek(words, input) {
    turn += 1;
    clearTimeout(waiting);
    busy(true);
    Editors.clear("faults");
    const began = performance.now();
    const tell = () => {
      const seconds = ((performance.now() - began) / 1000).toFixed(0);
      say("busy", `<b>${safe(words.join(" "))}</b> … ${seconds} s`);
    };
    tell();
    const clock = setInterval(tell, 500);
    const run = await search.run(words, input, () => {});
    clearInterval(clock);
    busy(false);
    shown.lastRun = run;
    return run;
  }

  function refusal(run, layout) {
    const [, place, word] = run.text.split(/\s+/);
    return Editors.refuse(word, Number(place), layout);
  }

  // Reads the problem by the program's own `show`: the problem, or null where it is refused or
  // late.
  async function readProblem(isQuiet) {
    if (!isQuiet) {
      turn += 1;
      clearTimeout(waiting);
    }
    const mine = turn;
    const run = await quick.run(["show"], Editors.problemText());
    if (isQuiet && mine !== turn) return null;
    if (run.status === STATUS.refused) {
      const { editor, from } = refusal(run);
      if (!isQuiet) {
        editor.setCursor(from);
        editor.focus();
      }
      return null;
    }
    return isAnswered(run) ? { canonical: run.text, problem: Cells.readProblem(run.text) } : null;
  }

  // What is not told otherwise.
  function tellOther(run, layout) {
    if (run.status === STATUS.words) {
      say("bad", "<b>bad words</b>: N is a number of steps from 1 to 1000000000000");
    }
    else if (run.status === STATUS.token) say(
      "bad", "<b>bad token</b>: the problem has changed since the page before",
    );
    else if (run.status === STATUS.refused) refusal(run, layout);
    else say("warn", safe(run.text.slice(0, 400)));
  }

  // ---- what is shown

  // The view that a problem asks for by a line `# view NAME`.
  function askedView() {
    const said = /^#\s*view\s+(\w+)\s*$/m.exec(Editors.problemText());
    return said && said[1];
  }

  function showLayout(broken, { isNew, view = null }) {
    const layout = shown.layouts[shown.at] || { places: new Map() };
    const things = Cells.placedThings(shown.problem, layout);
    Editors.markBroken(broken);
    const first = view || (Picture.state.view ? null : askedView());
    Picture.show({ problem: shown.problem, things, broken, isNew, view: first });
  }

  // Shows layouts of an answer, or the answer where it has none. The view stays where it fits.
  function take(problem, layouts, answer, from = 1) {
    if (Picture.state.view === "answer") Picture.state.view = null;
    Object.assign(shown, { problem, layouts, at: 0, from, answer });
    if (layouts.length) Editors.setPlan(layouts[0].text);
    cards();
    showLayout([], { isNew: true, view: layouts.length ? null : "answer" });
  }

  function card(layout, k, colours) {
    const things = Cells.placedThings(shown.problem, layout);
    const frame = Cells.frame(shown.problem, things);
    const look = Colours.look(colours, new Set());
    const options = { look, plane: { right: 0, up: 1 }, width: 110, height: 74, isPlain: true };
    const label = `layout ${shown.from + k}`;
    const picture = shown.problem.dims > 1
      ? Flat.svg(Flat.plane(things, frame, options), label)
      : "";
    const isOn = k === shown.at;
    const head = `<button class="card" data-at="${k}" aria-pressed="${isOn}">`;
    return `${head}${picture}${shown.from + k}</button>`;
  }
  function cards() {
    if (shown.layouts.length < 2) {
      $("pages").innerHTML = "";
      return;
    }
    const first = Cells.placedThings(shown.problem, shown.layouts[0]);
    const colours = Colours.palette(first, Picture.state.colour);
    const some = shown.layouts.slice(0, MOST_CARDS);
    $("pages").innerHTML = some.map((layout, k) => card(layout, k, colours)).join("");
  }
  function showCard(event) {
    const found = event.target.closest("[data-at]");
    if (!found) return;
    shown.at = Number(found.dataset.at);
    Editors.setPlan(shown.layouts[shown.at].text);
    cards();
    showLayout([], { isNew: false });
  }

  // ---- commands

  async function first() {
    const made = await readProblem(false);
    if (!made) return;
    const steps = stepsAsked();
    const run = await seek(["first", steps], Editors.problemText());
    if (!isAnswered(run)) return;
    $("next").disabled = true;
    const [word] = run.text.split(/\s+/);
    if (word === "layout") {
      shown.headline = `the first layout in the stated order, found in ${timeOf(run)}`;
      take(made.problem, Cells.layoutsIn(run.text), run.text);
      say(
        "good",
        `<b>the first layout</b>, in ${timeOf(run)}: every rule holds on it, and none comes ` +
          "before it in the stated order",
      );
    } else if (word === "none") tellNone(made, run);
    else if (word === "budget") tellBudget(run, steps);
    else tellOther(run);
  }

  function tellNone(made, run) {
    take(made.problem, [], run.text);
    const count = (run.text.match(NODES) || []).length;
    const nodes = `${count} node${count === 1 ? "" : "s"}`;
    say("warn", `<b>none</b>: no layout keeps all rules, whatever the order (${timeOf(run)}).
The derivation beside says why, in ${nodes}.
<button id="checkit">check the derivation</button>`);
    $("checkit").onclick = () => check(run.text);
  }
  function tellBudget(run, steps) {
    const next = String(BigInt(steps) * 10n);
    say("warn", `<b>budget</b>: ${safe(steps)} steps did not suffice (${timeOf(run)}).
<button id="more">try ${next} steps</button>`);
    $("more").onclick = () => {
      $("steps").value = next;
      first();
    };
  }

  async function check(derivation) {
    const run = await seek(["check"], Editors.problemText() + derivation);
    if (!isAnswered(run)) return;
    const text = run.text.trim();
    if (text === "yes") {
      say(
        "good",
        `<b>yes</b>: the derivation is valid, so the problem has no layout (${timeOf(run)})`,
      );
    }
    else if (run.status === STATUS.no) say(
      "bad", `<b>${safe(text)}</b>: this node of the derivation is not valid`,
    );
    else tellOther(run);
  }

  async function all(token) {
    const made = await readProblem(false);
    if (!made) return;
    const from = token ? shown.from + shown.layouts.length : 1;
    const words = ["all", $("page").value.trim(), stepsAsked(), ...(token ? [token] : [])];
    const run = await seek(words, Editors.problemText());
    if (!isAnswered(run)) return;
    const layouts = Cells.layoutsIn(run.text);
    const tail = run.text.trim().split("\n").pop();
    if (!["more", "end"].includes(tail) && !tail.startsWith("budget")) {
      tellOther(run);
      return;
    }
    if (layouts.length) take(made.problem, layouts, run.text, from);
    const what = layouts.length
      ? `layouts ${from} to ${from + layouts.length - 1}`
      : "no more layouts";
    if (tail === "more") say("good", `<b>${what}</b>, in ${timeOf(run)}`);
    else if (tail === "end") say(
      "good", `<b>${what}</b>, and there are no others (${timeOf(run)})`,
    );
    else say(
      "warn", `<b>${what}</b>, and then ${safe(tail)}: more steps are needed (${timeOf(run)})`,
    );
    $("next").disabled = tail !== "more";
  }
  const next = () => all(shown.layouts[shown.layouts.length - 1].token);

  async function judge(isQuiet) {
    const made = await readProblem(isQuiet);
    if (!made) return;
    const mine = turn;
    const plan = Editors.planText();
    if (!plan.trim()) {
      if (!isQuiet) {
        say("warn", "there is no plan to judge: write one below, or press <b>first layout</b>");
      }
      return;
    }
    const run = await quick.run(["judge"], Editors.problemText() + plan);
    const isLate = () => mine !== turn || plan !== Editors.planText();
    if (isLate() || !isAnswered(run)) return;
    if (run.status === STATUS.refused) {
      refusal(run, plan);
      return;
    }
    Editors.clear("faults");
    shown.problem = made.problem;
    shown.layouts[shown.at] = Cells.readLayout(plan);
    if (run.status === STATUS.good) tellGood(run);
    else await tellBroken(isLate);
  }

  function tellGood(run) {
    shown.headline = "every rule holds";
    showLayout([], { isNew: false });
    say("good", `<b>good</b>: every rule holds (${timeOf(run)})`);
  }
  async function tellBroken(isLate) {
    const things = Cells.placedThings(shown.problem, shown.layouts[shown.at]);
    const ask = async (text) => (await quick.run(["judge"], text)).status;
    const broken = await Blame.brokenRules(shown.problem, things, ask);
    if (isLate()) return;
    const names = broken.map((rule) => rule.name).join(", ");
    shown.headline = `broken: ${names}`;
    showLayout(broken, { isNew: false });
    const count = `${broken.length} of ${shown.problem.rules.length} rules`;
    say("bad", `<b>broken ${safe(names)}</b>: the plan breaks ${count}`);
  }

  // Any words of the command line.
  async function other(words) {
    const isOfTwo = TWO_TEXTS.includes(words[0]);
    const second = words[0] === "check" ? shown.answer : Editors.planText();
    const run = await seek(words, Editors.problemText() + (isOfTwo ? second : ""));
    if (!isAnswered(run)) return;
    if (run.status === STATUS.refused || run.status === STATUS.words) {
      tellOther(run, isOfTwo ? second : undefined);
      return;
    }
    const what = `<b>${safe(words.join(" "))}</b>, in ${timeOf(run)}, with status ${run.status}`;
    await showAnswer(run.text);
    say(run.status === STATUS.good ? "good" : "warn", what);
  }

  // Layouts of an answer are shown as plans, the names behind `order` as the sequence in which
  // objects come in, and all else as it is printed.
  async function showAnswer(text) {
    const layouts = Cells.layoutsIn(text);
    const made = layouts.length ? await readProblem(true) : null;
    if (made) {
      take(made.problem, layouts, text);
      return;
    }
    shown.answer = text;
    const [first, ...names] = text.trim().split("\n");
    if (first === "order") Picture.comeIn(names);
    else Picture.choose("answer");
  }

  async function letters(into) {
    const run = await quick.run(["draw"], Editors.problemText() + Editors.planText());
    if (Picture.state.view === "letters") {
      into.innerHTML = `<pre class="text">${safe(run.text)}</pre>`;
    }
  }

  // ---- while a text is written

  function later(work) {
    clearTimeout(waiting);
    waiting = setTimeout(work, LATER);
  }

  async function readAgain() {
    const made = await readProblem(true);
    if (!made) return;
    Editors.clear("faults");
    if (made.canonical !== shown.canonical) {
      const { objects, rules, dims } = made.problem;
      say(
        "idle",
        `the text is a problem: ${objects.length} objects, ${rules.length} rules, ` +
          `${dims} dimensions; press <b>first layout</b> for a plan`,
      );
    }
    shown.canonical = made.canonical;
    if (Editors.planText().trim()) judge(true);
    else {
      shown.problem = made.problem;
      showLayout([], { isNew: true });
    }
  }

  // A plan that changes is drawn at once, and judged when no key comes for a moment.
  function planChanged() {
    if (Editors.isSetting()) return;
    const layout = Cells.readLayout(Editors.planText());
    if (shown.problem) {
      shown.layouts[shown.at] = layout;
      showLayout(Picture.state.broken, { isNew: false });
    }
    later(() => judge(true));
  }

  function reset() {
    Object.assign(shown, { layouts: [], at: 0, answer: "", canonical: null });
    $("next").disabled = true;
    cards();
  }

  function start() {
    $("first").onclick = first;
    $("stop").onclick = () => search.stop();
    $("all").onclick = () => all(null);
    $("next").onclick = next;
    $("judge").onclick = () => judge(false);
    $("pages").addEventListener("click", showCard);
    $("words").addEventListener("keydown", (event) => {
      const words = $("words").value.trim().split(/\s+/);
      if (event.key === "Enter" && words[0]) other(words);
    });
    Editors.problem().on("change", () => {
      Editors.clear("broken");
      later(readAgain);
    });
    Editors.plan().on("change", planChanged);
    const text = (name) => (into) => {
      into.innerHTML = `<pre class="text">${safe(shown[name])}</pre>`;
    };
    Picture.state.extra = [
      { name: "letters", label: "letters", show: letters },
      { name: "answer", label: "answer", show: text("answer") },
    ];
  }

  return { start, first, judge, all, other, showAnswer, reset, shown, search, quick };
})();
