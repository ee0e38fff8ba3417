// The sheet that is printed: the plan, its layers, its objects, its rules and its token.

const Paper = (() => {
  "use strict";

  const $ = (id) => document.getElementById(id);
  const { state } = Picture;
  const { safe } = Flat;
  const [WIDE, HIGH] = [900, 560];

  function picture(things) {
    if (state.problem.dims < 3) {
      const isTime = state.view === "time" || state.problem.dims === 1;
      return `<div class="picture">${Picture.sheet(isTime ? "time" : "plan", [WIDE, HIGH])}</div>`;
    }
    const options = { look: Picture.look(), view: state.camera };
    const drawing = Solid.drawing(things, Picture.frame(), [WIDE, HIGH], options);
    const layers = Picture.sheet("layers", [520, 380]);
    return `<div class="picture">${Flat.svg(drawing, "the plan")}</div><h2>layers</h2>${layers}`;
  }

  function fill() {
    if (!state.problem) return;
    const things = state.things.filter((thing) => thing.boxes.length);
    const { headline, layouts, at } = Commands.shown;
    const parts = [`<h1>${safe(document.title)}</h1>`, `<div>${safe(headline)}</div>`];
    if (things.length) parts.push(picture(things), "<h2>objects</h2>", Picture.sheet("table"));
    const rules = state.problem.rules.map((rule) => rule.line).join("\n");
    parts.push("<h2>rules</h2>", `<pre>${safe(rules)}</pre>`);
    const token = layouts[at] && layouts[at].token;
    if (token) parts.push("<h2>token</h2>", `<pre>${safe(token)}</pre>`);
    $("paper").innerHTML = parts.join("\n");
  }

  function start() {
    window.addEventListener("beforeprint", fill);
    $("print").addEventListener("click", () => {
      fill();
      window.print();
    });
  }

  return { start, fill };
})();
