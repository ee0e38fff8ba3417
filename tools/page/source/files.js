// Examples, files that are opened and saved, links that carry a problem, and what the browser
// keeps.

const Files = (() => {
  "use strict";

  const $ = (id) => document.getElementById(id);
  const KEPT = "geost";
  const IN_LINK = "text=";
  const PLAN_FIRST = /^\s*(?:#[^\n]*\n\s*)*layout\b/;

  // Shows a problem and a plan anew.
  function open(name, problem, plan) {
    document.title = name;
    Commands.reset();
    Picture.state.view = null;
    Editors.setPlan(plan);
    Editors.problem().setValue(problem);
  }

  // A file has a problem, a plan, or a problem with a plan behind it.
  async function openFile(file) {
    const text = await file.text();
    if (PLAN_FIRST.test(text)) {
      Editors.plan().setValue(text);
      return;
    }
    const end = Tokens.endOfProblem(text);
    open(file.name.replace(/\.\w+$/, ""), `${text.slice(0, end)}\n`, text.slice(end).trim());
  }
  async function openFiles(files) {
    for (const file of files) await openFile(file);
  }

  const both = () => Editors.problemText() + Editors.planText();

  function save() {
    const link = document.createElement("a");
    link.href = URL.createObjectURL(new Blob([both()], { type: "text/plain" }));
    link.download = `${document.title || "problem"}.geost`;
    link.click();
  }

  // ---- links

  async function through(bytes, transform) {
    const stream = new Blob([bytes]).stream().pipeThrough(transform);
    return new Uint8Array(await new Response(stream).arrayBuffer());
  }
  async function packed(text) {
    const bytes = await through(
      new TextEncoder().encode(text), new CompressionStream("deflate-raw"),
    );
    const signs = Array.from(bytes, (byte) => String.fromCharCode(byte)).join("");
    return btoa(signs).replace(/\+/g, "-").replace(/\//g, "_").replace(/=+$/, "");
  }
  async function unpacked(text) {
    const signs = atob(text.replace(/-/g, "+").replace(/_/g, "/"));
    const bytes = Uint8Array.from(signs, (sign) => sign.charCodeAt(0));
    return new TextDecoder().decode(await through(bytes, new DecompressionStream("deflate-raw")));
  }

  async function makeLink() {
    location.hash = IN_LINK + (await packed(both()));
    let where = "stands in the browser's line of addresses";
    try {
      await navigator.clipboard.writeText(location.href);
      where += " and is copied";
    } catch (fault) {
      // a browser may refuse to copy
    }
    Editors.say("good", `the link that carries this problem and plan ${where}`);
  }

  // ---- what was written last, where the browser keeps it

  function keep() {
    try {
      localStorage.setItem(KEPT, both());
    } catch (fault) {
      // a browser may refuse to keep anything
    }
  }
  function kept() {
    try {
      return localStorage.getItem(KEPT);
    } catch (fault) {
      return null;
    }
  }

  // ---- examples

  function example(name) {
    const { problem, plan } = EXAMPLES[name];
    open(name, problem, plan);
  }
  function listExamples() {
    $("example").append(...Object.keys(EXAMPLES).map((name) => new Option(name, name)));
    $("example").onchange = () => {
      if ($("example").value) example($("example").value);
    };
  }

  // What the page begins with: what the link carries or names, else what was written last, else an
  // example.
  async function begin() {
    const asked = decodeURIComponent(location.hash.slice(1));
    const last = kept();
    const text = asked.startsWith(IN_LINK) ? await unpacked(asked.slice(IN_LINK.length)) : last;
    if (EXAMPLES[asked]) example(asked);
    else if (text) open(
      "problem",
      text.slice(0, Tokens.endOfProblem(text)),
      text.slice(Tokens.endOfProblem(text)).trim(),
    );
    else example(Object.keys(EXAMPLES)[0]);
  }

  function start() {
    listExamples();
    $("open").onclick = () => $("file").click();
    $("file").onchange = async () => {
      await openFiles($("file").files);
      $("file").value = "";
    };
    $("save").onclick = save;
    $("link").onclick = makeLink;
    document.addEventListener("dragover", (event) => event.preventDefault());
    document.addEventListener("drop", (event) => {
      event.preventDefault();
      openFiles(event.dataTransfer.files);
    });
    window.addEventListener("hashchange", () => {
      const text = decodeURIComponent(location.hash.slice(1));
      if (EXAMPLES[text]) example(text);
    });
    Editors.problem().on("change", keep);
    Editors.plan().on("change", keep);
  }

  return { start, begin, open, openFile };
})();
