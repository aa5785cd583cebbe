
"use strict";
// The page without this script has all bugs, sources and lists one below another. With it one bug is shown at a time:
// its steps are numbered and joined in the source, and keys go from one to the next.
(() => {
  const all = (selector, within = document) => Array.from(within.querySelectorAll(selector));
  const byId = (id) => document.getElementById(id);
  const make = (name, className, text) => {
    const element = document.createElement(name);
    element.className = className;
    element.textContent = text || "";
    return element;
  };
  const svg = (name, attributes) => {
    const element = document.createElementNS("http://www.w3.org/2000/svg", name);
    Object.entries(attributes).forEach(([key, value]) => element.setAttribute(key, value));
    return element;
  };

  // Of a path with many steps only those near the present one are joined: all of them would hide the source.
  const MANY = 40;
  const NEAR = 8;

  const bugs = all(".bug").map((article) => ({ article, steps: all(".steps > li", article) }));
  const entries = all("#list li");
  const sources = byId("sources");
  let bug = 0;
  let step = 0;
  let chips = [];
  let tokens = [];

  // The rectangle of a step's token, from the place of its characters in the line.
  function tokenRectangle(item, line) {
    if (!item.dataset.end) return null;
    const range = document.createRange();
    const walker = document.createTreeWalker(line.querySelector("code"), NodeFilter.SHOW_TEXT);
    let passed = 0;
    let begun = false;
    const start = Number(item.dataset.start);
    const end = Number(item.dataset.end);
    for (let node = walker.nextNode(); node; node = walker.nextNode()) {
      const length = node.length;
      if (!begun && start < passed + length) {
        range.setStart(node, start - passed);
        begun = true;
      }
      if (begun && end <= passed + length) {
        range.setEnd(node, end - passed);
        return range.getBoundingClientRect();
      }
      passed += length;
    }
    return null;
  }

  // Steps at one token with one text share a note below the line.
  function notesOf(steps) {
    const lines = new Map();
    steps.forEach((item, number) => {
      const line = byId(item.dataset.line);
      if (!line) return;
      const said = item.querySelector(".said").textContent;
      const key = item.dataset.start + " " + said;
      if (!lines.has(line)) lines.set(line, new Map());
      const notes = lines.get(line);
      if (!notes.has(key)) notes.set(key, { said, error: item.className === "error", numbers: [] });
      notes.get(key).numbers.push(number);
    });
    return lines;
  }

  function placeNotes() {
    const steps = bugs[bug].steps;
    chips = [];
    tokens = [];
    all(".notes, .token", sources).forEach((element) => element.remove());
    notesOf(steps).forEach((notes, line) => {
      const code = line.querySelector("code").getBoundingClientRect();
      const below = make("div", "notes");
      notes.forEach((note) => {
        const rectangle = tokenRectangle(steps[note.numbers[0]], line);
        const row = make("div", note.error ? "note error" : "note");
        const group = make("span", "chips");
        note.numbers.forEach((number) => {
          const chip = make("button", note.error ? "chip error" : "chip", String(number + 1));
          chip.addEventListener("click", () => go(bug, number));
          chips[number] = chip;
          group.append(chip);
        });
        row.append(group, make("span", "", note.said));
        row.style.marginLeft = line.querySelector(".gutter").offsetWidth + (rectangle ? rectangle.left - code.left : 0) + "px";
        below.append(row);
        if (rectangle) underline(line, code, rectangle, note.numbers);
      });
      line.after(below);
    });
  }

  function underline(line, code, rectangle, numbers) {
    const token = make("span", "token");
    token.style.left = rectangle.left - code.left + "px";
    token.style.top = "1px";
    token.style.width = rectangle.width + "px";
    token.style.height = "18px";
    line.querySelector("code").append(token);
    numbers.forEach((number) => (tokens[number] = token));
  }

  // Curves from each step's number to the next one's, to the left of both.
  function join() {
    const old = byId("joins");
    if (old) old.remove();
    const origin = sources.getBoundingClientRect();
    const points = chips.map((chip) => {
      const box = chip.getBoundingClientRect();
      return { x: box.left - origin.left + sources.scrollLeft - 1, y: box.top - origin.top + sources.scrollTop + box.height / 2 };
    });
    const gutter = sources.querySelector(".source:not([hidden]) .gutter");
    const rail = gutter ? gutter.offsetWidth : 0;
    const drawing = svg("svg", { id: "joins", width: 1, height: 1, "aria-hidden": "true" });
    const marker = svg("marker", { id: "tip", viewBox: "0 0 6 6", refX: 5, refY: 3, markerWidth: 6, markerHeight: 6, orient: "auto" });
    marker.append(svg("path", { d: "M0 0 L6 3 L0 6 z" }));
    drawing.append(marker);
    for (let number = 1; number < points.length; number++) {
      const from = points[number - 1];
      const to = points[number];
      if (!from || !to || (points.length > MANY && Math.abs(number - step) > NEAR)) continue;
      const out = Math.max(14, Math.min(90, Math.abs(to.y - from.y) / 4));
      const x = Math.max(Math.min(from.x, to.x) - out, rail);
      const now = number === step || number - 1 === step;
      const curve = svg("path", { d: `M${from.x} ${from.y} C${x} ${from.y} ${x} ${to.y} ${to.x} ${to.y}` });
      if (now) curve.setAttribute("class", "now");
      if (now) curve.setAttribute("marker-end", "url(#tip)");
      drawing.append(curve);
    }
    sources.append(drawing);
  }

  function mark(elements, chosen) {
    elements.forEach((element) => element && element.classList.toggle("now", element === chosen));
  }

  function showStep() {
    const { steps } = bugs[bug];
    steps.forEach((item, number) => {
      const link = item.querySelector("a");
      if (number === step) link.setAttribute("aria-current", "step");
      else link.removeAttribute("aria-current");
    });
    const line = byId(steps[step].dataset.line);
    mark(chips, chips[step]);
    mark(tokens, tokens[step]);
    mark(all(".line", sources), line);
    mark(all(".note", sources), chips[step] && chips[step].closest(".note"));
    join();
    steps[step].scrollIntoView({ block: "nearest" });
    if (line) line.scrollIntoView({ block: "center", inline: "nearest" });
    history.replaceState(null, "", `#bug-${bug + 1}-${step + 1}`);
  }

  function showBug() {
    bugs.forEach(({ article }, number) => (article.hidden = number !== bug));
    entries.forEach((entry) => {
      const link = entry.querySelector("a");
      if (link.hash === `#bug-${bug + 1}`) {
        link.setAttribute("aria-current", "true");
        link.scrollIntoView({ block: "nearest" });
      } else link.removeAttribute("aria-current");
    });
    const used = new Set(bugs[bug].steps.map((item) => item.dataset.line.replace(/-\d+$/, "")));
    all(".source").forEach((section) => (section.hidden = !used.has(section.id)));
    placeNotes();
  }

  function view(name) {
    // (where there is no bug, all stands on one screen)
    byId("bugs").hidden = name !== "bugs" && bugs.length > 0;
    byId("unseen").hidden = name !== "unseen" && bugs.length > 0;
    ["bugs", "unseen"].forEach((tab) => {
      if (tab === name) byId("to-" + tab).setAttribute("aria-current", "page");
      else byId("to-" + tab).removeAttribute("aria-current");
    });
  }

  function go(toBug, toStep) {
    if (!bugs[toBug]) return;
    view("bugs");
    const other = toBug !== bug || bugs[bug].article.hidden || !chips.length;
    bug = toBug;
    const count = bugs[bug].steps.length;
    step = toStep === undefined ? count - 1 : (toStep + count) % count;
    if (other) showBug();
    showStep();
  }

  const shownBugs = () =>
    entries.filter((entry) => !entry.hidden).map((entry) => Number(entry.querySelector("a").hash.slice(5)) - 1);

  function goBug(forward) {
    const shown = shownBugs();
    if (!shown.length) return;
    const at = shown.indexOf(bug);
    go(shown[(at + (forward ? 1 : shown.length - 1)) % shown.length]);
  }

  function filter() {
    const kind = byId("by-kind").value;
    const file = byId("by-file").value;
    entries.forEach((entry) => {
      entry.hidden = (kind !== "" && entry.dataset.kind !== kind) || (file !== "" && entry.dataset.file !== file);
    });
    all("#list section").forEach((section) => (section.hidden = !section.querySelector("li:not([hidden])")));
    const shown = shownBugs();
    byId("count").textContent = shown.length === entries.length ? "" : `${shown.length} of ${entries.length} bugs`;
    if (shown.length && !shown.includes(bug)) go(shown[0]);
  }

  // From the address: a bug, and a step of it.
  function follow() {
    const found = /^#bug-(\d+)(?:-(\d+))?$/.exec(location.hash);
    if (location.hash === "#unseen") view("unseen");
    else if (found) go(Number(found[1]) - 1, found[2] === undefined ? undefined : Number(found[2]) - 1);
    else if (bugs.length) go(shownBugs()[0]);
    else view("bugs");
  }

  const keys = {
    j: () => go(bug, step + 1),
    k: () => go(bug, step - 1),
    e: () => go(bug),
    n: () => goBug(true),
    p: () => goBug(false),
    u: () => (byId("unseen").hidden ? view("unseen") : bugs.length ? go(bug, step) : view("bugs")),
  };

  document.body.classList.add("alive");
  all("[hidden]").forEach((element) => (element.hidden = false));
  if (!bugs.length) byId("bugs").classList.add("empty");
  document.addEventListener("keydown", (event) => {
    if (event.ctrlKey || event.metaKey || event.altKey || event.target.closest("select, input")) return;
    if (!keys[event.key]) return;
    event.preventDefault();
    keys[event.key]();
  });
  document.addEventListener("click", (event) => {
    const link = event.target.closest("a");
    if (!link || event.ctrlKey || event.metaKey || event.shiftKey) return;
    const item = link.closest(".steps li");
    event.preventDefault();
    if (item) go(bug, bugs[bug].steps.indexOf(item));
    else if (link.id === "to-unseen") view("unseen");
    else if (link.id === "to-bugs") bugs.length ? go(bug, step) : view("bugs");
    else go(Number(link.hash.slice(5)) - 1);
  });
  if (bugs.length) {
    byId("by-kind").addEventListener("change", filter);
    byId("by-file").addEventListener("change", filter);
  }
  window.addEventListener("hashchange", follow);
  window.addEventListener("resize", () => bugs.length && !byId("bugs").hidden && (placeNotes(), showStep()));
  all(".code").forEach((code) => code.addEventListener("scroll", () => join()));
  follow();
})();
