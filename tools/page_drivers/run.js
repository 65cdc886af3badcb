// Looks at what a page shows at each step, which it goes through by keys; then at what the other keys, the buttons and the address do.
// Nothing is told by a colour alone: what is won, lost or an actor's has a sign, a word or a number too.
{
  const seen = [], errors = [], times = [];
  addEventListener("error", (event) => errors.push(event.message));
  const key = (name) => document.dispatchEvent(new KeyboardEvent("keydown", { key: name, bubbles: true }));
  const said = (part) => part.textContent.replace(/\s+/g, " ").trim();
  const id = (name) => document.getElementById(name);
  const where = () => Number(id("slider").value);
  const each = (part, of, what) => [...part.querySelectorAll(of)].map(what);
  const rows = () => each(id("code"), "li", (it) => [said(it.children[1]), it]).filter(([name]) => name);
  const card = (part) => [said(part.querySelector("p")), part.querySelector(".due .mono") ? said(part.querySelector(".due")) : null,
    each(part, ".regs div", (it) => [said(it.querySelector("dt")), said(it.querySelector("dd"))])];
  const unsigned = [], say = (part, isTold) => { if (!isTold) unsigned.push(part.className.baseVal ?? part.className); };
  const lookAtSigns = () => {
    for (const it of document.querySelectorAll(".tag.won, .tag.lost")) say(it, /^(✓|✗|ABA|would)/.test(said(it)));
    for (const it of document.querySelectorAll(".badge")) say(it, /^\d+$/.test(said(it)));
    for (const it of document.querySelectorAll("#cells .differs")) say(it, it.querySelector("b"));
    for (const it of document.querySelectorAll(".n-hand")) say(it, /in the (hand|pocket) of \d+/.test(said(it)));
    for (const it of document.querySelectorAll(".touched.lost, .cell.lost, .edge.ghost, .reg-box.stale")) say(it, getComputedStyle(it).strokeDasharray !== "none");
  };
  const look = () => ({
    words: Object.fromEntries(Object.entries(run.stateAt(current).words).filter(([, text]) => text !== "0 0" && text !== "0")),
    what: said(id("what")), why: said(id("why")), cells: each(id("cells"), "tr", (row) => [...row.children].map(said)),
    at: (rows().find(([, it]) => it.getAttribute("aria-current")) || [null])[0],
    stands: Object.fromEntries(rows().map(([name, it]) => [name, each(it, ".badge", said)]).filter(([, who]) => who.length)),
    cards: each(id("actors"), ".card", card), picture: document.querySelector("#heap svg").getAttribute("aria-label"), order: said(id("order")),
  });
  const last = Number(id("slider").max), first = look(), heads = [said(id("title")), said(id("facts")), document.title];
  seen.push(first);
  for (let step = 1; step <= last; step += 1) {
    const began = performance.now();
    key("ArrowRight");
    times.push(performance.now() - began);
    seen.push(look());
    lookAtSigns();
    settle();
    if (location.hash !== "#step=" + step) errors.push("the address is " + location.hash + " at step " + step);
  }
  const moved = (name, from, count) => { key(from); return Array.from({ length: count }, () => { key(name); return where(); }); };
  const pressed = (name) => { id(name).click(); return where(); };
  const moves = { n: moved("n", "Home", 9), p: moved("p", "End", 9), x: moved("x", "Home", 5), 2: moved("2", "Home", 5), PageUp: moved("PageUp", "End", 2), PageDown: moved("PageDown", "Home", 2), ends: [moved("ArrowLeft", "Home", 1)[0], moved("ArrowRight", "End", 1)[0]],
    buttons: ["first", "on", "next", "back", "previous", "last"].map(pressed) };
  const isPlaying = () => id("play").getAttribute("aria-pressed") === "true";
  key("End");
  key(" ");
  moves.play = [where(), isPlaying()];
  key("End");
  moves.play.push(isPlaying());
  const byAddress = (step) => {
    location.hash = "#step=" + step;
    dispatchEvent(new HashChangeEvent("hashchange"));
    return where();
  };
  const linked = seen.map((it, step) => byAddress(step)).filter((at, step) => at !== step).concat(byAddress(last + 7));
  const root = document.documentElement, main = document.querySelector("main"), saved = [];
  const twice = (name, isSo) => [0, 1].map(() => { key(name); return isSo(); });
  URL.createObjectURL = (blob) => { saved.push(blob.type); return "#"; };
  HTMLAnchorElement.prototype.click = function () { saved.push(this.download); };
  const slow = pace, switches = {
    z: twice("z", () => root.classList.contains("large") && id("large").getAttribute("aria-pressed") === "true"),
    r: twice("r", () => main.classList.contains("all")),
    pace: [(key("+"), pace < slow), (key("-"), key("-"), pace > slow)],
    theme: [0, 1, 2].map(() => { id("theme").click(); return root.dataset.theme ?? "system"; }),
    link: (id("link").click(), said(id("link"))),
    save: (id("save").click(), saved),
    slider: (id("slider").value = 0, id("slider").dispatchEvent(new Event("input")), [current, where()]),
  };
  id("more").open = true;
  key("Home"); key("End");
  const text = id("more").textContent;
  times.sort((a, b) => a - b);
  const shown = id("note").textContent;
  leave({ seen, heads, moves, linked, switches, unsigned, text, shown, errors, time: times[times.length >> 1] });
}
