// The list as a picture: the chain from Head and the one from Free, with the words that name their nodes.
const BOX = { width: 142, height: 46, pitch: 184, left: 92, queue: 58, free: 188 };
const SHOWN = { nodes: 5, columns: 6, used: 12 };
let columns = 2, picture, layers, nodeParts = {};

function chainOf(state, word, most) {
  const nodes = [], seen = new Set();
  let number = node(state.words[word]);
  while (number !== "0" && number !== "closed" && !seen.has(number) && nodes.length < most) {
    nodes.push(number);
    seen.add(number);
    number = node(state.words["next " + number]);
  }
  const end = number === "0" ? "NULL" : number === "closed" ? "shut" : seen.has(number) ? "a ring" : "more";
  return { nodes, end };
}
// Nodes in no list: in a hand or a pocket, or set aside.
function apartOf(state, places, isWhole) {
  const apart = Object.entries(state.actors).filter(([, me]) => me.has && !places[me.node]).map(([actor, me]) => ({ number: me.node, actor, where: "in the " + me.has + " of " + actor }));
  const known = new Set([...Object.keys(places), ...apart.map((it) => it.number)]), used = Number(state.words.Fresh);
  for (let number = 1; isWhole && used <= SHOWN.used && number <= used; number += 1) {
    if (!known.has(String(number))) apart.push({ number: String(number), where: play ? "in no list" : "set aside" });
  }
  return apart;
}
function placesOf(state) {
  const queue = chainOf(state, "Head", SHOWN.nodes), free = chainOf(state, "Free", SHOWN.nodes), places = {};
  queue.nodes.forEach((number, index) => { places[number] = { x: BOX.left + index * BOX.pitch, y: BOX.queue, kind: "queue", index }; });
  const behind = free.nodes.filter((number) => !places[number]);
  behind.forEach((number, index) => { places[number] = { x: BOX.left + index * BOX.pitch, y: BOX.free, kind: "free" }; });
  const apart = apartOf(state, places, queue.end !== "more" && free.end !== "more");
  const width = behind.length + apart.length, room = Math.max(columns, width);
  apart.forEach((it, index) => { places[it.number] = { ...it, x: BOX.left + (room - apart.length + index) * BOX.pitch, y: BOX.free, kind: it.actor ? "hand" : "lost" }; });
  return { places, queue, free, width: Math.max(queue.nodes.length, width), isFirstTaken: behind.length > 0 || room === apart.length };
}
// As many columns as a moment of the run wants, so that the picture stays in its place.
function measureRun() {
  const stride = Math.max(1, Math.floor(run.total / 400));
  for (let step = 0; step <= run.total; step += stride) columns = Math.max(columns, placesOf(run.stateAt(step)).width);
  columns = Math.min(columns, SHOWN.columns);
}
function buildPicture() {
  const width = BOX.left + columns * BOX.pitch + 24, height = BOX.free + BOX.height + 40;
  const arrow = (kind) => drawn("marker", { id: "head" + kind, viewBox: "0 0 10 10", refX: 9, refY: 5, markerWidth: 7, markerHeight: 7, markerUnits: "userSpaceOnUse", orient: "auto" }, null,
    drawn("path", { d: "M0 0L10 5L0 10z", class: "head " + kind }));
  picture = drawn("svg", { viewBox: "0 0 " + width + " " + height, preserveAspectRatio: "xMinYMid meet", role: "img" });
  layers = { back: drawn("g", {}), edges: drawn("g", { id: "edges" }), nodes: drawn("g", {}), front: drawn("g", {}) };
  picture.append(drawn("title", {}, "Queue and free list"), drawn("defs", {}, null, ...["", "off", "new", "ghost"].map(arrow)), layers.back, layers.nodes, layers.edges, layers.front);
  at("heap").append(picture);
  document.querySelector("main").classList.toggle("narrow", columns <= 3);
  document.querySelector("main").classList.toggle("many", laneActors.length > 2);
}

function label(x, y, text, name) {
  return drawn("text", { x, y, class: name ?? "" }, text);
}
function touched(row, x, y, width, height) {
  const part = drawn("rect", { x, y, width, height, rx: 4, class: "touched" + (row.won === false ? " lost" : "") });
  return drawn("g", { class: hue(row.actor) }, null, part);
}
function sign(x, y, word, text, row) {
  const said = word + " " + text, width = said.length * 7.55 + 12, parts = [];
  if (row && row.word === word) parts.push(touched(row, x - 4, y - 4, width + 8, 26));
  parts.push(drawn("rect", { x, y, width, height: 18, rx: 4, class: "chip" }), label(x + 6, y + 13.5, said, "chip-text"));
  return drawn("g", { class: "moves" }, null, ...parts);
}
function lockShape(x, y, owner) {
  const isOpen = owner === "0", colour = isOpen ? "var(--soft)" : "var(--me)", arch = "M" + (x + 2) + " " + (y + 4) + "v-2a3 3 0 0 1 6 0" + (isOpen ? "" : "v2");
  return drawn("g", {}, null, drawn("rect", { x, y: y + 4, width: 10, height: 7, rx: 1.5, style: "fill:" + (isOpen ? "none" : colour) + ";stroke:" + colour }),
    drawn("path", { d: arch, style: "fill:none;stroke-width:1.5;stroke:" + colour }));
}
function drawBack(state, row) {
  const parts = [label(4, BOX.queue + 20, "Queue", "row"), label(4, BOX.free + 20, "Free list", "row"), label(4, BOX.free + 38, state.words.Fresh + " of " + head.nodes + " used", "row")];
  if (row && row.word === "Fresh") parts.unshift(touched(row, 1, BOX.free + 25, 84, 18));
  for (const [index, word] of (isLocked ? ["H_lock", "T_lock"] : []).entries()) {
    const y = BOX.queue + 40 + index * 20, owner = state.words[word], said = word.replace("_lock", " lock") + (owner === "0" ? "" : " " + owner);
    if (row && row.word === word) parts.push(touched(row, 1, y - 13, 86, 18));
    parts.push(drawn("g", { class: owner === "0" ? "" : hue(owner) }, null, lockShape(8, y - 9, owner), label(22, y, said, owner === "0" ? "row" : "row own")));
  }
  layers.back.replaceChildren(...parts);
}
function nodeShapes(state, number, place, row) {
  const value = state.words["value " + number], isDummy = place.kind === "queue" && place.index === 0, isDim = isDummy || !value || place.kind === "free" || place.kind === "lost";
  const parts = [drawn("rect", { x: 0, y: 0, width: BOX.width, height: BOX.height, rx: 5, class: "n-box" }),
    drawn("path", { d: "M5 0H30V" + BOX.height + "H5a5 5 0 0 1 -5 -5V5a5 5 0 0 1 5 -5z", class: "n-num" }), label(15, 30, number, "num")];
  if (row && (row.word === "next " + number || row.word === "value " + number)) parts.push(touched(row, 32, row.word.startsWith("next") ? 23.5 : 1.5, BOX.width - 34, 21));
  parts.push(label(38, 17, isDummy ? "dummy" : value ? toldWord("value", value) : "no value", isDim ? "dim" : ""), label(38, 38, "next " + toldWord("next", holds(state.words, "next " + number))));
  if (place.where) parts.push(label(0, -7, place.where, place.actor ? "own" : "dim"));
  return parts;
}
function drawNodes(state, places, row) {
  for (const number of Object.keys(nodeParts).filter((it) => !places[it])) {
    nodeParts[number].remove();
    delete nodeParts[number];
  }
  for (const [number, place] of Object.entries(places)) {
    if (!nodeParts[number]) layers.nodes.append(nodeParts[number] = drawn("g", {}));
    nodeParts[number].setAttribute("class", "moves n-" + place.kind + (place.actor ? " " + hue(place.actor) : ""));
    nodeParts[number].style.transform = "translate(" + place.x + "px," + place.y + "px)";
    nodeParts[number].replaceChildren(...nodeShapes(state, number, place, row));
  }
}
// Head, Tail and Free over their nodes, wherever these are.
function signs(state, { places, isFirstTaken }, row) {
  const parts = [], above = {};
  for (const word of ["Tail", "Head", "Free"]) {
    const number = node(state.words[word]), text = toldWord(word, state.words[word]), place = places[number];
    if (place) {
      const level = above[number] = (above[number] ?? 0) + 1, lift = place.where ? 14 : 0;
      parts.push(level > 2 ? sign(place.x + 150, place.y - 24 - lift, word, text, row) : sign(place.x, place.y - 2 - level * 22 - lift, word, text, row));
    } else if (word === "Free") {
      const y = BOX.free - 24 - (isFirstTaken ? 16 : 0);
      parts.push(sign(BOX.left, y, word, text, row), label(BOX.left + 96, y + 13, number === "0" ? "NULL: no free node" : "", "dim"));
    }
  }
  return parts;
}
// Registers that an actor's next line needs, below the nodes that they name.
function registersBelow(state, places, step) {
  const below = {}, parts = [];
  for (const it of run.running(step)) {
    const me = state.actors[it.actor], needs = needsOf(it.actor, step);
    for (const name of ["head", "tail", "top", "next"]) {
      const number = node(me[name]);
      if (needs.includes(name) && me[name] !== undefined && places[number]) (below[number] ??= []).push({ actor: it.actor, text: name + " " + toldWord(name, me[name]), isStale: isStale(state, me, name) });
    }
  }
  for (const [number, named] of Object.entries(below)) {
    named.slice(0, 4).forEach((it, index) => {
      const x = places[number].x + (index % 2) * 76, y = places[number].y + BOX.height + 5 + Math.floor(index / 2) * 18;
      parts.push(drawn("g", { class: hue(it.actor) }, null, drawn("rect", { x, y, width: it.text.length * 5.95 + 19, height: 15, rx: 7, class: "reg-box" + (it.isStale ? " stale" : "") }),
        drawn("circle", { cx: x + 7.5, cy: y + 7.5, r: 6, style: "fill:var(--me)" }), drawn("text", { x: x + 7.5, y: y + 11, class: "reg-of" }, it.actor), drawn("text", { x: x + 15.5, y: y + 11, class: "reg" }, it.text)));
    });
  }
  return parts;
}
function ground(x, y, text) {
  return drawn("g", {}, null, drawn("path", { d: "M" + x + " " + y + "h12m0 -7v14m4 -11v8m4 -6v4", class: "edge" }), ...(text ? [label(x + 24, y + 4, text)] : []));
}
function edge(place, to, kind, colour) {
  const x = place.x + BOX.width, y = place.y + 34, shape = { class: "edge " + kind + " " + colour, "marker-end": "url(#head" + kind + ")" };
  if (!to) return drawn("g", {}, null, drawn("path", { ...shape, d: "M" + x + " " + y + "h20" }), label(x + 24, y + 4, "…", "dim"));
  if (to.y === place.y && Math.abs(to.x - place.x - BOX.pitch) < 1) return drawn("path", { ...shape, d: "M" + x + " " + y + "H" + (to.x - 1) });
  if (to.y === place.y) return drawn("path", { ...shape, d: "M" + x + " " + y + "c16 0 16 40 -4 40 H" + (to.x + BOX.width / 2) + " q-8 0 -8 -8 V" + (to.y + BOX.height + 2) });
  const isDown = to.y > place.y, toY = isDown ? to.y - 1 : to.y + BOX.height + 1, toX = to.x + BOX.width - 22;
  return drawn("path", { ...shape, d: "M" + x + " " + y + " C" + (x + 36) + " " + y + " " + toX + " " + (isDown ? toY - 46 : toY + 46) + " " + toX + " " + toY });
}
function edges(state, places, row) {
  const parts = [];
  for (const [number, place] of Object.entries(places)) {
    const next = node(state.words["next " + number]), isListed = place.kind === "queue" || place.kind === "free", isNew = row && row.word === "next " + number && row.changes;
    const x = place.x + BOX.width, y = place.y + 34;
    if (next === "0") parts.push(...(isListed ? [ground(x, y)] : []));
    else if (next === "closed") parts.push(ground(x, y, "shut"));
    else if (isListed || isNew || play) parts.push(edge(place, places[next], isNew ? "new" : isListed ? "" : "off", row ? hue(row.actor) : ""));
  }
  const found = row && row.won === false && /^next (\d+)$/.exec(row.word), from = found && places[found[1]], to = found && places[node(row.swap[2])];
  if (from && to) {
    const x = from.x + BOX.width, y = from.y + 38, toX = to.x + BOX.width / 2, toY = to.y + BOX.height + 2;
    parts.push(drawn("path", { d: "M" + x + " " + y + "C" + (x + 14) + " " + (toY + 34) + " " + toX + " " + (toY + 40) + " " + toX + " " + toY, class: "edge ghost", "marker-end": "url(#headghost)" }),
      drawn("text", { x: toX + 14, y: toY + 22, class: "lost-word" }, "✗ not linked"));
  }
  return parts;
}
function inWords(state, { queue, free }) {
  const nodes = queue.nodes.map((number, index) => "node " + number + (index ? " with " + toldWord("value", state.words["value " + number]) : ", the dummy"));
  return ["Queue: " + (nodes.join(", then ") || "none") + ", then " + queue.end, "Head " + toldWord("", state.words.Head), "Tail " + toldWord("", state.words.Tail),
    "Free list: " + (free.nodes.map((number) => "node " + number).join(", then ") || "no node") + ", Free " + toldWord("", state.words.Free)];
}
function drawPicture(state, step, row) {
  const all = placesOf(state);
  drawBack(state, row);
  drawNodes(state, all.places, row);
  layers.front.replaceChildren(...signs(state, all, row), ...registersBelow(state, all.places, step));
  const layer = drawn("g", { id: "edges" }, null, ...edges(state, all.places, row));
  layers.edges.replaceWith(layer);
  layers.edges = layer;
  const said = inWords(state, all);
  picture.querySelector("title").textContent = said.join("; ");
  picture.setAttribute("aria-label", said.join("; "));
  return said;
}
