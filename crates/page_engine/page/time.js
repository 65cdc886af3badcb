// A lane for each actor: operations as bars, each step with its line, and the points; and the order of effects.
const LANES = { most: 8, steps: 42, width: 960, left: 66 };
let windowFrom = 1, laneActors = lanesOf();

function lanesOf() {
  return [...new Set(run.operations.map((it) => it.actor))].sort((a, b) => a - b).slice(0, LANES.most);
}
// Where the steps stand that are shown.
function scaleOf(step) {
  const span = Math.min(run.total, LANES.steps), cell = (LANES.width - LANES.left) / Math.max(1, span);
  windowFrom = run.total > span ? Math.max(1, Math.min(run.total - span + 1, step - Math.floor(span * 2 / 3))) : 1;
  return { from: windowFrom, to: windowFrom + span - 1, cell, x: (number) => LANES.left + (number - windowFrom) * cell };
}
function bar(it, y, step, { from, to, cell, x }) {
  const first = Math.max(it.first, from), last = Math.min(it.last ?? to, to), isLater = it.first > step;
  const text = isLater || !(it.last <= step) ? it.call : shortly(it);
  return [drawn("rect", { x: x(first) + 1, y: y + 1, width: Math.max(4, (last - first + 1) * cell - 2), height: 15, rx: it.last ? 4 : 0, class: "op" + (isLater ? " later" : "") }),
    drawn("text", { x: x(first) + 5, y: y + 13, class: isLater ? "later" : "" }, text)];
}
function laneOf(actor, y, step, scale) {
  const lane = drawn("g", { class: hue(actor) }, null, drawn("circle", { cx: 12, cy: y + 31, r: 9, style: "fill:var(--me)" }), drawn("text", { x: 12, y: y + 35, class: "mid of" }, actor),
    drawn("path", { d: "M" + LANES.left + " " + (y + 31) + "H" + LANES.width, style: "stroke:var(--rule)" }));
  for (const it of run.operations) if (it.actor === actor && it.first <= scale.to && !(it.last < scale.from)) lane.append(...bar(it, y, step, scale));
  return lane;
}
function diamond(it, y, step, { cell, x }) {
  return drawn("path", { d: "M" + (x(it.at) + cell / 2) + " " + (y + 11.5) + "l7 7l-7 7l-7 -7z", class: "diamond" + (run.isSeen(it, step) ? "" : " later") });
}
function cell(number, y, step, { cell: width, x }) {
  const row = run.rows[number - 1], kind = row.won === false ? "lost" : row.changes ? "" : "read", text = row.gives ? "give" : (kind === "lost" && width > 30 ? "✗" : "") + row.name;
  return drawn("g", { class: hue(row.actor) + (number > step ? " later" : "") }, null, drawn("rect", { x: x(number) + 1, y: y + 23, width: width - 2, height: 17, rx: 3, class: "cell " + kind }),
    drawn("text", { x: x(number) + width / 2, y: y + 35.5, class: "mid " + (kind === "lost" ? "miss" : kind ? "off" : "on") + (width < 22 ? " small" : "") }, text));
}
function drawLanes(step) {
  const scale = scaleOf(step), lane = laneActors.length > 2 ? 43 : 46, height = laneActors.length * lane + 16, parts = [], numbers = [];
  if (step >= scale.from && step <= scale.to) parts.push(drawn("rect", { x: scale.x(step), y: 0, width: scale.cell, height, class: "now" }));
  laneActors.forEach((actor, index) => parts.push(laneOf(actor, index * lane, step, scale)));
  for (let number = scale.from; number <= scale.to; number += 1) {
    const index = laneActors.indexOf(run.rows[number - 1].actor);
    if (index >= 0) parts.push(cell(number, index * lane, step, scale));
    if (number === scale.from || number % 5 === 0 || number === step) numbers.push(drawn("text", { x: scale.x(number) + scale.cell / 2, y: height - 4, class: "mid" + (number === step ? " name" : " dim") }, number));
  }
  for (const it of run.pointed) if (it.at >= scale.from && it.at <= scale.to && laneActors.includes(it.actor)) parts.push(diamond(it, laneActors.indexOf(it.actor) * lane, step, scale));
  const picture = drawn("svg", { viewBox: "0 0 " + LANES.width + " " + height, role: "img", "aria-label": "Steps " + scale.from + " to " + scale.to + ", a lane for each actor" }, null, ...parts, ...numbers, drawn("text", { x: 2, y: height - 4, class: "dim" }, "step"));
  picture.addEventListener("click", (event) => {
    const box = picture.getBoundingClientRect(), number = scale.from + Math.floor(((event.clientX - box.left) * LANES.width / box.width - LANES.left) / scale.cell);
    if (number >= scale.from - 1) show(number);
  });
  at("lanes").replaceChildren(picture);
  if (isSmall) requestAnimationFrame(() => { at("lanes").scrollLeft = (scale.x(Math.max(step, scale.from)) / LANES.width) * at("lanes").scrollWidth - at("lanes").clientWidth * 0.6; });
}

// The operations by their points so far, the queue that these leave, and which of them no queue answers so.
function byPoints(step) {
  const done = run.pointed.filter((it) => run.isSeen(it, step)), values = [], wrong = new Set();
  for (const it of done) {
    const isLinked = effects.has(run.rows[it.at - 1].name), reply = it.last <= step ? it.reply : "";
    if (it.call.startsWith("enq") && isLinked) values.push(it.actor + " " + it.call.split(" ")[1]);
    else if (it.call === "deq" && isLinked) {
      const front = values.shift();
      if (reply && reply !== "value " + front) wrong.add(it);
    } else if (reply === "empty" && values.length) wrong.add(it);
  }
  return { done, values, wrong };
}
function drawOrder(state, step) {
  const { done, values, wrong } = byPoints(step), shown = done.slice(-6);
  const listed = chainOf(state, "Head", Infinity).nodes.slice(1).map((number) => state.words["value " + number]);
  const effect = (it, index) => [index ? " → " : done.length > shown.length ? "… " : "", badge(it.actor), " " + shortly(it.last <= step ? it : { call: it.call }) + " (" + it.at + ")", ...(wrong.has(it) ? [" ", tag("✗ no queue answers so", "lost")] : [])];
  const queue = values.length ? made("span", (values.length > 12 ? ["…", ...values.slice(-12)] : values).map((it) => toldWord("value", it)).join(" "), "mono") : "empty";
  at("order").replaceChildren(made("span", null, "", made("b", "Order of effects: "), ...(done.length ? shown.flatMap(effect) : ["none so far"])), " ",
    made("span", null, "", made("b", "The queue by these: "), queue, " ", verdict(listed.join() === values.join(), "as in the list", "not in the list")));
}
function drawTime(state, step) {
  drawLanes(step);
  drawOrder(state, step);
}
