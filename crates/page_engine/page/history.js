const at = (id) => document.getElementById(id);
const lines = at("text").textContent.trim().split("\n");
const isRecording = lines[0].startsWith("msq");
const header = isRecording ? 2 : 1, count = Number(lines[header - 1].split(" ")[1]);
const answer = lines.slice(header + count), kind = answer[0].split(" ")[0];
const form = /^(\d+) (enq \d+|deq|shut) first (\d+) last (-|\d+) at (-|\d+) reply (.+)$/;
const recorded = /^(\S+) (enq \S+|deq|shut) from (\d+) to (-|\d+) reply (.+)$/;
const names = { 1: "NoNode", 2: "WornOut", 3: "Busy", 16: "Closed" };
const most = { items: 40, operations: 24, numbers: 60, events: 6, named: 200 };
const whose = isRecording ? "" : "actor ";
const causes = {
  Shape: "an operation ended and has no reply, or has one and didn't end.",
  Span: "an operation ended before it began.",
  Reply: "no such call is ever answered so.",
  Sooner: "by the end of a take, more takes of its value have ended than pushes of it have begun.",
  Order: "values that were pushed before the one that is taken are still there when its take ends.",
  Full: "the reply is empty, and a value is there all the time.",
  Late: "it began after one had ended that shut the queue, or was told so, and went on as if it were open.",
  Twice: "the queue is shut a second time.",
  Unshut: "it was told that the queue is shut, and by its end no shut had begun.",
  Undrained: "it was told that the queue is shut and empty, and a value is there until it ends.",
  Stuck: "no order of these operations gives each what it was told.",
  Room: "the states of the search for an order took more room than they may.",
  Unplaced: "the order that was found got no points.",
};

// Numbers have up to 64 bits.
function numberIn(text) {
  return text === "-" ? null : BigInt(text);
}

function operationIn(line) {
  const parts = (isRecording ? recorded : form).exec(line), [, who, call, first, last] = parts;
  return {
    who, call, first: numberIn(first), last: numberIn(last), at: isRecording ? null : numberIn(parts[5]),
    reply: parts[isRecording ? 5 : 6], isNamed: false,
  };
}

// The operations, with the numbers by which they are drawn: the text's own, or, where it has no points and some were found, those
// of the history that has them, which may be spread.
const operations = lines.slice(header, header + count).map(operationIn);
const hasOwn = operations.some((it) => it.at !== null);
const isFound = kind === "history" && !hasOwn;
let isSpread = false;
operations.forEach((it, index) => {
  it.drawn = it;
  if (isFound) {
    const [, , , first, last, point] = form.exec(answer[index + 1]);
    it.drawn = { first: numberIn(first), last: numberIn(last), at: numberIn(point) };
    isSpread = isSpread || it.drawn.first !== it.first || it.drawn.last !== it.last;
  }
});
const named = answer.slice(kind === "no" ? 1 : answer.length);
for (const line of named) operations[Number(line.split(" ")[0]) - 1 - header].isNamed = true;

// Each number at which something happens, by its place among them, from 1.
const numbers = [...new Set(operations.flatMap((it) => [it.drawn.first, it.drawn.last, it.drawn.at]).filter((it) => it !== null))];
numbers.sort((a, b) => (a < b ? -1 : a > b ? 1 : 0));
const total = numbers.length, placeOf = new Map(numbers.map((number, index) => [number, index + 1]));
const happening = Array.from({ length: total + 1 }, () => []);
operations.forEach((it) => {
  it.from = placeOf.get(it.drawn.first);
  it.to = it.drawn.last === null ? Infinity : placeOf.get(it.drawn.last);
  it.point = it.drawn.at === null ? Infinity : placeOf.get(it.drawn.at);
  happening[it.from].push([0, it]);
  if (it.point <= total) happening[it.point].push([1, it]);
  if (it.to <= total) happening[it.to].push([2, it]);
});
for (const list of happening) list.sort((a, b) => a[0] - b[0]);
const byBegin = [...operations].sort((a, b) => a.from - b.from);
const byPoint = operations.filter((it) => it.point <= total).sort((a, b) => a.point - b.point);
byPoint.forEach((it, index) => {
  it.order = index + 1;
  it.effect = effectOf(it);
});
const points = [...new Set(byPoint.map((it) => it.point))];
const marks = [...new Set(operations.filter((it) => it.isNamed).map((it) => it.from))].sort((a, b) => a - b);

function answered(reply) {
  const words = reply.split(" ");
  if (words[0] === "value" && words.length === 3) return "value (" + words[1] + "," + words[2] + ")";
  if (words[0] === "refused" && names[words[1]]) return "refused " + names[words[1]] + (words[2] ? " " + words[2] : "");
  return reply === "-" ? "no reply" : reply;
}

// How many of a list, which rises by this, are at a place or before it.
function countTo(list, place, of) {
  let low = 0, high = list.length;
  while (low < high) {
    const middle = (low + high) >> 1;
    if (of(list[middle]) <= place) low = middle + 1;
    else high = middle;
  }
  return low;
}

function itemOf(who, value) {
  return isRecording ? value : "(" + who + "," + value + ")";
}

// What an operation does to a queue as it takes effect, and the value that it pushes or takes. One that is pending does what the queue
// lets it do there, and nothing where that is empty or shut.
function effectOf(it) {
  const [call, value] = it.call.split(" "), [kind, ...parts] = it.reply.split(" ");
  if (it.reply === "refused 16" || kind === "closed") return { kind: call === "deq" ? "closed" : "told shut" };
  if (kind === "refused") return { kind: "none" };
  if (it.reply === "-") return { kind: call === "shut" ? "pending shut" : call === "enq" ? "pending push" : "pending take", item: itemOf(it.who, value) };
  if (call === "enq") return { kind: "push", item: itemOf(it.who, value) };
  if (call === "shut" || kind === "empty") return { kind: call === "shut" ? "shut" : "empty" };
  return { kind: "take", item: isRecording ? parts[0] : "(" + parts.join(",") + ")" };
}

// The queue after so many operations took effect, and whether a queue does all that.
function queueAfter(many) {
  const items = [];
  let front = 0, isShut = false, isOne = true;
  for (let index = 0; index < many; index += 1) {
    const { kind, item } = byPoint[index].effect, isEmpty = front === items.length;
    if (kind === "push" || kind === "pending push" && !isShut) {
      items.push(item);
      isOne = isOne && !isShut;
    } else if (kind === "take") {
      isOne = isOne && !isEmpty && items[front] === item;
      if (!isEmpty) front += 1;
    } else if (kind === "pending take") {
      if (!isEmpty) front += 1;
    } else if (kind === "pending shut") {
      isShut = true;
    } else if (kind === "shut") {
      isOne = isOne && !isShut;
      isShut = true;
    } else if (kind === "empty") {
      isOne = isOne && isEmpty && !isShut;
    } else if (kind === "closed" || kind === "told shut") {
      isOne = isOne && isShut && (isEmpty || kind === "told shut");
    }
  }
  return { items, front, isShut, isOne };
}

function made(tag, text, name) {
  const part = document.createElement(tag);
  if (text !== undefined) part.textContent = text;
  if (name) part.className = name;
  return part;
}

function line(table, cells, tag) {
  const row = made("tr");
  cells.forEach((text, index) => {
    const cell = made(tag || (index === 0 ? "th" : "td"), text);
    if (cell.tagName === "TH") cell.scope = tag ? "col" : "row";
    row.append(cell);
  });
  table.append(row);
  return row;
}

function begun(table, caption, names) {
  table.replaceChildren(made("caption", caption));
  line(table, names, "th");
}

function drawQueue(place) {
  const many = countTo(byPoint, place, (it) => it.point), { items, front, isShut, isOne } = queueAfter(many);
  const shown = items.slice(front, front + most.items), list = shown.map((item) => {
    const entry = made("li");
    entry.append(made("span", item));
    return entry;
  });
  if (!shown.length) list.push(made("li", byPoint.length ? "empty" : "no operation has a point"));
  if (items.length - front > shown.length) list.push(made("li", "and " + (items.length - front - shown.length) + " more"));
  if (isShut) list.push(made("li", "shut"));
  if (!isOne) list.push(made("li", "as no queue does by these points"));
  at("queue").replaceChildren(...list);
}

// What a table has of an operation beside its bar.
function cellsOf(it, place) {
  const isOver = it.to <= place, isPlaced = it.point <= place;
  const placed = !byPoint.length ? [] : [isPlaced && !isSpread ? String(it.drawn.at) : "", isPlaced ? String(it.order) : ""];
  const cells = [it.who, it.call, String(it.first), isOver ? String(it.last) : "", ...placed, isOver ? answered(it.reply) : "pending"];
  return named.length ? [...cells, it.isNamed ? "yes" : ""] : cells;
}

function barOf(it, place, begin, span) {
  const bar = made("td", undefined, "bar"), isOver = it.to <= place, end = isOver ? it.to : place;
  const x = (number) => 100 * (Math.max(number, begin) - begin) / Math.max(1, span - 1);
  bar.setAttribute("aria-hidden", "true");
  if (end >= begin) {
    const rule = made("i", undefined, (isOver ? "" : "open ") + (it.isNamed ? "named" : ""));
    rule.style.left = x(it.from) + "%";
    rule.style.width = Math.max(1, x(end) - x(it.from)) + "%";
    bar.append(rule);
  }
  if (it.point <= place && it.point >= begin) {
    const star = made("b", "*");
    star.style.left = x(it.point) + "%";
    bar.append(star);
  }
  return bar;
}

function drawHistory(place) {
  const many = countTo(byBegin, place, (it) => it.from), all = byBegin.slice(0, many);
  const running = all.filter((it) => it.to > place).slice(-most.operations / 2);
  const ended = all.filter((it) => it.to <= place).slice(running.length - most.operations);
  const drawn = new Set([...ended, ...running, ...all.filter((it) => it.isNamed)]), shown = all.filter((it) => drawn.has(it));
  const span = Math.min(total, most.numbers), begin = Math.max(1, place - span + 1);
  const columns = [isRecording ? "caller" : "actor", "call", span < total ? "the last " + span + " numbers" : "all numbers",
    "from", "to", ...(byPoint.length ? ["takes effect at", "as"] : []), "reply"];
  begun(at("history"), "History so far: " + many + " of " + count + " operations have begun"
    + (shown.length < many ? ", " + (many - shown.length) + " are not shown" : ""),
    named.length ? [...columns, "in the reason"] : columns);
  for (const it of shown) {
    const row = line(at("history"), cellsOf(it, place));
    if (it.isNamed) row.className = "named";
    row.children[1].after(barOf(it, place, begin, span));
  }
}

// A lane for each caller of an operation that is in the picture: its bars, with a diamond where one takes effect.
const lane = { most: 12, height: 34, left: 130, width: 960 };

function drawn(tag, shape, text, ...parts) {
  const part = document.createElementNS(at("svg").namespaceURI, tag);
  for (const [name, value] of Object.entries(shape)) part.setAttribute(name, value);
  if (text !== undefined) part.textContent = text;
  part.append(...parts);
  return part;
}

function shortly(it, place) {
  const words = it.reply.split(" ");
  return it.call + (it.to > place ? "" : " → " + (words[0] === "value" ? words[words.length - 1] : answered(it.reply)));
}

function laneBar(it, y, place, begin, x) {
  const left = x(Math.max(it.from, begin)), right = x(Math.min(it.to, place)), kind = (it.to > place ? "open " : "") + (it.isNamed ? "named" : "");
  const parts = [drawn("rect", { x: left, y: y + 8, width: Math.max(6, right - left), height: 18, rx: 4, class: "op " + kind }), drawn("text", { x: left + 5, y: y + 21 }, shortly(it, place))];
  if (it.point >= begin && it.point <= place) parts.push(drawn("path", { d: "M" + x(it.point) + " " + y + "l6 6l-6 6l-6 -6z", class: "diamond" }));
  return drawn("g", {}, undefined, ...parts);
}

function drawLanes(place) {
  const span = Math.min(total, most.numbers), begin = Math.max(1, place - span + 1), x = (number) => lane.left + (number - begin) * (lane.width - lane.left - 10) / Math.max(1, span - 1);
  const there = byBegin.slice(0, countTo(byBegin, place, (it) => it.from)).filter((it) => it.to >= begin);
  const callers = [...new Set(there.map((it) => it.who).reverse())].slice(0, lane.most), known = callers.sort((a, b) => (Number(a) - Number(b)) || (a < b ? -1 : 1));
  const rows = known.map((who, index) => drawn("g", { class: "lane" }, undefined, drawn("text", { x: 4, y: index * lane.height + 21, class: "who" }, whose + who),
    drawn("path", { d: "M" + lane.left + " " + (index * lane.height + 17) + "H" + lane.width, class: "line" }), ...there.filter((it) => it.who === who).map((it) => laneBar(it, index * lane.height, place, begin, x))));
  const picture = drawn("svg", { viewBox: "0 0 " + lane.width + " " + Math.max(1, known.length * lane.height), role: "img", "aria-label": "A lane for each caller" }, undefined, ...rows);
  at("lanes").replaceChildren(picture);
}

// The operations by their points so far.
function drawOrder(place) {
  const done = byPoint.slice(0, countTo(byPoint, place, (it) => it.point)), told = done.slice(-8).map((it) => whose + it.who + "'s " + shortly(it, place));
  at("order").textContent = byPoint.length ? "Order of effects: " + (done.length > told.length ? "… → " : "") + (told.join(" → ") || "none so far") : "";
}

function sentence(place) {
  if (place === 0) return "Before the first number.";
  const told = happening[place].map(([what, it]) => whose + it.who + "'s " + it.call
    + [" begins", " takes effect", " ends: " + answered(it.reply)][what] + (it.isNamed && what === 0 ? ", which the reason names" : ""));
  const rest = told.length - most.events;
  return "Number " + place + " of " + total + (isSpread ? ": " : ", " + numbers[place - 1] + ": ")
    + told.slice(0, most.events).join("; ") + (rest > 0 ? "; and " + rest + " more" : "") + ".";
}

function verdict() {
  const words = answer[0].split(" ");
  if (kind === "no") return "It is not one of a queue. Line " + (Number(words[1]) + header) + ", operation " + words[1] + ": " + causes[words[2]];
  if (kind === "open") return "Whether it is one of a queue is open: " + causes[words[1]];
  if (!count) return "It is one of a queue.";
  return "It is one of a queue. " + (hasOwn ? "The stars are the points that it came with." : "The stars are points that were found.");
}

let current = -1, timer = null;

function show(place) {
  place = Math.max(0, Math.min(total, place));
  if (place === current) return;
  current = place;
  at("slider").value = place;
  at("slider").setAttribute("aria-valuetext", "number " + place + " of " + total);
  at("what").textContent = sentence(place);
  drawQueue(place);
  drawLanes(place);
  drawOrder(place);
  drawHistory(place);
  followAddress("#at=" + place);
  if (place === total) stop();
}

function followAddress(hash) {
  if (location.hash === hash) return;
  try {
    history.replaceState(null, "", hash);
  } catch {
    location.replace(hash);
  }
}

function placeInAddress() {
  const found = /^#at=(\d+)$/.exec(location.hash);
  return found ? Number(found[1]) : null;
}

function stop() {
  clearInterval(timer);
  timer = null;
  at("play").textContent = "Play";
  at("play").setAttribute("aria-pressed", "false");
}

function play() {
  if (timer) return stop();
  if (current === total) show(0);
  timer = setInterval(() => show(current + 1), 700);
  at("play").textContent = "Stop";
  at("play").setAttribute("aria-pressed", "true");
}

const moves = {
  first: () => show(0),
  back: () => show(current - 1),
  on: () => show(current + 1),
  last: () => show(total),
  play,
  previous: () => show(points[countTo(points, current - 1, (it) => it) - 1] ?? 0),
  next: () => show(points[countTo(points, current, (it) => it)] ?? total),
  reason: () => show(marks[countTo(marks, current, (it) => it)] ?? marks[0] ?? total),
};
for (const [id, move] of Object.entries(moves)) at(id).addEventListener("click", move);
at("reason").hidden = !marks.length;
at("slider").max = total;
at("slider").addEventListener("input", () => show(Number(at("slider").value)));
const keys = { ArrowLeft: "back", ArrowRight: "on", Home: "first", End: "last", n: "next", p: "previous", r: "reason", " ": "play" };
document.addEventListener("keydown", (event) => {
  const name = keys[event.key], isButton = event.target.tagName === "BUTTON" && event.key === " ";
  if (!name || isButton || event.ctrlKey || event.altKey || event.metaKey) return;
  event.preventDefault();
  moves[name]();
});
at("title").textContent = "A " + (isRecording ? "recording" : "history") + " of " + count + " operations";
at("found").textContent = verdict();
if (named.length) {
  begun(at("named"), "The reason's operations" + (named.length > most.named ? ", the first " + most.named : ""), ["line", "which says"]);
  for (const it of named.slice(0, most.named)) line(at("named"), [it.split(" ")[0], it.slice(it.indexOf(" ") + 1)]);
}
addEventListener("hashchange", () => show(placeInAddress() ?? current));
// At the reason, if there is one.
show(placeInAddress() ?? marks[0] ?? 0);
