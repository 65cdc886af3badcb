// What if: from a step on the reader chooses who goes on, with the counts or without. These steps are the script's own, and nothing is
// proved of them; tools/page_steps compares them with the program.
let play = null;

// Where an actor goes on after its step, by docs/LINES.md, or the reply behind "=".
function ownLine(name) {
  return isLocked ? { push: "A1", pop: "B1", shut: "S6" }[name] : { push: "E2", pop: "D2", shut: "S1" }[name];
}
// An end of the list behind an actor's next: NULL, closed, or a node.
function endOf(me) {
  return { 0: "NULL", closed: "closed" }[node(me.next)] ?? "node";
}
function afterFree(me, hasEffect) {
  return hasEffect ? "= value " + me.val : ownLine("pop");
}
const GOES_ON = {
  N1: () => "N2",
  N2: (me) => (node(me.top) !== "0" ? (isWorn(me.top) ? "= refused 2 Free" : "N3") : Number(me.f) < Number(head.nodes) ? "N5" : "= refused 1"),
  N3: () => "N4",
  N4: (me, row) => (row.won ? ownLine("push") : "N1"),
  N5: (me, row) => (row.won ? ownLine("push") : "N1"),
  F1: (me, row, hasEffect) => (isWorn(row.now) ? afterFree(me, hasEffect) : "F2"),
  F2: () => "F3",
  F3: (me, row, hasEffect) => (row.won ? afterFree(me, hasEffect) : "F1"),
  E2: () => "E3",
  E3: (me) => (Number(me.mark) === limit ? "= refused 2 Next" : "E5"),
  E5: () => "E6",
  E6: () => "E7",
  E7: (me, row) => (!row.kept ? "E5" : { NULL: "E9", closed: "= refused 16", node: isWorn(me.tail) ? "= refused 2 Tail" : "E13" }[endOf(me)]),
  E9: (me, row) => (!row.won ? "E5" : isWorn(me.tail) ? "= done" : "E17"),
  E13: () => "E5",
  E17: () => "= done",
  D2: () => "D3",
  D3: () => "D4",
  D4: () => "D5",
  D5: (me, row) => {
    if (!row.kept) return "D2";
    if (node(me.head) !== node(me.tail)) return "D12";
    return { NULL: "= empty", closed: "= refused 16", node: isWorn(me.tail) ? "= refused 2 Tail" : "D10" }[endOf(me)];
  },
  D10: () => "D2",
  D12: (me) => (isWorn(me.head) ? "= refused 2 Head" : "D13"),
  D13: (me, row) => (row.won ? "F1" : "D2"),
  A1: () => "A2",
  A2: () => "A3",
  A3: (me, row) => (row.won ? "A4" : "A3"),
  A4: () => "A5",
  A5: (me, row) => (row.won ? "A6" : "A7"),
  A6: () => "A7",
  A7: (me, row, hasEffect) => (hasEffect ? "= done" : "= refused 16"),
  B1: (me, row) => (row.won ? "B2" : "B1"),
  B2: () => "B3",
  B3: (me) => (endOf(me) === "node" ? "B4" : "B6"),
  B4: (me) => (isWorn(me.head) ? "B6" : "B5"),
  B5: () => "B6",
  B6: (me, row, hasEffect) => (hasEffect ? "F1" : { NULL: "= empty", closed: "= refused 16", node: "= refused 2 Head" }[endOf(me)]),
  S1: () => "S2",
  S2: () => "S3",
  S3: (me, row) => (!row.kept ? "S1" : { NULL: "S4", closed: "= refused 16", node: isWorn(me.tail) ? "= refused 2 Tail" : "S5" }[endOf(me)]),
  S4: (me, row) => (row.won ? "= done" : "S1"),
  S5: () => "S1",
  S6: (me, row) => (row.won ? "S7" : "S6"),
  S7: () => "S8",
  S8: () => "S9",
  S9: (me, row, hasEffect) => (hasEffect ? "= done" : "= refused 16"),
};
// The line of a call's first step. A full pocket's node is in hand then, but for a shut.
function firstLine(call, isFull) {
  if (call === "shut") return ownLine("shut");
  if (call === "deq") return isFull ? "F1" : ownLine("pop");
  return isFull ? ownLine("push") : "N1";
}
// The reply to an actor that gives up before this line; none where it can't.
function replyToGive(me, name, hasEffect) {
  if (!["N1", "E5", "D2", "F1", "A3", "B1", "S1", "S6"].includes(name)) return null;
  return name === "F1" && hasEffect ? "value " + me.val : "refused 3";
}

// The row of an actor's step at a line.
function rowOf(words, me, actor, name, isLoose) {
  const line = LINES[name], word = line.word(me), found = holds(words, word), row = { actor, name, word, found, now: found, isLoose };
  if (line.does === "swap" && isAs(isLoose, line.old(me, actor), found) || line.does === "store") row.now = String(line.now(me, actor));
  if (line.does === "clear") row.now = ref(0, count(found));
  row.changes = row.now !== found;
  return row;
}
function hasEffect(it) {
  return !!it && it.at !== undefined && effects.has(run.rows[it.at - 1].name);
}

// The run gets longer by a step, a begin or a give, and can be taken back.
function goOn(rows, begins, stands) {
  play.done.push(run);
  run = new Run(rows, begins, stands);
}
function stepOn(actor) {
  const name = run.stands[actor];
  if (!name) return false;
  const state = run.stateAt(run.total), me = state.actors[actor], row = rowOf(state.words, me, actor, name, play.isLoose);
  const it = run.operations.findLast((other) => other.actor === actor), stands = { ...run.stands };
  change(me, row);
  const to = GOES_ON[name](me, row, hasEffect(it));
  if (to.startsWith("= ")) {
    row.reply = to.slice(2);
    delete stands[actor];
  } else stands[actor] = to;
  goOn([...run.rows, row], run.begins, stands);
  return true;
}
function giveOn(actor) {
  const name = run.stands[actor], me = name && run.stateAt(run.total).actors[actor];
  const reply = me && replyToGive(me, name, hasEffect(run.operations.findLast((other) => other.actor === actor)));
  if (!reply) return false;
  const stands = { ...run.stands };
  delete stands[actor];
  goOn([...run.rows, { actor, name, gives: "gives", reply, changes: false }], run.begins, stands);
  return true;
}
function beginOn(actor, call) {
  if (run.stands[actor]) return false;
  const me = run.stateAt(run.total).actors[actor], line = firstLine(call, me && me.has === "pocket");
  goOn(run.rows, [...run.begins, { step: run.total, actor, call }], { ...run.stands, [actor]: line });
  return true;
}
function shown(does) {
  return () => {
    if (does() === false) return;
    playLanes();
    show(run.total);
  };
}
function undo() {
  if (!play || !play.done.length) return;
  run = play.done.pop();
  playLanes();
  show(run.total);
}
function playLanes() {
  laneActors = [...new Set([...(play ? play.lanes : []), ...lanesOf()])].sort((a, b) => a - b);
}
function whatIf() {
  stopPlaying();
  if (play) {
    const { traced, step } = play;
    play = null;
    run = traced;
    laneActors = lanesOf();
    show(step);
    return;
  }
  const stands = {};
  for (const it of run.running(current)) stands[it.actor] = run.standing(it.actor, current) ?? firstLine(it.call, false);
  play = { traced: run, step: current, lanes: laneActors, isLoose: false, done: [] };
  run = new Run(run.rows.slice(0, current).map((row) => ({ ...row })), run.begins.filter((it) => it.step <= current), stands);
  show(run.total);
}
function leaveCountsOut() {
  play.isLoose = !play.isLoose;
  at("found-all").hidden = true;
  show(current);
}

function control(parts, name, does, label) {
  const it = made("button", null, name, ...parts);
  it.type = "button";
  if (label) it.setAttribute("aria-label", label);
  it.addEventListener("click", does);
  return it;
}
function choicesOf(actor, body) {
  const name = run.stands[actor], begins = [["enq " + body], ["deq"], ...(run.operations.some((it) => it.call === "shut") ? [["shut"]] : [])];
  if (!name) return begins.map(([call]) => control([badge(actor), " " + call], hue(actor), shown(() => beginOn(actor, call)), "Actor " + actor + " begins " + call));
  const it = run.operations.findLast((other) => other.actor === actor), step = control([badge(actor), " " + name], hue(actor), shown(() => stepOn(actor)), "Actor " + actor + " makes its next step, " + name);
  const canGive = replyToGive(run.stateAt(run.total).actors[actor], name, hasEffect(it));
  return canGive ? [step, control(["gives"], hue(actor), shown(() => giveOn(actor)), "Actor " + actor + " gives up")] : [step];
}
function drawPlay() {
  const part = at("play-bar");
  part.hidden = !play;
  at("what-if").setAttribute("aria-pressed", String(!!play));
  if (!play || run.total !== play.step) at("found-all").hidden = true;
  document.querySelector("main").classList.toggle("playing", !!play);
  if (!play) return;
  const body = String(Math.max(0, ...run.operations.map((it) => Number(it.call.split(" ")[1]) || 0)) + 1), actors = [];
  for (let actor = 1; actor <= Math.min(9, Number(head.actors)); actor += 1) actors.push(...choicesOf(String(actor), body));
  const counts = control([play.isLoose ? "counts are not compared" : "counts are compared"], "", leaveCountsOut);
  counts.setAttribute("aria-pressed", String(play.isLoose));
  part.replaceChildren(made("b", "What if, from step " + play.step + " on"), made("span", "Not the proved machine: the script steps.", "stands"), ...actors,
    ...(run.total === play.step ? [control(["all interleavings"], "", showAll)] : []), counts, control(["undo"], "", undo), control(["back to the run"], "", whatIf));
}
