// All interleavings of the calls that the run has from a step on: layer by layer, equal states joined, with how many schedules lead to
// each. A history is here who answered what, and which operation had ended before which began.
const MOST_STATES = 60000, MOST_SHOWN = 12;
const NEEDS = Object.fromEntries(Object.entries(LINES).map(([name, line]) => [name, new Set(line.needs.split(" "))]));
const LOCK_OF = { A3: "T_lock", B1: "H_lock", S6: "T_lock" };

// The operations that are running or come later, and the state in which they stand.
function openingState() {
  const state = run.stateAt(run.total), later = play.traced.begins.filter((it) => it.step > play.step);
  const calls = [...run.operations.map(({ actor, call, reply, first, last }) => ({ actor, call, reply, first, last })), ...later.map(({ actor, call }) => ({ actor, call }))];
  const before = calls.map((it) => calls.reduce((mask, other, index) => (it.first && other.last < it.first ? mask | 1 << index : mask), 0));
  const actors = [...new Set(calls.map((it) => it.actor))].sort((a, b) => a - b).map((actor) => {
    const queue = calls.map((it, index) => index).filter((index) => calls[index].actor === actor && !calls[index].last);
    const it = run.operations.findLast((other) => other.actor === actor && !other.last);
    const me = { ...(state.actors[actor] ?? { has: "" }), set: [], new: [], actor, queue, line: run.stands[actor] ?? "", hasEffect: hasEffect(it) };
    if (!me.line) beginNext(me, calls);
    return me;
  });
  return [calls, { words: state.words, actors, replies: calls.map((it) => it.reply ?? null), begun: calls.map((it) => !!it.first), before }];
}
function beginNext(me, calls) {
  me.line = "";
  if (!me.queue.length) return;
  const { call } = calls[me.queue[0]], isFull = me.has === "pocket";
  me.hasEffect = false;
  beginCall(me, me.actor, call);
  me.line = firstLine(call, isFull);
}
// What makes two states one: the words, and of each actor what its next lines need.
const wordKeys = new WeakMap();
function keyOf(state) {
  let key = wordKeys.get(state.words);
  if (key === undefined) {
    key = Object.keys(state.words).sort().map((name) => name + state.words[name]).join();
    wordKeys.set(state.words, key);
  }
  const actors = state.actors.map((me) => me.key ??= [me.line, me.has, me.hasEffect, ...REGISTERS.map((name) => me[name]), me.queue.length].join());
  return [key, ...actors, state.replies.join(), state.before.join()].join("|");
}
// Registers that nobody reads any more don't tell states apart.
function forget(me, calls) {
  const needs = NEEDS[me.line];
  for (const name of ["f", "top", "tail", "head", "next"]) if (!needs || !needs.has(name)) me[name] = undefined;
  if (!me.has && !(needs && needs.has("node"))) me.node = me.mark = undefined;
  if (!me.line || calls[me.queue[0]].call === "deq" && !me.hasEffect && me.line !== "D13" && me.line !== "B5") me.val = undefined;
}
function stepped(state, index, calls) {
  const me = { ...state.actors[index], set: [], new: [], key: undefined }, actors = state.actors.slice(), now = { ...state, actors }, own = me.queue[0];
  actors[index] = me;
  if (!state.begun[own]) {
    now.begun = state.begun.with(own, true);
    now.before = state.before.with(own, calls.reduce((mask, it, other) => (state.replies[other] ? mask | 1 << other : mask), 0));
  }
  const row = rowOf(state.words, me, me.actor, me.line, play.isLoose);
  change(me, row);
  if (row.changes) now.words = { ...state.words, [row.word]: row.now };
  if (effects.has(row.name) && row.changes) me.hasEffect = true;
  const to = GOES_ON[row.name](me, row, me.hasEffect);
  if (to.startsWith("= ")) {
    now.replies = state.replies.with(own, to.slice(2));
    if (me.has === "hand") me.has = "pocket";
    me.queue = me.queue.slice(1);
    beginNext(me, calls);
  } else me.line = to;
  forget(me, calls);
  return now;
}
function canStep(state, me) {
  return me.line && holds(state.words, LOCK_OF[me.line] ?? "no_lock") === "0";
}
function explore() {
  const began = performance.now(), [calls, first] = openingState();
  const found = { calls, count: 1, longest: 0, histories: new Map(), paths: [{ from: -1 }] };
  let layer = new Map([[keyOf(first), { state: first, ways: 1, path: 0 }]]);
  for (let depth = 0; layer.size; depth += 1) {
    const next = new Map();
    for (const it of layer.values()) {
      const able = it.state.actors.map((me, index) => index).filter((index) => canStep(it.state, it.state.actors[index]));
      for (const index of able) {
        const state = stepped(it.state, index, calls), key = keyOf(state), old = next.get(key);
        if (old) old.ways += it.ways;
        else {
          next.set(key, { state, ways: it.ways, path: found.paths.length });
          found.paths.push({ from: it.path, actor: it.state.actors[index].actor });
        }
      }
      if (!able.length) endsWith(found, it, depth);
    }
    found.count += next.size;
    if (found.count > MOST_STATES) return { tooMany: true, depth };
    layer = next;
  }
  return { ...found, time: performance.now() - began };
}
function endsWith(found, { state, ways, path }, depth) {
  found.longest = Math.max(found.longest, depth);
  const key = JSON.stringify([state.replies, state.before]), old = found.histories.get(key);
  if (old) old.ways += ways;
  else found.histories.set(key, { ways, path, replies: state.replies, before: state.before, isRight: isOne(found.calls, state.replies, state.before) });
}

// What a queue that is so does for a call that it answers so; none where no queue does.
function answered(queue, { actor, call }, reply) {
  const isRefused = /^refused (?!16)/.test(reply);
  if (isRefused) return queue;
  if (reply === "refused 16") return queue.isShut && (call !== "deq" || !queue.values.length) ? queue : null;
  if (call.startsWith("enq")) return queue.isShut ? null : { ...queue, values: [...queue.values, actor + " " + call.split(" ")[1]] };
  if (call === "shut") return queue.isShut ? null : { ...queue, isShut: true };
  if (reply === "empty") return queue.values.length || queue.isShut ? null : queue;
  return reply === "value " + queue.values[0] ? { ...queue, values: queue.values.slice(1) } : null;
}
// Whether some order of the operations, by which none comes before one that had ended when it began, is one of a queue.
function isOne(calls, replies, before) {
  const all = 2 ** calls.length - 1, seen = new Set();
  const goes = (done, queue) => {
    if (done === all) return true;
    const key = done + "|" + queue.isShut + queue.values.join();
    if (seen.has(key)) return false;
    seen.add(key);
    return calls.some((it, index) => {
      if (done >> index & 1 || before[index] & ~done) return false;
      const next = answered(queue, it, replies[index] ?? "");
      return next !== null && goes(done | 1 << index, next);
    });
  };
  return goes(0, { values: [], isShut: false });
}

function big(number) {
  return number < 1e15 ? number.toLocaleString("en") : number.toExponential(1).replace("e+", " · 10^");
}
// Which calls began after which had ended, in words.
function orderWords(calls, before) {
  const called = (index) => {
    const same = calls.filter((it) => it.actor === calls[index].actor && it.call === calls[index].call), place = same.indexOf(calls[index]);
    return calls[index].actor + "’s " + (same.length > 1 ? (["first ", "second ", "third "][place] ?? place + 1 + "th ") : "") + calls[index].call;
  };
  const after = calls.map((it, index) => calls.map((other, k) => k).filter((k) => before[index] >> k & 1 && calls[k].actor !== it.actor));
  return after.map((list, index) => (list.length ? "; " + called(index) + " began after " + list.map(called).join(" and ") : "")).join("");
}
function pathTo(found, path) {
  const actors = [];
  for (let at = path; found.paths[at].from >= 0; at = found.paths[at].from) actors.unshift(found.paths[at].actor);
  return actors;
}
function playPath(actors) {
  const later = play.traced.begins.filter((it) => it.step > play.step);
  for (const actor of actors) {
    if (!run.stands[actor]) beginOn(actor, later.splice(later.findIndex((it) => it.actor === actor), 1)[0].call);
    stepOn(actor);
  }
  playLanes();
  show(run.total);
}
function historyRow(found, it) {
  const answers = found.calls.map((call, index) => call.actor + ": " + shortly({ call: call.call, reply: it.replies[index] })).join(", ");
  return [answers + orderWords(found.calls, it.before), big(it.ways), verdict(it.isRight, "yes", "no"), control(["see one"], "", () => playPath(pathTo(found, it.path)))];
}
function showAll() {
  const part = at("found-all"), found = explore();
  part.hidden = false;
  if (found.tooMany) {
    part.replaceChildren(made("p", "More than " + big(MOST_STATES) + " states after " + found.depth + " steps: too many for a page."));
    return;
  }
  const histories = [...found.histories.values()].sort((a, b) => a.isRight - b.isRight || b.ways - a.ways), wrong = histories.filter((it) => !it.isRight);
  const sum = (list) => list.reduce((total, it) => total + it.ways, 0);
  const judged = wrong.length ? wrong.length + (wrong.length === 1 ? " is" : " are") + " no queue’s, by " + big(sum(wrong)) + " schedules" : "each is a queue’s";
  part.replaceChildren(made("p", null, "", made("b", big(sum(histories)) + " schedules"), " of at most " + found.longest + " steps, ", made("b", big(found.count) + " states"), ", ", made("b", histories.length + " histories"), ", of which ",
    tag(judged, wrong.length ? "lost" : "won"), " (" + Math.round(found.time) + " ms, counts " + (play.isLoose ? "not compared)" : "compared)") + (histories.length > MOST_SHOWN ? ". The first " + MOST_SHOWN + ":" : "")),
    table(["replies", "schedules", "a queue?", ""], histories.slice(0, MOST_SHOWN).map((it) => historyRow(found, it))));
}
