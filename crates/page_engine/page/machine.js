// What each step leaves in the words and in its actor's registers.
const effects = new Set("E9 D13 A5 B5 S4 S8".split(" "));
const EVERY = 128;

function ref(number, times) {
  return number + " " + times;
}
function node(text) {
  return text === undefined ? "0" : text.split(" ")[0];
}
function count(text) {
  return text === undefined ? 0 : Number(text.split(" ")[1]);
}
function holds(words, word) {
  return words[word] ?? (word.endsWith("lock") ? "0" : "0 0");
}
function isWorn(text) {
  return count(text) === limit;
}
// Whether a word is as an actor expects it: by "what if" counts may be left out.
function isAs(isLoose, expected, found) {
  return isLoose ? node(String(expected)) === node(found) : String(expected) === found;
}

function put(me, name, value) {
  me[name] = value;
  if (!me.set.includes(name)) me.set.push(name);
  me.new.push(name);
}
// An actor takes a node in hand, or lets it go.
function grasp(me, number, mark) {
  put(me, "node", String(number));
  put(me, "mark", String(mark));
  me.has = "hand";
}
function letGo(me, row) {
  const isSpent = ["E9", "A5", "F3"].includes(row.name) && row.won;
  const isSetAside = row.name === "F1" && isWorn(row.now) || row.name === "E3" && Number(me.mark) === limit;
  if (isSpent || isSetAside) me.has = "";
}
// What a step leaves in its actor's registers, and what its row didn't say: what was expected, and whether it was found.
function change(me, row) {
  const line = LINES[row.name], name = row.name;
  if (line.does === "swap") {
    row.swap = [row.word, String(line.old(me, row.actor)), String(line.now(me, row.actor))];
    row.won = isAs(row.isLoose, row.swap[1], row.found);
  }
  if (line.does === "same") {
    row.kept = isAs(row.isLoose, me[line.of], row.now);
    row.other = me[line.of];
  }
  if (line.does === "load") put(me, line.of, row.now);
  if (name === "N4" && row.won) grasp(me, node(me.top), count(me.next));
  if (name === "N5" && row.won) grasp(me, Number(me.f) + 1, 0);
  if (name === "E3") put(me, "mark", String(count(row.found)));
  if (name === "D13" && row.won || name === "B5") grasp(me, node(me.head), count(me.next));
  letGo(me, row);
}

// The words and the actors before the first step; after a begin; and after a step.
function freshState() {
  return { words: { Fresh: "1", Free: "0 0", Head: "1 0", Tail: "1 0", T_lock: "0", H_lock: "0" }, actors: {} };
}
function beginCall(me, actor, call) {
  if (me.has === "pocket" && call !== "shut") me.has = "hand";
  me.val = call.startsWith("enq") ? actor + " " + call.split(" ")[1] : undefined;
}
function takeBegin(state, it) {
  const me = state.actors[it.actor] ?? (state.actors[it.actor] = { has: "" });
  beginCall(me, it.actor, it.call);
  me.set = [...(me.has ? ["node", "mark"] : []), ...(me.val ? ["val"] : [])];
  me.new = [];
}
function takeStep(state, row) {
  for (const me of Object.values(state.actors)) me.new = [];
  const me = state.actors[row.actor];
  if (!row.gives) {
    change(me, row);
    state.words[row.word] = row.now;
  }
  if (row.reply && me.has === "hand") me.has = "pocket";
}

// A run: its steps, begins, and where actors stand that have a call when all is done.
class Run {
  constructor(rows, begins, stands) {
    Object.assign(this, { rows, begins, stands, total: rows.length });
    this.lookBack();
    this.lookThrough();
    this.states = [];
    this.stateAt(this.total);
    this.misses = rows.map((row, index) => (row.swap && !row.won ? index + 1 : 0)).filter(Boolean);
  }

  // Before which line each actor stands after some of the steps, by its next row.
  lookBack() {
    this.standsAt = [];
    const now = { ...this.stands };
    for (let step = this.total; step >= 0; step -= 1) {
      if (step % EVERY === 0) this.standsAt[step / EVERY] = { ...now };
      if (step > 0) now[this.rows[step - 1].actor] = this.rows[step - 1].name;
    }
  }

  standing(actor, step) {
    for (let index = step; index < this.total; index += 1) {
      if (index % EVERY === 0) return this.standsAt[index / EVERY][actor];
      if (this.rows[index].actor === actor) return this.rows[index].name;
    }
    return this.stands[actor];
  }

  // The operations, with the step at which each takes effect.
  lookThrough() {
    this.operations = [];
    const running = {};
    let begun = 0;
    const begin = (step) => {
      for (; begun < this.begins.length && this.begins[begun].step <= step; begun += 1) {
        const { actor, call } = this.begins[begun];
        this.operations.push(running[actor] = { actor, call, begun: this.begins[begun].step });
      }
    };
    this.rows.forEach((row, index) => {
      begin(index);
      row.operation = running[row.actor];
      follow(running[row.actor], row, index + 1);
      if (row.reply) delete running[row.actor];
    });
    begin(this.total);
    this.pointed = this.operations.filter((it) => it.at).sort((a, b) => a.at - b.at);
    this.points = this.pointed.map((it) => it.at);
    this.isPoint = new Map(this.pointed.map((it) => [it.at, it]));
  }

  stateAt(step) {
    if (!this.states.length) {
      const first = freshState();
      this.beginAt(first, 0);
      this.states.push(JSON.stringify(first));
    }
    const from = Math.min(Math.floor(step / EVERY), this.states.length - 1), state = JSON.parse(this.states[from]);
    for (let done = from * EVERY; done < step; done += 1) {
      takeStep(state, this.rows[done]);
      this.beginAt(state, done + 1);
      if ((done + 1) % EVERY === 0 && this.states.length === (done + 1) / EVERY) this.states.push(JSON.stringify(state));
    }
    return state;
  }

  beginAt(state, step) {
    for (const it of this.begunAt(step)) takeBegin(state, it);
  }

  begunAt(step) {
    this.byBegin ??= Map.groupBy ? Map.groupBy(this.operations, (it) => it.begun) : grouped(this.operations);
    return this.byBegin.get(step) ?? [];
  }

  running(step) {
    return this.operations.filter((it) => it.begun <= step && !(it.last <= step));
  }

  // Whether an operation is seen to have taken effect: an empty answer is known only when it is given.
  isSeen(it, step) {
    return it.at <= step && (it.last <= step || effects.has(this.rows[it.at - 1].name));
  }
}
function grouped(operations) {
  const groups = new Map();
  for (const it of operations) groups.set(it.begun, [...(groups.get(it.begun) ?? []), it]);
  return groups;
}
function follow(it, row, step) {
  it.first ??= step;
  if (effects.has(row.name) && row.changes) it.at = step;
  if (row.name === "D4" || row.name === "B3") it.look = step;
  if (!row.reply) return;
  it.at ??= row.reply === "empty" ? it.look : step;
  it.last = step;
  it.reply = row.reply;
}

let run = new Run(tracedRows, notes.begins, tracedStands);
let current = 0;
