// The texts of the page: what was given, and what is told of its run.
const at = (id) => document.getElementById(id);
const told = at("told").textContent.trim().split("\n");
const head = Object.fromEntries(told.slice(1, 7).map((line) => line.split(" ")));
const limit = Number(head.limit), isLocked = head.queue === "two-lock";
const row = /^(\d+) (\d+) (\w+) (?:(gives)|(.+) found (.+) now (.+?))(?: reply (.+))?$/;
const names = { 1: "NoNode", 2: "WornOut", 3: "Busy", 16: "Closed" };

// The steps; where each actor stands then that has a call; and the fault of an event that is refused.
const tracedRows = told.slice(7, 7 + Number(head.steps)).map((line) => {
  const [, , actor, name, gives, word, found, now, reply] = row.exec(line);
  return { actor, name, gives, word, found, now, reply, changes: !gives && found !== now };
});
const behind = told.slice(7 + tracedRows.length);
const tracedStands = Object.fromEntries(behind.map((line) => /^(\d+) at (\w+)/.exec(line)).filter(Boolean).map((it) => [it[1], it[2]]));
const fault = behind.map((line) => /^fault (\d+) (\w+) line (\d+)$/.exec(line)).filter(Boolean)[0];

// A line of the given text. Bytes that a browser could take for something else are written by their numbers; what isn't UTF-8 stays so.
function plain(text) {
  return text.replace(/%[0-7][0-9A-F]|(?:%[89A-F][0-9A-F])+/g, (bytes) => {
    try {
      return decodeURIComponent(bytes);
    } catch {
      return bytes;
    }
  });
}

// What a line says before its comment: its words, one space between two.
const wordsOf = (line) => line.split("#")[0].trim().split(/\s+/).join(" ");

// The begins, by the number of steps before them, and the notes: a comment on lines of its own goes with the acts after it, up to the
// next empty line; one behind an act goes with the steps of that act; the first one is the title.
class Notes {
  constructor(lines) {
    this.step = 0;
    this.begins = [];
    this.notes = [];
    this.title = "";
    this.above = [];
    this.before = [];
    this.waiting = [];
    this.isOpen = this.hasActs = this.isDone = false;
    this.isRecipe = wordsOf(lines[0]) === "msq schedule 3";
    this.calls = new Set();
    this.walk(lines.map((line, index) => [line, index + 1]));
  }

  walk(lines) {
    for (let index = 0; index < lines.length && !this.isDone; index += 1) {
      const [line, number] = lines[index], hash = line.indexOf("#"), text = wordsOf(line);
      const note = hash < 0 ? "" : line.slice(hash + 1).trim();
      if (!text) this.comment(note, hash < 0);
      else if (text.startsWith("repeat ")) {
        const length = lines.slice(index + 1).findIndex(([other]) => wordsOf(other) === "end");
        const inside = lines.slice(index + 1, index + 1 + length), times = inside.some(([other]) => wordsOf(other)) ? Number(text.split(" ")[1]) : 1;
        for (let turn = 0; turn < times && !this.isDone; turn += 1) this.walk(inside);
        index += length + 1;
      } else if (/^(begin|steps?|give|until|finish) /.test(text)) this.act(text.split(" "), number, note);
      else this.isOpen = false;
    }
  }

  comment(note, isEmpty) {
    if (isEmpty) {
      if (!this.hasActs && !this.before.length) this.before = this.above;
      this.above = [];
      this.isOpen = false;
    } else if (note && this.isRecipe && !this.title) this.title = note;
    else if (note) {
      this.above = this.isOpen ? [...this.above, note] : [note];
      this.isOpen = true;
    }
  }

  act([kind, actor, what, body], number, note) {
    this.isOpen = false;
    if (!this.hasActs) this.notes[0] = joined(this.before.length ? this.before : this.above);
    this.hasActs = true;
    if (fault && number === Number(fault[3]) && this.step === tracedRows.length && (kind !== "begin" || this.calls.has(actor) || Number(actor) > Number(head.actors))) {
      this.isDone = true;
      return;
    }
    const from = this.step;
    if (kind === "begin") {
      this.begins.push({ step: from, actor, call: body ? what + " " + body : what });
      this.calls.add(actor);
    }
    this.step += this.length(kind, actor, what);
    for (let step = from; step < this.step; step += 1) if (tracedRows[step] && tracedRows[step].reply) this.calls.delete(actor);
    if (note) this.waiting.push(note);
    if (this.step > from) {
      this.notes.fill(0, this.notes.length);
      const words = joined([...this.above, ...this.waiting]);
      for (let step = from + 1; step <= this.step; step += 1) this.notes[step] = words;
      this.waiting = [];
    }
  }

  // How many steps an act is: by the rows, where it goes to a line or to the end of a call.
  length(kind, actor, what) {
    if (kind === "steps") return Number(what);
    if (kind === "step" || kind === "give") return 1;
    let count = 0;
    const next = () => tracedRows[this.step + count];
    if (kind === "until") while (next() && next().actor === actor && next().name !== what) count += 1;
    if (kind === "finish") while (next() && next().actor === actor && !(count && tracedRows[this.step + count - 1].reply)) count += 1;
    return count;
  }
}

// Comments as sentences, one after another.
function joined(list) {
  return list.map((it, index) => it[0].toUpperCase() + it.slice(1) + (index + 1 < list.length && !/[.:;,!?]$/.test(it) ? "." : "")).join(" ");
}
const givenLines = at("given").textContent.slice(1).replace(/\n+$/, "").split("\n").map(plain);
const notes = new Notes(givenLines);
