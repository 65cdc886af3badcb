// What is said of a step, and what it expected, found and wrote.
function differing(a, b) {
  const left = String(a).split(" "), right = String(b).split(" ");
  return left.map((part, index) => part !== right[index]);
}
function cellsOf(row) {
  if (!row || row.gives) return null;
  const line = LINES[row.name];
  if (row.swap) return { heads: ["expected", "found", row.won ? "now" : "would write"], cells: [row.swap[1], row.found, row.swap[2]], isSame: row.won };
  if (line.does === "same") return { heads: [line.of + " as read", "found"], cells: [row.other, row.now], isSame: row.kept };
  if (line.does === "load") return { heads: [spoken(row.word) + " holds"], cells: [row.now] };
  return { heads: ["before", "now"], cells: [row.found, row.now] };
}
function wordParts(word, text, marks) {
  const parts = String(text).split(" "), part = (index) => made(marks[index] ? "b" : "span", parts[index].replace("closed", "shut"));
  if (parts.length === 1) return [part(0)];
  return word.startsWith("val") ? ["(", part(0), ",", part(1), ")"] : ["<", part(0), ",", part(1), ">"];
}
function drawCells(row) {
  at("cells").replaceChildren();
  const cells = cellsOf(row);
  if (!cells) return;
  const isTest = cells.isSame !== undefined, marks = isTest && cells.cells[0] !== cells.cells[1] ? differing(cells.cells[0], cells.cells[1]) : [];
  const heads = cells.heads.map((text) => made("th", text)), kind = (index) => (!isTest || index > 1 ? "" : cells.isSame ? " same" : " differs");
  for (const it of heads) it.scope = "col";
  at("cells").append(made("tr", null, "", ...heads), made("tr", null, "", ...cells.cells.map((text, index) => made("td", null, "mono" + kind(index), ...wordParts(row.word, text, index < 2 ? marks : [])))));
}

function word(row) {
  return made("b", spoken(row.word), "mono");
}
// Whether an exchange found what it expected but for the count.
function isABA(row) {
  return differing(row.swap[1], row.found).join() === "false,true";
}
function whyLost(row) {
  if (isABA(row)) {
    const what = node(row.found) === "0" ? "no node (NULL)" : node(row.found) === "closed" ? "the closed end" : "node " + node(row.found);
    return "Both name " + what + ", only the count differs: " + spoken(row.word) + " was changed and came back since actor " + row.actor + " read it. That is ABA; without counts this exchange would be won.";
  }
  if (row.word.endsWith("lock")) return "Actor " + row.found + " holds the lock.";
  return spoken(row.word) + " was changed since actor " + row.actor + " read it.";
}
function saidOf(row) {
  const line = LINES[row.name];
  if (row.gives) return { parts: ["gives up before it"], why: "" };
  if (row.swap) {
    const parts = ["compare-exchange of ", word(row), " ", verdict(row.won, "won", "lost")];
    if (!row.won) return { parts: isABA(row) ? [...parts, " ", tag("ABA", "lost")] : parts, why: whyLost(row) };
    const isLucky = row.isLoose && row.swap[1] !== row.found;
    return { parts, why: isLucky ? "Counts are not compared: expected " + toldWord(row.word, row.swap[1]) + ", found " + toldWord(row.word, row.found) + ". With counts this exchange would be lost. Look what it does to the list." : line.sense };
  }
  if (line.does === "same") return { parts: ["reads ", word(row), row.kept ? " again: still as it was read " : " again: it has changed ", verdict(row.kept, "same", "differs")], why: line.sense };
  if (line.does === "load") return { parts: ["reads ", word(row), " into ", made("b", line.of, "mono")], why: line.sense };
  if (line.does === "clear") return { parts: ["clears the node bits of ", word(row), ", keeps its count"], why: line.sense };
  return { parts: ["stores into ", word(row)], why: line.sense };
}
function begunWords(step) {
  return run.begunAt(step).map((it) => "Actor " + it.actor + " begins " + it.call + ".");
}
function stopWords(step) {
  return fault && !play && step === run.total ? ["The event in line " + fault[3] + " is refused: " + fault[2] + "."] : [];
}
function sentence(step, row) {
  if (step === 0) return { parts: ["Before the first step."], why: [...begunWords(0), ...stopWords(0)].join(" ") };
  const it = row.operation, said = saidOf(row), point = run.isPoint.get(step);
  const parts = [badge(row.actor), " ", made("b", it.call), " · ", made("b", row.name, "mono"), " ", ...said.parts, " "];
  if (point) parts.push(tag("◆ " + (point === it ? "takes effect" : shortly(point) + " takes effect"), "point"), " ");
  if (row.reply) parts.push(tag("→ " + answer(row.reply), "reply"));
  const goesOn = it.last <= step ? [] : ["Goes on at " + run.standing(row.actor, step) + "."];
  return { parts, why: [said.why, ...goesOn, ...begunWords(step), ...stopWords(step)].filter(Boolean).join(" ") };
}
// Where more is said, it is written smaller, so that nothing scrolls.
const MOST_LETTERS = 300;

function drawSaid(step, row) {
  const { parts, why } = sentence(step, row);
  at("what").replaceChildren(...parts);
  const note = play && step > play.step ? "" : notes.notes[step] || "";
  at("say").className = "panel " + (row ? hue(row.actor) : "") + (why.length + note.length > MOST_LETTERS ? " long" : "");
  at("why").textContent = why;
  at("note").textContent = note;
  drawCells(row);
}
