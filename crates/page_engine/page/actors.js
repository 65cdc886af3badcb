// A card for each actor: its call, its line, what its next exchange would do, and the registers that it still needs.
const REGISTERS = ["f", "top", "head", "tail", "next", "val", "node", "mark"];
const READ_FROM = { tail: "Tail", head: "Head", top: "Free" };

// What an actor's next line needs, and what the line needed that it has just lost.
function needsOf(actor, step) {
  const line = LINES[run.standing(actor, step)], row = step ? run.rows[step - 1] : null;
  const lost = row && row.actor === actor && row.won === false ? LINES[row.name].needs.split(" ") : [];
  return [...(line ? line.needs.split(" ") : []), ...lost];
}
function isStale(state, me, name) {
  return READ_FROM[name] !== undefined && state.words[READ_FROM[name]] !== me[name];
}
// What an actor's next line would find, and whether it is as expected.
function dueOf(state, actor, name) {
  const me = state.actors[actor], line = LINES[name], isLoose = !!play && play.isLoose && current === run.total;
  if (line.does !== "swap" && line.does !== "same") return null;
  const word = line.word(me), found = holds(state.words, word);
  if (line.does === "same") return { text: line.of + " = " + word + "? " + word + " holds " + toldWord("", found), isWell: isAs(isLoose, me[line.of], found), words: ["would be the same", "would differ"] };
  const expected = line.old(me, actor), isWell = isAs(isLoose, expected, found);
  return { text: "CAS(" + spoken(word) + ", " + toldWord(word, expected) + ", " + toldWord(word, line.now(me, actor)) + ")" + (isWell ? "" : " holds " + toldWord(word, found)), isWell, words: ["would win", "would lose"] };
}
function registersOf(state, actor, isRunning, step) {
  const me = state.actors[actor], needs = isRunning ? needsOf(actor, step) : [], part = made("dl", null, "regs");
  for (const name of REGISTERS.filter((it) => me.set.includes(it) && me[it] !== undefined)) {
    const isNeeded = needs.includes(name), isOld = isNeeded && isStale(state, me, name);
    const box = made("div", null, [isNeeded ? "" : "old", isOld ? "stale" : "", me.new.includes(name) ? "fresh" : ""].join(" ").trim(), made("dt", name, "mono"), made("dd", toldWord(name, me[name]), "mono"));
    if (isOld) box.title = "its word holds " + toldWord("", state.words[READ_FROM[name]]) + " by now";
    part.append(box);
  }
  if (me.has) part.append(made("div", null, "", made("dt", me.has, "mono"), made("dd", "node " + me.node, "mono")));
  return part;
}
function cardOf(state, actor, step, row) {
  const it = run.running(step).find((other) => other.actor === actor), line = it && run.standing(actor, step);
  const title = made("p", null, "", badge(actor), " ", made("b", it ? it.call : "no call")), due = made("p", null, "due");
  if (line) title.append(made("span", " stands at ", "stands"), made("b", line, "mono"));
  const next = line ? dueOf(state, actor, line) : null;
  if (next) {
    title.append(" ", tag(next.words[next.isWell ? 0 : 1], next.isWell ? "won" : "lost"));
    due.append(made("span", next.text, "mono"));
  } else due.append(made("span", it ? (line ? LINES[line].sense : "") : lastOf(actor, step), "stands"));
  const card = made("section", null, "card " + hue(actor) + (row && row.actor === actor ? " acts" : ""), title, due);
  card.append(state.actors[actor] ? registersOf(state, actor, !!it, step) : made("dl", null, "regs"));
  return card;
}
function lastOf(actor, step) {
  const it = run.operations.filter((other) => other.actor === actor && other.last <= step).pop();
  return it ? "last: " + shortly(it) + ", steps " + it.first + " to " + it.last : "";
}
function drawActors(state, step, row) {
  at("actors").replaceChildren(...laneActors.map((actor) => cardOf(state, actor, step, row)));
}
