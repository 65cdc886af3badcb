// The state in words, the history so far, the trace's row and the given text; by "what if" the schedule and the history to hand on.
function historyTable(step) {
  const begun = run.operations.filter((it) => it.first <= step).slice(-40);
  return table(["actor", "call", "first", "last", "takes effect", "reply"], begun.map((it) => {
    const hasEnded = it.last <= step;
    return [it.actor, it.call, it.first, hasEnded ? it.last : "", run.isSeen(it, step) ? it.at : "", hasEnded ? answer(it.reply) : "pending"];
  }));
}
function historyText() {
  const begun = run.operations.filter((it) => it.first).sort((a, b) => a.first - b.first);
  const lines = begun.map((it) => [it.actor, it.call, "first", it.first, "last", it.last ?? "-", "at", it.at ?? "-", "reply", it.reply ?? "-"].join(" "));
  return ["history " + lines.length, ...lines].join("\n") + "\n";
}
function traceText() {
  const lines = run.rows.map((row, index) => {
    const start = index + 1 + " " + row.actor + " " + row.name, end = row.reply ? " reply " + row.reply : "";
    return start + (row.gives ? " gives" : " " + row.word + " found " + row.found + " now " + row.now) + end;
  });
  return [...told.slice(0, 6), "steps " + run.total, ...lines].join("\n") + "\n";
}
function scheduleText() {
  const events = [];
  let begun = 0;
  for (let step = 0; step <= run.total; step += 1) {
    for (; begun < run.begins.length && run.begins[begun].step <= step; begun += 1) events.push(["begin", run.begins[begun].actor, run.begins[begun].call]);
    const row = run.rows[step], last = events[events.length - 1];
    if (!row) break;
    if (row.gives) events.push(["give", row.actor]);
    else if (last && last[0] === "steps" && last[1] === row.actor) last[2] += 1;
    else events.push(["steps", row.actor, 1]);
  }
  const header = ["queue", "bits", "nodes", "limit", "actors"].map((name) => name + " " + head[name]);
  return ["msq schedule 2", ...header, "events " + events.length, ...events.map((it) => it.join(" "))].join("\n") + "\n";
}
function drawText(step, said) {
  const line = step && !play ? told[6 + step] : "-";
  const text = play ? scheduleText() + "\n" + historyText() : "The trace's line: " + line + "\n\n" + givenLines.join("\n");
  at("text").replaceChildren(made("p", said.join(". ") + "."), historyTable(step), made("pre", text));
}
