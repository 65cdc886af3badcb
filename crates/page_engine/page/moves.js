// How a reader goes through the run: buttons, keys, the slider, and the address.
let timer = null, pace = 900, settling = null;

function show(asked) {
  const step = Math.max(0, Math.min(run.total, Number.isFinite(asked) ? asked : 0));
  current = step;
  const state = run.stateAt(step), row = step ? run.rows[step - 1] : null;
  at("slider").max = run.total;
  at("slider").value = step;
  at("slider").setAttribute("aria-valuetext", "step " + step + " of " + run.total);
  at("where").textContent = step + " of " + run.total;
  at("miss").hidden = !run.misses.length;
  drawSaid(step, row);
  drawCode(step, row);
  const said = drawPicture(state, step, row);
  drawActors(state, step, row);
  drawTime(state, step);
  if (at("more").open) drawText(step, said);
  drawPlay();
  clearTimeout(settling);
  settling = setTimeout(settle, 100);
  if (step === run.total) stopPlaying();
}
// The address follows as soon as the reader stays at a step.
function settle() {
  const hash = "#step=" + current;
  if (location.hash === hash) return;
  try {
    history.replaceState(null, "", hash);
  } catch {
    location.replace(hash);
  }
}
function stopPlaying() {
  clearInterval(timer);
  timer = null;
  at("play").textContent = "Play";
  at("play").setAttribute("aria-pressed", "false");
}
function startPlaying() {
  if (timer || !run.total) return stopPlaying();
  if (current === run.total) show(0);
  timer = setInterval(() => show(current + 1), pace);
  at("play").textContent = "Stop";
  at("play").setAttribute("aria-pressed", "true");
}
function changePace(by) {
  pace = Math.max(150, Math.min(4000, pace * by));
  if (timer) {
    stopPlaying();
    startPlaying();
  }
}
function enlarge() {
  const isLarge = document.documentElement.classList.toggle("large");
  at("large").setAttribute("aria-pressed", String(isLarge));
  measureWindow();
  show(current);
}
function changeColours() {
  const now = document.documentElement.dataset.theme, next = { undefined: "dark", dark: "light", light: undefined }[now];
  if (next) document.documentElement.dataset.theme = next;
  else delete document.documentElement.dataset.theme;
  at("theme").setAttribute("aria-label", "Colours: " + (next ?? "as the system has them"));
}
function copyLink() {
  if (navigator.clipboard) navigator.clipboard.writeText(location.href).catch(() => {});
  at("link").textContent = "Copied";
  setTimeout(() => { at("link").textContent = "Link"; }, 1200);
}
// The picture alone, with its colours in it.
function save() {
  const rules = [...document.styleSheets[0].cssRules].map((rule) => rule.cssText).filter((text) => /^(:root \{|\.a\d|\.n-|\.touched|\.chip|\.edge|\.head|\.reg|#heap)/.test(text));
  const copy = picture.cloneNode(true);
  copy.prepend(drawn("style", {}, rules.join("\n").replace(/#heap /g, "") + "\ntext{font-family:monospace}"));
  const link = made("a");
  link.href = URL.createObjectURL(new Blob([new XMLSerializer().serializeToString(copy)], { type: "image/svg+xml" }));
  link.download = "step-" + current + ".svg";
  link.click();
}
function nextOf(actor) {
  const index = run.rows.findIndex((row, step) => step >= current && row.actor === actor);
  if (index >= 0) show(index + 1);
}

const moves = {
  first: () => show(0),
  back: () => show(current - 1),
  on: () => show(current + 1),
  last: () => show(run.total),
  play: startPlaying,
  previous: () => show(run.points.findLast((point) => point < current) ?? 0),
  next: () => show(run.points.find((point) => point > current) ?? run.total),
  miss: () => show(run.misses.find((it) => it > current) ?? run.misses[0] ?? current),
  all: () => document.querySelector("main").classList.toggle("all"),
  counts: () => play && leaveCountsOut(),
  "what-if": whatIf,
  large: enlarge,
  theme: changeColours,
  link: copyLink,
  undo,
  save,
};
const keys = { ArrowLeft: "back", ArrowRight: "on", PageUp: "back", PageDown: "on", Home: "first", End: "last", n: "next", p: "previous", x: "miss", r: "all", z: "large", b: "what-if", c: "counts", u: "undo", " ": "play" };

function byKey(event) {
  if (event.ctrlKey || event.altKey || event.metaKey) return;
  const isPressed = event.key === " " && ["BUTTON", "SUMMARY"].includes(event.target.tagName);
  if (/^[1-9]$/.test(event.key)) {
    event.preventDefault();
    if (play && current === run.total) shown(() => stepOn(event.key))();
    else nextOf(event.key);
  } else if (event.key === "+" || event.key === "-") changePace(event.key === "+" ? 1 / 1.5 : 1.5);
  else if (keys[event.key] && !isPressed) {
    event.preventDefault();
    moves[keys[event.key]]();
  }
}
function stepInAddress() {
  const found = /^#step=(\d+)$/.exec(location.hash);
  return found ? Number(found[1]) : null;
}

for (const [id, move] of Object.entries(moves)) if (at(id)) at(id).addEventListener("click", move);
document.addEventListener("keydown", byKey);
at("slider").addEventListener("input", () => show(Number(at("slider").value)));
at("more").addEventListener("toggle", () => { if (at("more").open) show(current); });
addEventListener("resize", () => {
  measureWindow();
  show(current);
});
addEventListener("hashchange", () => {
  const step = stepInAddress();
  if (step !== null && step !== current) show(step);
});
at("facts").textContent = head.queue + " queue, " + head.nodes + " nodes, counts up to " + head.limit + ", " + head.actors + " actors";
at("title").textContent = document.title = notes.title || "A run of " + run.total + " steps";
buildCode();
measureRun();
buildPicture();
measureWindow();
show(stepInAddress() ?? 0);
measureWindow();
