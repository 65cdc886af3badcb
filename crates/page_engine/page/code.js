// The published lines, with each actor where it stands.
const codeLines = {};
let codeOverflows = false, isSmall = false;

function buildCode() {
  const usesShut = run.operations.some((it) => it.call === "shut");
  const own = ROUTINES.filter((it) => it.queue === head.queue && (usesShut || it.title !== "shut"));
  const inOrder = [...own.filter((it) => it.title !== "shut"), ...ROUTINES.filter((it) => it.queue === "both"), ...own.filter((it) => it.title === "shut")];
  for (const { title, lines } of inOrder) {
    const rows = made("ol");
    for (const [name, text] of lines) {
      const who = made("span", null, "who");
      const row = made("li", null, LINES[name] ? "" : "frame", who, made("span", name, "no mono"), made("code", text.replace(/^ +/, (pad) => pad.slice(pad.length / 2))));
      if (LINES[name]) codeLines[name] = { row, who };
      rows.append(row);
    }
    at("code").append(made("section", null, "", made("h2", title), rows));
  }
  const count = at("code").querySelectorAll("li").length;
  at("code").classList.toggle("short", count < 32);
  at("code").classList.toggle("long", count > 40);
}
// What depends on the window is looked up when that changes, and not at each step, where a layout would cost more than all else.
function measureWindow() {
  codeOverflows = at("code").scrollHeight > at("code").clientHeight + 2;
  isSmall = matchMedia("(max-width: 900px)").matches;
}
function drawCode(step, row) {
  for (const { row: line, who } of Object.values(codeLines)) {
    line.className = "";
    line.removeAttribute("aria-current");
    who.replaceChildren();
  }
  const own = row && codeLines[row.name];
  if (own) {
    own.row.className = "at " + hue(row.actor) + (row.swap && !row.won ? " lost" : "");
    own.row.setAttribute("aria-current", "step");
    for (const part of at("code").children) part.className = part.contains(own.row) ? "mine" : "";
    if (codeOverflows) requestAnimationFrame(() => { at("code").scrollTop = own.row.offsetTop - at("code").clientHeight / 2; });
  }
  for (const it of run.running(step)) {
    const line = codeLines[run.standing(it.actor, step)];
    if (line) line.who.append(badge(it.actor));
  }
}
