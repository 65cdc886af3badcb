// Elements of the page and of its drawings, and words as people write them.
const SVG = at("svg").namespaceURI;

function made(tag, text, name, ...parts) {
  const part = document.createElement(tag);
  if (text !== undefined && text !== null) part.textContent = text;
  if (name) part.className = name;
  part.append(...parts);
  return part;
}
function drawn(tag, shape, text, ...parts) {
  const part = document.createElementNS(SVG, tag);
  for (const [name, value] of Object.entries(shape)) part.setAttribute(name, value);
  if (text !== undefined && text !== null) part.textContent = text;
  part.append(...parts);
  return part;
}
function hue(actor) {
  return "a" + ((Number(actor) - 1) % 6 + 1);
}
function badge(actor) {
  return made("span", actor, "badge " + hue(actor));
}
function tag(text, kind) {
  return made("span", text, "tag " + kind);
}
// Whether it is well or not, with a sign and a word.
function verdict(isWell, well, bad) {
  return tag(isWell ? "✓ " + well : "✗ " + bad, isWell ? "won" : "lost");
}
function table(heads, rows) {
  const part = made("table", null, "plain", made("tr", null, "", ...heads.map((text) => made("th", text))));
  part.append(...rows.map((cells) => made("tr", null, "", ...cells.map((cell) => (cell instanceof Node ? made("td", null, "", cell) : made("td", cell))))));
  return part;
}

function toldWord(word, text) {
  const parts = String(text ?? "").split(" ");
  if (parts.length === 1) return parts[0];
  const both = parts.join(",").replace("closed", "shut");
  return word.startsWith("val") ? "(" + both + ")" : "<" + both + ">";
}
function spoken(word) {
  return word.replace(/^(next|value) (\d+)$/, "$2→$1");
}
function answer(reply) {
  const words = reply.split(" ");
  if (words[0] === "value" && words.length === 3) return "value (" + words[1] + "," + words[2] + ")";
  return words[0] === "refused" && names[words[1]] ? ["refused", names[words[1]], ...words.slice(2)].join(" ") : reply;
}
function shortly(it) {
  if (!it.reply) return it.call;
  return it.call + " → " + (/^value \d+ \d+$/.test(it.reply) ? it.reply.split(" ")[2] : answer(it.reply));
}
function list(parts, none) {
  return parts.length ? parts.flatMap((part, index) => (index ? [", ", part] : [part])) : [none];
}
