// Looks at what the page of a history shows at each number, at its rows with their bars, and where keys lead.
{
  const seen = [], errors = [];
  window.addEventListener("error", (event) => errors.push(event.message));
  const key = (name) => document.dispatchEvent(new KeyboardEvent("keydown", { key: name, bubbles: true }));
  const said = (part) => part.innerText.replace(/\s+/g, " ").trim();
  const place = (part, side) => part ? Math.round(10 * parseFloat(part.style[side])) : null;
  const cell = (it) => !it.classList.contains("bar") ? said(it)
    : [it.querySelector("i"), it.querySelector("b")].map((part) => place(part, "left")).concat(place(it.querySelector("i"), "width"));
  const rows = (id) => [...document.querySelectorAll(id + " tr")].map((row) => [...row.children].map(cell));
  const look = () => [...["what", "queue"].map((id) => said(document.getElementById(id))), said(document.querySelector("#history caption")), rows("#history"),
    [...document.querySelectorAll("#lanes .lane")].map((it) => [it.querySelector(".who").textContent, it.querySelectorAll(".op").length, it.querySelectorAll(".diamond").length])];
  const where = () => Number(document.getElementById("slider").value);
  const last = Number(document.getElementById("slider").max);
  const heads = [...["title", "found"].map((id) => said(document.getElementById(id))), rows("#named"), document.getElementById("reason").hidden];
  const opened = where();
  key("Home");
  seen.push(look());
  for (let step = 0; step < last; step += 1) { key("ArrowRight"); seen.push(look()); }
  const moved = (name, from, count) => { key(from); return Array.from({ length: count }, () => { key(name); return where(); }); };
  const moves = [moved("n", "Home", 4), moved("p", "End", 4), moved("r", "Home", 4), moved("ArrowLeft", "End", 2)];
  location.hash = "#at=2";
  dispatchEvent(new HashChangeEvent("hashchange"));
  moves.push([opened, where()]);
  leave({ seen, heads, moves, errors });
}
