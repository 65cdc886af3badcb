// Goes to the step before the compare-exchange that is lost, leaves the counts out, and goes on by keys and buttons.
{
  const key = (name) => document.dispatchEvent(new KeyboardEvent("keydown", { key: name, bubbles: true }));
  const said = (name) => document.getElementById(name).textContent.replace(/\s+/g, " ").trim();
  const press = (label) => [...document.querySelectorAll("#play-bar button")].find((it) => it.getAttribute("aria-label") === label).click();
  show(27);
  const frames = [document.querySelector("main").className.includes("playing")];
  key("b"); key("c"); key("1");
  frames.push(document.querySelector("main").className.includes("playing"), said("play-bar").includes("Not the proved machine"));
  const seen = [[said("what"), said("order")]];
  key("1");
  press("Actor 2 begins deq");
  for (let step = 0; step < 4; step += 1) key("2");
  seen.push([said("what"), said("order")]);
  const history = historyText();
  key("b");
  leave({ seen, history, frames, back: current });
}
