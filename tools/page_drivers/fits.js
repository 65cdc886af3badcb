// Looks whether anything overflows at some step, in a window of the size of this frame.
{
  const root = document.documentElement, code = document.getElementById("code"), lanes = document.getElementById("lanes");
  const over = { down: 0, across: 0, code: 0 };
  for (let step = 0; step <= run.total; step += 1) {
    show(step);
    over.down = Math.max(over.down, root.scrollHeight - innerHeight);
    over.across = Math.max(over.across, root.scrollWidth - innerWidth);
    over.code = Math.max(over.code, code.scrollHeight - code.clientHeight - 2, 0);
    for (const part of document.querySelectorAll("main > *, .card")) if (!lanes.contains(part)) over.across = Math.max(over.across, Math.round(part.getBoundingClientRect().right) - innerWidth);
  }
  parent.postMessage(JSON.stringify(over), "*");
}
