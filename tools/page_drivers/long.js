// How many milliseconds a step takes: the middle one of those that are timed.
{
  const times = [], stride = Math.max(1, Math.floor(run.total / 200));
  for (let step = 1; step <= run.total; step += stride) {
    show(step - 1);
    const began = performance.now();
    show(step);
    times.push(performance.now() - began);
  }
  times.sort((a, b) => a - b);
  leave({ time: times[times.length >> 1] });
}
