// Has "what if" make the events of schedules of one queue, and leaves their traces, histories and schedules.
{
  const made = [];
  show(0);
  whatIf();
  for (const events of JOBS) {
    run = new Run([], [], {});
    play.done = [];
    for (const [kind, actor, ...words] of events) {
      if (kind === "begin") beginOn(actor, words.join(" "));
      else if (kind === "give") giveOn(actor);
      else for (let count = kind === "steps" ? Number(words[0]) : 1; count > 0; count -= 1) stepOn(actor);
    }
    made.push({ trace: traceText(), history: historyText(), schedule: scheduleText() });
  }
  while (play.done.length) undo();
  const undone = run.total;
  whatIf();
  leave({ made, undone, isBack: !play });
}
