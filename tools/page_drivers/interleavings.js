// Counts all interleavings of the run's calls, with the counts and without, and plays one that is no queue's, if there is one.
{
  const counted = [];
  show(0);
  whatIf();
  for (const isLoose of [false, true]) {
    play.isLoose = isLoose;
    const found = explore(), all = found.tooMany ? [] : [...found.histories.values()], wrong = all.filter((it) => !it.isRight), sum = (list) => list.reduce((total, it) => total + it.ways, 0);
    if (!found.tooMany) counted.push([found.longest, found.count, sum(all), all.length, wrong.length, sum(wrong)]);
    if (wrong.length) {
      playPath(pathTo(found, wrong[0].path));
      counted.push(historyText());
    }
  }
  leave({ counted });
}
