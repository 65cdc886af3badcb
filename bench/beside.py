"""What scripts share that time whole programs by turns, each beside one of them: by the clock and by processors, told by quartiles,
with ratios of the two runs of a round."""
import importlib.machinery, importlib.util, os, pathlib, random, statistics, subprocess, sys

HERE = pathlib.Path(__file__).resolve().parent
TOP = HERE.parent
sys.dont_write_bytecode = True
LOADER = importlib.machinery.SourceFileLoader("queues", str(HERE / "queues/compare"))
queues = importlib.util.module_from_spec(importlib.util.spec_from_loader("queues", LOADER))
LOADER.exec_module(queues)
NAMES = ["what", "program", "unit", "lower quartile", "median", "upper quartile"]
NAMES += ["ratio's lower quartile", "ratio", "ratio's upper quartile", "runs"]


def times_by_turns(runs, rounds, times_of):
    """The times of each of these runs, which take turns in random order: by name what times_of tells of a run, by units."""
    times = {name: [] for name in runs}
    for _ in range(rounds):
        for name in random.sample(list(runs), len(runs)):
            times[name].append(times_of(runs[name]))
    return times


def row(what, name, unit, times, beside):
    """A row: the quartiles of a program's times, and of their ratios to the one that the others stand beside."""
    own, other = ([it[unit] for it in times[program]] for program in (name, beside))
    ratios = [a / b for a, b in zip(own, other)]
    told = [f"{it:.1f}" for it in statistics.quantiles(own, n=4)]
    shares = [f"{it:.3f}" for it in statistics.quantiles(ratios, n=4)] if name != beside else ["", "", ""]
    return "\t".join([what, name, unit, *told, *shares, str(len(own))])


def rows(what, times, units, beside):
    return [row(what, name, unit, times, beside) for unit in units for name in sorted(times)]


def record(results, programs, make, note, library=None):
    """Writes the rows that make makes, with what they hold of, and shows them."""
    before, begun, ahead = queues.ticks(), os.times(), queues.goes_ahead()
    found = list(make())
    after, ended = queues.ticks(), os.times()
    used = sum(getattr(ended, it) - getattr(begun, it) for it in ("children_user", "children_system"))
    said = queues.head(programs, library, ahead, before, after, used)
    said = [f"{key}: {value}" for key, value in said if library or key != "crossbeam"]
    lines = [*(f"# {it}" for it in [*said, note]), "\t".join(NAMES), *found]
    results.write_text("\n".join(lines) + "\n", encoding="utf-8")
    subprocess.run([HERE / "show", results], check=True)
