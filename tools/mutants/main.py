"""The run: which edits are tried, side by side, and what becomes of the record."""
import argparse
import functools
import math
import os
import time
from collections.abc import Callable, Iterable
from concurrent.futures import FIRST_COMPLETED, Future, ThreadPoolExecutor, wait

from mutants.edits import edits_in
from mutants.keys import keys_of, units_of
from mutants.kit import Kit, have_libraries, stop
from mutants.record import Record
from mutants.report import Report
from mutants.runs import try_all, try_alone, try_read, try_true
from mutants.trials import Trials

# After so many minutes by the clock a run begins no group, where it isn't told to try all or all that is new.
MINUTES = 10


def side_by_side(kit: Kit, tasks: Iterable[tuple[int, Callable[[], None]]], lanes: int) -> None:
    """Runs tasks, (memory, call), side by side in their order: so many, or as many as memory holds."""
    left, memory = list(tasks), 0.85 * kit.free()
    running: dict[Future[None], int] = {}
    with ThreadPoolExecutor(lanes) as pool:
        while left or running:
            for task in list(left):
                held = sum(running.values())
                if len(running) < lanes and (not running or held + task[0] <= memory):
                    left.remove(task)
                    running[pool.submit(task[1])] = task[0]
            for it in wait(running, return_when=FIRST_COMPLETED).done:
                running.pop(it)
                it.result()


def words_told(head: str) -> argparse.Namespace:
    told = argparse.ArgumentParser(description=head, formatter_class=argparse.RawDescriptionHelpFormatter)
    told.add_argument("names", nargs="*", metavar="NAME", help="a crate, or with --alone an edit's file")
    told.add_argument("--alone", action="store_true", help="try each of these edits in a check of its own")
    told.add_argument("--groups", action="store_true", help="only show which edits are tried together")
    told.add_argument("--true-bodies", action="store_true", help="check the functions without their edits, which must be proved")
    told.add_argument("--read", action="store_true", help="only look that the checker can read the edits, and prove nothing")
    told.add_argument("--over-out", action="store_true", help="over what rt check kept in out/")
    told.add_argument("--new", action="store_true", help="try what the record doesn't have, however long it takes")
    told.add_argument("--all", action="store_true", help="try those too that the record has as refused, however long it takes")
    told.add_argument("--record", action="store_true", help="write into the record what this run saw")
    told.add_argument("--jobs", type=int, metavar="N", help="so many checks at a time (one a processor)")
    words = told.parse_args()
    if words.record and (words.groups or words.read or words.true_bodies or words.over_out):
        told.error("--record goes with none of --groups, --read, --true-bodies and --over-out: the record is of edits tried from nothing")
    return words


class Recorded:
    """The crates whose edits the command names, with the keys of their edits and their records."""

    def __init__(self, kit: Kit, words: argparse.Namespace):
        self.kit, self.words, self.top = kit, words, os.getcwd()
        crates = kit.crates(self.top)
        if words.alone:
            files = [os.path.abspath(it) for it in words.names]
            chosen = {it.folder: [e for e in files if os.path.dirname(os.path.dirname(e)) == it.folder] for it in crates}
        else:
            unknown = {*words.names} - {it.name for it in crates}
            if unknown:
                stop(f"no crate is named {', '.join(sorted(unknown))}")
            chosen = {it.folder: edits_in(it.folder) for it in crates if not words.names or it.name in words.names}
        self.trials = [Trials(kit, it, chosen[it.folder], words.over_out) for it in crates if chosen.get(it.folder)]
        self.records = {it.name: Record(it.folder) for it in crates if it.folder in chosen and (chosen[it.folder] or not words.alone)}
        self.folders = {it.name: it.folder for it in crates}
        self.keys = {} if words.groups or words.read or words.true_bodies else self.keys_now()
        self.untried = 0

    def keys_now(self) -> dict[str, str]:
        """Returns the keys of the edits as all stands now, by their labels."""
        units_of.cache_clear()
        keys = {crate.name: keys_of(self.kit, crate, self.top) for crate in {it.crate.name: it.crate for it in self.trials}.values()}
        return {edit.label(): keys[it.crate.name].of(edit) for it in self.trials for edit in it.edits}

    def choose(self, report: Report) -> None:
        """Leaves the edits that are to be tried: those that the record doesn't have with their present keys, or all. Crates with one that it never
        had come first."""
        first: list[Trials] = []
        others: list[Trials] = []
        for it in self.trials:
            record = self.records[it.crate.name]
            key = {edit.name: self.keys[edit.label()] for edit in it.edits}
            it.marks = {name: mark for name in key if (mark := record.mark(name, key[name]))}
            known = {edit.label() for edit in it.edits if not edit.fault and record.has(edit.name, key[edit.name])}
            report.recorded |= known
            left = [edit for edit in it.edits if self.words.all or self.words.alone or edit.label() not in known]
            self.untried += len(it.edits) - len(left)
            if left:
                (others if all(record.knows(edit.name) for edit in left) else first).append(it.part(left))
        self.trials = first + others

    def tell_gone(self, report: Report) -> None:
        """Names the lines of the record whose edit is gone: a fault, unless this run mends the record."""
        for name, record in self.records.items():
            for gone in record.gone(self.names(name)):
                line = f"record {name}/{gone}: there is no such edit"
                if self.words.record:
                    report.note(f"{line}: its line is taken away")
                elif not self.words.alone:
                    report.count(False, f"{line}: tools/try_mutants --record {name} takes its line away")

    def names(self, crate: str) -> list[str]:
        return [os.path.basename(it).removesuffix(".edit") for it in edits_in(self.folders[crate])]

    def mend(self, report: Report) -> None:
        """Writes into the record what this run saw."""
        judged: dict[str, dict[str, tuple[str, str]]] = {name: {} for name in self.records}
        keys = self.keys_now()
        for it in report.verdicts:
            label = it.edit.label()
            if keys.get(label) == self.keys[label]:
                judged[it.edit.crate][it.edit.name] = self.keys[label], it.goal
            else:
                report.note(f"{label}: not recorded: its crate, or one below, changed under this run")
        for name, record in self.records.items():
            record.mend(self.names(name), judged[name])


def main(head: str) -> int:
    """Runs the command. Its head is what --help says first."""
    words = words_told(head)
    kit = Kit()
    recorded, report = Recorded(kit, words), Report()
    if words.groups:
        for it in recorded.trials:
            for group in it.groups():
                print(f"{it.crate.name}: {' '.join(e.name for e in group)}")
        return 0
    is_recorded = not (words.read or words.true_bodies)
    if is_recorded:
        recorded.choose(report)
        recorded.tell_gone(report)
    if not words.read:
        have_libraries(kit, [it.crate for it in recorded.trials])
    is_bounded = is_recorded and not (words.new or words.all or words.alone)
    until = time.monotonic() + 60 * MINUTES if is_bounded else math.inf
    way = try_read if words.read else try_alone if words.alone else try_true if words.true_bodies else try_all
    tasks = [(kit.need(it.crate), functools.partial(way, it, report, until)) for it in recorded.trials]
    side_by_side(kit, tasks, words.jobs or kit.processors())
    if words.record:
        recorded.mend(report)
    waiting = report.tell_waiting()
    if is_recorded and not words.alone:
        print(f"mutants: {len(report.verdicts)} tried, {recorded.untried} as recorded, {waiting} waiting")
    return report.end()
