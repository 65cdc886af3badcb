"""Runs: the ways in which a run tries a crate's edits, one group after the other, until its time has come."""
import contextlib
import dataclasses
import time
from collections.abc import Callable

from mutants.edits import Edit
from mutants.groups import groups_of
from mutants.report import Report
from mutants.trials import Trials


def try_alone(trials: Trials, report: Report, until: float) -> None:
    """Tries each edit in a check of its own."""
    in_turn(trials, [[it] for it in trials.edits], report, until, lambda group, kept: report.judge(trials.alone(group[0], kept)))


def try_all(trials: Trials, report: Report, until: float) -> None:
    """Tries the edits in groups, and alone what its group didn't refuse."""
    for edit in trials.edits:
        if edit.fault:
            report.judge(trials.alone(edit, ""))
    in_turn(trials, trials.groups(), report, until, lambda group, kept: trials.try_group(group, kept, report))


def try_true(trials: Trials, report: Report, until: float) -> None:
    """Checks the functions that edits touch as they are, in the places where the edits go: each has to be proved there."""
    true_bodies: dict[tuple[object, ...], Edit] = {}
    for it in trials.edits:
        if not it.fault:
            items = [item.name for item in it.items(trials.bodies.texts[it.judges[0].file])]
            true_bodies.setdefault((it.own, it.judges, it.goes_beside, *items), dataclasses.replace(it, pairs=[]))
    groups = groups_of(true_bodies.values())
    in_turn(trials, groups, report, until, lambda group, kept: try_true_group(trials, group, kept, report))


def try_read(trials: Trials, report: Report, until: float) -> None:
    """Looks which edits the checker can read, and proves nothing."""
    for edit in trials.edits:
        if edit.fault:
            report.count(False, f"{edit.label()}: BAD EDIT: {edit.fault}")
    in_turn(trials, trials.groups(), report, until, lambda group, kept: trials.read_group(group, report))


def in_turn(trials: Trials, groups: list[list[Edit]], report: Report, until: float, call: Callable[[list[Edit], str], None]) -> None:
    """Makes a call for each group, over what the calls before it proved. Once the time has come the groups that are left wait."""
    with contextlib.ExitStack() as at_end:
        kept = ""
        for group in groups:
            if time.monotonic() >= until:
                report.wait(trials.crate.name, len(group))
                continue
            kept = kept or at_end.enter_context(trials.kept())
            call(group, kept)


def try_true_group(trials: Trials, group: list[Edit], kept: str, report: Report) -> None:
    check = trials.check(group, kept, is_hollow=True)
    for edit in group:
        label, is_proved = f"true {trials.crate.name}/{(edit.own or edit.judges)[0].name}", check.proves(edit)
        report.count(is_proved, f"{label}: {'proved' if is_proved else f'NOT PROVED: {check.refused(edit) or check.said[-300:]}'}")
