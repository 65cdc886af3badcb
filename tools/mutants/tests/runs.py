"""Tests of runs: in which order crates are tried, and what waits once a run's time has come."""
import argparse
import contextlib
import math
import os
import tempfile
import time
import types
from collections.abc import Callable

from mutants.kit import Kit
from mutants.main import Recorded
from mutants.report import Report
from mutants.runs import in_turn
from mutants.tests.keys import write

SOURCE = "//! One.\n\npub fn one() -> u64 {\n    1\n}\n"
EDIT = "file: src/lib.rt\nold:     1\nnew:     2\n"
# The key that a crate's record has of its edit, where NOW stands for the present one. One crate has no record.
CRATES = {"another_key": "0123456789abcdef.01234567", "never": "", "now": "NOW"}


def order_in(top: str, **said: bool) -> tuple[list[str], int]:
    """Returns in which order a run with these words tries the crates of a repository, and how many edits it leaves as recorded."""
    words = dict.fromkeys(("alone", "groups", "read", "true_bodies", "over_out", "all", "new", "record"), False)
    before = os.getcwd()
    os.chdir(top)
    try:
        recorded = Recorded(Kit(), argparse.Namespace(names=[], **{**words, **said}))
    finally:
        os.chdir(before)
    for label, key in recorded.keys.items():
        name = label.split()[1].removesuffix("/one_is_two")
        line = f"one_is_two {CRATES[name].replace('NOW', key)} src/lib.rt:3: returns\n"
        recorded.records[name].lines = {tuple(line.split(" ", 2))} if CRATES[name] else set()
    recorded.choose(Report())
    return [it.crate.name for it in recorded.trials], recorded.untried


def test_runs(expect: Callable[[str, bool, str], None]) -> None:
    with tempfile.TemporaryDirectory(prefix="small-") as top:
        write(top, {"crates.txt": "".join(f"{name}:\n" for name in CRATES)})
        for name in CRATES:
            write(f"{top}/crates/{name}", {"src/lib.rt": SOURCE, "wrong/one_is_two.edit": EDIT})
        some, every = order_in(top), order_in(top, all=True)
        expect("what the record never had comes first, and what it has is left", some == (["never", "another_key"], 1), str(some))
        expect("all is everything", every == (["never", "another_key", "now"], 0), str(every))
    trials = types.SimpleNamespace(crate=types.SimpleNamespace(name="one"), kept=lambda: contextlib.nullcontext("kept"))
    for what, seconds, due in (("with no time all wait", 0, 0), ("what is begun is finished", 0.5, 1), ("there may be no bound", math.inf, 2)):
        report, called = Report(), []
        in_turn(trials, [["first", "second"], ["third"]], report, time.monotonic() + seconds, lambda group, _: (called.append(group), time.sleep(0.6)))
        expect(what, len(called) == due and report.waiting.total() == (3, 1, 0)[due], str(called))
