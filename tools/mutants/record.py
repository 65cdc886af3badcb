"""The record: which edits were refused, by their keys.

It is a file crates/NAME/wrong/RECORD with lines, sorted: an edit's name, its key (keys.py), and the goal that refused it. An edit
has a line for each toolchain that refused it as it stands: what one says tells nothing of another. Where two branches were merged
it may have more; each is what some run saw, and at most one has the edit's present key. Behind a goal whose written answer fails stands
what a second try without such answers said (trials.py): that isn't made again while the edit and all it hangs on stay as they are.
"""
import os
from collections.abc import Iterable, Mapping

from mutants.edits import FOLDER
from mutants.goals import MARK


def is_of_another_toolchain(key: str, other: str) -> bool:
    """Returns whether two keys differ in the toolchain alone."""
    return key != other and key.partition(".")[0] == other.partition(".")[0] and "." in key


class Record:
    """The record of a crate."""

    def __init__(self, folder: str):
        self.path = f"{folder}/{FOLDER}/RECORD"
        # (name, key, goal)
        self.lines: set[tuple[str, str, str]] = set()
        if os.path.isfile(self.path):
            with open(self.path, encoding="utf-8", errors="replace") as it:
                parts = [f"{line}  ".split(" ", 2) for line in it.read().split("\n") if line]
            self.lines = {(name, key, goal.rstrip()) for name, key, goal in parts}

    def has(self, name: str, key: str) -> bool:
        """Returns whether an edit was refused with this key."""
        return any(it[:2] == (name, key) and it[2] for it in self.lines)

    def knows(self, name: str) -> bool:
        """Returns whether an edit was ever refused, with whatever key."""
        return any(it[0] == name for it in self.lines)

    def mark(self, name: str, key: str) -> str:
        """Returns what a second try said of an edit as it stands, by any toolchain, or nothing."""
        same = [it[2] for it in self.lines if it[0] == name and (it[1] == key or is_of_another_toolchain(it[1], key))]
        return next((it.partition(MARK)[2] for it in sorted(same) if MARK in it), "")

    def gone(self, names: Iterable[str]) -> list[str]:
        """Returns the names of lines that are none of these edits'."""
        return sorted({it[0] for it in self.lines} - {*names})

    def mend(self, names: Iterable[str], judged: Mapping[str, tuple[str, str]]) -> None:
        """Takes away the lines of edits that are gone, and of those judged now, (key, goal) by name, but for lines of other toolchains that differ
        from the new one in nothing else; and writes lines for those that have a goal."""

        def stays(name: str, key: str) -> bool:
            return name in {*names} and (name not in judged or is_of_another_toolchain(key, judged[name][0]))

        kept = {it for it in self.lines if stays(it[0], it[1])}
        self.lines = kept | {(name, key, goal) for name, (key, goal) in judged.items() if goal}
        if self.lines:
            with open(self.path, "w", encoding="utf-8") as it:
                it.write("".join(f"{' '.join(line)}\n" for line in sorted(self.lines)))
        elif os.path.isfile(self.path):
            os.remove(self.path)
