"""The report: a line for each edit as it is judged, and the counts."""
import collections
import dataclasses
import threading

from mutants.edits import Edit


@dataclasses.dataclass(frozen=True)
class Verdict:
    """What a try says of an edit: the goal that refused it, or why it counts as not refused."""

    edit: Edit
    goal: str = ""
    cause: str = ""


class Report:
    """What the tries of a run say, which may come from several threads."""

    def __init__(self) -> None:
        self.printing = threading.Lock()
        self.passed = self.failed = 0
        self.verdicts: list[Verdict] = []
        # Edits that the record has as refused, by their labels: where one isn't refused, the record is false.
        self.recorded: set[str] = set()
        # How many wait for another run, by their crates.
        self.waiting: collections.Counter[str] = collections.Counter()

    def note(self, text: str) -> None:
        with self.printing:
            print(text, flush=True)

    def count(self, passed: bool, text: str) -> None:
        """Counts what passed or failed, and prints its line."""
        with self.printing:
            print(text, flush=True)
            self.passed, self.failed = self.passed + passed, self.failed + (not passed)

    def judge(self, verdict: Verdict) -> None:
        """Counts an edit that was tried, and prints its line."""
        label = verdict.edit.label()
        self.verdicts.append(verdict)
        if verdict.goal:
            self.count(True, f"{label}: refused, {verdict.goal}")
        else:
            is_false = label in self.recorded
            self.count(False, f"{label}: {verdict.cause}{'. THE RECORD IS FALSE: it has this edit as refused' if is_false else ''}")

    def wait(self, crate: str, count: int) -> None:
        """Counts edits that this run didn't come to."""
        with self.printing:
            self.waiting[crate] += count

    def tell_waiting(self) -> int:
        """Names the crates whose edits wait, and returns how many do."""
        told = ", ".join(f"{crate} {count}" for crate, count in sorted(self.waiting.items()) if count)
        if told:
            self.note(f"(waiting for another run: {told})")
        return self.waiting.total()

    def end(self) -> int:
        """Prints the last line, and returns the run's exit status."""
        print(f"{self.passed} passed, {self.failed} failed")
        return 1 if self.failed else 0
