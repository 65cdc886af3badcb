"""Goals: what the checker says that it left open, and whose goal each is."""
import dataclasses
import re

from mutants.sources import Function

OPEN_GOAL = re.compile(r"note: (src/\S+?):(\d+):\d+: .*\b(?:not proved|found no proof)\b.*?\(`([^`]+)`\)")
IN_PROOFS = re.compile(r"(?:\./)?(proofs/\S+)/(?:Answers|Invariants|Proof)\.antt:(\d+):\d+: error: `([^`]+)`: (.*)")
IN_ANSWERS = re.compile(r"^(?:\./)?(proofs/\S+)/Answers\.antt:(\d+):\d+: error", re.MULTILINE)
UNREAD = re.compile(r"^(?:\./)?(src/\S+?):(\d+):\d+: error: ", re.MULTILINE)
LOST = re.compile(r"is not in scope|has no\b|is no name|was not admitted|operand is missing|expected the end|cannot continue")
# Stands between a goal whose written answer fails and the goal that refuses the edit without the answers that fail.
MARK = "; without failing answers "


@dataclasses.dataclass
class Goal:
    """A goal that the checker left open: whose it is, by source place or by proof folder, and how to name it."""

    file: str
    line: int
    name: str

    def is_of(self, function: Function) -> bool:
        if self.file.startswith("src/"):
            return self.file == function.file and function.first <= self.line <= function.last
        folder = self.file.replace("/+", "/").split("/")
        if "/" not in function.name:
            return folder[1:] == function.place()
        return folder[-2:] == function.path()

    def is_answered(self) -> bool:
        """Returns whether a written answer to it fails, in place of the search for one."""
        return self.file.startswith("proofs/")

    def __str__(self) -> str:
        ending = "" if self.file.startswith("src/") else "/Answers.antt"
        return f"{self.file}{ending}:{self.line}: {self.name}"


def goals_in(said: str) -> list[Goal]:
    """Returns the goals that the checker names, of the crate's clauses and of its proof files."""
    goals: list[Goal] = []
    for line in said.split("\n"):
        at = OPEN_GOAL.match(line)
        if at:
            goals.append(Goal(at[1], int(at[2]), at[3]))
        at = IN_PROOFS.match(line)
        # (what stands in backquotes is the goal's own text, and no complaint of the checker's)
        if at and not LOST.search(re.sub(r"`[^`]*`", "", at[4]) if "rw" not in at[4][:6] else ""):
            goals.append(Goal(at[1], int(at[2]), at[3]))
    return goals
