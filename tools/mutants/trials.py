"""Trials: the edits of a crate, tried in groups or alone over what the checks of this run proved before."""
import contextlib
import copy
import dataclasses
import os
import re
import shutil
import tempfile
import time
from collections.abc import Iterable, Iterator

from mutants.bodies import Bodies
from mutants.copies import Copy, Cuts
from mutants.edits import Edit
from mutants.goals import IN_ANSWERS, MARK, UNREAD, Goal, goals_in
from mutants.groups import groups_of
from mutants.kit import Kit, LibraryOfRt
from mutants.report import Report, Verdict

# So often answers are left out that fail for want of those left out before.
ROUNDS = 5
# A function that is proved, though perhaps over holes.
PROVED = re.compile(r"^fn (\S+): (?:proved|no holes|depends on a hole)", re.M)


@dataclasses.dataclass
class Checked:
    """What the checker said of a copy: whether it is proved, whether the checker could read it, and the goals that it left open."""

    is_proved: bool
    reached: bool
    goals: list[Goal]
    said: str
    copy: Copy

    def refused(self, edit: Edit) -> Goal | None:
        """Returns the goal at which this check refuses an edit, or None."""
        if not self.reached or self.is_proved:
            return None
        return self.copy.refused(edit, self.goals)

    def proves(self, edit: Edit) -> bool:
        """Returns whether each function whose goals could refuse an edit is proved, over what holes stand for."""
        proved = [it[1].split("::") for it in PROVED.finditer(self.said)]
        made = [it.path() for it, _ in self.copy.judges[edit.name]]
        return all(any(name[-len(it) :] == it for name in proved) for it in made)

    def failed_answers(self, edits: Iterable[Edit]) -> dict[tuple[str, str], set[int]]:
        """Returns the lines of the answers that fail, by the names of an edit and of the function."""
        found: dict[tuple[str, str], set[int]] = {}
        judges = [(edit.name, made, own.name) for edit in edits for made, own in self.copy.judges[edit.name]]
        for it in IN_ANSWERS.finditer(self.said):
            goal = Goal(it[1], int(it[2]), "")
            for edit, made, own in judges:
                if goal.is_of(made):
                    found.setdefault((edit, own), set()).add(goal.line)
        return found


def is_read(said: str) -> bool:
    """Returns whether the checker could read what it was given."""
    return said.rpartition("\n")[2].startswith("only=") and not UNREAD.search(said)


def first_error(said: str) -> str:
    """Returns how to say of an edit that the checker can't read it."""
    first = next((it for it in said.split("\n") if ": error" in it or it.startswith("error")), said[-300:])
    return f"BAD EDIT: the checker can't read the edited text: {first[:200]}"


class Trials:
    """A crate whose edits are tried. marks: what second tries said of edits before, by their names."""

    def __init__(self, kit: Kit, crate: LibraryOfRt, paths: Iterable[str], over_out: bool = False):
        self.kit, self.crate, self.over_out = kit, crate, over_out
        self.bodies = Bodies(crate.folder, crate.name)
        self.edits = self.bodies.edits(paths)
        self.marks: dict[str, str] = {}

    def part(self, edits: list[Edit]) -> "Trials":
        """Returns the same crate with a part of its edits."""
        made = copy.copy(self)
        made.edits = edits
        return made

    def check(self, edits: list[Edit], kept: str, is_hollow: bool = False, cuts: Cuts | None = None) -> Checked:
        """Checks a copy of the crate with these edits made."""
        made = Copy(self.bodies, edits, is_hollow, cuts)
        if made.fault:
            return Checked(False, False, [], made.fault, made)
        # Those functions alone, and what they call.
        only = sorted({"::".join(it.path()) for found in made.judges.values() for it, _ in found})
        with tempfile.TemporaryDirectory(prefix="wrong-") as room:
            made.write(room)
            status, said = self.kit.check(self.crate, room, kept, only, is_hollow)
        return Checked(status == 0, is_read(said), goals_in(said), said, made)

    @contextlib.contextmanager
    def kept(self) -> Iterator[str]:
        """Gives a folder of this run for what its checks prove, with a copy of what rt check kept where that is wanted."""
        with tempfile.TemporaryDirectory(prefix="wrong-kept-") as kept:
            of_rt = f"{self.crate.folder}/out/incremental"
            if self.over_out and os.path.isdir(of_rt):
                shutil.copytree(of_rt, kept, dirs_exist_ok=True)
            yield kept

    def alone(self, edit: Edit, kept: str) -> Verdict:
        """Tries an edit in a check of its own."""
        if edit.fault:
            return Verdict(edit, cause=f"BAD EDIT: {edit.fault}")
        check = self.check([edit], kept)
        if check.refused(edit):
            return self.refused([edit], check, kept)[0]
        if check.is_proved:
            return Verdict(edit, cause="NOT REFUSED: the crate is still proved with it")
        if not check.reached:
            return Verdict(edit, cause=first_error(check.said))
        others = "; ".join(str(it) for it in check.goals[:3]) or "no goal is named"
        return Verdict(edit, cause=f"NOT REFUSED AT ITS OWN GOAL: the checker names {others}")

    def refused(self, edits: list[Edit], check: Checked, kept: str, is_hollow: bool = False) -> list[Verdict]:
        """Returns what to say of edits that a check refuses: of those that written answers alone refuse, what a second try says too, once."""
        goals = {it.name: goal for it in edits if (goal := check.refused(it))}
        again = [it for it in edits if goals[it.name].is_answered() and it.name not in self.marks]
        said = self.try_again(again, check, kept, is_hollow) if again else {}
        verdicts: list[Verdict] = []
        for edit in edits:
            goal = goals[edit.name]
            if said.get(edit.name) == "":
                verdicts.append(Verdict(edit, cause=f"LET THROUGH: only a written answer fails, {goal}, and without it the crate is proved with the edit"))
            else:
                mark = said.get(edit.name) or self.marks.get(edit.name)
                verdicts.append(Verdict(edit, f"{goal}{MARK}{mark}" if goal.is_answered() else str(goal)))
        return verdicts

    def try_again(self, edits: list[Edit], check: Checked, kept: str, is_hollow: bool) -> dict[str, str]:
        """Tries edits without those of their functions' answers that fail, and then without those that fail for want of these. Returns the goals that
        refuse them now, by the edits' names, or nothing where the search proves all."""
        cuts: dict[tuple[str, str], set[int]] = {}
        for _ in range(ROUNDS):
            failed = check.failed_answers(edits)
            if not failed:
                break
            for at, lines in failed.items():
                cuts.setdefault(at, set()).update(lines)
            check = self.check(edits, kept, is_hollow, cuts)
        said: dict[str, str] = {}
        for edit in edits:
            last = check
            if is_hollow and check.proves(edit):
                last = self.check([edit], kept, cuts=cuts)
            said[edit.name] = "" if last.is_proved else str(last.refused(edit) or "no goal is named")
        return said

    def try_group(self, group: list[Edit], kept: str, report: Report) -> None:
        """Tries edits in one copy. Those that the checker can't read are taken out of it, so that it judges the others."""
        began = time.monotonic()
        check = self.check(group, kept, is_hollow=True)
        unread = check.copy.unread(group, check.said) if not check.reached else []
        if 0 < len(unread) < len(group):
            for edit in unread:
                report.judge(self.alone(edit, kept))
            return self.try_group([it for it in group if it not in unread], kept, report)
        refused = [it for it in group if check.refused(it)]
        verdicts = {it.edit.name: it for it in self.refused(refused, check, kept, is_hollow=True)}
        for edit in group:
            report.judge(verdicts.get(edit.name) or self.alone(edit, kept))
        report.note(f"({self.crate.name}: a group of {len(group)} in {time.monotonic() - began:.0f} s)")

    def read(self, edits: list[Edit]) -> tuple[bool, str, Copy]:
        """Has the checker read a copy of the crate with these edits made, and prove nothing. Returns whether it could, and what it said."""
        made = Copy(self.bodies, edits, is_hollow=True)
        if made.fault:
            return False, made.fault, made
        with tempfile.TemporaryDirectory(prefix="wrong-") as room:
            made.write(room)
            said = self.kit.read(self.crate, room)
        return is_read(said), said, made

    def read_group(self, group: list[Edit], report: Report) -> None:
        """Counts which edits of one copy the checker can read, each alone where it can't read all of them at once."""
        began = time.monotonic()
        can_read, said, made = self.read(group)
        if not can_read and len(group) > 1:
            unread = made.unread(group, said) or group
            for edit in unread:
                self.read_group([edit], report)
            if len(unread) < len(group):
                self.read_group([it for it in group if it not in unread], report)
            return
        if can_read:
            report.passed += len(group)
            report.note(f"({self.crate.name}: {len(group)} read in {time.monotonic() - began:.0f} s)")
        else:
            report.count(False, f"{group[0].label()}: {first_error(said)}")

    def groups(self) -> list[list[Edit]]:
        return groups_of([it for it in self.edits if not it.fault])
