"""Copies: a copy of a crate to check, with edits made in it."""
import os
import re
import shutil

from collections.abc import Iterable, Mapping

from mutants.answers import without
from mutants.bodies import Bodies
from mutants.edits import Edit, applied
from mutants.goals import UNREAD, Goal
from mutants.kit import PARTS
from mutants.sources import Function, Texts, blanked, functions_of, items_of, renamed

# From where to where a text is changed, and what stands there instead.
Part = tuple[int, int, str]
# Lines of a function's answers that are left out, by the names of an edit and of a function whose goals refuse it.
Cuts = Mapping[tuple[str, str], Iterable[int]]


class Copy:
    """A copy of a crate to check, with edits made in it: beside the function that each touches where it can go there, else in its place.

    A function that no edit changes may get an empty body, with a hole for its proof: rt ci has proved it, and those that call it know its contract alone.
    """

    def __init__(self, bodies: Bodies, edits: list[Edit], is_hollow: bool, cuts: Cuts | None = None):
        self.bodies, self.cuts = bodies, cuts or {}
        self.folders: dict[str, Texts] = {}
        self.numbers: dict[str, int] = {}
        self.texts, self.fault = dict(bodies.texts), ""
        beside = [it for it in edits if it.goes_beside and is_hollow]
        for it in edits:
            if it not in beside and it.pairs and not self.fault:
                texts, self.fault = applied(it, self.texts)
                self.texts = texts or self.texts
        changed = {(fn.file, fn.name) for it in edits if it not in beside for fn in it.touched()}
        parts = {path: self.parts_of(path, changed) if is_hollow else [] for path in self.texts}
        for number, edit in enumerate(beside, 1):
            file = edit.judges[0].file
            parts[file] += self.copies(edit, number, file)
            self.numbers[edit.name] = number
        for fn, edit in [(fn, it) for it in edits if it not in beside for fn in it.judges if (it.name, fn.name) in self.cuts]:
            self.folders["/".join(fn.place())] = self.proofs_of(fn, edit)
        for path, found in parts.items():
            for at, end, text in sorted(found, reverse=True):
                self.texts[path] = self.texts[path][:at] + text + self.texts[path][end:]
        made = {(it.file, it.name): it for path, text in self.texts.items() for it in functions_of(path, text, bodies.homes)}
        self.functions = made
        name = lambda edit, fn: f"{fn.name}_edit_{self.numbers[edit.name]}" if edit.name in self.numbers else fn.name
        self.judges = {it.name: [(made[fn.file, name(it, fn)], fn) for fn in it.judges] for it in edits}

    def proofs_of(self, function: Function, edit: Edit) -> Texts:
        """Returns the proof files of a function whose goals refuse an edit, without what is left out for it."""
        found = self.bodies.proofs_of(function)
        cut = self.cuts.get((edit.name, function.name), ())
        return {name: without(text, cut) if name == "Answers.antt" else text for name, text in found.items()}

    def parts_of(self, path: str, changed: set[tuple[str, str]]) -> list[Part]:
        """Returns what becomes of a file's functions that no edit changes."""
        parts: list[Part] = []
        for it in functions_of(path, self.texts[path], self.bodies.homes):
            if (it.file, it.name) not in changed and self.bodies.can_be_hollow(it):
                lines = self.texts[path].count("\n", it.begins, it.ends)
                parts.append((it.begins, it.ends, "{ loop {}" + "\n" * lines + "}"))
                where = it.place()
                hole = f"pub {where[-1]}_spec : {{M : Type 1}} → statement M\n{where[-1]}_spec = ?\n"
                hole = f"use Rattle.{self.bodies.name}.proofs.{'.'.join(where)}.Statement.{{statement}}\n\n{hole}"
                self.folders["/".join(where)] = {"Proof.antt": hole}
        return parts

    def copies(self, edit: Edit, number: int, file: str) -> list[Part]:
        """Returns the copies that an edit goes into: of the functions that judge it, and of what it changes between them."""
        text = self.bodies.texts[file]
        parts: list[Part] = []
        ends = {it.name: it.ends for it in [*functions_of(file, self.texts[file], self.bodies.homes), *items_of(self.texts[file])]}
        items = edit.items(text)
        for it in items:
            copy = renamed(items, edit.made(text[it.begins : it.ends]), number)
            parts.append((ends[it.name], ends[it.name], f"\n\n{copy}"))
        for fn in edit.judges:
            copy = "\n".join(text.split("\n")[fn.first - 1 : fn.last])
            copy = renamed(items, edit.made(copy), number)
            name = re.compile(rf"\bfn\s+({fn.simple()})\b").search(blanked(copy))
            copy = f"{copy[: name.start(1)]}{fn.simple()}_edit_{number}{copy[name.end(1) :]}"
            where = ".".join(fn.place())
            folder: Texts = {}
            for path, said in self.proofs_of(fn, edit).items():
                folder[path] = re.sub(rf"(\.(?:proofs|contracts)\.){re.escape(where)}(?![\w'-])", rf"\g<1>{where}_edit_{number}", said)
            self.folders[f"{'/'.join(fn.place())}_edit_{number}"] = folder
            parts.append((ends[fn.name], ends[fn.name], f"\n\n{copy}"))
        return parts

    def write(self, room: str) -> None:
        """Writes the copy into a folder."""
        for part in PARTS:
            if os.path.isdir(f"{self.bodies.folder}/{part}"):
                shutil.copytree(f"{self.bodies.folder}/{part}", f"{room}/{part}")
        for path, files in self.folders.items():
            shutil.rmtree(f"{room}/proofs/{path}", ignore_errors=True)
            for name, text in files.items():
                os.makedirs(f"{room}/proofs/{path}", exist_ok=True)
                with open(f"{room}/proofs/{path}/{name}", "w", encoding="utf-8") as it:
                    it.write(text)
        for path, text in self.texts.items():
            with open(f"{room}/{path}", "w", encoding="utf-8") as it:
                it.write(text)

    def unread(self, edits: list[Edit], said: str) -> list[Edit]:
        """Returns the edits in whose texts the checker names what it could not read."""
        at = [(it[1], int(it[2])) for it in UNREAD.finditer(said)]
        found: list[Edit] = []
        for edit in edits:
            ending = f"_edit_{self.numbers.get(edit.name)}"
            own = [it for it in self.functions.values() if it.name.endswith(ending)] or [self.functions[it.file, it.name] for it in edit.own]
            places = [(it.file, it.first, it.last) for it in own]
            places += [(path, it.first, it.last) for path, text in self.texts.items() for it in items_of(text) if it.name.endswith(ending)]
            if any(path == file and first <= line <= last for path, line in at for file, first, last in places):
                found.append(edit)
        return found

    def refused(self, edit: Edit, goals: list[Goal]) -> Goal | None:
        """Returns the first goal that refuses an edit, where it stands in the crate itself, or None: where there is one, a goal that no answer was written for."""
        for goal in sorted(goals, key=Goal.is_answered):
            for made, own in self.judges[edit.name]:
                if goal.is_of(made):
                    line = goal.line + own.first - made.first if goal.file.startswith("src/") else goal.line
                    return Goal(goal.file.replace(made.simple(), own.simple()), line, goal.name)
        return None
