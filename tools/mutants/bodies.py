"""Bodies: a crate's functions with their proof files, and which of them can be empty, stand twice, or have a copy beside them."""
import os
import re
from collections.abc import Iterable

from mutants.edits import Edit, read_edit, understand
from mutants.kit import stop
from mutants.sources import Function, Texts, functions_of, homes_of, items_of, names_one


def texts_below(folder: str, part: str, ending: str) -> Texts:
    """Returns the texts of a crate's part, as src, by their paths in the crate. A link, which rt refuses too, ends the run."""
    texts: Texts = {}
    for at, folders, files in os.walk(f"{folder}/{part}"):
        for it in [at, *(f"{at}/{name}" for name in folders + files)]:
            if os.path.islink(it):
                stop(f"{it} is a link, and a key has no text behind one: put the file or folder itself there")
        for name in sorted(it for it in files if it.endswith(ending)):
            with open(f"{at}/{name}", encoding="utf-8") as it:
                texts[os.path.relpath(f"{at}/{name}", folder)] = it.read()
    return texts


class Bodies:
    """The functions of a crate, with their proof files."""

    def __init__(self, folder: str, name: str):
        self.folder, self.name = folder, name
        self.texts = texts_below(folder, "src", ".rt")
        self.homes = homes_of(self.texts)
        self.functions = [it for path, text in self.texts.items() for it in functions_of(path, text, self.homes)]
        self.proofs = {path.removeprefix("proofs/"): text for path, text in texts_below(folder, "proofs", ".antt").items()}
        # (a function has this name whose proof stands where none was looked for)
        homes = {"/".join(it.place()) for it in self.functions}
        known = {os.path.dirname(it) for it in self.proofs if os.path.basename(it) in ("Answers.antt", "Invariants.antt", "Proof.antt")}
        self.strays = {os.path.basename(it) for it in known - homes}

    def edits(self, paths: Iterable[str]) -> list[Edit]:
        """Reads the edits in these files, and finds out where each goes."""
        found = [understand(read_edit(it, self.name), self.texts, self.functions) for it in paths]
        for it in found:
            it.goes_beside = not it.fault and all(map(self.can_stand_twice, it.judges)) and self.can_be_copied(it)
        return found

    def proofs_of(self, function: Function) -> Texts:
        """Returns the proof files of a function, by their names."""
        folder = "/".join(function.place())
        return {os.path.basename(it): text for it, text in self.proofs.items() if os.path.dirname(it) == folder}

    def is_plain(self, function: Function) -> bool:
        """Returns whether a function stands in the crate once, with its proof in its place, is no test and is in no cycle of calls."""
        *above, name = function.place()
        cycle = "/".join([*above, f"+{name}"])
        others = [it for it in self.functions if it.place() == function.place()]
        if name in self.strays or any(it.startswith(cycle + "/") for it in self.proofs):
            return False
        return len(others) == 1 and above[:1] != ["tests"] and name != "main"

    def can_be_hollow(self, function: Function) -> bool:
        """Returns whether a hole may stand for a function's proof: its place is known, and nothing but its theorem is used."""
        here = [name for name, files in self.homes.items() if files == [function.file]]
        is_placed = not function.is_of_trait or any(function.name.split("/")[-2].startswith(it) for it in here)
        return is_placed and function.can_be_empty() and self.is_plain(function) and not self.is_named_elsewhere(function)

    def can_stand_twice(self, function: Function) -> bool:
        """Returns whether a copy of a function is proved as the function is: its clauses are its own, and no other proof names its goals."""
        if function.is_of_trait or "cycle" in function.head or not self.is_plain(function) or "Proof.antt" in self.proofs_of(function):
            return False
        return not self.is_named_elsewhere(function)

    def is_named_elsewhere(self, function: Function) -> bool:
        """Returns whether a proof that isn't the function's own names its goals or its code."""
        folder = "/".join(function.place())
        named = re.compile(rf"\bproofs\.{re.escape('.'.join(function.place()))}\.(?:Goals|Code|Invariants|Answers|Proof)\b")
        return any(named.search(text) for path, text in self.proofs.items() if os.path.dirname(path) != folder)

    def can_be_copied(self, edit: Edit) -> bool:
        """Returns whether all that an edit changes can have copies beside it: one function, or macros and constants that those name whose goals refuse it."""
        if not edit.at:
            return len(edit.own) == 1
        file = edit.judges[0].file
        if edit.own or any(it.file != file for it in edit.judges) or any(it != file for it, _ in edit.lines):
            return False
        text, items = self.texts[file], edit.items(self.texts[file])
        is_in_one = lambda line: any(it.first <= line <= it.last for it in items)
        own_text = lambda it: "\n".join(text.split("\n")[it.first - 1 : it.last])
        return all(is_in_one(line) for _, line in edit.lines) and all(names_one(items, own_text(it)) for it in edit.judges)
