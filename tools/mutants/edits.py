"""Edits: what each changes, and whom it touches."""
import dataclasses
import os

from mutants.sources import Function, Item, Texts, items_of, names_one

FOLDER = "wrong"

@dataclasses.dataclass
class Edit:
    """An edit of a crate. Its pairs are (file, old, new); lines are those that it changes; at names the functions whose goals refuse it where its own can't."""

    crate: str
    name: str
    pairs: list[tuple[str, str, str]]
    at: list[str]
    text: str = ""
    lines: frozenset[tuple[str, int]] = frozenset()
    own: tuple[Function, ...] = ()
    judges: tuple[Function, ...] = ()
    fault: str = ""
    goes_beside: bool = False

    def label(self) -> str:
        return f"wrong {self.crate}/{self.name}"

    def touched(self) -> set[Function]:
        return {*self.own, *self.judges}

    def in_place(self) -> set[Function]:
        return set() if self.goes_beside else self.touched()

    def items(self, text: str) -> list[Item]:
        """Returns the macros and constants of its file's text that it changes, and those that name one of them."""
        found: list[Item] = []
        inside = items_of(text) if not self.own else []
        more = [it for it in inside if any(it.first <= line <= it.last for _, line in self.lines)]
        while more:
            found += more
            more = [it for it in inside if it not in found and names_one(found, text[it.begins : it.ends])]
        return found

    def made(self, text: str) -> str:
        """Returns a part of the file in which all of its pairs stand, with the edit made."""
        for _, old, new in self.pairs:
            text = text.replace(old, new)
        return text


def read_edit(path: str, crate: str) -> Edit:
    """Reads an edit's file, in the format of must-fail edits."""
    with open(path, encoding="utf-8", errors="replace") as it:
        made = Edit(crate, os.path.basename(path).removesuffix(".edit"), [], [], it.read())
    file = old = ""
    for line in made.text.split("\n"):
        if line.startswith("file: "):
            file = line.removeprefix("file: ").strip()
        elif line.startswith("at: "):
            made.at.append(line.removeprefix("at: ").strip())
        elif line.startswith("old: "):
            old = line.removeprefix("old: ")
        elif line.startswith("new:"):
            made.pairs.append((file, old, line.removeprefix("new:").removeprefix(" ")))
            old = ""
    return made


def applied(edit: Edit, texts: Texts) -> tuple[Texts | None, str]:
    """Returns the texts with the edit made, or None and why it can't be."""
    made = dict(texts)
    if not edit.pairs:
        return None, "it has no 'old:' and 'new:' pair"
    for file, old, new in edit.pairs:
        if not file.startswith("src/") or file not in made:
            return None, f"there is no file {file or 'named'} below src/"
        found = made[file].count(old) if old else 0
        if found != 1:
            return None, f"an 'old:' text is in {file} {found} times, and not once"
        made[file] = made[file].replace(old, new)
    return made, ""


def lines_of(edit: Edit, texts: Texts) -> frozenset[tuple[str, int]]:
    """Returns the (file, line) places that an edit changes. A text is one line, so that no line moves."""
    made, places = dict(texts), set()
    for file, old, new in edit.pairs:
        first = made[file][: made[file].index(old)].count("\n") + 1
        places.add((file, first))
        made[file] = made[file].replace(old, new)
    return frozenset(places)


def named(functions: list[Function], name: str) -> list[Function]:
    """Returns the functions that a name such as push, Line::push or lines::Line::push means."""
    words = name.split("::")
    return [it for it in functions if it.path()[-len(words) :] == words]


def understand(edit: Edit, texts: Texts, functions: list[Function]) -> Edit:
    """Finds out whom an edit touches and whose goals may refuse it, or why it is bad."""
    _, edit.fault = applied(edit, texts)
    if edit.fault:
        return edit
    edit.lines = lines_of(edit, texts)
    own = [it for it in functions for file, line in edit.lines if it.file == file and it.first <= line <= it.last]
    inside = lambda file, line: any(it.file == file and it.first <= line <= it.last for it in own)
    edit.own = tuple(dict.fromkeys(own)) if all(inside(*it) for it in edit.lines) else ()
    judges = [it for name in edit.at for it in named(functions, name)]
    if edit.at and not judges:
        edit.fault = f"no function is named {' or '.join(edit.at)}"
    elif not edit.at and not edit.own:
        edit.fault = "it touches no function's own text: a line 'at: FUNCTION' has to say whose goal refuses it"
    edit.judges = tuple(judges) if edit.at else edit.own
    return edit


def edits_in(folder: str) -> list[str]:
    """Returns the files of the edits of the crate in a folder."""
    names = sorted(os.listdir(f"{folder}/{FOLDER}")) if os.path.isdir(f"{folder}/{FOLDER}") else []
    return [f"{folder}/{FOLDER}/{it}" for it in names if it.endswith(".edit")]
