"""Keys: all that the prover's answer to an edit hangs on, as two digests.

The key of an edit is a digest of the toolchain's line of identity, behind a point, and before it one of
- the edit, and the src, specs and proofs of its crate, without the lines that are comments;
- the lines of crates.txt of the crate and of the crates below it, and HANDLES;
- the files of this tool, but for those that only choose, count and write down: main.py, record.py, report.py, runs.py; and but for
  this one, since a key that reads other texts is another one;
- of the crates below, what a check of this crate can read.

Other edits of its group aren't in it: none of them disturbs it, which --true-bodies checks (groups.py).

What can be read of a crate below, and why no more:
- A caller is proved against a contract. Of a library the checker reads declarations and clauses, and no code. So the body of
  a function is left out. It stays where it might say something: can_be_empty (sources.py) judges that, and the default bodies
  of a trait, and all that stands in a macro or holds items, stay too.
- A tactic knows its context and its own list: there is no global set of lemmas. So a file of specs/ or proofs/ is read only
  through a path that names it, in the crate itself or in what that reads. The same holds for a function that no trait has:
  who calls it, or cites its theorem, writes its name. And a 'use' brings what somebody writes.
- So each such part counts where its names are written, as whole words, anywhere in the texts that count: an import, a call, a
  path or an attribute. That takes too much where a word has two meanings, and too little nowhere.
- A path may end above the files, at a folder, a crate or all of them, and another name may lead on from there: then all below its
  end counts. So does all below the folder of a file Lib.antt that says more than which files there are.
- All else of src/ counts: types, constants, macros, traits, and the blocks of traits.
- A line that is a comment says nothing to the checker.
"""
import dataclasses
import functools
import glob
import hashlib
import json
import os
import re
from collections.abc import Iterable, Iterator

from mutants.bodies import texts_below
from mutants.edits import Edit
from mutants.kit import Kit, LibraryOfRt
from mutants.sources import NO_CODE, Function, Homes, blanked, closed, functions_of, homes_of

LENGTH = 16
LENGTH_OF_TOOLCHAIN = 8
JUDGE_NOTHING = ("keys.py", "main.py", "record.py", "report.py", "runs.py")
WORD = re.compile(r"\w+")
# A file of a crate's specs/ or proofs/, as an import writes it, or an attribute.
PATH = re.compile(r"\b(\w+)(?:\.|::)(specs|proofs)((?:(?:\.|::)[\w+]+)*)(?:(?:\.|::)\{([^}]*))?")
# A path that ends at a crate, or at what has all of them.
CRATE = re.compile(r"\bRattle\b(?:\.(\w+)\b)?(?!\.\w)|\b(\w+)\s+as\b")
# A macro with its text or a call of one, and a trait: functions in these are left as they are.
WHOLE = re.compile(r"\b\w+!\s*(?:\w+\s*)?(?=[({\[])|\btrait\s+\w+[^{;]*(?=\{)")
ITEMS = re.compile(r"\b(?:impl|trait|mod|macro_rules|static)\b")
# A 'use' of one name, or of several with no braces inside.
USE = re.compile(r"^[ \t]*(?:pub(?:\([^)]*\))? |ghost )?use ([^;{}]*?)(?:\{([^{}]*)\})?;\n?", re.MULTILINE)
COMMENT = re.compile(r"^[ \t]*--(?=\s).*\n?", re.MULTILINE)
NODE = re.compile(r"^(?:pub )?mod (\w+)[ \t]*\n?", re.MULTILINE)


def digest(parts: Iterable[object]) -> str:
    return hashlib.sha256(json.dumps([*parts], sort_keys=True, default=str).encode()).hexdigest()


def written_in(text: str, crate: str) -> set[str]:
    """Returns what a text of a crate writes: its words, each path of a file, with what may be the file's folders, as history/specs/Queue,
    and with a slash behind it each path that may end at a folder, as history/specs/."""
    found = {*WORD.findall(text)} | {f"{it[1] or it[2] or ''}/" for it in CRATE.finditer(text)}
    for name, part, rest, brought in PATH.findall(text):
        path = crate if name == "crate" else name
        for it in [part, *re.findall(r"[\w+]+", rest)]:
            path = f"{path}/{it}"
            found.add(path)
        ends = [f"{path}/{it}" for it in WORD.findall(brought) if "{" not in brought] or [path]
        found |= {*ends, *(f"{it}/" for it in ends)}
    return found


@dataclasses.dataclass(frozen=True)
class Unit:
    """A part of a crate that others read only where they write its name, if it has one."""

    crate: str
    name: str
    text: str

    @functools.cached_property
    def written(self) -> set[str]:
        return written_in(self.text, self.crate)

    def read_by(self) -> list[str]:
        """Returns what a text writes that reads it: its name, or the path of a folder that it is below."""
        folders = [self.name[: it.end()] for it in re.finditer("/", self.name)]
        return [self.name, *folders, *(["/"] if folders else [])]


def uncommented(text: str) -> str:
    """Returns a source file's text without the lines that are comments."""
    lines = [it for it in NO_CODE.finditer(text) if it[0].startswith("//")]
    for it in reversed(lines):
        start = text.rfind("\n", 0, it.start()) + 1
        if not text[start : it.start()].strip():
            text = text[:start] + text[it.end() + 1 :]
    return text


def uncommented_logic(text: str) -> str:
    """Returns the text of a file of specs/ or proofs/ without the lines that are comments."""
    return COMMENT.sub("", text)


def unit_of(crate: str, function: Function, text: str, start: int, is_left: bool) -> Unit:
    """Returns a function as who calls it reads it. is_left: with its body."""
    head = f"{function.file} {function.name}"
    return Unit(crate, function.simple(), f"{head}\n{text[start : function.ends if is_left else function.begins]}")


def units_of_source(crate: str, path: str, text: str, homes: Homes) -> Iterator[Unit]:
    """Gives the parts of a source file: each function that no trait has, each name that a 'use' brings, and all else."""
    text = uncommented(text)
    code = blanked(text)
    whole = [(it.start(), closed(code, it.end())) for it in WHOLE.finditer(code)]
    left, at = "", 0
    for it in functions_of(path, text, homes):
        start = sum(len(line) + 1 for line in text.split("\n")[: it.first - 1])
        if it.begins < at or any(a <= it.begins < b for a, b in whole):
            continue
        is_left = not it.can_be_empty() or ITEMS.search(code, it.begins, it.ends) is not None
        if it.is_of_trait:
            left += text[at : it.ends if is_left else it.begins]
        elif re.search(r"[{};]", code[start : it.begins].partition("fn ")[0]):
            # (it shares its line with what stands around it)
            left += text[at : it.ends]
        else:
            yield unit_of(crate, it, text, start, is_left)
            left += text[at:start]
            at = it.ends + len(text[it.ends :]) - len(text[it.ends :].lstrip("\n"))
            continue
        at = it.ends
    left = (left + text[at:]).rstrip("\n")
    for it in USE.finditer(left):
        for name in (it[2] or "").split(",") if it[2] is not None else [it[1]]:
            names = WORD.findall(name)
            is_plain = names and not {"*", "◌"} & {*name} and names[-1] not in ("self", "_")
            brought = f"{path} {it[0].partition('use ')[0]}use {it[1]}{name if it[2] is not None else ''}"
            yield Unit(crate, names[-1] if is_plain else "", brought)
    yield Unit(crate, "", f"{path}\n{USE.sub('', left)}")


def units_of_logic(crate: str, path: str, text: str) -> Iterator[Unit]:
    """Gives the parts of a file of specs/ or proofs/: the lines of a node file that declare a file each, or it whole."""
    text = uncommented_logic(text)
    name = f"{crate}/{os.path.splitext(path)[0]}"
    if not NODE.search(text):
        yield Unit(crate, name, f"{path}\n{text}")
        return
    folder = name.removesuffix("/Lib")
    for it in NODE.finditer(text):
        yield Unit(crate, f"{folder}/{it[1]}", f"{path} {it[0].strip()}")
    more = NODE.sub("", text).strip()
    # (what it says may name the files below it without their folder)
    here = f"Rattle.{folder.replace('/', '.')}\n" if more else ""
    yield Unit(crate, "", f"{path}\n{here}{more}")


@functools.cache
def units_of(crate: str, folder: str) -> tuple[Unit, ...]:
    """Returns the parts of a crate that another crate may read."""
    sources = texts_below(folder, "src", ".rt")
    homes = homes_of(sources)
    found = [unit for path, text in sources.items() for unit in units_of_source(crate, path, text, homes)]
    for part in ("specs", "proofs"):
        found += [unit for path, text in texts_below(folder, part, ".antt").items() for unit in units_of_logic(crate, path, text)]
    return tuple(found)


def read(units: Iterable[Unit], written: Iterable[str]) -> list[Unit]:
    """Returns the parts that are read where this is written."""
    by_name: dict[str, list[Unit]] = {}
    for unit in units:
        for name in unit.read_by():
            by_name.setdefault(name, []).append(unit)
    found: dict[int, Unit] = {}
    seen, waiting = {""}, ["", *written]
    while waiting:
        for it in by_name.pop(waiting.pop(), []):
            found[id(it)] = it
            waiting += it.written - seen
            seen |= it.written
    return [*found.values()]


@functools.cache
def tool_files() -> str:
    """Returns a digest of the files of this tool that judge."""
    here = os.path.dirname(os.path.abspath(__file__))
    files = [it for it in sorted(glob.glob(f"{here}/*.py")) if os.path.basename(it) not in JUDGE_NOTHING]
    return digest((os.path.basename(it), open(it, encoding="utf-8").read()) for it in files)


class Keys:
    """The keys of a crate's edits."""

    def __init__(self, crate: LibraryOfRt, handles: str, version: str):
        below = sorted(crate.below(), key=lambda it: it.name)
        parts = {"src": (".rt", uncommented), "specs": (".antt", uncommented_logic), "proofs": (".antt", uncommented_logic)}
        own = {path: as_read(text) for part, (ending, as_read) in parts.items() for path, text in texts_below(crate.folder, part, ending).items()}
        self.common = digest([own, crate.said, [it.said for it in below], handles, tool_files()])
        self.toolchain = digest([version])[:LENGTH_OF_TOOLCHAIN]
        self.units = [unit for it in below for unit in units_of(it.name, it.folder)]
        self.written = {it for text in own.values() for it in written_in(text, crate.name)}
        self.read = read(self.units, self.written)
        self.below = self.sum_of(self.read)
        # (an edit may name what nothing else in its crate does)
        known = {id(it) for it in self.read}
        self.names_left = {name for it in self.units if id(it) not in known for name in it.read_by()}

    @staticmethod
    def sum_of(units: list[Unit]) -> str:
        return digest(sorted(f"{it.crate} {it.text}" for it in units))

    def of(self, edit: Edit) -> str:
        """Returns the key of an edit."""
        more, below = written_in(edit.text, edit.crate) - self.written, self.below
        if more & self.names_left:
            below = self.sum_of(read(self.units, self.written | more))
        return f"{digest([edit.crate, edit.name, edit.text, self.common, below])[:LENGTH]}.{self.toolchain}"


def keys_of(kit: Kit, crate: LibraryOfRt, top: str) -> Keys:
    """Returns the keys of a crate of the repository at a folder."""
    handles = ""
    if os.path.isfile(f"{top}/HANDLES"):
        with open(f"{top}/HANDLES", encoding="utf-8", errors="replace") as it:
            handles = it.read().strip()
    return Keys(crate, handles, kit.version)
