"""Promises: the marks in the sources, the lists of docs/CLAIMS.md, and what tools/promises prints.

A mark is a comment directly above the clause that keeps a promise:

    //= references/raised (none, value): A raised reference names the node given and has the next count; there is none
    //=   exactly at the limit.
    ensures none { .. }
    ensures value { .. }

`references` is the key of a section of the page, `raised` a name of the promise in it. Where several clauses of the function
keep it, the mark stands above the first of them and names them all, or has `(*)` for every one that there is. The first mark of a
promise has the text, in the order of its section; a further call that keeps it has `//= references/raised` above its clause.
What a trait or an impl says in `ghost NAME` is a clause of that; a mark may also stand above a function without clauses, and
above an `impl` of a trait, whose clause is the trait.

In the page `<!-- promises: references: raised, made -->` stands above the list of a section, and names those which it shows, in
their order; `<!-- promises: stamps -->` shows none. tools/promises prints all, in the order of crates.txt, of the `mod` lines of
each crate's files, and of the lines.
"""
import dataclasses
import re

PAGE = "docs/CLAIMS.md"
SECTION = re.compile(r"^##+ (.*)\n((?:(?!##|<!--).*\n)*)<!-- promises: (\w+)", re.MULTILINE)
LIST = re.compile(r"^(<!-- promises: (\w+)(?:: (\w+(?:, \w+)*))? -->)\n(?:\n(?:- .*\n)+)?", re.MULTILINE)
MARK = re.compile(r" *//= (\w+)/(\w+)(?: \((\*|\w+(?:, \w+)+)\))?(?:: (.+))?")
LINES = re.compile(r"^ *//=.*\n", re.MULTILINE)
FURTHER = re.compile(r" *//=   (.+)")
CLAUSE = re.compile(r"( *)ensures (?:(\w+) )?\{.*")
GHOST = re.compile(r"( *)ghost (\w+)(?::| =) .*")
FUNCTION = re.compile(r"( *)(?:pub(?:\(\w+\))? )?(?:(?:final|const|unsafe|extern \"C\") )*fn (\w+).*")
BLOCK = re.compile(r"( *)(?:pub )?(?:unsafe )?(?:impl|trait)\b(.*)")
NO_CODE = re.compile(r" *(?://|#\[).*")
MODULE = re.compile(r"^(?:pub(?:\(\w+\))? )?mod (\w+);", re.MULTILINE)
SHOWN = re.compile(r"^pub use (\w+)::(?:(\w+)|\{([^}]*)\});", re.MULTILINE)
ALIAS = re.compile(r"^pub type (\w+)(?:<A>)? = (\w+)<(?:A, )?24>;", re.MULTILINE)


@dataclasses.dataclass(frozen=True)
class Source:
    """A source file: its path and lines, its crate, its module, and which of its names the crate shows as its own."""

    path: str
    lines: list[str]
    crate: str
    module: str
    shown: frozenset[str]


@dataclasses.dataclass(frozen=True)
class Mark:
    """A mark: its file and line, the promise, the text if it has one, the call and the clauses, and what is wrong with it."""

    path: str
    line: int
    section: str
    name: str
    text: str
    call: str
    clauses: tuple[str, ...]
    faults: tuple[str, ...]

    def place(self):
        return f"the mark at {self.path}:{self.line}"


def without_marks(text):
    return LINES.sub("", text)


def sources(tree):
    """The source files of all crates, in the order of the page."""
    names = [it.split()[0].rstrip(":") for it in tree.text("crates.txt").split("\n") if it and not it.startswith("#")]
    for crate in names:
        for root in ("lib", "main"):
            path = f"crates/{crate}/src/{root}.rt"
            if path in tree.paths:
                shown = {of: {*re.findall(r"\w+", f"{one} {several}")} for of, one, several in SHOWN.findall(tree.text(path))}
                yield from files_from(tree, path, f"crates/{crate}/src", [crate], shown)


def files_from(tree, path, folder, modules, shown):
    """A file of a crate, and then those of its modules, which stand in a folder."""
    text = tree.text(path)
    names = shown.get(modules[-1], ()) if len(modules) == 2 else ()
    yield Source(path, text.split("\n"), modules[0], "::".join(modules), frozenset(names))
    for name in MODULE.findall(text):
        for at in (f"{folder}/{name}.rt", f"{folder}/{name}/mod.rt"):
            if at in tree.paths:
                yield from files_from(tree, at, f"{folder}/{name}", [*modules, name], shown)


def aliases(files):
    """The names of types with 24 bits for a node, by the names of the types."""
    return {of: name for it in files for name, of in ALIAS.findall("\n".join(it.lines))}


def without_generics(text):
    text, before = text.replace("->", "  "), ""
    while text != before:
        text, before = re.sub(r"<[^<>]*>", "", text), text
    return text


def function_of(source, at, indent):
    """The line of the function of which a clause with this indentation stands at a line, or None."""
    for number in range(at, -1, -1):
        it = FUNCTION.fullmatch(source.lines[number])
        if it and len(it[1]) < indent:
            return number if len(it[1]) == indent - 4 else None
    return None


def clauses_of(source, at):
    """The names of the clauses of the function at a line."""
    indent = len(FUNCTION.fullmatch(source.lines[at])[1])
    ends = re.compile(rf" {{{indent}}}[{{}}]")
    for line in source.lines[at + 1 :]:
        it = CLAUSE.fullmatch(line)
        if it and len(it[1]) == indent + 4:
            yield it[2] or "-"
        elif FUNCTION.fullmatch(line) or ends.match(line):
            return


def block_around(source, at, indent):
    """The line of the block in which a line with this indentation stands, or None."""
    for number in range(at, -1, -1) if indent else ():
        it = BLOCK.fullmatch(source.lines[number])
        if it and len(it[1]) < indent:
            return number
        if source.lines[number].startswith("}"):
            return None
    return None


def block_of(source, at, known):
    """The type or trait of the block at a line, and the trait that the type meets there, or ''."""
    first, _, second = without_generics(BLOCK.fullmatch(source.lines[at])[2]).partition(" where ")[0].partition(" for ")
    of, trait = (second, first) if second else (first, "")
    name = re.findall(r"\w+", of)[0]
    return known.get(name, name), trait.strip()


def ghosts_of(source, at, indent):
    """The names of what the block at a line says in lines with this indentation."""
    for line in source.lines[at + 1 :]:
        it = GHOST.fullmatch(line)
        if it and it[1] == indent:
            yield it[2]
        if line.startswith("}"):
            return


def call_of(source, at, known):
    """How the page names the function at a line: by its type or trait, or by its module, or by the crate that shows it."""
    indent, name = FUNCTION.fullmatch(source.lines[at]).groups()
    block = block_around(source, at, len(indent))
    if block is not None:
        return f"{block_of(source, block, known)[0]}::{name}"
    return f"{source.crate if name in source.shown else source.module}::{name}"


def kept_by(source, at, named, known):
    """The call and the clauses of a mark above a line, and what is wrong with it."""
    line = source.lines[at] if at < len(source.lines) else ""
    clause, ghost, function, block = (it.fullmatch(line) for it in (CLAUSE, GHOST, FUNCTION, BLOCK))
    if clause and (around := function_of(source, at, len(clause[1]))) is not None:
        call, have, below = call_of(source, around, known), [*clauses_of(source, around)], clause[2] or "-"
    elif ghost and (around := block_around(source, at, len(ghost[1]))) is not None:
        call, have, below = block_of(source, around, known)[0], [*ghosts_of(source, around, ghost[1])], ghost[2]
    elif function and not [*clauses_of(source, at)]:
        call, have, below = call_of(source, at, known), [], "-"
    elif block:
        call, trait = block_of(source, at, known)
        have, below = [], trait or "-"
    else:
        return "", (), ("it stands above no clause",)
    if named == ["*"]:
        return call, ("*",), ()
    lost = [f"{call} has no clause {it}" for it in named if it not in have]
    if named and below not in named:
        lost.append(f"it doesn't name the clause below it, {below}")
    return call, tuple(named or [below]), tuple(lost)


def marks_of(source, known):
    """The marks of a source file."""
    at = 0
    while at < len(source.lines):
        line, at = source.lines[at], at + 1
        it = MARK.fullmatch(line)
        if not it:
            if line.lstrip().startswith("//="):
                yield Mark(source.path, at, "", "", "", "", (), ("it can't be read",))
            continue
        first, texts = at, [it[4]] if it[4] else []
        while at < len(source.lines) and FURTHER.fullmatch(source.lines[at]):
            texts.append(FURTHER.fullmatch(source.lines[at])[1])
            at += 1
        below = at
        while below < len(source.lines) and NO_CODE.fullmatch(source.lines[below]):
            below += 1
        named = it[3].split(", ") if it[3] else []
        yield Mark(source.path, first, it[1], it[2], " ".join(texts), *kept_by(source, below, named, known))


def all_marks(tree):
    files = [*sources(tree)]
    known = aliases(files)
    return [mark for it in files for mark in marks_of(it, known)]


def promises(marks, section):
    """The marks of each promise of a section, by its name."""
    found = {}
    for it in marks:
        if it.section == section:
            found.setdefault(it.name, []).append(it)
    return found


def kept(marks):
    """The calls that keep a promise, each with its file, by the clauses: in the order of the sources, but those together that keep it
    by the same ones."""
    found, groups = {}, {}
    for it in marks:
        found.setdefault((it.call, it.path), []).extend(it.clauses)
    for call, clauses in found.items():
        names = ", ".join({"-": "", "*": "all"}.get(it, f"`{it}`") for it in dict.fromkeys(clauses))
        groups.setdefault(names, []).append(call)
    return groups


def item(marks):
    """What the page has of a promise."""
    groups = kept(marks).items()
    calls = (", ".join(f"[`{call}`](../{path})" for call, path in it) + (f": {names}" if names else "") for names, it in groups)
    return f"- {marks[0].text} ({'; '.join(calls)})\n"


def shown(marks, list_of):
    """A list of the page: the promises that it names."""
    section, names = list_of[2], list_of[3].split(", ") if list_of[3] else []
    of = promises(marks, section)
    items = "".join(item(of[it]) for it in names if it in of)
    return f"{list_of[1]}\n" + (f"\n{items}" if items else "")


def printed(marks, text):
    """The page with its lists as the marks have them."""
    return LIST.sub(lambda it: shown(marks, it), text)


def everything(marks, text):
    """All promises below the headings of their sections, as links and names in them are looked at."""
    lists = ((title, promises(marks, key).values()) for title, _, key in SECTION.findall(text))
    return "".join(f"\n## {title}\n\n{''.join(map(item, of))}" for title, of in lists)


def wrong(marks, text):
    """What is wrong with the marks, and with the lists of the page."""
    lists = [(it[1], it[2].split(", ") if it[2] else []) for it in LIST.findall(text)]
    keys, headed = [key for key, _ in lists], {key for _, _, key in SECTION.findall(text)}
    for it in marks:
        yield from (f"{it.place()}: {fault}" for fault in it.faults)
        if it.section and it.section not in keys:
            yield f"{it.place()}: the page has no list {it.section}"
    for key, names in lists:
        of = promises(marks, key)
        for name, kept_by_all in of.items():
            if not kept_by_all[0].text:
                yield f"{kept_by_all[0].place()}: the first one of {key}/{name} has no text"
            yield from (f"{it.place()}: {key}/{name} has a text before" for it in kept_by_all[1:] if it.text)
        yield from (f"no mark has the promise {key}/{it}" for it in names if it not in of)
        if key not in headed:
            yield f"the list {key} has no heading of its own"
        if keys.count(key) > 1:
            yield f"it has the list {key} twice"
    if text != printed(marks, text):
        yield "its lists are stale: tools/pages writes them"
