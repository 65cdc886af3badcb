"""Answers: what a proof file of a function defines, and the file without some of it."""
import re
from collections.abc import Iterable

# What stands before a definition's name.
HEAD = re.compile(r"(?:(?:pub|abbrev|unfoldable|opaque|axiom) )*(\S+)")
# What a definition's first line doesn't begin with.
INSIDE = re.compile(r"[\s)}\]]|--(?=\s|$)|$")


def pieces_of(text: str) -> list[tuple[str, range]]:
    """Returns what a file defines, in its order: names and lines. A definition by clauses has a piece for its type and each clause; imports are named 'use'."""
    lines = text.split("\n")
    firsts = [at for at, line in enumerate(lines) if not INSIDE.match(line)]
    names = [(HEAD.match(lines[at]) or [""])[1] for at in firsts]
    return [(name, range(at, end)) for name, at, end in zip(names, firsts, [*firsts[1:], len(lines)])]


def uses(text: str, names: Iterable[str]) -> bool:
    """Returns whether a text writes one of these names, other than behind a point."""
    return any(re.search(rf"(?<![^\s(){{}}\[\],;]){re.escape(it)}(?![^\s(){{}}\[\],;.])", text) for it in names)


def without(text: str, cut: Iterable[int]) -> str:
    """Returns a file without the definitions, and the imports, that stand on these lines, counted from 1, and without what uses such a definition. No
    other line moves."""
    pieces, lines = pieces_of(text), text.split("\n")
    bad = {at - 1 for at in cut}
    names = {name for name, at in pieces if bad & {*at} and name != "use"}
    said = lambda at: "\n".join(lines[at.start : at.stop])
    while more := {name for name, at in pieces if name not in {*names, "use"} and uses(said(at), names)}:
        names |= more
    for name, at in pieces:
        if name in names or name == "use" and bad & {*at}:
            lines[at.start : at.stop] = [""] * len(at)
    return "\n".join(lines)
