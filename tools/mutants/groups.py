"""Groups: which edits can be tried in one copy of their crate."""
from collections.abc import Collection, Iterable

from mutants.edits import Edit
from mutants.sources import Function

# A larger group would be finished long after a run has taken its time.
MOST = 30


def calls_one(functions: Collection[Function], others: Collection[Function]) -> bool:
    """Returns whether one of these functions calls one of the others."""
    # (a method that calls one of its own name hands on to a value of a type parameter)
    names = {it.simple() for it in others}
    return any(it.calls & (names - {it.simple()}) and it not in others for it in functions)


def go_together(edit: Edit, group: Iterable[Edit]) -> bool:
    """Returns whether an edit can be tried with those of a group."""
    for other in group:
        if edit.goes_beside and other.goes_beside:
            continue
        is_beside = edit.goes_beside or other.goes_beside
        if not all(it.own or it.goes_beside for it in (edit, other)):
            return False
        if not is_beside and (edit.lines & other.lines or edit.touched() & other.touched()):
            return False
        if calls_one(edit.touched(), other.in_place()) or calls_one(other.touched(), edit.in_place()):
            return False
    return True


def groups_of(edits: Collection[Edit]) -> list[list[Edit]]:
    """Parts edits into few groups whose edits can be tried together, MOST at most: those that clash with most others are placed first."""
    clashes = {it.name: sum(not go_together(it, [other]) for other in edits if other is not it) for it in edits}
    groups: list[list[Edit]] = []
    for edit in sorted(edits, key=lambda it: (-clashes[it.name], it.name)):
        home = next((it for it in groups if go_together(edit, it)), None)
        if home is None:
            groups.append([edit])
        else:
            home.append(edit)
    return [group[at : at + MOST] for group in groups for at in range(0, len(group), MOST)]
