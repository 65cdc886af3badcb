"""Tests of answers: what is left of a proof file without the answers that fail."""
from collections.abc import Callable

from mutants.answers import without

ANSWERS = """use Rattle.small.proofs.both.Goals.{After}
use Rattle.small.proofs.both.Goals as goal

-- both at once
both : (c : After) → One c × Two c
both c with_a_clause = (
    one c
)
both c = (two c, two c)

pub returns-one : goal.returns-one
returns-one c = (both c).0

pub returns-two : goal.returns-two
returns-two c = c.both.0

pub returns-both : goal.returns-both
returns-both c = c.fits
"""

# Which lines fail, and of which names lines are left.
CUTS = {
    "none": ((), ["use", "use", "both", "returns-one", "returns-two", "returns-both"]),
    "an answer": ((15,), ["use", "use", "both", "returns-one", "returns-both"]),
    "a lemma, and the answer that uses it": ((7,), ["use", "use", "returns-two", "returns-both"]),
    "an import": ((1,), ["use", "both", "returns-one", "returns-two", "returns-both"]),
    "a signature": ((17,), ["use", "use", "both", "returns-one", "returns-two"]),
}


def test_answers(expect: Callable[[str, bool, str], None]) -> None:
    """Tests what is left where some lines fail."""
    for what, (lines, wanted) in CUTS.items():
        left = without(ANSWERS, lines).split("\n")
        heads = [it.removeprefix("pub ").split()[0] for it in left if " : " in it or it.startswith("use")]
        clauses = {it.split()[0] for it in left if " = " in it}
        expect(f"{what}: what is left", heads == wanted and clauses == {*wanted} - {"use"}, "\n".join(left))
        expect(f"{what}: no line moves", all(it in ("", was) for it, was in zip(left, ANSWERS.split("\n"), strict=True)), "\n".join(left))
