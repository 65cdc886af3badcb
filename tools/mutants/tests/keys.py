"""Tests of keys: which changes of a crate, and of one below it, give an edit another key."""
import os
import tempfile
import types
from collections.abc import Callable

from mutants.edits import read_edit
from mutants.keys import Keys
from mutants.record import is_of_another_toolchain
from mutants.sources import Texts

# A crate low, and a crate high that stands on it. Each text that a case below changes stands in its file once.
LOW_AND_HIGH = {
    "low/src/lib.rt": """//! Low numbers.
ghost use Rattle.std.specs.Prelude.{◌≡◌, ◌+◌};
ghost use Rattle.low.specs.Sizes.{size};
ghost use Rattle.low.specs.Unread.{unread};

use std::num::{NonZero};

/// One more.
pub fn one_more(n: u64) -> u64
    ensures { result ≡ n + size 1 }
{
    n + 1
}

pub fn two_more(n: u64) -> u64
    ensures { result ≡ n + unread 2 }
{
    n + 2
}

pub const fn three() -> u64 {
    3
}

pub const STEP: u64 = 7;

macro_rules! made {
    () => {
        pub fn made_more() -> u64 {
            8
        }
    };
}

pub struct Nothing;

pub trait Low {
    fn low(self) -> u64
        ensures { result ≡ 9 };

    fn lower(self) -> u64 {
        10
    }
}

impl Low for Nothing {
    fn low(self) -> u64
        ensures { result ≡ 11 }
    {
        12
    }
}
""",
    "low/specs/Lib.antt": "pub mod Sizes\npub mod Unread\npub mod Far\n",
    "low/specs/Far/Lib.antt": "pub mod Deep\n",
    "low/specs/Far/Deep.antt": "pub deep : ℕ → ℕ\ndeep n = n\n",
    "low/specs/Sizes.antt": "-- The size.\npub size : ℕ → ℕ\nsize n = n\n",
    "low/specs/Unread.antt": "pub unread : ℕ → ℕ\nunread n = n\n",
    "low/proofs/Lib.antt": "pub mod Lemmas\npub mod Alone\n",
    "low/proofs/Lemmas.antt": "use Rattle.low.specs.Sizes.{size}\n\npub lemma : size 1 ≡ 1\n",
    "low/proofs/Alone.antt": "pub alone : 1 ≡ 1\n",
    "low/proofs/one_more/Answers.antt": "returns c = refl\n",
    "high/src/lib.rt": """//! High numbers.
ghost use Rattle.high.specs.Words.{high};

pub fn more(n: u64) -> u64
    ensures { result ≡ high n }
{
    low::one_more(n) + low::three()
}
""",
    "high/specs/Words.antt": "pub high : ℕ → ℕ\nhigh n = n + 1\n",
    "high/proofs/more/Answers.antt": "use Rattle.low.proofs.Lemmas.{lemma}\n\nreturns c = lemma\n",
    "high/wrong/adds_none.edit": "file: src/lib.rt\nold: low::one_more(n)\nnew: n\n",
}

# What is changed: in which file, what stands there instead of what, and whether the edit of high then has another key.
CHANGES = {
    "a contract of a called function": ("low/src/lib.rt", "n + size 1", "n + size 2", True),
    "a contract of a function that high doesn't name": ("low/src/lib.rt", "n + unread 2", "n + unread 3", False),
    "a called function's body": ("low/src/lib.rt", "    n + 1\n", "    1 + n\n", False),
    "a new function": ("low/src/lib.rt", "pub const STEP", "pub fn four() -> u64 {\n    4\n}\n\npub const STEP", False),
    "a constant": ("low/src/lib.rt", "u64 = 7", "u64 = 6", True),
    "a constant function's body": ("low/src/lib.rt", "    3\n", "    4\n", True),
    "what a macro writes": ("low/src/lib.rt", "            8\n", "            9\n", True),
    "a type": ("low/src/lib.rt", "struct Nothing", "struct Nothing(u8)", True),
    "a trait's clause": ("low/src/lib.rt", "result ≡ 9", "result ≡ 8", True),
    "a trait's default body": ("low/src/lib.rt", "        10\n", "        11\n", True),
    "a clause of a trait's block": ("low/src/lib.rt", "result ≡ 11", "result ≡ 10", True),
    "a body of a trait's block": ("low/src/lib.rt", "        12\n", "        13\n", False),
    "a name that nobody uses": ("low/src/lib.rt", "NonZero", "NonZeroU8", False),
    "a comment": ("low/src/lib.rt", "/// One more.\n", "/// One more than it,\n/// and no less.\n", False),
    "a spec that high reads": ("low/specs/Sizes.antt", "size n = n", "size n = n + 0", True),
    "a comment of a spec": ("low/specs/Sizes.antt", "-- The size.", "-- Its size.", False),
    "a spec that high doesn't read": ("low/specs/Unread.antt", "unread n = n", "unread n = 0", False),
    "a spec that may no longer be read": ("low/specs/Lib.antt", "pub mod Sizes", "mod Sizes", True),
    "a new spec": ("low/specs/Lib.antt", "pub mod Sizes", "pub mod Shapes\npub mod Sizes", False),
    "a proof that high reads": ("low/proofs/Lemmas.antt", "size 1 ≡ 1", "size 2 ≡ 2", True),
    "a proof that high doesn't read": ("low/proofs/Alone.antt", "1 ≡ 1", "2 ≡ 2", False),
    "a called function's proof": ("low/proofs/one_more/Answers.antt", "refl", "search rules", False),
    "high's source": ("high/src/lib.rt", "low::three()", "low::three() + 1", True),
    "a comment of high's source": ("high/src/lib.rt", "High", "Higher", False),
    "high's spec": ("high/specs/Words.antt", "n + 1", "1 + n", True),
    "high's proof": ("high/proofs/more/Answers.antt", "c = lemma", "c = (lemma)", True),
    "the edit": ("high/wrong/adds_none.edit", "new: n", "new: 0", True),
    "the edit, which calls another function": ("high/wrong/adds_none.edit", "new: n", "new: low::two_more(n)", True),
}

# What high writes in a spec of its own, and which of the two specs that it doesn't read else it reads then: Unread.antt, and Far/Deep.antt.
PATHS = {
    "a file's alias": ("use Rattle.low.specs.Unread as u", True, False),
    "a folder's alias": ("use Rattle.low.specs as s", True, True),
    "a folder": ("use Rattle.low.specs", True, True),
    "a folder below": ("use Rattle.low.specs.Far as f", False, True),
    "a folder and a path below it in braces": ("use Rattle.low.specs.{Far.Deep.deep}", False, True),
    "braces in braces": ("use Rattle.low.specs.{Sizes.{size}, Far.Deep.{deep}}", True, True),
    "a crate's alias": ("use Rattle.low as l", True, True),
    "a crate": ("use Rattle.low", True, True),
    "a crate with a path in braces": ("use Rattle.low.{specs.Unread.unread}", True, True),
    "all crates": ("use Rattle as r", True, True),
    "a crate's alias in Rust": ("use low as l;", True, True),
    "an item's alias": ("use Rattle.low.specs.Sizes.{size as unread_size}", False, False),
}


def write(top: str, files: Texts) -> None:
    """Writes files, by their paths below a folder."""
    for path, text in files.items():
        os.makedirs(os.path.dirname(f"{top}/{path}"), exist_ok=True)
        with open(f"{top}/{path}", "w", encoding="utf-8") as it:
            it.write(text)


def key(changed: Texts | None = None, said: str = "low:", handles: str = "none", version: str = "kit 1") -> str:
    """Returns the key of high's edit, with the texts of some files changed."""
    with tempfile.TemporaryDirectory(prefix="small-") as top:
        write(top, LOW_AND_HIGH | (changed or {}))
        low = types.SimpleNamespace(folder=f"{top}/low", name="low", said=said, below=lambda: [])
        high = types.SimpleNamespace(folder=f"{top}/high", name="high", said="high: low", below=lambda: [low])
        return Keys(high, handles, version).of(read_edit(f"{top}/high/wrong/adds_none.edit", "high"))


def test_keys(expect: Callable[[str, bool, str], None]) -> None:
    """Tests which changes give an edit another key."""
    first = key()
    expect("a key is the same twice", first == key(), "")
    for what, (file, old, new, is_other) in CHANGES.items():
        expect(f"{what} stands once", LOW_AND_HIGH[file].count(old) == 1, file)
        made = key({file: LOW_AND_HIGH[file].replace(old, new)})
        expect(f"{what}: {'another' if is_other else 'the same'} key", (made != first) == is_other, made)
    for what, made in {"toolchain": key(version="kit 2"), "handles": key(handles="Threads"), "line of crates.txt": key(said="low: std")}.items():
        expect(f"another {what}: another key", made != first, made)
    kits = key(version="kit 2"), key({"high/src/lib.rt": LOW_AND_HIGH["high/src/lib.rt"].replace("three()", "three() + 1")})
    expect("another toolchain alone: told from the key", is_of_another_toolchain(kits[0], first), kits[0])
    expect("another source: told from the key", not is_of_another_toolchain(kits[1], first), kits[1])
    for what, (line, *reads) in PATHS.items():
        words = {"high/specs/Words.antt": f"{line}\n{LOW_AND_HIGH['high/specs/Words.antt']}"}
        at = key(words)
        for file, is_read in zip(("low/specs/Unread.antt", "low/specs/Far/Deep.antt"), reads):
            made = key(words | {file: LOW_AND_HIGH[file].replace(" n = n", " n = 0")})
            expect(f"{what} reads {file}: {is_read}", (made != at) == is_read, made)
            named = {"high/wrong/adds_none.edit": f"{LOW_AND_HIGH['high/wrong/adds_none.edit']}old: high n\nnew: {line}\n"}
            is_other = key(named) != key(named | {file: LOW_AND_HIGH[file].replace(" n = n", " n = 0")})
            expect(f"{what}, in the edit alone, reads {file}: {is_read}", is_other == is_read, made)
    # (a file of a folder that says more than which files there are may name those without the folder)
    more = {"low/specs/Far/Lib.antt": "pub mod Deep\npub use Deep.*\n"}
    deeper = more | {"low/specs/Far/Deep.antt": LOW_AND_HIGH["low/specs/Far/Deep.antt"].replace("n = n", "n = 0")}
    expect("what a folder's own file passes on is read", key(more) != key(deeper), "")
    # (what an edit alone names counts too)
    calls = {"high/wrong/adds_none.edit": "file: src/lib.rt\nold: low::one_more(n)\nnew: low::two_more(n)\n"}
    more = calls | {"low/src/lib.rt": LOW_AND_HIGH["low/src/lib.rt"].replace("n + unread 2", "n + unread 3")}
    expect("a contract that the edit alone calls: another key", key(calls) != key(more), "")
