"""The kit's rt as a module, and all of it that these tools lean on.

rt is a Python script on the PATH that loads rtlib.py beside it. Of both, and of a crate of theirs, this file and the class
LibraryOfRt name each part that is used; another kit has to keep these, or this file has to follow it:

    rt.need(crate), rt.free(), rt.processors()    the memory that a check is likely to take, what is free, how many processors
    rt.rtlib.guarded()                            the words before a command that end it when this process ends, however it ends
    rt.rtlib.crates_below(folder)                 the crates of crates.txt, each after those that it stands on
    rt.rtlib.RATTLE                               the checker, with the commands and flags of Kit.check
    a crate's folder, name, rlib, said, deps      where it and its built library are, and what its line of crates.txt says
    a crate's below()                             the libraries below it, each after those that it uses
    a crate's words(flags, keeps, as_source)      a check's words, also over the sources of these libraries
    a crate's is_built()                          whether its library is built as its sources are
    a crate's out, build_rlib(flags, anew)        where it prints, and the build of its library
    a crate's has_tests()                         whether it has tests
    a crate's stamp()                             a digest of what its library is made of (tools/stamps)
    a crate's is_static, prove(words), call(..)   what tools/prove builds an archive by; rt.Crate.ci, rt.say and, where the kit keeps proofs,
                                                  rt.Kept.made, rt.Kept.is_whole and rt.Kept's beginning, else rt.rtlib.lock and
                                                  rt.rtlib.stop_on_unread, are what it changes for that, to say how far it is, and to leave a crate out
    rt.rtlib.fmt(folder, "--check", out)          whether its files are laid out (tools/prove)
    out/rlib/stamp, out/incremental               the stamp of a library that rt built, and what rt check keeps

and of the command line: rt version, rt check and rt test (tools/changed). What the checker prints is read in goals.py.
"""
import functools
import importlib.machinery
import importlib.util
import os
import shutil
import subprocess
import sys
import tempfile
from types import ModuleType
from typing import Any, NoReturn, Protocol, TextIO

PARTS = ("src", "specs", "proofs")


def stop(cause: str) -> NoReturn:
    """Ends the run where nothing can be judged."""
    print(f"{os.path.basename(sys.argv[0])}: {cause}", file=sys.stderr)
    sys.exit(2)


class LibraryOfRt(Protocol):
    """What these tools use of a crate of rt's."""

    folder: str
    name: str
    rlib: str
    said: dict[str, Any]
    deps: list["LibraryOfRt"]
    out: TextIO

    def below(self) -> list["LibraryOfRt"]: ...

    def words(self, flags: list[str], tests: bool = False, keeps: bool = True, as_source: bool = False) -> list[str]: ...

    def is_built(self) -> bool: ...

    def build_rlib(self, flags: list[str], anew: bool) -> int: ...

    def has_tests(self) -> bool: ...

    def stamp(self) -> str: ...

    is_static: bool

    def prove(self, *commands: list[str]) -> int: ...

    def call(self, *words: str) -> int: ...


def loaded() -> ModuleType:
    found = shutil.which("rt") or stop("there is no rt on the PATH")
    loader = importlib.machinery.SourceFileLoader("rt", os.path.realpath(found))
    spec = importlib.util.spec_from_loader("rt", loader)
    assert spec
    made = importlib.util.module_from_spec(spec)
    sys.modules["rt"] = made
    loader.exec_module(made)
    return made


class Kit:
    """The toolchain: its crates, its checker, its builds, and what a check takes."""

    def __init__(self) -> None:
        self.rt = loaded()
        # (its first call sets a signal's handler, which only the main thread may)
        self.rt.rtlib.guarded()

    @property
    def keeps_proofs(self) -> bool:
        """Whether this kit's rt ci keeps what it has proved."""
        return hasattr(self.rt, "Kept")

    def crates(self, top: str) -> list[LibraryOfRt]:
        """Returns the crates at or below a folder, each after those that it stands on."""
        return self.rt.rtlib.crates_below(top)

    @functools.cached_property
    def version(self) -> str:
        """Returns the toolchain's line of identity."""
        ran = subprocess.run(["rt", "version"], stdin=subprocess.DEVNULL, stdout=subprocess.PIPE, text=True)
        return ran.stdout.strip() if not ran.returncode else stop("rt version says nothing")

    def check(self, crate: LibraryOfRt, folder: str, kept: str, only: list[str], holes: bool) -> tuple[int, str]:
        """Checks these functions of a copy of a crate in a folder, and what they call, over a folder of kept work. Returns the status and what the checker said."""
        lib = self.rt.rtlib
        words = [lib.RATTLE, "check", *crate.words(["--jobs", "1"], keeps=False), "--incremental", kept]
        words += ["--allow-holes"] * holes
        for path in only:
            words += ["--only", path]
        ran = subprocess.run(
            [*lib.guarded(), *words], cwd=folder, stdin=subprocess.DEVNULL, stdout=subprocess.PIPE, stderr=subprocess.STDOUT, errors="replace"
        )
        return ran.returncode, ran.stdout.rstrip("\n")

    def read(self, crate: LibraryOfRt, folder: str) -> str:
        """Has the checker read a copy of a crate in a folder, and prove nothing: over the libraries below it where all are built, else over
        their sources. Returns what it said."""
        as_source = not all(it.is_built() for it in crate.below())
        words = crate.words(["--jobs", "1", "--only", "", "--allow-holes"], keeps=False, as_source=as_source)
        ran = subprocess.run(
            [*self.rt.rtlib.guarded(), self.rt.rtlib.RATTLE, "check", *words],
            cwd=folder, stdin=subprocess.DEVNULL, stdout=subprocess.PIPE, stderr=subprocess.STDOUT, errors="replace",
        )
        return ran.stdout.rstrip("\n")

    def build(self, crate: LibraryOfRt) -> None:
        """Builds a crate's library where it has changed; what the checker says is shown only where it refuses the library."""
        with tempfile.TemporaryFile("w+", errors="replace") as crate.out:
            refused = crate.build_rlib(["--jobs", "1"], anew=False)
            crate.out.seek(0)
            said = crate.out.read() if refused else ""
        crate.out = sys.stdout
        if refused:
            stop(f"the library {crate.name} is not proved:\n{said}")

    def need(self, crate: LibraryOfRt) -> int:
        """Returns the most memory that a check of a crate is likely to take, in bytes."""
        return self.rt.need(crate)

    def free(self) -> int:
        """Returns the free memory, in bytes."""
        return self.rt.free()

    def processors(self) -> int:
        return self.rt.processors()


def newest(folder: str) -> float:
    files = [f"{at}/{name}" for part in PARTS for at, _, names in os.walk(f"{folder}/{part}") for name in names]
    return max(map(os.path.getmtime, files), default=0.0)


def have_libraries(kit: Kit, crates: list[LibraryOfRt]) -> None:
    """Sees that the libraries below the crates are built. Those that rt ci has just built have no stamp; they serve where each is newer than all sources below it."""
    below = {it.name: it for crate in crates for it in crate.below()}
    stamped = [it for it in below.values() if os.path.isfile(f"{it.folder}/out/rlib/stamp")]

    def is_new(it: LibraryOfRt) -> bool:
        return os.path.isdir(it.rlib) and os.path.getmtime(it.rlib) > max(newest(dep.folder) for dep in [it, *it.below()])

    if stamped or not all(map(is_new, below.values())):
        for crate in below.values():
            kit.build(crate)
