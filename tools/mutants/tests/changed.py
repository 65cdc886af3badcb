"""Tests of tools/changed: which crates a change touches, and which of them have tests."""
import os
import shutil
import subprocess
import tempfile
from collections.abc import Callable

from mutants.tests.keys import write

CRATES = "low:\nhigh: low\nother:\nhighest: high other\n"

# What is changed, in which files, and what is listed then.
CHANGES = {
    "nothing": ({}, ""),
    "a source": ({"crates/high/src/lib.rt": "// More.\n"}, "high\nhighest\n"),
    "a new proof of the lowest": ({"crates/low/proofs/Lib.antt": "\n"}, "low\nhigh\nhighest\n"),
    "mutants alone": ({"crates/low/wrong/adds.edit": "file: src/lib.rt\n"}, "low (mutants alone)\n"),
    "a page": ({"crates/low/README.md": "# low\n", "README.md": "# all\n"}, ""),
    "a line of crates.txt": ({"crates.txt": CRATES.replace("highest: high other", "highest: high")}, "highest\n"),
    "HANDLES": ({"HANDLES": "Handles allowed: Threads.\n"}, "low\nhigh\nother\nhighest\n"),
}

# The crates that have tests, and what stands in them.
WITH_TESTS = ("low", "highest")
TESTED = "//! One.\n\n#[test]\nfn one(rt: HostRuntime) {}\n"


def with_tests(listed: str) -> str:
    """Returns the lines of the crates that have tests."""
    return "".join(f"{line}\n" for line in listed.split("\n") if line in WITH_TESTS)


def test_changed(expect: Callable[[str, bool, str], None], tools: str, git: Callable[..., str]) -> None:
    """Tests what is listed of a repository of four crates with a copy of these tools. git runs git in a folder."""
    with tempfile.TemporaryDirectory(prefix="small-") as top:
        shutil.copytree(tools, f"{top}/tools")
        crates = {f"crates/{name}/src/lib.rt": "//! One.\n" for name in ("low", "high", "other", "highest")}
        crates |= {f"crates/{name}/src/lib.rt": TESTED for name in WITH_TESTS}
        before = {"crates.txt": CRATES, "HANDLES": "Handles allowed: none.\n", "README.md": "# none\n", **crates}
        write(top, before)
        git(top, "init", "-q")
        git(top, "add", "-A")
        git(top, "commit", "-q", "-m", "Four crates")
        for what, (files, wanted) in CHANGES.items():
            write(top, files)
            for flags, due in ((["HEAD"], wanted), (["--tests", "HEAD"], with_tests(wanted)), (["--tests"], with_tests("low\nhighest\n"))):
                ran = subprocess.run([f"{top}/tools/changed", "--list", *flags], stdout=subprocess.PIPE, stderr=subprocess.STDOUT, text=True)
                expect(f"{what}: the crates listed by {flags}", sorted(ran.stdout.split("\n")) == sorted(due.split("\n")) and ran.returncode == 0, ran.stdout)
            for path in files:
                os.remove(f"{top}/{path}")
            write(top, before)
