"""The tests below tests/rust, and those that words choose."""
import re
import sys
from pathlib import Path
from typing import NamedTuple

sys.path.insert(1, str(Path(__file__).resolve().parents[2] / "tools"))
import unproved
from unproved import RUST, TOP

CASES = TOP / "tests/cases"
# The comments and attributes of a test, and its name.
TEST = re.compile(r"^((?:(?:///?|#\[).*\n)*)fn (\w+)\(", re.M)
# What a test's comment begins a line with that is too slow with the sanitizer.
FAST = re.compile(r"^// At -O2\b", re.M)


class Test(NamedTuple):
    """A test: its whole name, with its crate and module, its file, its line there, and the level at
    which it is compiled. A program, with all its cases, is one."""

    name: str
    path: Path
    line: int
    level: str

    @property
    def crate(self):
        """The crate that it is of."""
        return self.name.split("::")[0]

    @property
    def module(self):
        """The outermost module that it is in, below its crate's."""
        return self.name.split("::")[1] if "::" in self.name else ""

    @property
    def place(self):
        """Where it stands, below the repository."""
        return f"{self.path.relative_to(TOP)}:{self.line}"


def module_of(path):
    """The module of a file: NAME::a::b for NAME/a/b.rs."""
    return "::".join(path.relative_to(RUST).with_suffix("").parts)


def tests_in(path):
    """The tests of a file."""
    text, module = path.read_text(), module_of(path)
    for it in TEST.finditer(text):
        if re.search(r"^#\[test\]", it[1], re.M):
            level = "fast" if FAST.search(it[1]) else "checked"
            line = text.count("\n", 0, it.start(2)) + 1
            yield Test(f"{module}::{it[2]}", path, line, level)


def cases_of(crate):
    """The file that a program reads as its input, if any: the word after its name in the table."""
    head = re.search(rf"^{crate} (\S+):", (RUST / "crates").read_text(), re.M)
    return CASES / head[1] if head else None


def tests_of(crate):
    """The tests of a crate. A program is one where it reads cases, or has to print something."""
    if unproved.is_program(crate):
        is_test = cases_of(crate) or (RUST / crate / "stdout").exists()
        return [Test(crate, RUST / crate / "main.rs", 1, "fast")] if is_test else []
    return [it for path in sorted((RUST / crate).rglob("*.rs")) for it in tests_in(path)]


def every_test():
    """All tests, by the table of their crates."""
    return [it for crate in unproved.of_tests() for it in tests_of(crate)]


def has(test, word):
    """Whether a word is a test's own: its crate, a module of it, its file, or its name."""
    path = str(test.path.relative_to(TOP))
    return word in test.name.split("::") or test.name == word or f"{word}/" in path \
        or path in (word, f"tests/rust/{word}")


def uses(test, library):
    """Whether the file of a test speaks of a library."""
    return bool(re.search(rf"\b{library}\b", test.path.read_text()))


def chosen(words, tests):
    """The tests that words choose: where a word is no test's own, those that use the library of
    this name, or have the word in their names."""
    found = set() if words else set(tests)
    for word in words:
        word = word.removesuffix("/").removeprefix("./")
        picked = [it for it in tests if has(it, word)]
        if not picked and word in unproved.libraries():
            picked = [it for it in tests if uses(it, word)]
        picked = picked or [it for it in tests if word in it.name]
        if not picked:
            sys.exit(f"tests/run: no test has {word} in its name")
        found.update(picked)
    return [it for it in tests if it in found]
