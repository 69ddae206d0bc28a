"""The programs that tests are compiled in: crates of tests are modules of few programs, and those
with a `main` of one more."""
import re
from pathlib import Path
from typing import NamedTuple

import unproved
from found import Test
from unproved import RUST, TOP

# The lines of tests in one program. More take more memory: these 2.5 GB.
LINES = 9000


class Group(NamedTuple):
    """Tests that are compiled in one program."""

    tests: list[Test]
    program: unproved.Program

    @property
    def crates(self):
        """The names of its crates."""
        return list(dict.fromkeys(it.crate for it in self.tests))


def sources(crate):
    """The files of a crate of tests."""
    return [it for it in sorted((RUST / crate).rglob("*.rs"))]


def modules(crate):
    """The files of each of a crate's modules, without lib.rs."""
    found: dict[str, list[Path]] = {}
    for path in sources(crate):
        name = path.relative_to(RUST / crate).with_suffix("").parts[0]
        if name != "lib":
            found.setdefault(name, []).append(path)
    return found


def needed(crate, wanted):
    """The modules of a crate that these use, and themselves."""
    files, found = modules(crate), []
    todo = list(wanted)
    while todo:
        name = todo.pop()
        if name in found or name not in files:
            continue
        found.append(name)
        text = "".join(it.read_text() for it in files[name])
        several = ",".join(re.findall(r"\bcrate::\{([^}]*)\}", text))
        todo += re.findall(r"\bcrate::(\w+)", text) + re.findall(r"\w+", several)
    return found


def laid_out(crate, wanted, changed=None):
    """The files of a crate of tests, with these of its modules, as a module of a program. No line
    moves."""
    files = modules(crate)
    paths = [RUST / crate / "lib.rs", *(it for name in wanted for it in files[name])]
    found = {}
    for path in paths:
        inner, text = path.relative_to(RUST).with_suffix(".rt"), unproved.as_module(crate, path)
        if path.name == "lib.rs":
            text = re.sub(r"^(?:pub )?mod (\w+);$",
                          lambda it: it[0] if it[1] in wanted else "", text, flags=re.M)
            inner = Path(f"{crate}.rt")
        found[f"tests/rust/{inner}"] = text
    return found


def words_of(crate):
    """The words that a program is run with: the lines of its `args`."""
    args = RUST / crate / "args"
    return args.read_text().split("\n")[:-1] if args.exists() else []


def group_of(tests, changed):
    """Tests in a program, with what they need of their crates and libraries. Files that are changed
    have other texts."""
    if unproved.is_program(tests[0].crate):
        program = unproved.program(tests[0].crate) if len(tests) == 1 else unproved.joined()
        return Group(tests, program._replace(files={**program.files, **changed}))
    files, uses = {}, []
    crates = list(dict.fromkeys(it.crate for it in tests))
    for crate in crates:
        laid = laid_out(crate, needed(crate, {it.module for it in tests if it.crate == crate}))
        files.update(laid)
        text = "".join(laid.values())
        uses += [it for it in unproved.of_tests()[crate] if re.search(rf"\b{it}\b", text)]
    root = "".join(f"#[cfg(test)]\nmod {name};\n" for name in crates)
    files["tests/rust/joined.rt"] = f"//! Tests.\n\n{root}"
    uses = list(dict.fromkeys(uses))
    files |= {**unproved.library_files(uses), **changed}
    program = unproved.Program("joined", "tests/rust/joined.rt", uses, files, tests[0].level, True)
    return Group(tests, program)


def lines_of(tests):
    """How many lines the modules of a crate have that these of its tests need."""
    crate, files = tests[0].crate, modules(tests[0].crate)
    paths = [it for name in needed(crate, {it.module for it in tests}) for it in files[name]]
    return sum(it.read_text().count("\n") for it in paths)


def joined(lists):
    """Lists of tests, each of a crate, joined as their lines let them."""
    found: list[list[Test]] = []
    lines = 0
    for tests in lists:
        more = lines_of(tests)
        lines += more
        if not found or lines > LINES:
            found, lines = [*found, []], more
        found[-1] += tests
    return found


def lists_of(tests):
    """The tests of each program: those that have a `main`, then others by their level."""
    programs = [it for it in tests if unproved.is_program(it.crate)]
    found = [programs] if programs else []
    for level in unproved.LEVELS:
        those = [it for it in tests if it.level == level and it not in programs]
        crates = dict.fromkeys(it.crate for it in those)
        found += joined([it for it in those if it.crate == crate] for crate in crates)
    return found


def groups(tests, changed=None):
    """The programs of tests."""
    return [group_of(it, changed or {}) for it in lists_of(tests)]


def origin(text):
    """A text in which the paths of what was laid out are those of the repository."""

    def of(it):
        path = it[1]
        if not (TOP / path).exists():
            module = TOP / path.removesuffix(".rt") / "lib.rs"
            path = str(module.relative_to(TOP)) if module.exists() \
                else path.removesuffix("rt") + "rs"
        return path

    return re.sub(r"\b(tests/rust/[\w/]+\.rt)\b", of, text)
