#!/usr/bin/env python3
"""Finds what tests a rule or a name.

    tests/run --where WORD..    rows of tests/rows, lines of tests/cases, tests, and wrong bodies
                                that have the WORD, in either way of writing it (AllLocked,
                                all_locked); a test also where it uses what has the WORD in its file
"""
import re
import subprocess
import sys
from pathlib import Path

HERE = Path(__file__).resolve().parent
sys.path[1:1] = [str(HERE), str(HERE.parent / "wrong"), str(HERE.parents[1] / "tools")]
import about
import edits
import found
from unproved import RUST, TOP

# What begins an item at the outermost level of a file, and its name.
ITEM = re.compile(r"^(?:pub(?:\(\w+\))? )?(?:unsafe )?(?:fn|const|static|struct|enum|type|trait|"
                  r"impl(?:<[^{]*?>)?(?: [^{]*? for)?) (\w+)", re.M)
# The columns of a line that are shown.
COLUMNS = 110


def pattern(word):
    """What finds a word, as CamelCase and as snake_case."""
    snake = re.sub(r"(?<=[a-z0-9])(?=[A-Z])", "_", word).lower()
    return re.compile(rf"\b{re.escape(word)}\b|(?:\b|(?<=_)){re.escape(snake)}(?:\b|(?=_))")


def items(text):
    """The items of a file with their texts: (name, text), each up to the next one."""
    heads = list(ITEM.finditer(text))
    ends = [it.start() for it in heads[1:]] + [len(text)]
    return [(it[1], text[it.start():end]) for it, end in zip(heads, ends)]


def reached(text, word):
    """The names of a file's items that have a word, or use one that has it."""
    of_file = items(text)
    names = {name for name, body in of_file if word.search(body)}
    while True:
        more = {name for name, body in of_file if name not in names
                and any(re.search(rf"\b{it}\b", body) for it in names)}
        if not more:
            return names
        names |= more


def rows(word):
    """Prints where a name is declared, its rule and its rows."""
    check = TOP / "tests/checks/rows_check"
    done = subprocess.run([check, "--where", word], capture_output=True, text=True)
    print(done.stdout, end="")
    return done.returncode == 0


def cases(word):
    """The lines of cases that have a word."""
    for path in sorted(found.CASES.iterdir()):
        for number, line in enumerate(path.read_text().split("\n"), 1):
            if word.search(line) and not line.startswith("#"):
                line = re.sub(r"  +", "  ", line)
                yield f"case       {path.relative_to(TOP)}:{number}: {line[:COLUMNS]}"


def tests(word):
    """The tests that have a word, in their text or by what they use in their file."""
    for path in sorted(RUST.rglob("*.rs")):
        names = reached(path.read_text(), word)
        yield from (f"test       {it.place}: {it.name}" for it in found.tests_in(path)
                    if it.name.split("::")[-1] in names)


def wrong(word):
    """The wrong bodies that have a word."""
    for it in edits.all_edits():
        if word.search(it.name) or any(word.search(text) for pair in it.pairs for text in pair):
            yield f"wrong      tests/wrong/{it.crate}.edits: {it.name} ({it.file})"


def main():
    about.answers(__doc__)
    is_found = False
    for word in sys.argv[1:]:
        lines = [line for kind in (cases, tests, wrong) for line in kind(pattern(word))]
        is_found = rows(word) or bool(lines) or is_found
        print("\n".join(lines))
    if not is_found:
        print(f"no test has {' or '.join(sys.argv[1:])}", file=sys.stderr)
    return int(not is_found)


if __name__ == "__main__":
    sys.exit(main())
