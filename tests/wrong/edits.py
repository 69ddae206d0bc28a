"""Wrong bodies of functions, as tests/wrong/CRATE.edits has them: one after the other, each a line
`wrong: NAME`, a line `gate` where .ci/run tries it, a line `file: src/NAME.rt`, and then pairs of
lines `old: TEXT` and `new: TEXT`. Each old text stands in that file exactly once.

A wrong decision is a body together with its definition: both are wrong in the same way, so that
the body meets its contract. It has a line `law: NAME`, of the law that is false of it, and a
further line `file: specs/NAME.antt`, with pairs of its own."""
import sys
from pathlib import Path
from typing import NamedTuple

TOP = Path(__file__).resolve().parents[2]


class Edit(NamedTuple):
    """A wrong body: its crate and name, whether the gate tries it, the law that refuses it where
    its contract doesn't, and the texts that are changed in each file, by the file's path below the
    crate's folder. The body's own file is the first."""

    crate: str
    name: str
    in_gate: bool
    law: str
    files: dict[str, list[tuple[str, str]]]

    @property
    def file(self):
        """The file that has the body."""
        return next(iter(self.files), "")

    @property
    def pairs(self):
        """All texts that are changed."""
        return [pair for pairs in self.files.values() for pair in pairs]

    def source(self, file):
        """Where a file of its crate lies."""
        return TOP / "crates" / self.crate / file

    def unfit(self):
        """Why it doesn't fit its sources, a line for each reason."""
        there = all(pairs and self.source(it).is_file() for it, pairs in self.files.items())
        if not self.files or not there:
            return [f"{self.crate}: {self.name} names no file of the crate, or no texts"]
        told = []
        for file, pairs in self.files.items():
            text = self.source(file).read_text()
            told += [f"{self.crate}: {self.name}: {old.strip()!r} stands {text.count(old)} times "
                     f"in {file}" for old, new in pairs if old == new or text.count(old) != 1]
        return told

    def changed_files(self):
        """The texts of its files with the wrong body, by their paths below the crate's folder."""
        found = {}
        for file, pairs in self.files.items():
            found[file] = self.source(file).read_text()
            for old, new in pairs:
                found[file] = found[file].replace(old, new)
        return found

    def changed_sources(self):
        """The same of its code alone, by their paths in the repository."""
        return {f"crates/{self.crate}/{file}": text
                for file, text in self.changed_files().items() if file.endswith(".rt")}


def edits_of(path):
    """The wrong bodies of a file, in their order."""
    found = []
    for block in path.read_text().split("\n\n"):
        name, in_gate, law, pairs, files = "", False, "", [], {}
        for line in block.strip("\n").split("\n"):
            word, _, rest = line.partition(":")
            if word == "wrong":
                name = rest.strip()
            elif line == "gate":
                in_gate = True
            elif word == "law":
                law = rest.strip()
            elif word == "file":
                pairs = files.setdefault(rest.strip(), [])
            elif word == "old":
                pairs.append((rest.removeprefix(" "), ""))
            elif word == "new" and pairs:
                pairs[-1] = (pairs[-1][0], rest.removeprefix(" "))
            else:
                sys.exit(f"{path}: {line!r} is no line of a wrong body")
        found.append(Edit(path.stem, name, in_gate, law, files))
    return found


def crates():
    """The crates that have wrong bodies."""
    return [path.stem for path in sorted((TOP / "tests/wrong").glob("*.edits"))]


def all_edits(names=()):
    """The wrong bodies of all crates, or of these."""
    paths = [TOP / "tests/wrong" / f"{name}.edits" for name in names or crates()]
    if missing := [path.stem for path in paths if not path.is_file()]:
        sys.exit(f"tests/wrong has nothing of {' '.join(missing)}")
    return [edit for path in paths for edit in edits_of(path)]


def named(crate, name):
    """The wrong body of this name, which has to fit its source."""
    edit = next((it for it in all_edits([crate]) if it.name == name), None)
    if edit is None or edit.unfit():
        sys.exit(edit.unfit()[0] if edit else f"tests/wrong/{crate}.edits has no {name}")
    return edit
