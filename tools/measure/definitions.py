#!/usr/bin/env python3
"""Counts the definitions of specs/ that contracts rest on: of the store's public calls and the
trait `Disk`, of the calls that write and open, of a desk's calls, of `lane_run`, of a camera's
`film_camera` and `film_desks`, of `film_all`, of a camera with all calls of the recorder's library,
and of what the station decides, without the laws of that and with them. For the calls that write, a
desk's, `lane_run` and `film_camera` it also counts only those on which it rests what a power loss
leaves: the clauses in LOSS, and of the records in FIELDS the fields that are listed there.

Run it at the top of the repository: `python3 tools/measure/definitions.py`. With names after it
(`after Goes`) it says which definitions of these names there are, and what each rests on. It is no
part of the gate.

A definition is a crate, a module and a name, since one name may stand in several modules. A name in
a clause or in a definition is resolved by its own file: what the file defines comes first, then
what its lines `use Rattle.crate.specs.Module.{a, b as c}` import, and `word.a` where `use
Rattle.crate.specs.Module as word` stands there. A constructor is its type; a name after a dot is a
field, and one in front of ':' is a field or bound. What a type's contracts look at, its `ghost
Value`, counts with each call whose signature names the type, or whose `self` is one. Types that the
program declares (`specs.declared`) and what the kit defines aren't definitions of specs/.

It prints how many definitions there are, their lines with all comments beside and in them, their
lines without, and the same file by file.
"""
import collections
import glob
import os
import re
import sys

sys.path.insert(1, os.path.dirname(os.path.dirname(os.path.abspath(__file__))))
import about

STORE, DESK, PIPELINE = (
    "crates/loop_store/src/",
    "crates/loop_desk/src/",
    "crates/loop_pipeline/src/",
)
WHOLE = {STORE + file: None for file in ["make.rt", "reopen.rt", "store.rt", "command.rt"]}
WRITES = {STORE + "store.rt": ["append", "lock"], STORE + "command.rt": ["run"]}
WRITES |= {STORE + "make.rt": ["format"], STORE + "reopen.rt": ["open"]}
KEEPS = [
    "submit",
    "flush",
    "lock_clip",
    "unlock_clip",
    "upgrade",
    "read_frame",
    "read_head",
    "sought",
]
LANE = {"crates/loop_lane/src/lane.rt": ["lane_run"]}
CAMERA = {PIPELINE + "film.rt": ["film_camera"]}
DESKS = {PIPELINE + "film.rt": ["film_desks"]}
CAMERAS = {PIPELINE + "several.rt": ["film_all"]}
# The library of histories and threads: all its public calls.
RECORDER = {
    path: None for path in sorted(glob.glob("crates/loop_recorder/src/*.rt"))
}
# What the station decides: its decisions, and the laws about them.
DECIDES = {
    path: None
    for path in sorted(glob.glob("crates/loop_station_core/src/*.rt"))
    if not path.endswith("/laws.rt")
}
DECIDED = {"crates/loop_station_core/src/laws.rt": None}
QUESTIONS = {
    "the store's public calls and the trait Disk": (WHOLE, False),
    "append, lock, run, format, open": (WRITES, False),
    "append, lock, run, format, open, what a power loss leaves": (WRITES, True),
    "a desk's calls": ({DESK + "desk.rt": KEEPS + ["status", "outline"]}, False),
    "a desk's calls, what a power loss leaves": (
        {DESK + "desk.rt": KEEPS, DESK + "laws.rt": ["calls_keep_footage"]},
        True,
    ),
    "lane_run": (LANE, False),
    "lane_run, what a power loss leaves": (LANE, True),
    "a camera: film_camera": (CAMERA, False),
    "a camera: film_camera, what a power loss leaves": (CAMERA, True),
    "a camera of several desks: film_desks": (DESKS, False),
    "several cameras: film_all": (CAMERAS, False),
    "a recorder's calls and a camera": (RECORDER | CAMERA, False),
    "what the station decides": (DECIDES, False),
    "what the station decides, and the laws of that": (DECIDES | DECIDED, False),
}
# The clauses that say what a power loss leaves, and of the records that say more than that, the
# fields that do.
LOSS = {"", "goes", "ran", "moments", "headline", "keeps", "footage"}
FIELDS = {
    "Formats": {"moments"},
    "OpensKeeping": {"moments"},
    "Goes": {"leaves"},
    "DeskGoes": {"store", "pending"},
    "LaneRan": {"calls", "shown", "desk"},
    "LaneKeeps": {"ran", "footage"},
    "CameraKeeps": {"parts", "served", "footage"},
}
BEGIN = re.compile(r"(?:abbrev pub|pub record|pub data|abbrev|record|data|pub(?! mod)) ([^ :({]+)")
USE = re.compile(r"use Rattle\.(\w+)\.specs\.([\w.]+?)(?:\.\{([^}]*)\}| as (\w+))\s*;?$", re.M)
WORD = re.compile(r"(?<![\w'.])[A-Za-z_][\w']*(?:\.[A-Za-z_][\w']*)?")
BOUND = re.compile(r"[({]([\w' ]+) : |^ *(?:pub )?([\w']+) :", re.M)
Definition = collections.namedtuple("Definition", "comment lines")


def read_specs():
    """All definitions by (crate, module, name), and what each name of each module's own is."""
    found, own = {}, collections.defaultdict(dict)
    for path in glob.glob("crates/*/specs/**/*.antt", recursive=True):
        crate, module = path.split("/")[1], path.split("specs/")[1][:-5].replace("/", ".")
        margin, comment, key = 0, [], None
        for line in open(path):
            margin = (
                2
                if line.startswith("module ")
                else margin if not line.strip() or line.startswith("  ") else 0
            )
            text = line[margin:] if line.startswith(" " * margin) else line
            begun = BEGIN.match(text)
            if text.startswith("--") or not text.strip():
                comment, key = (
                    (
                        comment + [text]
                        if text.startswith("--") and not text.startswith("-- ----")
                        else []
                    ),
                    None,
                )
            elif begun:
                key = (crate, module, begun.group(1))
                own[path][begun.group(1)] = key
                found[key], comment = Definition(comment, [text]), []
            elif key:
                found[key].lines.append(text)
                made = re.match(r"  ([^ :(]+) :", text)
                if made and found[key].lines[0].startswith(("pub data", "data")):
                    own[path][made.group(1)] = key
    return found, own


def scope_of(path, own):
    """What each name and each word before a dot is in a file: a definition, or a module's names."""
    names, words = {}, {}
    for crate, module, listed, word in USE.findall(open(path).read()):
        there = own.get(f"crates/{crate}/specs/{module.replace('.', '/')}.antt", {})
        if word:
            words[word] = there
        for name in filter(None, (n.strip() for n in listed.split(","))):
            name, _, other = name.partition(" as ")
            if name in there:
                names[other or name] = there[name]
    names.update(own.get(path, {}))
    return names, words


def rests_on(text, scope):
    """The definitions that a text names."""
    text = "\n".join(line for line in text.split("\n") if not line.strip().startswith("--"))
    names, words = scope
    bound = {name for group in BOUND.findall(text) for part in group for name in part.split()}
    for word in WORD.findall(text):
        first, _, second = word.partition(".")
        if first in words and second in words[first]:
            yield words[first][second]
        elif first in names and first not in bound:
            yield names[first]


def below(named, found, own):
    """Some definitions, and all on which they rest."""
    scopes = {
        key[:2]: scope_of(path, own) for path, names in own.items() for key in names.values()
    }
    seen, todo = set(), list(named)
    while todo:
        key = todo.pop()
        if key not in seen:
            seen.add(key)
            todo += rests_on("".join(found[key].lines), scopes[key[:2]])
    return seen


def asked(calls, loss, own):
    """The definitions that these calls' clauses and the types that they name rest on; of all the
    store's calls, the trait's."""
    values = {}
    for path in glob.glob("crates/loop_*/src/*.rt"):
        for name, value in re.findall(
            r"Model for (\w+)[^{]*\{(?:\s*ghost use [^;]*;)*\s*ghost Value = \{(.*?)\};",
            open(path).read(),
            re.S,
        ):
            values[name] = set(rests_on(value, scope_of(path, own)))
    for path, names in calls.items():
        text, scope = open(path).read(), scope_of(path, own)
        for at in re.finditer(r"^ *pub fn (\w+)[^{;]*?(?:\{.*?)?\n *\{\}?$", text, re.S | re.M):
            if names is None or at.group(1) in names:
                signature, *said = re.split(r"\b(?=(?:requires|ensures)\b[ \w]*\{)", at.group())
                for clause in said:
                    _, name, text_of = re.match(
                        r"(requires|ensures) ?(\w*) ?\{(.*)", clause, re.S
                    ).groups()
                    if not loss or name in LOSS:
                        yield from rests_on(text_of, scope)
                self_type = re.findall(r"^impl.*?(\w+)<[^>]*> \{$", text[: at.start()], re.M)[-1:]
                for word in set(re.findall(r"\w+", signature)) | set(self_type):
                    yield from values.get(word, ())
    if calls == WHOLE:
        path = "crates/loop_disk/src/disk.rt"
        for clause in re.findall(
            r"(?:requires|ensures|ghost)[^{]*\{(.*?)\}[;\n]", open(path).read(), re.S
        ):
            yield from rests_on(clause, scope_of(path, own))


def cut(name, lines):
    """A definition's lines, of a record in FIELDS those of its fields there."""
    kept, keeps = [], True
    for line in lines:
        field = re.match(r"  pub (\w+) :", line)
        keeps = field.group(1) in FIELDS[name] if field and name in FIELDS else keeps
        kept += [line] * keeps
    return kept


def main():
    found, own = read_specs()
    path_of = {key: path for path, names in own.items() for key in names.values()}
    scopes = {path: scope_of(path, own) for path in own}
    for name in sys.argv[1:]:
        for key in sorted(k for k in found if k[2] == name):
            rests = set(rests_on("".join(found[key].lines), scopes[path_of[key]])) - {key}
            print(
                ".".join(key), "rests on", ", ".join(".".join(k) for k in sorted(rests)) or "none"
            )
    for question, (calls, loss) in QUESTIONS.items() if not sys.argv[1:] else ():
        todo, seen = list(asked(calls, loss, own)), {}
        while todo:
            key = todo.pop()
            if key not in seen:
                seen[key] = cut(key[2], found[key].lines) if loss else found[key].lines
                todo += rests_on("".join(seen[key]), scopes[path_of[key]])
        counts = collections.defaultdict(lambda: [0, 0, 0])
        for key, lines in seen.items():
            bare = [line for line in lines if not line.strip().startswith("--")]
            for at in (key[:2], ()):
                for i, count in enumerate((1, len(found[key].comment) + len(lines), len(bare))):
                    counts[at][i] += count
        print(
            f"{question}: {counts[()][0]} definitions, {counts[()][1]} lines with their words,"
            f" {counts[()][2]} without"
        )
        for at in sorted(at for at in counts if at):
            print(f"  {at[0]}/specs/{at[1]}: {counts[at][1]}, {counts[at][2]}")


if __name__ == "__main__":
    about.answers(__doc__)
    main()
