"""Files of TOML in which each word is known and is what it has to be. Whatever isn't is refused
with the path and the word."""
import math
import os
import re
import tomllib
from pathlib import Path

NAME = re.compile(r"[A-Za-z0-9_-]{1,32}")
# Where the version stands: beside the installed modules, or beside the sources.
VERSION_FILES = ("../VERSION", "../../../VERSION")


class BadSettings(Exception):
    """What is wrong with a file, in words for the one who wrote it."""


class Words:
    """The words of a table, each taken once by what it has to be. What was never taken is
    unknown."""

    def __init__(self, table: object, where: str) -> None:
        if not isinstance(table, dict):
            raise BadSettings(f"{where}: this isn't a table")
        self.table, self.where, self.taken = table, where, set()

    def bad(self, word: str, what: str) -> BadSettings:
        """That a word isn't what it has to be."""
        return BadSettings(f"{self.where}: {word} isn't {what}")

    def has(self, word: str) -> bool:
        """Whether a word is there."""
        return word in self.table

    def take(self, word: str, left_out: object, is_fit, what: str):
        """A word's value; where it is left out, what it is then, and `...` where it has to be
        there."""
        self.taken.add(word)
        if word not in self.table:
            if left_out is ...:
                raise BadSettings(f"{self.where}: {word} is missing: {what}")
            return left_out
        value = self.table[word]
        if not is_fit(value):
            raise self.bad(word, what)
        return value

    def text(self, word: str, left_out: object = ..., form: str = r"[^\0\r\n]{1,4096}",
             what: str = "a text in one line") -> str:
        """A text, by its form."""
        return self.take(
            word, left_out, lambda it: isinstance(it, str) and re.fullmatch(form, it), what
        )

    def name(self, word: str, left_out: object = ...) -> str:
        """A name, as those of cameras."""
        return self.text(word, left_out, NAME.pattern, "a name of letters, digits, - or _")

    def number(self, word: str, least: float, most: float, left_out: object = ...,
               whole: bool = False) -> float:
        """A number within its bounds."""
        kinds = int if whole else (int, float)
        return self.take(
            word,
            left_out,
            lambda it: isinstance(it, kinds) and not isinstance(it, bool) and math.isfinite(it)
            and least <= it <= most,
            f"a {'whole ' if whole else ''}number from {least} to {most}",
        )

    def choice(self, word: str, choices: tuple, left_out: object = ...) -> str:
        """One of some words."""
        return self.take(
            word, left_out, lambda it: isinstance(it, str) and it in choices,
            "one of " + ", ".join(choices),
        )

    def switch(self, word: str, left_out: bool) -> bool:
        """true or false."""
        return self.take(word, left_out, lambda it: isinstance(it, bool), "true or false")

    def tables(self, word: str) -> list["Words"]:
        """Tables of one name, [[so]]."""
        found = self.take(word, [], lambda it: isinstance(it, list), f"tables, each as [[{word}]]")
        return [Words(table, f"{self.where}: {word} {n + 1}") for n, table in enumerate(found)]

    def table_of(self, word: str) -> "Words | None":
        """A table, [so]; none where it is left out."""
        found = self.take(word, None, lambda it: isinstance(it, dict), f"a table, as [{word}]")
        return None if found is None else Words(found, f"{self.where}: {word}")

    def end(self) -> None:
        """Refuses what nobody has taken."""
        if unknown := sorted(set(self.table) - self.taken):
            raise BadSettings(f"{self.where}: unknown words: {', '.join(unknown)}")


def words_of(path: str) -> Words:
    """The words of a file."""
    try:
        with open(path, "rb") as file:
            return Words(tomllib.load(file), path)
    except OSError as fault:
        raise BadSettings(f"{path}: {fault.strerror}") from None
    except (tomllib.TOMLDecodeError, UnicodeDecodeError) as fault:
        raise BadSettings(f"{path}: {fault}") from None


def secret_in(path: str, what: str) -> str:
    """The first line of a file that others may neither read nor write."""
    try:
        with open(path, encoding="utf-8") as file:
            mode = os.fstat(file.fileno()).st_mode
            line = file.readline(1024).strip()
    except (OSError, UnicodeDecodeError) as fault:
        raise BadSettings(f"{what}: {path}: {getattr(fault, 'strerror', fault)}") from None
    if mode & 0o027:
        raise BadSettings(
            f"{what}: {path}: others may read or write it. Take that right away: "
            f"chmod o=,g-w {path}"
        )
    if not line:
        raise BadSettings(f"{what}: {path}: its first line is empty")
    return line


def version() -> str:
    """The version of the programs."""
    for place in VERSION_FILES:
        path = Path(__file__).resolve().parent / place
        if path.is_file():
            return path.read_text(encoding="ascii").strip()
    return "unknown"
