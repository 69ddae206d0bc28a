"""Plain prompts. What an option has said isn't asked; with --yes nothing is, and the proposal is
taken."""
from __future__ import annotations

from typing import Callable, Sequence


class Stopped(Exception):
    """Nobody answers any more."""


class Ask:
    """Asks on a terminal, or of a file of answers, a line each."""

    def __init__(self, proposed_alone: bool, read: Callable[[str], str] = input) -> None:
        self.proposed_alone, self.read = proposed_alone, read

    def text(
        self,
        question: str,
        proposed: str,
        given: str | None = None,
        wrong: Callable[[str], str | None] = lambda _: None,
    ) -> str:
        """A word. `wrong` says what is wrong with it, and it is asked for again."""
        if given is not None or self.proposed_alone:
            word = proposed if given is None else given
            if why := wrong(word):
                raise Stopped(f"{question}: {word}: {why}")
            return word
        while True:
            word = self._line(f"{question} [{proposed}]: ") or proposed
            why = wrong(word)
            if not why:
                return word
            print(f"  {word}: {why}")

    def one_of(self, question: str, choices: Sequence[str], proposed: int = 0) -> int:
        """The place of one of some choices."""
        if self.proposed_alone or len(choices) == 1:
            return proposed
        print(question)
        for number, choice in enumerate(choices, 1):
            print(f"  {number}  {choice}")
        while True:
            word = self._line(f"Number [{proposed + 1}]: ") or str(proposed + 1)
            if word.isdecimal() and 1 <= int(word) <= len(choices):
                return int(word) - 1
            print(f"  {word}: one of 1 to {len(choices)}")

    def yes(self, question: str, proposed: bool, given: bool | None = None) -> bool:
        """Yes or no."""
        if given is not None:
            return given
        if self.proposed_alone:
            return proposed
        while True:
            word = self._line(f"{question} [{'Y/n' if proposed else 'y/N'}]: ").lower()
            if word in ("", "y", "yes", "n", "no"):
                return proposed if not word else word[0] == "y"
            print("  y or n")

    def _line(self, prompt: str) -> str:
        try:
            return self.read(prompt).strip()
        except EOFError:
            raise Stopped("no answer, and nothing was changed") from None
