"""Cameras that are set from the browser: the page writes words of NAME.camera into a file beside it,
and `loop_camera --set` takes them while it films. What a camera takes, has and refuses it says in
another file (`--state`), so what is told here is what the camera does."""
import asyncio
import os
import re
import time
from pathlib import Path

from lapyrei import answers

from . import limits, words
from .words import Unfit

# A word that may be changed, and a value: nothing of them has a meaning to a shell or a file.
WORD = r"(EXPOSURE|GAIN|REGION|TRIGGER|CONTROL_[a-z0-9_]{1,64})"
VALUE = re.compile(r"[A-Za-z0-9_.:+-]{1,64}")
REGION = re.compile(r"\d{1,5}x\d{1,5}\+\d{1,5}\+\d{1,5}")
TEXTS = answers.each(answers.text(r"[\x20-\x7e]{1,100}", "a choice"), 300)
NUMBER = answers.number(-(2.0**63), 2.0**64)


def is_value(value: object) -> None:
    """A number, or a text."""
    (NUMBER if isinstance(value, (int, float)) else answers.TEXT)(value)


TAKES = answers.table(
    {"word": answers.text(WORD, "a word"), "now": is_value},
    {
        "least": NUMBER,
        "most": NUMBER,
        "step": NUMBER,
        "choices": TEXTS,
        "names": TEXTS,
        "held": answers.flag,
        "sensor": answers.each(answers.COUNT, 2, 2),
    },
)
SAID = answers.table(
    {
        "words": answers.named(answers.TEXT, answers.text(WORD, "a word"), 300),
        "fault": answers.TEXT,
        "read": answers.COUNT,
        "takes": answers.each(TAKES, 300),
    }
)
HEAD = "# What was changed at the page; it counts before what NAME.camera says.\n"


class Tuning:
    """The cameras of a laboratory, as they are set."""

    def __init__(self, laboratory) -> None:
        self.laboratory = laboratory
        self.turns: dict[str, asyncio.Lock] = {}

    def said(self, camera: str) -> dict | None:
        """What a camera says of itself; none where it says nothing, or nothing that is whole."""
        folder = self.laboratory.settings.camera_states
        if not folder or not self.laboratory.settings.cameras_set:
            return None
        try:
            with open(os.path.join(folder, f"{camera}.json"), "rb") as file:
                return answers.answer_in(file.read(limits.SAID_BYTES), SAID)
        except (OSError, answers.Unusable):
            return None

    def settings(self, camera: str) -> dict:
        """What of a camera may be set here, with what it has now."""
        found = self.said(self.laboratory.watched(camera).camera.name)
        return {"takes": found["takes"], "fault": found["fault"]} if found else {"takes": []}

    async def change(self, camera: str, wish: object, who: str) -> str:
        """Changes words of a camera, and says what it has then; Unfit where it takes one not."""
        name = self.laboratory.watched(camera).camera.name
        async with self.turns.setdefault(name, asyncio.Lock()):
            before = await asyncio.to_thread(self.said, name)
            if before is None:
                raise Unfit(
                    409,
                    f"{name} can't be set here: its program says nothing of it. docs/cameras.md "
                    "says what that needs.",
                )
            values = values_in(wish, before["takes"])
            new = before["words"] | values
            await self.written(name, new)
            said = await self.heard(name, before["read"])
            if said is None or said["words"] != new:
                await self.written(name, before["words"])
                why = said["fault"] if said else "its program doesn't answer"
                raise Unfit(409, f"{name}: {words.plain(why)}. All is as it was.")
            text = told_of(values, before["takes"], said["takes"])
            self.laboratory.causes.change(name, text, who, time.time_ns() // 1000)
            return f"{name}: {text}."

    async def written(self, camera: str, found: dict[str, str]) -> None:
        """Writes a camera's file, which its program may read; Unfit where that can't be."""
        text = HEAD + "".join(f"{word}={value}\n" for word, value in found.items())
        path = Path(self.laboratory.settings.cameras_set) / f"{camera}.camera"
        try:
            await asyncio.to_thread(write, path, text)
        except OSError as fault:
            raise Unfit(503, f"{path} can't be written: {fault.strerror}.") from None

    async def heard(self, camera: str, before: int) -> dict | None:
        """What a camera says once its program has read its file again."""
        end = time.monotonic() + limits.TUNING_SECONDS
        while time.monotonic() < end:
            await asyncio.sleep(0.1)
            found = await asyncio.to_thread(self.said, camera)
            if found and found["read"] != before:
                return found
        return None


def write(path: Path, text: str) -> None:
    """Writes a file whole, which other users may read, and makes its folder."""
    path.parent.mkdir(mode=0o755, exist_ok=True)
    path.parent.chmod(0o755)
    new = path.with_name(f".{path.name}.new")
    with open(new, "w", encoding="ascii") as file:
        os.fchmod(file.fileno(), 0o644)
        file.write(text)
        file.flush()
        os.fsync(file.fileno())
    os.replace(new, path)


def values_in(wish: object, takes: list[dict]) -> dict[str, str]:
    """What a request wishes, by its words, as the file has it; Unfit where a camera takes no such,
    or where it is beyond its bounds."""
    known = {it["word"]: it for it in takes}
    if not isinstance(wish, dict) or not 1 <= len(wish) <= limits.TUNED_AT_ONCE:
        raise Unfit(400, "set is an object: words of the camera, each with its value.")
    found = {}
    for word, value in wish.items():
        text = f"{value:g}" if isinstance(value, float) else str(value)
        if word not in known:
            raise Unfit(400, f"{words.plain(str(word))[:40]} isn't a word that this camera takes.")
        if not VALUE.fullmatch(text):
            raise Unfit(400, f"{word}: that is no value.")
        is_within(known[word], text)
        found[word] = text
    return found


def is_within(take: dict, text: str) -> None:
    """That a value is one that a camera takes: Unfit where it isn't."""
    word = take["word"]
    if "choices" in take:
        if text not in take["choices"]:
            raise Unfit(400, f"{word} is one of {', '.join(take['choices'])[:200]}.")
    elif "least" in take:
        try:
            number = float(text)
        except ValueError:
            raise Unfit(400, f"{word} is a number.") from None
        if not take["least"] <= number <= take["most"]:
            raise Unfit(400, f"{word} is from {take['least']:g} to {take['most']:g}.")
    elif not REGION.fullmatch(text):
        raise Unfit(400, f"{word} is such as 640x480+8+16: its size, and its column and row.")


def told_of(values: dict[str, str], before: list[dict], now: list[dict]) -> str:
    """What was changed, in words: what the camera has now, and what it had."""
    had, has = ({it["word"]: it["now"] for it in takes} for takes in (before, now))
    return ", ".join(
        f"{word} {shown(had.get(word))} to {shown(has.get(word, value))}"
        for word, value in values.items()
    )


def shown(value: object) -> str:
    """A value in words."""
    return f"{value:g}" if isinstance(value, (int, float)) else words.plain(str(value))
