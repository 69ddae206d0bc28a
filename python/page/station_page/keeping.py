"""What keeps: an order to the station, and what became of it."""
import asyncio
import collections
import time
from dataclasses import replace

from . import limits, spans, words
from .kept import Kept, not_kept, told
from .orders import NoStation
from .reader import Clip
from .words import Line

# The kinds of lines that say what became of a keep.
ANSWERS = ("kept", "kept_unread", "kept_none", "refused", "absent", "too_many_orders")


class Keeping:
    """The keeps of a laboratory."""

    def __init__(self, laboratory) -> None:
        self.laboratory = laboratory

    def span_at(
        self, moment: int, seconds: int, names: list[str], after: int | None = None
    ) -> tuple[int, int]:
        """The time that a press at a moment means, by the station's clock: the seconds before it,
        and those after it; where these aren't said, what a camera's configuration adds, the most of
        all. A moment that is still to come is now."""
        now = time.time_ns() // 1000
        moment = min(moment, now) + self.laboratory.orders.clock.ahead()
        if after is None:
            after = max((self.laboratory.cameras[name].camera.after for name in names), default=0)
        return max(0, moment - seconds * 1_000_000), moment + after * 1_000_000

    async def keep(
        self,
        camera: str | None,
        seconds: int | None,
        span: tuple[int, int] | None,
        note: str,
        moment: int | None = None,
        after: int | None = None,
    ) -> list[Kept]:
        """Locks the last seconds before a moment, or before now where none is given, and those
        after it, or a span of time, of one camera or of all."""
        names = (
            [self.laboratory.watched(camera).camera.name]
            if camera is not None
            else list(self.laboratory.cameras)
        )
        if moment is not None and span is None and seconds is not None:
            span = self.span_at(moment, seconds, names, after)
        what = f" from {words.iso(span[0])} to {words.iso(span[1])}" if span else f" {seconds}"
        what += f" +{after}" if after is not None and not span else ""
        order = "keep" + (f" {camera}" if camera is not None else "") + what
        self.laboratory.wanted = time.monotonic()
        if self.laboratory.orders.has_answers:
            kept = await self.keep_heard(order, names)
        else:
            kept = await self.keep_unheard(order, names)
            kept = [self.with_lack(one, seconds, span) for one in kept]
        self.laboratory.hurry.set()
        return await self.laboratory.noting.noted(kept, note)

    async def keep_heard(self, order: str, names: list[str]) -> list[Kept]:
        """Gives an order to a station whose answers are heard. A camera whose disk doesn't answer
        holds up no other one's answer."""
        async with self.laboratory.ordering:
            waiting = self.laboratory.orders.begin(order)
        self.laboratory.hurry.set()
        try:
            lines = await self.laboratory.orders.answer(
                waiting, limits.CHANGE_SECONDS, lambda lines: self.is_enough(lines, names)
            )
        except NoStation:
            if not answered(waiting.lines):
                raise
            lines = waiting.lines
        is_whole = waiting.done.done() and waiting.done.exception() is None
        late = [] if is_whole else [name for name in names if name not in answered(lines)]
        return await self.find(lines) + [
            Kept(name, False, self.late_text(name), []) for name in late
        ]

    def is_enough(self, lines: list[Line], names: list[str]) -> bool:
        """Whether only cameras haven't answered yet whose disks don't."""
        late = set(names) - answered(lines)
        return len(late) < len(names) and all(
            self.laboratory.cameras[name].hangs() for name in late
        )

    def late_text(self, name: str) -> str:
        """What is told of a camera that hasn't answered a keep."""
        hanging = self.laboratory.cameras[name].hangs()
        why = (
            f"its disk hasn't answered for {words.seconds_words(hanging)}"
            if hanging
            else "it hasn't answered in time"
        )
        return f"no answer, since {why}. It may still be kept: look at its clips."

    async def find(self, lines: list[Line]) -> list[Kept]:
        """What the lines of an answer say, with the times of its clips, for which their stores are
        looked at until they show them."""
        end = time.monotonic() + limits.FIND_SECONDS
        told_of = sorted(
            {line["camera"] for line in lines if line.kind == "kept"} & set(self.laboratory.cameras)
        )
        while True:
            await self.laboratory.look_at(told_of, is_new=True)
            kept = self.kept_of(lines)
            unseen = {one.camera for one in kept if not all(clip.is_seen for clip in one.clips)}
            if (
                all(
                    self.laboratory.cameras[name].hangs()
                    for name in unseen
                    if name in self.laboratory.cameras
                )
                or time.monotonic() > end
            ):
                return kept
            await asyncio.sleep(0.1)

    def with_lack(self, kept: Kept, seconds: int | None, span: tuple[int, int] | None) -> Kept:
        """What became of a keep, with what it didn't get of the time that was asked for, where the
        station isn't heard."""
        watched = self.laboratory.cameras.get(kept.camera or "")
        if not kept.clips or not watched or not watched.reading:
            return kept
        until = span[1] if span else max(watched.now(), max(clip.until for clip in kept.clips))
        since = span[0] if span else until - (seconds or 0) * 1_000_000
        return replace(
            kept,
            lack=spans.lack(
                watched.reading, kept.clips, since, min(until, watched.now()) if span else until
            ),
        )

    def kept_of(self, lines: list[Line]) -> list[Kept]:
        """What the lines of an answer say."""
        clips, refused, camera = collections.defaultdict(list), [], None
        ends: dict[str | None, int] = {}
        for line in lines:
            # The line of an event that goes on doesn't name its camera: it comes after the other
            # ones of it.
            camera = line.camera or camera
            if line.kind == "kept":
                clips[camera].append(line)
            elif line.kind == "event_begun":
                ends[camera] = line["to"]
            elif line.kind not in ("held", "gap"):
                refused.append(line)
        found = []
        for name, of_one in clips.items():
            number = of_one[0]["event"]
            part = self.laboratory.heard.told(number).part(name)
            one = told(name, [self.clip_told(name, line) for line in of_one], number)
            held = (part.held, part.asked) if part.is_short() else (None, None)
            found.append(
                replace(
                    one,
                    lack=spans.told(part),
                    until=ends.get(name),
                    held=held[0],
                    asked=held[1],
                    lost=part.lost,
                )
            )
        return found + [not_kept(line, line.camera in clips) for line in refused]

    def clip_told(self, name: str, line: Line) -> Clip:
        """The clip of which a line says that it was kept: as its store has it, or, where it isn't
        seen there, as the station tells it."""
        id_, first, last = line["id"], line["first"], line["last"]
        watched = self.laboratory.cameras.get(name)
        reading = watched.reading if watched else None
        # By its frames too: a look that is late may have an earlier clip of that id.
        found = reading.clip_of(id_, first, last) if reading else None
        # One that grows is soon a longer one, with another id.
        longer = [
            it
            for it in (reading.clips if reading else [])
            if it.first == first
            and it.last > last
            and it.is_beside(id_)
            and self.laboratory.heard.number_of(name, it) == line["event"]
        ]
        return (
            found
            or (
                longer
                or [
                    Clip(
                        id_,
                        first,
                        last,
                        line["tag"] or line["event"],
                        line["from"],
                        line["to"],
                        is_seen=False,
                    )
                ]
            )[0]
        )

    async def keep_unheard(self, order: str, names: list[str]) -> list[Kept]:
        """Gives an order to a station whose answers can't be read, and looks in the stores what it
        has done."""
        await self.laboratory.look_at(names, is_new=True)
        before = {
            name: {(clip.id, clip.first) for clip in self.laboratory.held.clips_of(name)}
            for name in names
        }
        self.laboratory.orders.give(order)
        end = time.monotonic() + limits.ANSWER_SECONDS
        while time.monotonic() < end:
            await asyncio.sleep(0.1)
            await self.laboratory.look_at(names, is_new=True)
            new = {
                name: [
                    clip
                    for clip in self.laboratory.held.clips_of(name)
                    if (clip.id, clip.first) not in before[name]
                ]
                for name in names
            }
            if all(new.values()) or (
                any(new.values()) and time.monotonic() > end - limits.ANSWER_SECONDS + 1.5
            ):
                break
        nothing = (
            "no new clip is seen in its store. The station's configuration has no `answers`, so "
            "the page can't say why"
        )
        return [
            told(name, clips) if clips else Kept(name, False, f"{nothing}.", [])
            for name, clips in new.items()
        ]


def answered(lines: list[Line]) -> set[str | None]:
    """The cameras of which lines say what became of an order."""
    return {line.camera for line in lines if line.kind in ANSWERS}
