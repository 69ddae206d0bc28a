"""Notes of clips that grow, or that aren't seen in their store yet: they are written once the clips
are there."""
import asyncio
import contextlib
from dataclasses import replace

from . import limits
from .heard import is_number
from .kept import Kept
from .notes import NotesFault, key_of
from .reader import Clip

# What is said where a clip isn't seen in its store yet: its note is found by the clip's times.
UNSEEN = "Its note is written once the page can read the store."


class Noting:
    """What is to be written. `laboratory` has the cameras with their clips, what was heard of
    events, and the notes."""

    def __init__(self, laboratory) -> None:
        self.laboratory = laboratory
        # Notes of clips that still grow, by camera and event.
        self.growing: dict[tuple[str, int], str] = {}
        self.grown: set[tuple[str, int]] = set()
        # Notes of clips that aren't seen yet.
        self.waiting: dict[tuple[str, Clip], str] = {}

    def forget(self, name: str) -> None:
        """A camera isn't there any more."""
        self.growing = {key: it for key, it in self.growing.items() if key[0] != name}
        self.waiting = {key: it for key, it in self.waiting.items() if key[0] != name}

    async def noted(self, kept: list[Kept], note: str) -> list[Kept]:
        """Writes a note to what was kept, or remembers it where a clip isn't seen yet. Where it
        can't be written, the answer says so, and the clip is kept nevertheless."""
        if not note:
            return kept
        clips = [(one.camera or "", clip) for one in kept for clip in one.clips]
        for name, clip in clips:
            if not clip.is_seen and name in self.laboratory.cameras:
                self.waiting[name, clip] = note
        while len(self.waiting) > limits.NOTES_WAITING:
            del self.waiting[next(iter(self.waiting))]
        fault, seen = "", [it for it in clips if it[1].is_seen]
        try:
            if seen:
                await asyncio.to_thread(self.put, seen, note)
        except NotesFault as found:
            fault = str(found)
        return [
            replace(one, remark=fault if all(clip.is_seen for clip in one.clips) else UNSEEN)
            if one.clips
            else one
            for one in kept
        ]

    def put(self, clips: list[tuple[str, Clip]], text: str) -> None:
        """Writes a note beside some clips, each with its camera."""
        laboratory = self.laboratory
        keys = {
            key_of(watched.camera.store, it)
            for name, watched in laboratory.cameras.items()
            for it in laboratory.held.clips_of(name)
        }
        laboratory.notes.put(
            [(laboratory.watched(name).camera.store, clip) for name, clip in clips],
            text,
            keys.__contains__,
        )
        for name, clip in clips:
            number = laboratory.heard.number_of(name, clip)
            if (
                number is not None
                and not is_number(clip.tag)
                and laboratory.heard.told(number).goes_on(name)
            ):
                self.growing[name, number] = text

    async def carry(self) -> None:
        """Writes what can be written now."""
        await self.carry_waiting()
        await self.carry_growing()

    async def carry_waiting(self) -> None:
        """Writes the notes of clips that are seen now. One that somebody wrote meanwhile stays."""
        for (name, clip), text in list(self.waiting.items()):
            if name not in self.laboratory.cameras:
                continue
            found = self.seen(name, clip)
            if found is None:
                continue
            store = self.laboratory.cameras[name].camera.store
            with contextlib.suppress(NotesFault):
                if not self.laboratory.notes.of(store, found):
                    await asyncio.to_thread(self.put, [(name, found)], text)
                self.waiting.pop((name, clip), None)

    def seen(self, name: str, clip: Clip) -> Clip | None:
        """A clip that was told, as its store shows it: itself, or what it has grown to."""
        longer = [
            it
            for it in self.laboratory.held.clips_of(name)
            if (it.first, it.tag) == (clip.first, clip.tag)
            and it.last >= clip.last
            and it.is_beside(clip.id)
        ]
        same = [it for it in longer if (it.id, it.last) == (clip.id, clip.last)]
        found = same or longer
        return found[0] if len(found) == 1 else None

    async def carry_growing(self) -> None:
        """Writes the notes of events that go on to their longer clips. Of most they are found by
        the event's number, which is the clip's tag; those with a tag of yours are found by the
        clip's ends."""
        laboratory = self.laboratory
        for (name, number), text in list(self.growing.items()):
            if name not in laboratory.cameras:
                continue
            store = laboratory.cameras[name].camera.store
            is_open = laboratory.heard.told(number).goes_on(name)
            clips = [
                clip
                for clip in laboratory.held.clips_of(name)
                if laboratory.heard.number_of(name, clip) == number
            ]
            lacking = [
                (name, clip) for clip in clips if text and not laboratory.notes.of(store, clip)
            ]
            if lacking:
                with contextlib.suppress(NotesFault):
                    await asyncio.to_thread(self.put, lacking, text)
            # The last one may not have been seen yet when the station says that it is.
            if not is_open and (name, number) in self.grown:
                self.growing.pop((name, number), None)
            (self.grown.discard if is_open else self.grown.add)((name, number))
            self.grown &= set(self.growing)
