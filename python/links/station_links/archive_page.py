"""A station's page, as loop_archive asks it: what is held, the files of a clip, and releases."""
from collections.abc import Callable, Iterator

from lapyrei import answers
from lapyrei.answers import MARK, Unusable

from . import pages
from .pages import PageFault

# How long an answer may take: a keep or a release waits for a slow disk, and each piece of a clip's
# bytes for the disk too.
SECONDS = 60.0
PIECE = 1 << 20


class Page(pages.Page):
    """The page at an address."""

    def __init__(self, url: str, token: str | None, clip_of: Callable) -> None:
        super().__init__(url, token, SECONDS)
        self.clip_of = clip_of

    def held(self) -> tuple[list, set[str]]:
        """The clips that are held of events that are over, and the cameras whose stores the page
        reads: of others nothing is known, and those of other stations, which have a mark in their
        names, are for programs beside these. The events are asked for before and after: one that
        begins or ends meanwhile goes on."""
        before = self.going_on()
        clips = self.look("/api/clips", answers.CLIPS_SAID)["clips"]
        cameras = self.look("/api/status", answers.STATUS)["cameras"]
        is_on = before | self.going_on()
        read = {it["name"] for it in cameras if "clips" in it and MARK not in it["name"]}
        return [
            self.clip_of(it)
            for it in clips
            if it["camera"] in read and (it["camera"], it["id"], it["first"]) not in is_on
        ], read

    def going_on(self) -> set[tuple[str, int, int]]:
        """The clips of events whose end lies ahead."""
        return {
            (clip["camera"], clip["id"], clip["first"])
            for event in self.look("/api/events", answers.EVENTS_SAID)["events"]
            if event["until_us"] is not None
            for clip in event["clips"]
        }

    def pieces(self, path: str, most: int) -> Iterator[bytes]:
        """A file of a clip, of so many bytes at most, piece by piece: all of it, or PageFault."""
        with self.answer(path) as (found, door):
            if found.status != 200:
                raise PageFault(f"The page refuses {path}: {said(found)}")
            left = found.length
            if left is None:
                raise PageFault("The page doesn't say how long a file is.")
            if left > most:
                raise self.unusable(path, Unusable(f"has {left} bytes, of {most} at most"))
            while left:
                door.renew()
                piece = found.read(min(PIECE, left))
                if not piece:
                    raise PageFault("The page broke off.")
                left -= len(piece)
                yield piece

    def release(self, camera: str, id_: int, first: int, last: int, tag: int) -> None:
        """Releases a clip: that of these frames and this tag."""
        body = {"camera": camera, "id": id_, "first": first, "last": last, "tag": tag}
        status, found = self.ask("/api/release", body)
        if status != 200:
            raise PageFault(f"The page refuses: {found.get('error', f'status {status}')}")


def said(found) -> str:
    """What a refusal says."""
    try:
        told = answers.answer_in(found.read(pages.REFUSAL_BYTES), answers.REFUSAL)
    except Unusable:
        told = {}
    return told.get("error") or f"status {found.status}"
