"""The clips that stores hold: listed, fetched and released."""
import asyncio
import collections
import contextlib
from collections.abc import Callable, Iterator

import layout

from . import limits, words
from .films import Fetch, fetch_of
from .heard import is_number
from .reader import Clip, Gone, Reading, Source, store_of
from .watched import Watched
from .words import Unfit


class Held:
    """The clips of a laboratory."""

    def __init__(self, laboratory) -> None:
        self.laboratory = laboratory
        self.fetching: collections.Counter[tuple[str, int]] = collections.Counter()
        self.releasing: set[tuple[str, int]] = set()

    def clips(self) -> list[dict]:
        """All clips, the newest first."""
        found = []
        for name, watched in self.laboratory.cameras.items():
            reading = watched.reading
            for clip in reading.clips if reading else []:
                own = 0 if is_number(clip.tag) else clip.tag
                part = reading.part(clip.id)
                found.append(
                    {
                        "camera": name,
                        "id": clip.id,
                        "first": clip.first,
                        "last": clip.last,
                        "event": self.laboratory.heard.number_of(name, clip),
                        # A tag of yours; and what of it is the order's, and not the
                        # configuration's.
                        "tag": own,
                        "order_tag": 0 if own == watched.camera.tag else own,
                        "frames": clip.count(),
                        "from_us": clip.since,
                        "to_us": clip.until,
                        "from": words.iso(clip.since),
                        "to": words.iso(clip.until),
                        "lost": clip.lost(),
                        "runs": clip.runs,
                        "seconds": (clip.until - clip.since) / 1e6 + 1 / reading.geometry.rate(),
                        "bytes": clip.count() * (reading.geometry.size + 6)
                        + len(layout.text_front(part.geometry, part.bits(clip.first))),
                        "note": self.laboratory.notes.of(watched.camera.store, clip),
                        "fetched": self.fetching[name, clip.id] > 0,
                    }
                )
        for one in found:
            one["archived"] = self.laboratory.archive.has(one)
        return sorted(found, key=lambda clip: (clip["to_us"], clip["camera"]), reverse=True)

    def clips_of(self, name: str) -> list[Clip]:
        """The clips of a camera, as they were seen last."""
        reading = self.laboratory.cameras[name].reading
        return reading.clips if reading else []

    def clip(
        self, camera: object, id_: int, first: int | None = None
    ) -> tuple[Watched, Reading, Source, Clip]:
        """A clip by its id, and by its first number where that is given: ids are used again."""
        watched, reading, source = self.laboratory.seen(camera)
        clip = reading.clip(id_)
        if clip is None or (first is not None and clip.first != first):
            clip = self.longer(watched, first, lambda it: reading.are_beside(it.id, id_))
        if clip is None:
            raise Unfit(404, "There is no such clip any more.")
        store = store_of(clip.id) if reading.stores else None
        return watched, reading.part(clip.id), source.of(store), clip

    def longer(
        self,
        watched: Watched,
        first: int | None,
        is_beside: Callable[[Clip], bool] = lambda clip: True,
    ) -> Clip | None:
        """What a clip with this first frame has grown to, in an event whose end lay ahead: it has
        another id by then. `is_beside` says of a clip whether it is in the same store."""
        name = watched.camera.name
        found = [
            clip
            for clip in self.clips_of(name)
            if clip.first == first
            and is_beside(clip)
            and self.laboratory.heard.told(self.laboratory.heard.number_of(name, clip)).until
        ]
        return found[0] if len(found) == 1 else None

    async def release(
        self, camera: str, id_: int, first: int | None, exactly: tuple[int, int] | None = None
    ) -> str:
        """Releases a clip that isn't being fetched: the one that begins with this frame, where that
        is given; and `exactly` the one that ends with this frame and has this tag."""
        key = (camera, id_)
        if self.fetching[key] or key in self.releasing:
            raise Unfit(
                409, "The clip is being fetched, or released already. Wait until that has ended."
            )
        self.releasing.add(key)
        try:
            async with self.laboratory.ordering:
                await self.laboratory.look_at(
                    [self.laboratory.watched(camera).camera.name], is_new=True
                )
                *_, clip = self.clip(camera, id_, first)
                # An old layout has no tags.
                if exactly and (clip.last, clip.tag or exactly[1]) != exactly:
                    raise Unfit(409, "Another clip has that number by now.")
                # By its first frame too, so that no other clip is released that has its id by then.
                order = f"release {camera} {clip.id} {clip.first}"
                waiting = (
                    self.laboratory.orders.begin(order)
                    if self.laboratory.orders.has_answers
                    else None
                )
                if waiting is None:
                    self.laboratory.orders.give(order)
            lines = (
                await self.laboratory.orders.answer(waiting, limits.CHANGE_SECONDS)
                if waiting
                else []
            )
            await asyncio.sleep(0 if waiting else 0.5)
            await self.laboratory.look_at([camera], is_new=True)
        finally:
            self.releasing.discard(key)
            self.laboratory.hurry.set()
        id_ = clip.id
        if any(
            line.kind == "released" and (line["camera"], line["id"]) == (camera, id_)
            for line in lines
        ):
            return f"{camera}: clip {id_} is released. Its room is used again."
        if waiting:
            said = [
                words.refusal_of(line) or f"the station answers `{line.kind}`" for line in lines
            ]
            raise Unfit(
                409, f"{camera}: clip {id_} isn't released: {'; '.join(said) or 'no answer'}."
            )
        reading = self.laboratory.cameras[camera].reading
        if reading is None or reading.clip_of(id_, clip.first, clip.last):
            raise Unfit(
                409,
                f"{camera}: clip {id_} still stands. The configuration has no `answers`, so the "
                f"page can't say why.",
            )
        return f"{camera}: clip {id_} is released, as its store shows."

    @contextlib.contextmanager
    def busy(self, camera: str, id_: int) -> Iterator[None]:
        """A clip is being fetched, and can't be released by the page meanwhile."""
        if (camera, id_) in self.releasing:
            raise Unfit(409, "The clip is being released.")
        self.fetching[camera, id_] += 1
        try:
            yield
        finally:
            self.fetching[camera, id_] -= 1
            if not self.fetching[camera, id_]:
                del self.fetching[camera, id_]

    def fetch(self, camera: object, id_: int, first: int | None) -> Fetch:
        """A clip to be fetched."""
        watched, reading, source, clip = self.clip(camera, id_, first)
        try:
            return fetch_of(watched.camera.name, reading, source, clip)
        except Gone as gone:
            raise Unfit(404, str(gone)) from None
