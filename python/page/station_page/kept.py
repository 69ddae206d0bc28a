"""What became of a keep."""
from dataclasses import dataclass

from . import words
from .reader import Clip
from .words import Line

# How a keep is told of which nothing became, or a part.
NOTHING, PART = "nothing was kept", "a part was kept, and no more"


@dataclass(frozen=True)
class Kept:
    """What became of a keep for one camera."""

    camera: str | None
    is_kept: bool
    text: str
    clips: list[Clip]
    # What is missing of the time that was asked for, in a sentence; nothing where all is there.
    lack: str = ""
    # What else is to be said, as of a note that can't be written.
    remark: str = ""
    # The event's number; until when it goes on, where its end lies ahead; and how much is held of
    # how much, where less is.
    event: int | None = None
    until: int | None = None
    held: int | None = None
    asked: int | None = None
    # How many frames were lost within, as the station says it.
    lost: int = 0

    def sentence(self) -> str:
        """All of it, with the camera's name."""
        front = f"{self.camera}: {self.text}" if self.camera else self.text
        ahead = f"It goes on until {words.iso(self.until)}." if self.until else ""
        return " ".join(it for it in (front, ahead, self.lack, self.remark) if it)

    def as_object(self) -> dict:
        """For JSON."""
        clips = [
            {
                "id": clip.id,
                "first": clip.first,
                "last": clip.last,
                "from_us": clip.since,
                "to_us": clip.until,
                "from": words.iso(clip.since),
                "to": words.iso(clip.until),
            }
            for clip in self.clips
        ]
        found = {
            "camera": self.camera,
            "kept": self.is_kept,
            "text": self.sentence(),
            "why": "" if self.is_kept else self.text,
        }
        found |= {"clips": clips, "lack": self.lack, "remark": self.remark, "event": self.event}
        found |= {"until_us": self.until, "held_us": self.held, "asked_us": self.asked}
        return found | {"lost": self.lost}


def told(name: str, clips: list[Clip], event: int | None = None) -> Kept:
    """That clips were kept, in a sentence."""
    spans = " and ".join(
        f"clip {clip.id} from {words.iso(clip.since)} to {words.iso(clip.until)}, {clip.count()} "
        f"frames"
        for clip in clips
    )
    return Kept(name, True, f"kept {spans}.", clips, event=event)


def not_kept(line: Line, is_part: bool) -> Kept:
    """Why nothing was kept, or no more than a part, by the station's line, in a sentence with what
    to do. What is locked and can't be read now is none that the page can show."""
    if line.kind == "kept_unread":
        what = f"clip {line['id']}, frames {line['first']} to {line['last']}, is locked"
        why = words.meaning(line["why"]).rstrip(".")
        return Kept(line.camera, False, f"{what}, but its times can't be read: {why}.", [])
    why = words.refusal_of(line)
    if why is None:
        said = f": {line['line']}" if line.kind == "bad_order" else ""
        return Kept(
            None, False, f"The station answers `{line.kind}`{said}. Is it as old as the page?", []
        )
    camera = None if line.kind == "no_camera" else line.camera
    return Kept(
        camera,
        False,
        f"{PART if is_part else NOTHING}, since "
        f"{why.rstrip('.?')}{'?' if why.endswith('?') else '.'}",
        [],
    )
