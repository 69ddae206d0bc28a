"""The lines that the station prints as JSON, read; and sentences that say what they mean, and what
to do."""
import datetime
import json
from dataclasses import dataclass, field

EPOCH = datetime.datetime(1970, 1, 1, tzinfo=datetime.timezone.utc)
MICROSECOND = datetime.timedelta(microseconds=1)
# The members of each kind of line, as docs/reference.md has them: a text, with # a number, with ~
# one that may be below 0, with @ a time; with ? it may be missing.
FRAMES = "camera #width #height format #rate_num #rate_den ?#bits ?#store_bits"
MEMBERS = {
    kind: members.split()
    for kind, members in {
        "kept": "camera #id #first #last @from @to #event ?#tag ?#lost",
        "kept_unread": "camera #id #first #last why #event ?#tag",
        "kept_none": "camera #event",
        "held": "camera #held_micros #asked_micros #event ?#lost",
        "gap": "camera #micros @at #event ?#lost",
        "event_begun": "#event @from @to",
        "event_whole": "#event camera ?#lost",
        "event_not_whole": "#event camera why ?#lost",
        "refused": "camera #number name ?#damage ?#frame",
        "released": "camera #id ?why",
        "cancelled": "camera #id",
        "not_saving": "camera #id",
        "not_released": "camera #id #first",
        "saved": "camera #id path #frames",
        "not_saved": "camera #id path why",
        "save_waits": "camera #id path why",
        "saving": "camera",
        "too_many_saves": "camera",
        "too_many_orders": "camera",
        "no_camera": "camera",
        "absent": "camera why",
        "store_absent": "camera why",
        "one_absent": "camera path why",
        "store_missing": "camera path",
        "old_layout": "camera path",
        # What else stands in a list, the page reads in the store.
        "camera": "camera ?#store #next",
        "status": "camera #stored #given_up #waiting #behind_micros #room ?#keeps #faults source "
        "?#gaps ?#lost ?#estimated ?~clock_micros ?#blocks ?when_full ?#full_tag",
        "bad_order": "line",
        "help": "order",
        "too_far": "",
        "done": "",
        "stopped": "",
        "source_on": FRAMES,
        "other_geometry": FRAMES,
        "source_unusable": "camera why",
        "source_silent": "camera",
        "making": "camera path #percent",
        "status_making": "camera path #percent",
        "waited": "camera #micros @since",
        "stood_still": "#micros @since",
        "times_back": "camera",
        "no_times": "camera",
        "frames_gap": "camera #micros @at",
        "syncs": "camera #micros",
        "too_slow": "camera #micros #frames_a_second",
        "source_missing": "camera",
        "all_locked": "camera",
        "nearly_all_locked": "camera",
        "room_again": "camera",
        "caught_up": "camera",
        "store_open": "camera ?#held_micros ?#asked_micros",
        "not_a_store": "camera path",
        "given_up": "camera #frames @since",
        "behind": "camera #micros",
        "not_noted": "camera path",
        "no_answers": "path",
        "numbers_anew": "camera",
        "wrong_time": "camera ~micros @at",
        "clock_steps": "camera ~micros @at",
        "system_clock_steps": "~micros @at",
        "not_in_order": "camera",
        "removed_out_of_order": "camera #frames",
        "camera_ended": "camera why",
        "camera_started": "camera why",
        "not_changed": "word",
        "reloaded": "path #cameras #ended #started",
        "not_reloaded": "path why",
        "dropped_lines": "#lines",
    }.items()
}
# What a refusal, or an absence, means, and what to do.
WHY = {
    "AllLocked": "all of its room is locked. Release a clip that you don't need",
    "ClipTableFull": "64 clips are kept already. Release one that you don't need",
    "ClipEmpty": "there is no frame of that time",
    "ClipNotHeld": "a frame of that time was overwritten meanwhile. Ask for a shorter time",
    "NotHeld": "that frame or clip isn't held any more",
    "NoSuchClip": "no clip has that number any more",
    "NumbersSpent": "its store has no number left. Move its file away, and a new one is made",
    "BadGeometry": "no store may have frames of its size. Change the camera's settings, or move "
        "its store away",
    "Stopped": "the station ends",
    "OldLayout": "the store has the old layout, without tags. `loop_cli upgrade` makes it anew "
        "while the station is stopped",
    "MustReopen": "the disk has failed. The station opens the store again; look at the disk",
    "Disk": "the disk has failed. Look at it, and at the station's messages",
    "Damaged": "the store is damaged. Move its file away, and a new one is made",
    "NotFormatted": "the file isn't a store. Move it away, and a store is made",
    "NoMemory": "the station was refused memory. End other programs",
    "NoBuffers": "there is no memory for its buffers. End other programs, or give the camera "
        "fewer buffers",
    "NoRoom": "the disk is full. Remove files, or give the camera a smaller store",
    "MissingFolder": "the folder isn't there. Make it, or name another one in the configuration",
    "Denied": "the station may not write there. Give its user the right",
    "Busy": "another program has the store open. End it",
    "Opening": "it is being opened. Wait a moment",
    "OtherGeometry": "it is for other frames than the camera's newest store. Move it away, and a "
        "store is made",
    "Moved": "another file has its path by now, or none. A store is made there",
    "Unfinished": "a store that wasn't finished is in the way. Move STORE.new away, and a store "
        "is made",
    "TooLong": "the path of the file is too long. Name a shorter one in the configuration",
    "TooManyFrames": "the time that is asked for is more than a store holds. Ask for fewer minutes",
    "NoStore": "it has no store yet, since its source hasn't come. See that the camera is plugged "
        "in and its program runs",
    "NoGeometry": "no store holds what the configuration asks, or its source says no rate. Ask "
        "for less, and give ffmpeg a rate",
    "TooFewBytes": "`bytes` of the configuration is too little for two frames. Ask for more",
    "Folder": "its store is a folder. Name another path in the configuration",
    "NotRegular": "its store isn't a file. Name another path in the configuration",
    "CannotOpen": "the file can't be opened. Look at its path, its rights and the disk",
    "Exists": "a file of that name is there already. Choose another name",
    "IsStore": "the file in its place is a store. Choose another name",
    "OtherFolder": "the station may save into another folder alone, which `saves` of its "
        "configuration names",
    "Cancelled": "somebody has ended that",
    "InUse": "the file is in use. Choose another name",
    "CannotWrite": "the disk is full, or has failed. Make room, or look at it",
    "MixedBits": "its frames don't all have the same bits a sample. Keep a shorter time",
    "Gaps": "frames of that time are missing",
    "TooManyEvents": "16 events of it still go on. Wait until one has ended",
    "RateUnknown": "its source says no rate. Give ffmpeg one",
    "UnsupportedColour": "no store may have such colours. Change the camera's format, or that of "
        "ffmpeg",
    "OddWidth": "no store may have an odd width of more than 8 bits and halved colours. Change the "
        "camera's size or format",
    "UnsupportedInterlace": "no store may have interlaced frames. Change the camera's settings",
    "BadHeader": "the source's header can't be read. Look at the program that feeds its pipe",
    "NotY4m": "the source isn't YUV4MPEG2. Look at the program that feeds its pipe",
}
# The same of the kinds of answers that have no name of a refusal.
REFUSALS = {
    "kept_none": "no stored frame is of that time. Is the camera recording?",
    "too_many_orders": "256 orders wait for it. Its disk stands still: look at it",
    "too_many_saves": "16 clips are being saved. Wait until one is written",
    "saving": "the clip is being saved. Wait until that has ended",
    "not_released": "another clip has that number by now",
    "too_far": "its end lies more than an hour ahead. Ask for an earlier one",
    "no_camera": "the station has no camera of that name. Was its configuration changed? Start "
        "the page again",
}
UNKNOWN = "docs/answers.md says what this means"


def plain(text: str) -> str:
    """A text in one line, in which each sign that does something to a terminal is shown as what it
    is."""
    return "".join(sign if sign.isprintable() else ascii(sign)[1:-1] for sign in text)


class Unfit(Exception):
    """Why something that was asked for can't be done, in a sentence, with HTTP's status."""

    def __init__(self, status: int, text: str) -> None:
        super().__init__(text)
        self.status = status


class BadMember(ValueError):
    """A member of a line isn't what its kind says."""


@dataclass(frozen=True)
class Line:
    """A line of the station: its label, where it has one, its kind, and the members of this kind:
    texts, numbers, times in microseconds."""

    label: str | None
    kind: str
    members: dict = field(default_factory=dict)
    # When it was printed, in microseconds since 1970, where it says that.
    time: int | None = None

    def __getitem__(self, key: str):
        """A member; None where it may be missing, and is."""
        return self.members[key]

    @property
    def camera(self) -> str | None:
        """The camera that it is about."""
        return self.members.get("camera")


@dataclass(frozen=True)
class Event:
    """Something that happened: to which camera, whether it is a warning or good news, and in a
    sentence."""

    kind: str
    camera: str | None
    is_bad: bool
    text: str


@dataclass(frozen=True)
class Status:
    """How a camera stands, as the station counts it. `behind` is in seconds, and `keeps` None where
    the station doesn't know it."""

    stored: int
    given_up: int
    waiting: int
    behind: float
    room: int
    keeps: int | None
    faults: int
    source: str
    # Frames that the source lost since the station began, and how many of them by their times
    # alone; how far its clock is ahead of the station's, in microseconds; how many blocks may be
    # locked, and what is done once all are. None of a station of before.
    lost: int | None = None
    estimated: int | None = None
    clock: int | None = None
    blocks: int | None = None
    full: str | None = None


def read_line(raw: str) -> Line | None:
    """A line as JSON; None where it isn't one, or lacks what its kind has. One of a kind that the
    page doesn't know has no members."""
    try:
        found = json.loads(raw)
        if not isinstance(found, dict) or not isinstance(found.get("kind"), str):
            return None
        label = found.get("label")
        if label is not None and not isinstance(label, str):
            return None
        kind = plain(found["kind"])
        members = dict(member_of(found, name) for name in MEMBERS.get(kind, []))
        return Line(label, kind, members, printed(found.get("time")))
    except (ValueError, RecursionError):
        return None


def printed(text: object) -> int | None:
    """When a line was printed; none where it doesn't say a time."""
    try:
        return moment_of(text) if isinstance(text, str) else None
    except (ValueError, OverflowError):
        return None


def member_of(found: dict, name: str) -> tuple[str, object]:
    """A member of a line, by its name and the marks before it."""
    key = name.lstrip("?#~@")
    value = found.get(key)
    if value is None and name.startswith("?"):
        return key, None
    mark = name.lstrip("?")[0]
    if mark in "#~" and isinstance(value, int) and not isinstance(value, bool):
        if (0 if mark == "#" else -(2**63)) <= value < 2**64:
            return key, value
    if mark == "@" and isinstance(value, str):
        return key, moment_of(value)
    if mark not in "#~@" and isinstance(value, str):
        # A name of a file may have any sign.
        return key, plain(value)
    raise BadMember(key)


def moment_of(text: str) -> int:
    """A time of the station in microseconds since 1970."""
    moment = datetime.datetime.fromisoformat(text)
    if moment.tzinfo is None or moment < EPOCH:
        raise BadMember(text)
    return (moment - EPOCH) // MICROSECOND


def status_of(line: Line) -> Status:
    """What a line of `status` says."""
    behind = line["behind_micros"] // 100_000 / 10
    counts = (line[key] for key in ("stored", "given_up", "waiting"))
    more = (line[key] for key in ("lost", "estimated", "clock_micros", "blocks"))
    stands = (line[key] for key in ("room", "keeps", "faults", "source"))
    return Status(*counts, behind, *stands, *more, rule_of(line))


def rule_of(line: Line) -> str | None:
    """What is done once all room is locked, as the station's file says it."""
    rule, tag = line["when_full"], line["full_tag"]
    return rule if tag is None else f"{rule} tag {tag}"


def meaning(why: str) -> str:
    """What a refusal means, and what to do: by the first of its words that is known."""
    name, _, more = why.partition(" ")
    if name == "TooManyFrames" and more:
        return f"the time that is asked for is more than a store holds. {more} minutes fit"
    return next((WHY[word] for word in why.split() if word in WHY), f"{why}. {UNKNOWN}")


def refusal_of(line: Line) -> str | None:
    """Why nothing came of an order, and what to do, by a line of its answer; None where the line is
    no refusal."""
    if line.kind == "refused":
        return meaning(line["name"])
    if line.kind == "absent":
        return meaning(line["why"])
    return REFUSALS.get(line.kind)


# Why the station has released a clip by itself.
FULL, SAVED = "all of its room was locked, and its file has `when_full`", "it is saved"
# The events: for each kind of line the word for it, whether it is a warning, and its sentence.
EVENTS = {
    "source_on": ("source", False, "{camera}: frames come, {frames}."),
    "source_missing": (
        "missing",
        True,
        "{camera}: no frames come from its source. See that the camera is plugged in and its "
        "program runs.",
    ),
    "source_unusable": ("unusable", True, "{camera}: nothing is stored, since {why}."),
    "other_geometry": (
        "other",
        True,
        "{camera}: its source gives {frames}, which its store isn't made for, so nothing is "
        "stored. Set the camera back, or move the store away.",
    ),
    "store_open": ("open", False, "{camera}: its store is open."),
    "store_absent": ("absent", True, "{camera} isn't recorded: {why}."),
    "one_absent": (
        "one absent",
        True,
        "{camera}: {path} can't be used: {why}. Its other stores go on.",
    ),
    "store_missing": (
        "missing",
        True,
        "{camera}: {path} was gone, with what it held. A store is made in its place.",
    ),
    "old_layout": (
        "old layout",
        True,
        "{camera}: {path} has an old layout, so nothing can be kept. Stop the station, and run "
        "loop_cli upgrade {path}.",
    ),
    "not_a_store": (
        "not a store",
        True,
        "{camera}: {path} isn't a store, so nothing is recorded. Move it away, and a store is "
        "made.",
    ),
    "not_noted": (
        "not noted",
        True,
        "{camera}: {path} can't be written, so a stop or a loss of power would end the keeps whose "
        "end lies ahead. Make room on that disk.",
    ),
    "given_up": (
        "given up",
        True,
        "{camera}: frames were lost since {since}, {frames} of them: disk or machine was too busy.",
    ),
    "all_locked": (
        "locked",
        True,
        "{camera}: all of its room is locked, and recording stops. Release a clip that you don't "
        "need.",
    ),
    "nearly_all_locked": (
        "nearly locked",
        True,
        "{camera}: four fifths of its room are locked. Release what you don't need, or recording "
        "stops.",
    ),
    "room_again": ("room", False, "{camera}: there is room again."),
    "behind": (
        "behind",
        True,
        "{camera}: {micros} s of frames wait for the disk. Where that goes on, frames are lost.",
    ),
    "caught_up": ("caught up", False, "{camera}: no frames wait for the disk any more."),
    "waited": (
        "waited",
        True,
        "{camera}: memory was full, and its source had to wait {micros} s since {since}. A camera "
        "that doesn't wait has dropped frames. "
        "Give it more `memory`, or a faster disk.",
    ),
    "stood_still": (
        "stood still",
        True,
        "The station stood still for {micros} s since {since}: it was stopped, or the machine "
        "slept. Times of frames right after are late.",
    ),
    "times_back": (
        "times",
        True,
        "{camera}: the times that its source says go back. Look at the camera's clock.",
    ),
    "no_times": (
        "times",
        True,
        "{camera}: its source says no times, so its frames have those at which they came.",
    ),
    "frames_gap": (
        "gap",
        True,
        "{camera}: no frame came for {micros} s before {at}: the camera, or its driver, dropped "
        "some.",
    ),
    "numbers_anew": (
        "numbers",
        True,
        "{camera}: the numbers that its source gives its frames began anew. What was lost just "
        "before isn't known.",
    ),
    "wrong_time": (
        "times",
        True,
        "{camera}: its source said a time {micros} s off at {at}, which isn't used. Look at the "
        "camera's clock.",
    ),
    "clock_steps": (
        "clock",
        True,
        "{camera}: its clock stepped by {micros} s at {at}. Keeps go by the new one.",
    ),
    "system_clock_steps": (
        "clock",
        True,
        "The computer's clock stepped by {micros} s at {at}. Frames go on by the one it had: "
        "restart the station to follow the new one.",
    ),
    "not_in_order": (
        "order",
        True,
        "{camera}: which of its stores is the newest was told by times alone. Look whether one of "
        "them is another camera's.",
    ),
    "removed_out_of_order": (
        "order",
        True,
        "{camera}: at the start {frames} frames were removed though older ones are held: memory "
        "was full before all stores were open. Give it more `memory`.",
    ),
    "too_slow": (
        "too slow",
        True,
        "{camera}: its disk is too slow for its rate: {frames_a_second} frames a second fit. Use "
        "fewer or smaller frames, or another disk.",
    ),
    "saved": ("saved", False, "{camera}: clip {id} was saved as {path}, {frames} frames."),
    "not_saved": ("not saved", True, "{camera}: clip {id} wasn't saved as {path}: {why}."),
    "save_waits": (
        "save waits",
        True,
        "{camera}: clip {id} can't be saved as {path}: {why}. The station tries again each minute.",
    ),
    "released": ("released", False, "{camera}: clip {id} was released, since {why}."),
    "event_whole": (
        "whole",
        False,
        "{camera}: the event of {event} has ended, and all of it is kept.",
    ),
    "event_not_whole": (
        "not whole",
        True,
        "{camera}: the event of {event} has ended, and isn't whole: {why}.",
    ),
    "dropped_lines": (
        "dropped",
        True,
        "{lines} lines of the station weren't read in time. A warning may be missing here.",
    ),
}


def shown(key: str, value: object) -> str:
    """A member in a sentence."""
    if value is None:
        return ""
    if key.endswith("micros"):
        return f"{value / 1e6:.1f}"
    if key in ("since", "at", "event"):
        return iso(value)
    return meaning(value) if key == "why" else str(value)


# What comes of it where all room is locked, by the word `when_full` of the station's file.
WHEN_FULL = {
    "release saved": "the oldest event that is saved is released",
    "release oldest": "the oldest event is released, saved or not",
}


def when_full(rule: str | None) -> str:
    """What is released once all room is locked; nothing where recording stops then."""
    oldest, _, tag = (rule or "").partition(" tag ")
    of = f", of tag {plain(tag)}" if tag else ""
    return WHEN_FULL[oldest] + of if oldest in WHEN_FULL else ""


def event_of(line: Line) -> Event | None:
    """What a line without a label says that happened, if it does."""
    if line.kind not in EVENTS:
        return None
    kind, is_bad, sentence = EVENTS[line.kind]
    said = {key: shown(key, value) for key, value in line.members.items()}
    if line.kind == "released":
        is_bad = line["why"] == "full"
        kind, said["why"] = ("released full", FULL) if is_bad else (kind, SAVED)
    if "rate_num" in said:
        said["frames"] = "{width}x{height} {format} {rate_num}:{rate_den}".format(**said)
        if line["bits"] is not None:
            said["frames"] += f", {said['bits']} bits a sample"
    if (
        line.kind == "store_open"
        and line["held_micros"] is not None
        and line["asked_micros"] is not None
    ):
        text = (
            "{camera}: its store holds {held_micros} s of {asked_micros} s. Move the file away, "
            "and a larger store is made."
        )
        return Event("small", line.camera, True, text.format(**said))
    return Event(kind, line.camera, is_bad, sentence.format(**said))


def iso(microseconds: int) -> str:
    """A time of the day, UTC, with microseconds; the number itself where it is none."""
    try:
        return (EPOCH + datetime.timedelta(microseconds=microseconds)).strftime(
            "%Y-%m-%dT%H:%M:%S.%fZ"
        )
    except OverflowError:
        return str(microseconds)


def clock(microseconds: int) -> str:
    """A time of the day, UTC, to a tenth of a second; the number itself where it is none."""
    text = iso(microseconds)
    return f"{text[11:21]}Z" if text.endswith("Z") else text


def seconds_words(seconds: float) -> str:
    """A length of time in words."""
    if seconds < 60:
        return f"{seconds:.1f} s"
    return f"{int(seconds) // 60} min {int(seconds) % 60} s"
