"""Clips as events: one press keeps a time of several cameras, and that is one event. Clips of one
event have the station's number of it. Of clips with a tag of yours it isn't on the disk: where the
page didn't hear it, it goes by their times."""
import collections
from collections.abc import Callable

from lapyrei.losses import lost_at_turn, lost_between

from .heard import Heard, Told
from .reader import store_of

# By how much the ends of clips of one press may differ, in microseconds, beside two periods of the
# slower camera: the newest frame of one may not have been stored when the press came.
NEAR_END = 400_000
NEAR_START = 100_000


class Group:
    """Clips of one press, as dicts of `Laboratory.clips`, and the time that they have together."""

    def __init__(self, clip: dict) -> None:
        self.clips, self.tag = [clip], clip["order_tag"]
        self.since, self.until, self.period = clip["from_us"], clip["to_us"], period_of(clip)

    def add(self, clip: dict) -> None:
        """A clip comes to it."""
        self.clips.append(clip)
        self.since, self.until = min(self.since, clip["from_us"]), max(self.until, clip["to_us"])
        self.period = max(self.period, period_of(clip))

    def is_free(self, clip: dict) -> bool:
        """Whether no clip of the same camera shares a frame with it: a press keeps each once."""
        return not any(
            it["camera"] == clip["camera"]
            and store_of(it["id"]) == store_of(clip["id"])
            and it["first"] <= clip["last"]
            and clip["first"] <= it["last"]
            for it in self.clips
        )

    def meets(self, clip: dict) -> bool:
        """Whether a clip is of the same press, by its times: both ends are near; or it is a part
        beside a hole, within the time of the press, that reaches an end or stands beside others."""
        if clip["to_us"] < self.since or self.until < clip["from_us"]:
            return False
        if clip["order_tag"] != self.tag:
            return False
        slack = 2 * max(self.period, period_of(clip))
        starts = abs(clip["from_us"] - self.since) <= NEAR_START + slack
        ends = abs(clip["to_us"] - self.until) <= NEAR_END + slack
        if starts and ends:
            return self.is_free(clip)
        begins = clip["from_us"] >= self.since - NEAR_START - slack
        if not begins or clip["to_us"] > self.until + NEAR_END + slack or not self.is_free(clip):
            return False
        return starts or ends or any(it["camera"] == clip["camera"] for it in self.clips)


def period_of(clip: dict) -> float:
    """The microseconds from a frame to the next, by a clip's own frames."""
    return (clip["to_us"] - clip["from_us"]) / max(1, clip["frames"] - 1)


def groups_of(clips: list[dict]) -> list[Group]:
    """The clips of each press together: those of one number, and the others by their times."""
    numbered: dict[int, Group] = {}
    for clip in clips:
        if clip["event"] is None:
            continue
        if clip["event"] in numbered:
            numbered[clip["event"]].add(clip)
        else:
            numbered[clip["event"]] = Group(clip)
    return [*numbered.values(), *by_times([it for it in clips if it["event"] is None])]


def by_times(clips: list[dict]) -> list[Group]:
    """The clips of each press together, by their times. Long ones come first: what a hole cut short
    joins them."""
    groups: list[Group] = []
    for clip in sorted(
        clips, key=lambda it: (it["from_us"] - it["to_us"], it["to_us"], it["camera"])
    ):
        near = [group for group in groups if group.meets(clip)]
        if near:
            min(near, key=lambda group: abs(group.until - clip["to_us"])).add(clip)
        else:
            groups.append(Group(clip))
    return groups


def events_of(
    clips: list[dict],
    heard: Heard | None = None,
    cause_of: Callable[[int | None], dict | None] = lambda number: None,
    changed: Callable[[list[str], int, int], list[dict]] = lambda *_: [],
) -> list[dict]:
    """The events of all clips, the newest first, as objects for JSON: `key` names an event as long
    as its clips stay, and `number` is the station's, where it is known; times are in microseconds
    since 1970. `cause_of` says of a number why it was kept, and `changed` what was changed of
    cameras within a time."""
    heard = heard or Heard()
    found = []
    for group in groups_of(clips):
        event = event_of(group, heard)
        changes = changed(event["cameras"], event["from_us"], event["to_us"])
        found.append(event | {"cause": cause_of(event["number"]), "changes": changes})
    return sorted(found, key=lambda it: (it["to_us"], it["from_us"], it["key"]), reverse=True)


def event_of(group: Group, heard: Heard) -> dict:
    """An event as an object."""
    ordered = in_order(group.clips)
    notes = list(dict.fromkeys(it["note"] for it in ordered if it["note"]))
    told = heard.told(ordered[0]["event"])
    return {
        "key": "~".join(f"{it['camera']}.{it['id']}.{it['first']}" for it in ordered),
        "number": ordered[0]["event"],
        "from_us": group.since,
        "to_us": group.until,
        "seconds": ordered[0]["seconds"] if len(ordered) == 1 else span(group),
        "cameras": list(dict.fromkeys(it["camera"] for it in ordered)),
        "bytes": sum(it["bytes"] for it in ordered),
        "note": "; ".join(notes),
        "tag": ordered[0]["tag"],
        "fetched": any(it["fetched"] for it in ordered),
        "archived": all(it.get("archived", False) for it in ordered),
        "until_us": told.until if told.goes_on() else None,
        "lacks": lacks_of(told),
        "lost": sum(lost_of(name, group, heard) for name in {it["camera"] for it in ordered}),
        "clips": [
            {
                key: it[key]
                for key in ("camera", "id", "first", "last", "from_us", "to_us", "frames", "lost")
                if key in it
            }
            for it in ordered
        ],
    }


def lost_of(camera: str, group: Group, heard: Heard) -> int:
    """How many frames of a camera were lost within an event: by its frames' sequence; and where a
    store of before says less by that than the station has told, that many."""
    found = sorted(
        run for it in group.clips if it["camera"] == camera for run in it.get("runs", ())
    )
    # While an event grows it has a clip and a longer one, which comes later here.
    runs = list({(run.store, run.numbers[0]): run for run in found}.values())
    count = sum(run.lost for run in runs)
    for one, two in zip(runs, runs[1:]):
        if one.store is None:
            numbers = one.numbers[1], two.numbers[0]
            count += lost_between((one.sequences[1], two.sequences[0]), numbers) or 0
        else:
            count += lost_at_turn(one.sequences[1], two.sequences[0])
    told = heard.told(group.clips[0]["event"]).parts.get(camera)
    most = max(count, heard.lost(camera, group.since, group.until))
    return max(most, told.lost) if told else most


def in_order(clips: list[dict]) -> list[dict]:
    """The clips of each camera as they follow one another: by their numbers, or, of several
    stores, by their times."""
    stores = {(it["camera"], store_of(it["id"])) for it in clips}
    counts = collections.Counter(camera for camera, _ in stores)

    def key(it: dict) -> tuple:
        """By what a clip is put in its place."""
        return it["camera"], it["from_us"] * (counts[it["camera"]] > 1), it["first"], it["last"]

    return sorted(clips, key=key)


def lacks_of(told: Told) -> list[dict]:
    """Of which cameras an event has less than was asked for, in microseconds, and why it isn't
    whole."""
    return [
        {"camera": name, "held_us": part.held, "asked_us": part.asked, "why": part.why or ""}
        for name, part in sorted(told.parts.items())
        if part.is_short() or (part.why and not part.lost)
    ]


def span(group: Group) -> float:
    """The seconds from the first frame of an event to the end of its last one."""
    last = max(group.clips, key=lambda it: it["to_us"])
    return (group.until - group.since + period_of(last)) / 1_000_000
