"""Notes, keeps in sentences and events that go on, without a page."""
import asyncio
import json
from dataclasses import replace
from types import SimpleNamespace

import pytest
from station_page import kept, limits, spans
from station_page.heard import Heard, Part
from station_page.held import Held
from station_page.kept import Kept
from station_page.notes import Notes, NotesFault, tidy
from station_page.noting import Noting
from station_page.orders import NoStation, Orders, Waiting
from station_page.reader import Clip
from station_page.words import read_line
from test_right import kept_line, laboratory_of

NUMBER = 1_795_361_880_123_456


def clip(id_=0, first=0, last=9, tag=7, since=100, until=200):
    """A clip, with a tag of yours."""
    return Clip(id_, first, last, tag, since, until)


@pytest.fixture
def notes(tmp_path):
    """Notes of a new file."""
    return Notes(str(tmp_path / "notes"))


def write(notes, text, *clips, store="store", is_held=lambda key: True):
    """Writes a note beside some clips of a store."""
    notes.put([(store, it) for it in clips], text, is_held)


def test_a_note_is_of_its_store_its_clip_and_its_times_alone(notes):
    write(notes, "mine", clip())
    write(notes, "numbered", clip(1, tag=NUMBER, since=500))
    assert notes.of("store", clip()) == "mine"
    for other in (clip(1), clip(since=101), clip(until=201)):
        assert notes.of("store", other) == ""
    assert (
        notes.of("other store", clip())
        == notes.of("other store", clip(1, tag=NUMBER, since=500))
        == ""
    )
    # A clip that grows has another id and another end.
    assert notes.of("store", clip(4, tag=NUMBER, since=500, until=900)) == "numbered"
    for other in (clip(1, tag=NUMBER, since=501), clip(1, tag=NUMBER + 1, since=500)):
        assert notes.of("store", other) == ""


def test_a_note_of_an_older_page_is_read_and_doesnt_come_back(notes):
    old = clip(3, tag=NUMBER, since=7, until=9)
    notes.write({"3 7 9 store": "old"})
    read = Notes(notes.path)
    assert read.of("store", old) == "old"
    write(read, "new", old)
    assert read.of("store", old) == "new" and len(read.notes) == 1
    write(read, "", old)
    assert Notes(notes.path).of("store", old) == ""


def test_each_write_is_a_new_version_and_keeps_those_of_others(notes):
    for place in range(3):
        write(notes, f"note {place}", clip(place))
        assert notes.version == place + 1
    assert sorted(Notes(notes.path).notes.values()) == ["note 0", "note 1", "note 2"]


def test_notes_make_room_by_those_whose_clips_are_gone_alone(notes, monkeypatch):
    monkeypatch.setattr(limits, "NOTES", 3)
    for place in range(3):
        write(notes, f"note {place}", clip(place))
    write(notes, "new", clip(3), is_held=lambda key: not key.startswith("1 "))
    assert sorted(notes.notes.values()) == ["new", "note 0", "note 2"]


@pytest.mark.parametrize(
    "text, line", [("a  b\nc\x1b[31m", "a b c [31m"), (" \t ", ""), ("ü" * 250, "ü" * 250)]
)
def test_a_note_is_a_line(text, line):
    assert tidy(text) == line


def test_a_note_that_is_too_long_is_refused():
    for text in ("x" * 501, "ü" * 251):
        with pytest.raises(NotesFault, match="at most 500 bytes"):
            tidy(text)


def test_half_a_file_of_notes_is_removed_and_a_link_is_never_followed(tmp_path):
    (tmp_path / "notes.new").write_text("half a file")
    notes = Notes(str(tmp_path / "notes"))
    assert not (tmp_path / "notes.new").exists()
    (tmp_path / "notes.new").symlink_to(tmp_path / "secret")
    with pytest.raises(NotesFault):
        write(notes, "x", clip())
    assert not (tmp_path / "secret").exists()


# --------------------------------------------------------------------------------- what keeps say


def line(kind, **members):
    """A line of the station."""
    return read_line(json.dumps({"kind": kind} | members))


def test_a_keep_has_its_number_and_when_its_event_ends():
    found = kept.told("left", [clip()], NUMBER)
    assert (
        found.as_object()["event"] == NUMBER
        and found.as_object()["kept"]
        and found.as_object()["why"] == ""
    )
    on = laboratory_of().kept_of(
        [
            kept_line("left", 0, 1, 5, NUMBER),
            line(
                "event_begun",
                event=NUMBER,
                **{"from": "2026-11-22T15:37:55Z", "to": "2026-11-22T15:38:10Z"},
            ),
        ]
    )
    assert "It goes on until 2026-11-22T15:38:10" in on[0].sentence() and on[0].until


def test_what_was_not_kept_says_why_and_whether_a_part_was():
    none = kept.not_kept(line("kept_none", camera="left", event=5), False)
    part = kept.not_kept(line("refused", camera="left", number=11, name="ClipTableFull"), True)
    assert (
        none.as_object()["kept"] is False
        and "no stored frame is of that time" in none.as_object()["why"]
    )
    assert none.text.startswith("nothing was kept") and part.text.startswith("a part was kept")


def test_what_a_keep_lacks_is_told_with_its_holes_and_not_those_of_before():
    heard = laboratory_of()
    gap = line("gap", camera="left", micros=4_000_000, at="1970-01-01T00:00:01Z", event=NUMBER)
    held = line("held", camera="left", held_micros=5_000_000, asked_micros=9_000_000, event=NUMBER)
    said = "That is 5.0 s of 9.0 s: no frames are held from 00:00:01.0Z to 00:00:05.0Z."
    for _ in range(2):
        # The second time it says the same again.
        (found,) = heard.kept_of([kept_line("left", 0, 1, 5, NUMBER), held, gap])
        assert (found.lack, found.held, found.asked) == (said, 5_000_000, 9_000_000)
    assert spans.told(Part(5, 9)).endswith("s.")


def test_an_event_ends_when_its_last_camera_does():
    heard = Heard()
    for until in ("1970-01-01T00:02:00Z", "1970-01-01T00:01:00Z"):
        heard.take(
            line("event_begun", event=NUMBER, **{"from": "1970-01-01T00:00:00Z", "to": until})
        )
    assert heard.told(NUMBER).until == 120_000_000


def test_a_clip_of_an_event_that_never_grew_is_no_longer_one():
    heard = Heard()
    heard.take(kept_line("left", 0, 93, 217, NUMBER, tag=7))
    assert heard.number_of("left", clip(1, 93, 300)) is None and not heard.told(NUMBER).goes_on()


def test_a_line_that_follows_some_that_are_none_is_read():
    told = []
    it = SimpleNamespace(
        unread=0, told=SimpleNamespace(on_unread=lambda: told.append("unread")), take=told.append
    )
    for raw in ["x", "x", '{"kind":"done"}', "x", "x", ""]:
        Orders.hear(it, raw)
    assert [getattr(one, "kind", one) for one in told] == ["done"]
    Orders.hear(it, "x")
    assert told[-1] == "unread"


# ---------------------------------------------------------------------- events whose end lies ahead


def going_on():
    """What was heard of an event with a tag of yours that goes on."""
    heard = Heard()
    heard.take(
        line(
            "event_begun",
            event=NUMBER,
            **{"from": "1970-01-01T00:00:00Z", "to": "1970-01-01T00:02:00Z"},
        )
    )
    heard.take(kept_line("left", 0, 93, 217, NUMBER, tag=7))
    return heard


def test_a_note_goes_with_a_clip_that_grows_to_its_end(notes):
    """The last look of it comes after the station has told its end."""
    clips, heard = [clip(0, 93, 217, until=2)], going_on()
    watched = SimpleNamespace(camera=SimpleNamespace(store="store"))
    it = SimpleNamespace(notes=notes, heard=heard, cameras={"left": watched})
    it.held, it.watched = SimpleNamespace(clips_of=lambda name: clips), it.cameras.get
    noting = Noting(it)
    noting.put([("left", clips[0])], "run 7")
    for number, until in ((1, 3), (0, 4)):
        clips[:] = [clip(number, 93, 100 * until, until=until)]
        asyncio.run(noting.carry())
        assert notes.of("store", clips[0]) == "run 7"
    heard.take(line("event_whole", event=NUMBER, camera="left"))
    asyncio.run(noting.carry())
    clips[:] = [clip(1, 93, 900, until=9)]
    asyncio.run(noting.carry())
    assert notes.of("store", clips[0]) == "run 7" and not noting.growing and not noting.grown


def test_a_note_waits_until_its_clip_is_seen(notes):
    told = replace(clip(3, 93, 217), is_seen=False)
    clips, watched = [], SimpleNamespace(camera=SimpleNamespace(store="store"))
    it = SimpleNamespace(
        notes=notes,
        heard=Heard(),
        cameras={"left": watched},
        held=SimpleNamespace(clips_of=lambda name: clips),
    )
    it.watched, noting = it.cameras.get, Noting(it)
    (kept,) = asyncio.run(noting.noted([Kept("left", True, "kept", [told])], "run 7"))
    assert "is written once" in kept.remark
    # Clips of other frames, and of another keep, are others.
    clips[:] = [clip(3, 94, 217), clip(3, 93, 216), replace(clip(4, 93, 217), tag=9)]
    asyncio.run(noting.carry())
    assert not notes.notes
    clips[:] = [clip(3, 93, 217)]
    asyncio.run(noting.carry())
    assert notes.of("store", clips[0]) == "run 7" and not noting.waiting


def test_a_note_that_somebody_wrote_meanwhile_stays(notes):
    told, watched = replace(clip(3, 93, 217), is_seen=False), SimpleNamespace(
        camera=SimpleNamespace(store="store")
    )
    it = SimpleNamespace(
        notes=notes,
        heard=Heard(),
        cameras={"left": watched},
        held=SimpleNamespace(clips_of=lambda name: [clip(3, 93, 217)]),
    )
    it.watched, noting = it.cameras.get, Noting(it)
    asyncio.run(noting.noted([Kept("left", True, "kept", [told])], "run 7"))
    noting.put([("left", clip(3, 93, 217))], "mine")
    asyncio.run(noting.carry())
    assert notes.of("store", clip(3, 93, 217)) == "mine" and not noting.waiting


def test_notes_that_wait_make_room(notes, monkeypatch):
    monkeypatch.setattr(limits, "NOTES_WAITING", 2)
    it = SimpleNamespace(
        notes=notes,
        heard=Heard(),
        cameras={"left": None},
        held=SimpleNamespace(clips_of=lambda name: []),
    )
    noting = Noting(it)
    for id_ in range(4):
        told = replace(clip(id_, 93, 217), is_seen=False)
        asyncio.run(noting.noted([Kept("left", True, "kept", [told])], f"run {id_}"))
    assert list(noting.waiting.values()) == ["run 2", "run 3"]


def test_a_clip_that_has_grown_is_the_only_one_of_its_first_frame():
    clips = [clip(1, 93, 300), clip(2, 94, 300)]
    watched = SimpleNamespace(
        camera=SimpleNamespace(name="left"), reading=SimpleNamespace(clips=clips)
    )
    held = Held(SimpleNamespace(heard=going_on(), cameras={"left": watched}))
    assert held.longer(watched, 93) is clips[0] and held.longer(watched, 95) is None
    clips.append(clip(3, 93, 350))
    assert held.longer(watched, 93) is None


def test_a_clip_that_has_grown_is_released_by_the_id_that_it_has():
    given, is_released = [], line("released", camera="left", id=1)

    async def release():
        async def nothing(*words, **more):
            return [is_released]

        orders = SimpleNamespace(
            has_answers=True, begin=lambda order: given.append(order) or "waiting", answer=nothing
        )
        it = SimpleNamespace(ordering=asyncio.Lock(), hurry=asyncio.Event())
        it.orders, it.look_at = orders, nothing
        it.watched = lambda name: SimpleNamespace(camera=SimpleNamespace(name=name))
        held = Held(it)
        held.clip = lambda *words: (None, None, None, clip(1, 93, 300))
        return await held.release("left", 0, 93), held.releasing

    said, releasing = asyncio.run(release())
    assert given == ["release left 1 93"] and "clip 1 is released" in said and not releasing


def test_an_answer_to_somebody_else_is_no_event():
    told = []
    it = SimpleNamespace(
        waiting={}, told=SimpleNamespace(on_line=lambda line: None, on_event=told.append)
    )
    Orders.take(it, line("released", label="other", camera="left", id=1))
    Orders.take(it, line("released", camera="left", id=2))
    assert [one["id"] for one in told] == [2]


def test_who_waits_for_a_station_that_has_ended_is_told_so(monkeypatch):
    """The first time that its answers are looked at."""
    monkeypatch.setattr(limits, "WATCH_SECONDS", 0)

    async def wait():
        orders = Orders(None, None, SimpleNamespace())
        waiting = orders.waiting["x"] = Waiting("x")
        task = asyncio.create_task(orders.watch())
        for _ in range(100):
            await asyncio.sleep(0)
        task.cancel()
        assert waiting.done.done()
        with pytest.raises(NoStation, match="ended before it answered"):
            waiting.done.result()

    asyncio.run(wait())
