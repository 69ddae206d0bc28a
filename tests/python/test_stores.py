"""Stores that loop_cli makes are read as it lists and exports them. LAPYREI_STORES says of how many
states, 60 unless it does."""
import os
import random

import conftest
import lapyrei
import layout
import pytest
from conftest import FORMATS, bytes_of

STATES = int(os.environ.get("LAPYREI_STORES") or 60)
SIZES = [(4, 2), (5, 3), (1, 1), (16, 9), (7, 6)]


def listed(store):
    """A store as `list` prints it."""
    part = store.parts[0]
    lines = [f"next {part.next}"] + [f"frames {first}..{last}" for first, last in store.runs[0]]
    for it in store.clips:
        lines.append(f"clip {it.id} {it.first}..{it.last}" + (f" tag {it.tag}" if it.tag else ""))
    return "\n".join(lines) + "\n"


def exported(store):
    """All its frames as `export` writes them."""
    front = layout.text_front(store.geometry)
    return front + b"".join(b"FRAME\n" + bytes_of(picture) for picture in store)


def is_alike(loop_cli, path):
    """The module says what the program says."""
    store, out = lapyrei.open(path), f"{path}.y4m"
    assert (0, listed(store), "") == loop_cli("list", path)
    if len(store):
        assert loop_cli("export", path, 0, 2**64 - 1, out) == (0, f"exported {len(store)}\n", "")
        with open(out, "rb") as file:
            assert file.read() == exported(store)
    if store.clips:
        clip = random.Random(str(store)).choice(store.clips)
        assert loop_cli("export", path, clip.first, clip.last, out)[1] == f"exported {len(clip)}\n"
        with open(out, "rb") as file:
            whole = file.read()
        front = layout.text_front(store.geometry)
        assert whole == front + b"".join(b"FRAME\n" + bytes_of(it) for it in clip)
    return store


def script(choose, loop_cli, path):
    """A store that is made, and changed by random orders. Gives the path after each of them."""
    width, height = choose.choice(SIZES)
    words = [
        width,
        height,
        choose.choice(FORMATS).decode(),
        "25:1",
        choose.randint(2, 5),
        choose.randint(1, 5),
    ]
    assert loop_cli("format", path, *words)[0] == 0
    yield
    for _ in range(choose.randint(2, 8)):
        kind, recording = choose.random(), conftest.layout.read_store(path)
        if kind < 0.35 and recording.numbers:
            first, last = choose.choice(recording.numbers)
            first = choose.randint(first, last)
            loop_cli(
                "lock", path, first, choose.randint(first, last), choose.choice((0, 7, 2**64 - 1))
            )
        elif kind < 0.45 and recording.clips:
            loop_cli("unlock", path, choose.choice(recording.clips)[0])
        else:
            loop_cli("record", choose.randint(1, 12), "-", path)
        yield


def test_stores_of_loop_cli_are_read_as_it_lists_and_exports_them(tmp_path, loop_cli):
    choose, states, kinds = random.Random(1), 0, set()
    while states < STATES:
        path = str(tmp_path / "a.loop")
        for _ in script(choose, loop_cli, path):
            store = is_alike(loop_cli, path)
            states += 1
            kinds |= {("clips", len(store.clips) > 0), ("runs", len(store.runs[0]) > 1)}
    assert len(kinds) == 4


def test_an_old_store_is_read_as_it_is_listed(tmp_path, loop_cli):
    path = tmp_path / "a.loop"
    path.write_bytes((conftest.TOP / "tests/rust/test_store_cases/data/version1.loop").read_bytes())
    assert is_alike(loop_cli, str(path)).parts[0].version == 1


@pytest.mark.parametrize(
    "spoil", [lambda it: it[:-1], lambda it: it[:300], lambda it: it[:8] + b"\7" + it[9:]]
)
def test_a_spoilt_store_is_refused_in_the_program_s_words(tmp_path, loop_cli, spoil):
    path = tmp_path / "a.loop"
    path.write_bytes(spoil(bytes(conftest.ring(5).image)))
    with pytest.raises(lapyrei.Refused) as refused:
        lapyrei.open(path)
    assert loop_cli("list", path) == (1, "", refused.value.text + "\n")


def test_frames_that_the_program_stores_have_its_pattern_and_times(tmp_path, loop_cli):
    path = str(tmp_path / "a.loop")
    loop_cli("format", path, 4, 2, "YM12", "25:1", 3, 2)
    loop_cli("record", 9, "-", path)
    store = lapyrei.open(path)
    assert [bytes_of(it)[0] for it in store] == store.numbers.tolist()
    assert (store.times[1:] - store.times[:-1] == 40000).all()
