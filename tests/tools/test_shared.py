"""The modules that tools share: stores as they are written, and what a loss of power leaves."""
import about
import layout
import pytest
import stores
from conftest import TOP


def test_the_version_is_that_of_the_repository():
    assert about.version() == (TOP / "VERSION").read_text().strip()


def test_help_and_version_end_a_tool(capsys):
    for words in (["--help"], ["-h"], ["--version"]):
        with pytest.raises(SystemExit) as ended:
            about.answers("its text", words)
        assert ended.value.code == 0
    assert "its text" in capsys.readouterr().out
    about.answers("its text", ["--help", "more"])


@pytest.mark.parametrize("version", [1, 2])
def test_a_store_that_is_written_is_read(version):
    ring = layout.Ring(4, 2, b"GREY", 3, 2, version=version)
    for _ in range(7):
        ring.store()
    ring.lock(5, 6, 0)
    found = layout.read(bytes(ring.image))
    assert (found.version, found.next) == (version, ring.next)
    assert sorted(found.frames) == sorted(ring.held()) == [2, 3, 4, 5, 6]
    assert "clip 0 5..6" in layout.listed(found)


def test_what_is_no_store_is_refused():
    assert isinstance(layout.read(bytes(100)), layout.Refused)
    assert isinstance(layout.read(bytes(5000)), layout.Refused)


def test_a_loss_of_power_leaves_what_was_synced():
    base = b"\0" * 1024
    records = [("W", 0, b"a" * 512), ("S", 0, b""), ("W", 512, b"b" * 512)]
    assert stores.after_power_loss(base, records, lambda: "old") == b"a" * 512 + b"\0" * 512
    assert stores.after_power_loss(base, records, lambda: "new") == b"a" * 512 + b"b" * 512
    assert stores.after_power_loss(b"x" * 1024, records, lambda: "zero")[512:] == bytes(512)


def test_sectors_are_torn_one_by_one():
    kept = iter(("new", "old"))
    records = [("W", 256, b"c" * 512)]
    image = stores.after_power_loss(bytes(1024), records, lambda: next(kept))
    assert image == bytes(256) + b"c" * 256 + bytes(512)


def test_a_length_that_was_not_synced_may_be_the_old_one():
    records = [("T", 4, b"")]
    assert stores.after_power_loss(b"12345678", records, lambda: "old") == b"12345678"
    assert stores.after_power_loss(b"12345678", records, lambda: "new") == b"1234"


def test_the_gates_longest_chain(tool):
    times = tool("tools/measure/gate_times")
    crates = times.libraries(TOP)
    assert crates["loop_disk"] == [] and "loop_disk" in crates["loop_ring"]


def test_a_change_costs_what_stands_on_it(tool):
    times = tool("tools/measure/gate_times")
    stands_on = {"low": [], "middle": ["low"], "top": ["middle"], "apart": []}
    seconds = {name: {"proof": 10**place} for place, name in enumerate(stands_on)}
    costs = {name: times.after_change(name, seconds, stands_on) for name in stands_on}
    assert costs == {"low": 111, "middle": 110, "top": 100, "apart": 1000}
