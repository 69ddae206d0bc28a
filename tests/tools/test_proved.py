"""How the programs that are handed out are proved: by `rt ci`, over a copy of what they stand on.
The kit is a false one."""
import os
import stat

import pytest

GATE = """#!/bin/sh
for crate in $(sed 's/[ :].*//' crates.txt); do
    [ -d crates/$crate/src ] && [ ! -e crates/$crate/out ] || exit 3
    mkdir -p crates/$crate/out/rlib && echo "$crate" >crates/$crate/out/$crate
    echo "rt: $crate is kept: an earlier run on this machine proved the same files"
done
echo "{last}"
exit {status}
"""


@pytest.fixture
def proved(tool, tmp_path, monkeypatch):
    """The tool over a repository of its own, and `rt` that says what is wanted."""
    module = tool("tools/proved.py")
    top = tmp_path / "top"
    for name in ("low", "other", "loop_cli"):
        (top / "crates" / name / "src").mkdir(parents=True)
        (top / "crates" / name / "src/main.rt").write_text(name)
        (top / "crates" / name / "out").mkdir()
        (top / "crates" / name / "must-fail").mkdir()
    (top / "crates.txt").write_text("# All of them.\nlow:\nother: low\nloop_cli: low clap\n")
    (top / "HANDLES").write_text("Handles allowed: none.\n")
    for place in (module, module.unproved):
        monkeypatch.setattr(place, "TOP", top)
        monkeypatch.setattr(place, "CRATES", top / "crates")
    module.unproved.libraries.cache_clear()
    monkeypatch.setenv("PATH", f"{tmp_path}:{os.environ['PATH']}")

    def gate(last, status=0):
        (tmp_path / "rt").write_text(GATE.format(last=last, status=status))
        (tmp_path / "rt").chmod(0o755 | stat.S_IXUSR)

    module.gate = gate
    yield module
    module.unproved.libraries.cache_clear()


def test_what_a_program_stands_on_is_copied_and_nothing_else(proved, tmp_path):
    room = tmp_path / "room"
    room.mkdir()
    assert sorted(proved.copy(["loop_cli"], room)) == ["loop_cli", "low"]
    assert (room / "crates.txt").read_text() == "low:\nloop_cli: low clap\n"
    assert sorted(it.name for it in (room / "crates").iterdir()) == ["loop_cli", "low"]
    assert [it.name for it in (room / "crates/low").iterdir()] == ["src"]


@pytest.mark.parametrize("last, status, passes", [
    ("2 passed, 0 failed", 0, True),
    ("2 passed, 1 failed", 1, False),
    ("1 passed, 1 failed", 0, False),
    ("2 passed, 0 failed (loop_cli alone: not the gate)", 0, False),
    ("", 0, False),
])
def test_only_the_gate_says_that_it_is_proved(proved, tmp_path, capsys, last, status, passes):
    proved.gate(last, status)
    room = tmp_path / "room"
    room.mkdir()
    wanted = proved.copy(["loop_cli"], room)
    if passes:
        proved.prove(room, wanted)
        assert "loop_cli kept, 2 of 2" in capsys.readouterr().err
    else:
        with pytest.raises(proved.Unproved):
            proved.prove(room, wanted)


def test_an_object_that_gives_another_program_is_left_out(proved, tmp_path, capsys, monkeypatch):
    proved.gate("2 passed, 0 failed")
    monkeypatch.setattr(proved, "call", lambda *_, **__: None)
    monkeypatch.setattr(proved, "links_as", lambda *_: False)
    (tmp_path / "out").mkdir()
    proved.proved(tmp_path / "out", ["loop_cli"])
    assert [it.name for it in (tmp_path / "out").iterdir()] == ["loop_cli"]
    assert "gives another program" in capsys.readouterr().err
