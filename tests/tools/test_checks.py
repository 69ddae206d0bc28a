"""How checks are found, how rows and pages are read, and which wrong bodies fit."""
import subprocess
from pathlib import Path

import pytest
from conftest import TOP

import edits
import kinds
import pages
import unproved


def test_a_check_is_found_by_its_file_in_either_folder(tool, tmp_path):
    check = tool("tools/check")
    one, other = tmp_path / "checks", tmp_path
    one.mkdir()
    (one / "here_check").write_text('"""Looks at what LOOP_CLI prints. More of it."""\n')
    (other / "there_check").write_text('"""Looks elsewhere, and\nat more."""\n')
    check.CHECKS = (one, other)
    found = dict(check.found())
    assert found["here"].programs == ["LOOP_CLI"] and found["there"].programs == []
    assert found["here"].line == "looks at what LOOP_CLI prints"
    assert found["there"].line == "looks elsewhere, and at more"
    assert found["here"].quick is None and check.file_of("there_check") == other / "there_check"


def test_each_kind_has_its_file(tool):
    check = tool("tools/check")
    assert {"rows", "lint", "edits", "about", "power"} <= check.KINDS.keys()
    for kind in check.KINDS.values():
        assert check.file_of(kind.file).is_file()


def test_what_a_wrong_copy_changes_is_in_its_file(tmp_path, monkeypatch):
    # A station with faults is laid out, in which each has to fit, and isn't compiled.
    monkeypatch.setattr(unproved.Program, "made", lambda it: (it.place(), 0))
    for name, kind in kinds.kinds().items():
        for place, wrong in enumerate(kind.wrong):
            for word, make in wrong.given.items():
                folder = tmp_path / f"{name}-{place}-{word}"
                folder.mkdir()
                assert make(folder)


def test_a_text_that_is_not_there_ends_the_copy(tmp_path):
    with pytest.raises(SystemExit, match="hasn't 'no such text' any more"):
        kinds.changed_copy("VERSION", "no such text", "")(tmp_path)


def test_rows_are_read(tool):
    rows = tool("tests/checks/rows_check")
    assert rows.repeated(3, "where 2 make pipe p@") == [(3, "make pipe p0"), (3, "make pipe p1")]
    assert rows.bytes_of("a5 00") == b"\xa5\x00" and rows.bytes_of('"a\\x00b"') == b"a\0b"
    assert rows.matches("kept * 0 *", "kept one 0 1..2") and not rows.matches("a*", "b")
    assert rows.matches("a.c", "a.c") and not rows.matches("a.c", "abc")


def test_every_name_of_a_refusal_has_a_rule(tool):
    rows = tool("tests/checks/rows_check")
    rules = set()
    for path in sorted(rows.ROWS.glob("*.rows")):
        rules |= rows.Rule(path).names
    assert len(rows.names()) > 50 and rows.names().keys() <= rules


def test_a_pages_commands_are_read():
    page = "# One\n\nText `word`.\n\n    $ loop_cli list a\n    next 0\n\n    a block\n"
    typed = [it for it in pages.parts_of(page) if it.kind == "typed"]
    assert [(it.text, it.shown, it.section) for it in typed] == [
        ("loop_cli list a", ["next 0"], "One")
    ]


def test_numbers_that_vary_count_as_any_other():
    assert pages.without_numbers("kept 12..13") == "kept N..N"
    assert pages.without_numbers("a 1 b 2", r"a \d+") == "a N b 2"


def test_an_edit_that_fits_and_one_that_does_not(tmp_path, monkeypatch):
    monkeypatch.setattr(edits, "TOP", tmp_path)
    source = tmp_path / "crates/one/src"
    source.mkdir(parents=True)
    (source / "lib.rt").write_text("let a = 1;\nlet b = 1;\n")
    path = tmp_path / "one.edits"
    head = "wrong: it\n"
    path.write_text(f"{head}file: src/lib.rt\nold: let a = 1;\nnew: let a = 2;\n")
    (edit,) = edits.edits_of(path)
    assert edit == ("one", "it", False, "", {"src/lib.rt": [("let a = 1;", "let a = 2;")]})
    assert not edit.unfit()
    assert edit.changed_files() == {"src/lib.rt": "let a = 2;\nlet b = 1;\n"}
    path.write_text(f"{head}gate\nfile: src/lib.rt\nold: = 1;\nnew: = 2;\n")
    (edit,) = edits.edits_of(path)
    assert edit.in_gate and "stands 2 times" in edit.unfit()[0]
    path.write_text(f"{head}file: src/none.rt\nold: a\nnew: b\n")
    assert "names no file" in edits.edits_of(path)[0].unfit()[0]


def test_a_wrong_decision_is_a_body_and_its_definition(tmp_path, monkeypatch):
    monkeypatch.setattr(edits, "TOP", tmp_path)
    for file, text in (("src/lib.rt", "a && b\n"), ("specs/One.antt", "one a b = a && b\n")):
        place = tmp_path / "crates/one" / file
        place.parent.mkdir(parents=True)
        place.write_text(text)
    path = tmp_path / "one.edits"
    head = "wrong: it\nlaw: both_hold\nfile: src/lib.rt\nold: a && b\nnew: a\n"
    path.write_text(f"{head}file: specs/One.antt\nold: = a && b\nnew: = a\n")
    (edit,) = edits.edits_of(path)
    assert (edit.law, edit.file, edit.unfit()) == ("both_hold", "src/lib.rt", [])
    assert edit.changed_files() == {"src/lib.rt": "a\n", "specs/One.antt": "one a b = a\n"}
    assert edit.changed_sources() == {"crates/one/src/lib.rt": "a\n"}
    path.write_text(f"{head}file: specs/One.antt\nold: = b\nnew: = a\n")
    assert "stands 0 times in specs/One.antt" in edits.edits_of(path)[0].unfit()[0]


def test_a_law_speaks_of_each_decision():
    done = subprocess.run([TOP / "tests/checks/laws_check"], capture_output=True, text=True)
    assert done.returncode == 0, done.stderr


def test_all_wrong_bodies_fit():
    done = subprocess.run([TOP / "tests/checks/edits_check"], capture_output=True, text=True)
    assert done.returncode == 0, done.stderr


def test_a_call_is_seen_by_its_type_and_by_a_dot_near_it(tool):
    uses = tool("tests/checks/uses_check")
    retire = uses.Call("loop_ring", Path("loop_ring/src/ring.rt"), "Ring", "retire", True)
    assert uses.is_called(retire, "ring.retire(disk, 1)", True)
    assert not uses.is_called(retire, "ring.retire(disk, 1)", False)
    assert uses.is_called(retire, "Ring::<A>::retire(&ring, disk, 1)", False)
    store = uses.Call("loop_disk", Path("loop_disk/src/steps.rt"), "", "store", False)
    assert uses.is_called(store, "store(disk, 0, &bytes)?;", False)
    assert not uses.is_called(store, "desk.store(1); Command::store(2)", False)


def test_only_public_calls_that_require_something_are_asked_for(tool):
    uses = tool("tests/checks/uses_check")
    disk = {str(it) for it in uses.calls_of("loop_disk")}
    assert {"loop_disk: store", "loop_disk: Disk::read", "loop_disk: CrashDisk::crash"} <= disk
    assert not {"loop_disk: store_rows", "loop_disk: Disk::sync", "loop_disk: put_rows"} & disk


def test_what_a_call_of_itself_is_made_by_does_not_count(tool):
    uses = tool("tests/checks/uses_check")
    path = Path("loop_disk/src/rows.rt")
    call = uses.Call("loop_disk", path, "", "length_of", False)
    itself = {path: "fn length_of (rows)\n{\n    length_of(others)\n}\n"}
    assert not list(uses.callers(call, [itself], {"length_of": 1}))
    other = {path: itself[path] + "fn put (rows)\n{\n    length_of(rows)\n}\n"}
    assert list(uses.callers(call, [other], {"length_of": 1})) == [path]
