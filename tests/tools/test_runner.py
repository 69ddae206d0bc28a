"""tests/run: which tests words choose, how they are laid out, and what is told of them."""
import contextlib
import signal
import sys
import threading
import time

import pytest
from conftest import TOP

sys.path.insert(1, str(TOP / "tests/runner"))
import found
import processes
import programs
import running
import unproved
import where

RING = """//! Rings.
use crate::common::{image, table};
use loop_ring::Ring;

// The rows.
static ROWS: [u8; 1] = [BAD_ROW];

#[test]
fn a_ring_has_rows(rt: HostRuntime) {
    assert_eq!(rt; ROWS.len(), 1);
}

// At -O2: it takes minutes.
#[test]
fn a_long_one(rt: HostRuntime) {}

fn no_test() {}
"""


@pytest.fixture
def rust(tmp_path, monkeypatch):
    """A folder of two crates of tests, and of a program."""
    for path, text in {
            "test_a/lib.rs": "//! Tests.\n\nmod common;\nmod other;\nmod ring;\n",
            "test_a/ring.rs": RING,
            "test_a/common.rs": "fn image() {}\n",
            "test_a/other.rs": "#[test]\nfn another(rt: HostRuntime) {}\n",
            "test_b/lib.rs": "mod ring_more;\n",
            "test_b/ring_more.rs": "use crate::{ring_more};\n#[test]\nfn b(rt: HostRuntime) {}\n",
            "cases/main.rs": "fn main(rt: HostRuntime) {}\n",
            "shown/main.rs": "fn main(rt: HostRuntime) {}\n",
            "crates": "test_a: loop_disk loop_ring\ntest_b:\n"
                      "cases some.cases: anyhow\nshown:\n"}.items():
        (tmp_path / "tests/rust" / path).parent.mkdir(parents=True, exist_ok=True)
        (tmp_path / "tests/rust" / path).write_text(text)
    place = tmp_path / "tests/rust"
    for module in (found, programs, running, unproved):
        monkeypatch.setattr(module, "RUST", place)
        monkeypatch.setattr(module, "TOP", tmp_path)
    monkeypatch.setattr(unproved, "libraries", lambda: {"loop_disk": [], "loop_ring": []})
    monkeypatch.setattr(unproved, "of_tests", lambda: unproved.table(place / "crates"))
    return place


def names(*words):
    """The names of the tests that words choose."""
    return [it.name for it in found.chosen(words, found.every_test())]


def test_tests_are_found_with_their_places_and_levels(rust):
    tests = {it.name: it for it in found.every_test()}
    assert list(tests) == ["test_a::other::another", "test_a::ring::a_ring_has_rows",
                           "test_a::ring::a_long_one", "test_b::ring_more::b", "cases"]
    assert tests["test_a::ring::a_ring_has_rows"].place == "tests/rust/test_a/ring.rs:9"
    assert [it.level for it in tests.values()] == ["checked", "checked", "fast", "checked", "fast"]


def test_a_word_is_a_crate_a_module_a_name_or_a_file(rust):
    ring = ["test_a::ring::a_ring_has_rows", "test_a::ring::a_long_one"]
    assert names("test_a") == ["test_a::other::another", *ring]
    assert names("ring") == ring and names("a_long_one") == ring[1:] and len(names()) == 5
    assert names("tests/rust/test_a/ring.rs") == names("test_a/ring.rs") == ring
    assert names("./tests/rust/test_b/") == ["test_b::ring_more::b"]
    assert names("cases", "another") == ["test_a::other::another", "cases"]


def test_another_word_is_a_library_or_a_part_of_a_name(rust):
    assert names("loop_ring") == ["test_a::ring::a_ring_has_rows", "test_a::ring::a_long_one"]
    assert names("ring_m") == ["test_b::ring_more::b"]
    with pytest.raises(SystemExit, match="nothing_such"):
        names("nothing_such")


def test_a_program_has_the_modules_that_its_tests_need(rust):
    assert sorted(programs.needed("test_a", ["ring"])) == ["common", "ring"]
    laid = programs.laid_out("test_a", ["common", "ring"])
    assert set(laid) == {f"tests/rust/test_a{it}.rt" for it in ("", "/common", "/ring")}
    assert laid["tests/rust/test_a.rt"] == "//! Tests.\n\nmod common;\n\nmod ring;\n"
    ring = laid["tests/rust/test_a/ring.rt"]
    assert "use crate::test_a::common::{image, table};" in ring
    assert ring.count("\n") == RING.count("\n")


def test_crates_are_joined_as_their_lines_let_them(rust, monkeypatch):
    tests = found.every_test()
    lists = [[it.name for it in those] for those in programs.lists_of(tests)]
    assert lists == [["cases"], ["test_a::other::another", "test_a::ring::a_ring_has_rows",
                                 "test_b::ring_more::b"], ["test_a::ring::a_long_one"]]
    monkeypatch.setattr(programs, "LINES", 10)
    assert [len(it) for it in programs.lists_of(tests)] == [1, 2, 1, 1]


def test_places_are_told_as_the_repository_has_them(rust):
    (rust.parents[1] / "crates/low/src").mkdir(parents=True)
    (rust.parents[1] / "crates/low/src/lib.rt").write_text("")
    text = "at tests/rust/test_a/ring.rt:9:5, tests/rust/test_a.rt:1 and crates/low/src/lib.rt:2"
    assert programs.origin(text) == \
        "at tests/rust/test_a/ring.rs:9:5, tests/rust/test_a/lib.rs:1 and crates/low/src/lib.rt:2"


def test_the_checksum_covers_texts_levels_and_roots():
    program = unproved.Program("one", "a.rt", [], {"a.rt": "text"}, "fast")
    others = [program._replace(**it) for it in (
        {"files": {"a.rt": "other"}}, {"level": "checked"}, {"is_test": True}, {"root": "b.rt"})]
    assert len({program.place(), *(it.place() for it in others)}) == 5
    assert program.place() == program._replace().place()


def test_libraries_come_after_those_that_they_use():
    used = {"low": ["std"], "middle": ["low"], "top": ["middle", "low"]}
    assert unproved.below(["top", "low"], used) == ["low", "middle", "top"]


def test_lines_that_differ_are_told(rust):
    path = rust / "cases/stdout"
    path.write_text("one\ntwo\n")
    assert running.differences(path, "one\ntwo\n") == []
    assert running.differences(path, "one\n2\n") == [
        "tests/rust/cases/stdout:2: wanted two\n    got 2"]


def test_a_checks_frames_get_names(monkeypatch):
    functions = [(16, "std::index::<#1>"), (32, "joined::test_a::ring::it::<33'std::Ends>")]
    monkeypatch.setattr(running, "symbols", lambda path: functions)
    text = ("AddressSanitizer:DEADLYSIGNAL\n==\n==1==ERROR: AddressSanitizer: ILL on unknown\n"
            "frame 0x18 (BuildId: ab)\nframe 0x28 (BuildId: ab)\n\n==1==Register values:\n")
    told = running.named(text, "program")
    assert told.split("\n")[1:] == ["    std::index::<#1>", "    joined::test_a::ring::it"]
    assert "bounds" in told and running.named("assertion failed", "program") == "assertion failed"
    assert running.ending(1) == "ended with status 1" and "SIGILL" in running.ending(-4)


def until(reached):
    """Waits for a state, for as long as a busy machine may take."""
    end = time.monotonic() + 120
    while not reached() and time.monotonic() < end:
        time.sleep(0.02)
    return reached()


def test_what_runs_too_long_is_ended_with_all_that_it_began(tmp_path, monkeypatch):
    """Its time is over once it has begun all: by the clock it might not have by then."""
    limits, timer = [], threading.Timer

    def once_it_has_begun(limit, ends, words):
        limits.append(limit)
        return timer(0, lambda: until((tmp_path / "begun").exists) and ends(*words))

    monkeypatch.setattr(threading, "Timer", once_it_has_begun)
    words = ["sh", "-c", "sleep 300 & echo $! >child; echo said; : >begun; wait"]
    ended = processes.run(words, tmp_path, limit=0.5)
    assert ended.is_late and ended.status == -signal.SIGKILL and ended.out == "said\n"
    stat = f"/proc/{int((tmp_path / 'child').read_text())}/stat"

    def is_over():
        # A child that is ended stays until its new parent asks for it.
        with contextlib.suppress(OSError):
            return open(stat).read().split()[2] == "Z"
        return True

    assert until(is_over), "the child runs on"
    assert limits == [0.5]


def test_a_limit_of_time_is_by_the_clock(tmp_path):
    assert processes.run(["sleep", "300"], tmp_path, limit=0.05).is_late
    assert not processes.run(["true"], tmp_path, limit=300).is_late


def test_a_process_has_its_input_and_its_outputs(tmp_path):
    (tmp_path / "given").write_text("text")
    ended = processes.run(["sh", "-c", "cat; echo error >&2; exit 3"], given=tmp_path / "given")
    assert ended[:3] == (3, "text", "error\n") and not ended.is_late and ended.seconds >= 0


def test_a_rule_is_found_in_both_ways_of_writing_it():
    word = where.pattern("AllLocked")
    assert all(word.search(it) for it in ("AllLocked", "all_locked", "its_all_locked_one"))
    assert not word.search("NearlyAllLocked2") and not word.search("call_locked")


def test_a_test_is_found_by_what_it_uses(rust):
    text = (rust / "test_a/ring.rs").read_text()
    assert where.reached(text, where.pattern("BAD_ROW")) == {"ROWS", "a_ring_has_rows"}
