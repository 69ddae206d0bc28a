"""The faults that are planted in the station for tests/simulate stand where they are to stand, or
are refused."""
import sys
from pathlib import Path

import pytest

TOP = Path(__file__).resolve().parents[2]
sys.path[1:1] = [str(TOP / "tools"), str(TOP / "tests/checks")]
import planted

FILE = "crates/loop_x/src/a.rt"
FILES = {"crates/loop_x/src/lib.rt": "//! X.\n\nmod a;\n", FILE: """fn a(n: u32) -> bool {
    first(
        n,
    );
    second();
    if n > 1 && n < 9 {
        second();
    }
    n == 1
}
"""}


def fault(lines, number=1):
    """The fault of these lines, with a number."""
    text = f"fault: f\nsays: It is wrong.\nfile: {FILE}\n{lines}"
    return planted.faults_of(text)[0]._replace(number=number)


def planted_in(*faults):
    """The file with faults in it."""
    return planted.with_faults(FILES, list(faults))[FILE]


def test_an_expression_is_chosen_by_its_number():
    assert "if n > 1 && (if crate::wrong::wrong(1) { true } else { n < 9 }) {" in \
        planted_in(fault("old: n < 9\nnew: true"))


def test_statements_are_left_out_whatever_white_space_they_have():
    text = planted_in(fault("old: first( n, );\nnew:"))
    assert "if crate::wrong::wrong(1) {  } else { first(\n        n,\n    ); }" in text


def test_two_faults_of_one_place_and_one_within_it_stand_together():
    text = planted_in(fault("old: n > 1 && n < 9\nnew: true", 1),
                      fault("old: n > 1 && n < 9\nnew: false", 2),
                      fault("old: n < 9\nnew: n < 5", 3))
    assert "(if crate::wrong::wrong(1) { true } else if crate::wrong::wrong(2) { false } else " \
        "{ n > 1 && (if crate::wrong::wrong(3) { n < 5 } else { n < 9 }) })" in text


def test_a_text_after_another_one_is_the_first_there():
    text = planted_in(fault("after: n < 9 {\nold: second();\nnew:"))
    assert text.count("crate::wrong::wrong") == 1 and "n < 9 {\n        if crate" in text


@pytest.mark.parametrize("lines", ["old: third();\nnew:", "old: second();\nnew:",
                                   "after: third();\nold: n == 1\nnew: true"])
def test_a_text_that_isnt_there_once_is_refused(lines):
    with pytest.raises(planted.Unfit, match="stands [02] times"):
        planted_in(fault(lines))


def test_faults_that_overlap_are_refused():
    with pytest.raises(planted.Unfit, match="overlap"):
        planted_in(fault("old: n > 1 && n\nnew: n", 1), fault("old: n < 9\nnew: n < 5", 2))


def test_the_crate_gets_the_switch():
    files = planted.with_faults(FILES, [fault("old: n == 1\nnew: true")])
    assert files["crates/loop_x/src/lib.rt"] == "//! X.\n\nmod wrong;\nmod a;\n"
    assert "loop_wrong" in files["crates/loop_x/src/wrong.rt"]


@pytest.mark.parametrize("text", ["fault: f\nsays: x", "fault: f\nfile: a\nold: b\nnew: c",
                                  "fault: f\nsays: x\nfile: a\nold: b\nnwe: c"])
def test_a_fault_that_isnt_whole_is_refused(text):
    with pytest.raises(planted.Unfit):
        planted.faults_of(text)


def test_two_faults_of_one_name_are_refused():
    one = "fault: f\nsays: x\nfile: a\nold: b\nnew: c"
    with pytest.raises(planted.Unfit, match="one name"):
        planted.faults_of(f"{one}\n\n{one}")


def test_a_seed_is_put_into_the_text_in_place_of_another_one():
    text = "fault: f\nsays: x\nfile: a\n\nfault: g\nmet: y\nseed: 4\nfile: a\n"
    assert planted.with_seeds(text, {"f": 3, "g": 5}) == \
        "fault: f\nsays: x\nseed: 3\nfile: a\n\nfault: g\nmet: y\nseed: 5\nfile: a\n"


def test_all_faults_fit_the_sources():
    assert not planted.unfit()
