"""Each promise of docs/station.md is a question of the judge of tests/simulate, or is said not to
be one (tests/cases/promises.txt)."""
import re
import sys
from pathlib import Path

TOP = Path(__file__).resolve().parents[2]
sys.path[1:1] = [str(TOP / "tools"), str(TOP / "tests/checks")]
import simulated_asked
import simulated_judge
import simulated_kept
import simulated_last
import simulated_more
import simulated_told

PAGE, ROWS = TOP / "docs/station.md", TOP / "tests/cases/promises.txt"
CLASSES = {"Judge": simulated_judge.Judge, "Kept": simulated_kept.Kept,
           "Told": simulated_told.Told, "Asked": simulated_asked.Asked,
           "Memory": simulated_more.Memory, "Pipes": simulated_more.Pipes,
           "Pattern": simulated_more.Pattern, "Last": simulated_last.Last}


def plain(text):
    """A text on one line."""
    return " ".join(text.split())


def sections(text):
    """The paragraphs and points of a page, by the heading before them, without samples."""
    found, heading = {}, ""
    for block in re.split(r"\n\n|\n(?=- )", text):
        title = re.match(r"#+ (.*)", block)
        if title:
            heading = title[1]
            block = block.partition("\n")[2]
        if block.strip() and not block.startswith("    "):
            found.setdefault(heading, []).append(plain(block))
    return found


def rows(text):
    """The rows: the heading, the words, and what is said of them."""
    found, heading, words = [], "", ""
    for line in text.split("\n\n", 1)[1].split("\n"):
        if line.startswith("# "):
            heading = line[2:]
        elif line.startswith("    "):
            found.append((heading, words, line.strip()))
        elif line:
            words = line
    return found


def faults(page, table):
    """What isn't so of a page and the rows for it, in words."""
    there, wrong = sections(page), []
    told = rows(table)
    for heading, words, said in told:
        if not any(words in it for it in there.get(heading, ())):
            wrong.append(f"{words!r} doesn't stand below {heading!r}")
        for name in said.split(", ") if not said.startswith("none: ") else ():
            of, _, method = name.partition(".")
            if not hasattr(CLASSES.get(of), method):
                wrong.append(f"{words!r}: there is no question {name!r}")
    for heading, blocks in there.items():
        for block in blocks:
            if not any(it[0] == heading and it[1] in block for it in told):
                wrong.append(f"below {heading!r} nothing is said of {block[:60]!r}")
    return wrong


def test_each_promise_has_a_row_and_each_question_is_one():
    assert not faults(PAGE.read_text(), ROWS.read_text())


def test_words_that_are_gone_are_found():
    page = PAGE.read_text().replace("What `kept` reports stays", "What `kept` reports may stay")
    assert [it for it in faults(page, ROWS.read_text()) if "doesn't stand" in it]


def test_a_question_that_is_gone_is_found():
    table = ROWS.read_text().replace("Judge.goes_on_with_events", "Judge.goes_on_with_nothing")
    assert [it for it in faults(PAGE.read_text(), table) if "no question" in it]


def test_a_section_or_a_paragraph_without_a_row_is_found():
    page = PAGE.read_text() + "\n## Another one\n\nIt promises more.\n"
    assert faults(page, ROWS.read_text()) == \
        ["below 'Another one' nothing is said of 'It promises more.'"]
