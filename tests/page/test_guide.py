"""docs/answers.md in the browser, and how long a disk lasts."""
import re
from pathlib import Path

import pytest
from station_page import guide

ANSWERS = Path(__file__).resolve().parent.parent.parent / "docs/answers.md"
ANCHORS = re.findall(r'<a id="([\w-]+)">', ANSWERS.read_text(encoding="utf-8"))
ASKED = {"size": "1920x1080", "form": "GREY", "bits": "16", "rate": "100", "room": "2TB"}


@pytest.mark.parametrize("has_markdown", [True, False])
def test_each_anchor_is_there_with_and_without_the_package(has_markdown, monkeypatch):
    if has_markdown:
        pytest.importorskip("markdown")
    else:
        monkeypatch.setattr(guide, "markdown", None)
    body = guide.body_of(guide.source())
    assert len(ANCHORS) > 100
    assert re.findall(r'<a id="([\w-]+)">', body) == ANCHORS


def test_no_link_leads_to_a_file_that_the_page_has_not():
    pytest.importorskip("markdown")
    body = guide.body_of(guide.source())
    assert set(re.findall(r'href="([^"#]*)', body)) == {""}
    ends = set(re.findall(r'id="([^"]*)"', body))
    assert set(re.findall(r'href="#([^"]*)"', body)) <= ends


def test_tables_and_words_of_commands_are_shown_as_such():
    pytest.importorskip("markdown")
    body = guide.body_of(guide.source())
    assert body.count("<table>") == ANSWERS.read_text().count("\n|---") and "<code>kept" in body
    assert not re.search(r"^\|", body, re.M)


def test_room_is_reckoned():
    assert "80.3 min: the newest 481,670 frames" in guide.reckoned(ASKED)
    assert "414.7 MB a second" in guide.reckoned(ASKED)


def test_what_no_station_makes_is_said_and_shown_as_text():
    asked = ASKED | {"size": '"><script>'}
    assert guide.reckoned(asked).startswith("Not so: a size is 640x480")
    assert "<script>" not in guide.form_of(asked, is_given=True)


def test_nothing_is_reckoned_unasked():
    assert "how-long-says" not in guide.form_of(ASKED, is_given=False)


def test_the_page_serves_it_and_leads_to_it(shared):
    found = shared.ask("/answers?room=4TB")
    assert found.status == 200 and b'id="advice-slow"' in found.body
    assert b'value="4TB"' in found.body and b"how-long-says" in found.body
    assert b'href="/answers"' in shared.ask("/").body
