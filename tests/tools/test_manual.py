"""The manual pages, which are made from docs/."""
import re
import shutil
import tomllib
from pathlib import Path

import pytest

TOP = Path(__file__).resolve().parents[2]
PAGES = tomllib.loads((TOP / "packaging/manual.toml").read_text())["page"]


@pytest.fixture(scope="module")
def manual(tool):
    """The tool."""
    return tool("tools/manual")


@pytest.mark.parametrize("page", PAGES, ids=lambda it: it["name"])
def test_a_page_is_made_of_sections_that_are_there(page, manual):
    if not Path(manual.PYTHON).exists():
        pytest.skip("Debian's Python isn't here")
    text = manual.text_of(page)
    assert not re.search(r"\]\(|<a id|^!\[|^\|", text, re.M)
    assert all(re.search(rf"^# {re.escape(head)}\n\n[^#\n]", text, re.M)
               for head, _, part in page["parts"] if part != "--help")


def test_each_program_has_a_page():
    told = (TOP / "tools/install").read_text().split('echo "installed in $bin: ')[1]
    programs = set(re.findall(r"\b(?:loop_|store_)\w+|lapyrei-export", told.split("echo")[0]))
    programs |= {"loop_mqtt", "loop_trigger", "loop_archive"}
    assert len(programs) > 9
    assert programs <= {it["name"].rpartition(".")[0] for it in PAGES}


def test_a_table_is_a_list_with_defaults_last(manual):
    table = "| Word | Default | What it is |\n|---|---|---|\n| `keep` | 60 | seconds |\n" \
            "| `name` | | its [name](a.md#b) |"
    assert manual.plain(table) == "**`keep`**\n\n:   seconds. Default: 60\n\n" \
                                  "**`name`**\n\n:   its name"


def test_a_section_that_is_not_there_is_refused(manual):
    with pytest.raises(manual.Unmade, match="has no 'Nothing'"):
        manual.section("docs/station.md", "Nothing")


@pytest.mark.skipif(not shutil.which("lowdown"), reason="lowdown isn't here")
def test_a_page_has_its_name_as_whatis_wants_it(manual):
    text = manual.made(next(it for it in PAGES if it["name"] == "loop_store.5"))
    assert ".TH \"LOOP_STORE\" \"5\"" in text
    assert "\n.SH NAME\n" in text and "\nloop_store \\- the layout" in text
