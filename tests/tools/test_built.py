"""Which program a check takes: none is proved unasked."""
import os
import subprocess

import pytest
import stores


@pytest.fixture
def crates(tmp_path, monkeypatch):
    """Crates of which one stands on another, and a command that proves, which is noted."""
    for name in ("loop_cli", "below"):
        (tmp_path / name / "src").mkdir(parents=True)
        (tmp_path / name / "src/main.rt").write_text("")
        os.utime(tmp_path / name / "src/main.rt", (1000, 1000))
    monkeypatch.setattr(stores, "CRATES", str(tmp_path))
    used = {"loop_cli": ["below"], "below": []}
    monkeypatch.setattr(stores.unproved, "libraries", lambda: used)
    for name in ("LOOP_CLI", "LAPYREI_PROVE"):
        monkeypatch.delenv(name, raising=False)
    return tmp_path


@pytest.fixture
def proved(monkeypatch):
    """What was proved."""
    found = []
    real = subprocess.run

    def run(words, **more):
        if words[0] != "rt":
            return real(words, **more)
        found.append(words[:2])
        return subprocess.CompletedProcess(words, 0)

    monkeypatch.setattr(stores.subprocess, "run", run)
    return found


def make(crates, moment):
    """Makes the program, at a moment."""
    path = crates / "loop_cli/out/loop_cli"
    path.parent.mkdir(exist_ok=True)
    path.write_text("")
    os.utime(path, (moment, moment))
    return str(path)


def test_a_program_that_is_named_is_taken(crates, proved, monkeypatch):
    monkeypatch.setenv("LOOP_CLI", "/bin/true")
    assert stores.built("loop_cli") == "/bin/true" and not proved


def test_one_that_is_newer_than_its_sources_is_taken(crates, proved):
    path = make(crates, 2000)
    assert stores.built("loop_cli") == path and not proved


@pytest.mark.parametrize("name", ["loop_cli", "below"])
def test_one_that_is_older_is_neither_taken_nor_proved(crates, proved, name):
    make(crates, 2000)
    os.utime(crates / name / "src/main.rt", (3000, 3000))
    with pytest.raises(SystemExit) as ended:
        stores.built("loop_cli")
    for word in ("LOOP_CLI=PATH", "--trial", "--prove"):
        assert word in str(ended.value)
    assert not proved


def test_where_there_is_none_nothing_is_proved_unasked(crates, proved, monkeypatch, capsys):
    with pytest.raises(SystemExit):
        stores.built("loop_cli")
    assert not proved
    monkeypatch.setenv("LAPYREI_PROVE", "1")
    assert stores.built("loop_cli").endswith("out/loop_cli") and proved == [["rt", "run"]]
    assert "an hour or more" in capsys.readouterr().err


def test_the_word_that_lets_a_check_prove_is_its_own(tool, monkeypatch):
    monkeypatch.delenv("LAPYREI_PROVE", raising=False)
    check = tool("tools/check")
    assert check.may_prove(["all", "--quick"]) == ["all", "--quick"]
    assert "LAPYREI_PROVE" not in os.environ
    assert check.may_prove(["rows", "--prove", "x"]) == ["rows", "x"]
    assert os.environ.pop("LAPYREI_PROVE") == "1"


def test_where_nothing_was_ever_compiled_there_is_nothing_to_forget(tmp_path, monkeypatch):
    monkeypatch.setattr(stores.unproved, "KEPT", tmp_path / "kept")
    stores.unproved.forget_old()
    assert not list((tmp_path / "kept").iterdir())
