"""What tools/release looks at before a version is tagged."""
import subprocess

import pytest


@pytest.fixture
def release(tool, tmp_path, monkeypatch):
    """The tool over a repository of its own, with texts that name the version."""
    module = tool("tools/release")
    for words in (["init", "-q"], ["config", "user.email", "a@example.org"],
                  ["config", "user.name", "A"]):
        subprocess.run(["git", *words], cwd=tmp_path, check=True)
    (tmp_path / "docs").mkdir()
    (tmp_path / "docs/one.md").write_text("One page. " * 10)
    (tmp_path / "README.md").write_text("Version 1.2.3, released.\n")
    (tmp_path / "CHANGELOG.md").write_text("# Changes\n\n## 1.2.3\n\n" + "It does this. " * 30)
    subprocess.run(["git", "add", "-A"], cwd=tmp_path, check=True)
    subprocess.run(["git", "commit", "-qm", "All"], cwd=tmp_path, check=True)
    monkeypatch.setattr(module, "TOP", tmp_path)
    monkeypatch.setattr(module.about, "version", lambda: "1.2.3")
    return module


def test_all_is_well(release):
    assert not release.is_clean() and not release.lacks_of_texts()
    assert not release.lacks_of_tag() and not release.lacks_of_words()


def test_a_change_that_is_not_committed_is_told(release):
    (release.TOP / "README.md").write_text("Version 1.2.3, changed.\n")
    assert "README.md" in release.is_clean()


@pytest.mark.parametrize("text", ["## 1.2.2\n\n" + "It does. " * 60, "## 1.2.3\n\nLittle.\n"])
def test_changes_that_say_nothing_of_the_version_are_told(release, text):
    (release.TOP / "CHANGELOG.md").write_text(f"# Changes\n\n{text}")
    assert "says nothing of 1.2.3" in release.lacks_of_texts()


def test_a_tag_that_is_there_is_told(release):
    subprocess.run(["git", "tag", "v1.2.3"], cwd=release.TOP, check=True)
    assert release.lacks_of_tag() == "v1.2.3 is there"


def test_words_are_counted_without_pipes_anchors_and_the_table_that_is_made(release):
    rows = ['| <a id="it"></a>`one` | two |', "|---|---|", "| [`kept`](answers.md#kept) | `k` | |"]
    (release.TOP / "docs/one.md").write_text("\n".join(rows))
    assert release.words_in_docs() == 2
    (release.TOP / "docs/one.md").write_text("word " * 40_001)
    assert "40,001 words" in release.lacks_of_words()


@pytest.mark.parametrize("last, commit, lacks", [
    ("812 passed, 0 failed", None, False),
    ("812 passed, 0 failed", "0" * 40, True),
    ("811 passed, 1 failed", None, True),
    (None, None, True),
])
def test_the_gate_has_to_have_passed_for_this_commit(release, last, commit, lacks):
    if last:
        head = release.run("git", "rev-parse", "HEAD")[1]
        (release.TOP / "out").mkdir()
        (release.TOP / "out/gate").write_text(f"{commit or head}\n{last}\n")
    assert bool(release.lacks_of_gate()) == lacks


@pytest.fixture
def handed_out(release, tmp_path):
    """Makes a folder of what is handed out, whose package says this of its making."""

    def make(lines, lacks=()):
        folder, root = tmp_path / "handed_out", tmp_path / "root"
        doc = root / "usr/share/doc/lapyrei"
        (root / "DEBIAN").mkdir(parents=True)
        doc.mkdir(parents=True)
        folder.mkdir()
        control = "Package: it\nVersion: 1.2.3\nArchitecture: amd64\nMaintainer: A <a@b>\n"
        (root / "DEBIAN/control").write_text(f"{control}Description: it\n")
        (doc / "BUILD").write_text("".join(f"{it}\n" for it in lines))
        package = "lapyrei_1.2.3_amd64.deb"
        subprocess.run(["dpkg-deb", "-b", root, folder / package], check=True, capture_output=True)
        made = [package, "lapyrei_1.2.3_static_amd64.tar.gz",
                "lapyrei-1.2.3-py3-none-linux_x86_64.whl"]
        sums = [f"{'0' * 64}  {it}\n" for it in made if it not in lacks]
        (folder / "SHA256SUMS").write_text("".join(sums))
        return folder

    return make


PROVED = [f"{it} proved and built from this commit" for it in
          ("loop_cli", "loop_station", "liblapyrei")]


def test_what_is_proved_from_this_commit_may_go_out(release, handed_out):
    commit = f"commit {release.run('git', 'rev-parse', 'HEAD')[1]}"
    assert not release.lacks_of_build(handed_out([commit, *PROVED]))


@pytest.mark.parametrize("line", range(4))
def test_a_trial_a_given_program_and_another_commit_do_not_go_out(release, handed_out, line):
    commit = f"commit {release.run('git', 'rev-parse', 'HEAD')[1]}"
    lines = [commit, *PROVED]
    word = lines[line].split()[0]
    lines[line] = f"{lines[line]}, with changes that are not committed" if not line \
        else f"{word} compiled without a proof: a trial, and no release"
    assert word in release.lacks_of_build(handed_out(lines))


def test_static_programs_and_the_wheel_have_to_be_there(release, handed_out):
    folder = handed_out([], lacks=["lapyrei_1.2.3_static_amd64.tar.gz"])
    assert release.lacks_of_build(folder) == "not made: lapyrei_1.2.3_static_amd64.tar.gz"


def test_all_that_packages_lack_is_told_at_once(release, handed_out):
    folder = handed_out([])
    sums = (folder / "SHA256SUMS").read_text()
    tool = release.TOP / "tools/package"
    tool.parent.mkdir()
    tool.write_text(f"#!/bin/sh\n[ $1 = --repository ] || echo '{'0' * 64}  it' >$1/SHA256SUMS\n")
    tool.chmod(0o755)
    told = release.lacks_of_packages("KEY", folder)
    assert (folder / "SHA256SUMS").read_text() == sums
    for lack in ("a checksum differs", "BUILD doesn't say: commit", "InRelease isn't signed",
                 "two runs give other bytes"):
        assert lack in told
