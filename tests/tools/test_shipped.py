"""What tools/package makes: what the pages name is there, an apt repository that is signed, and the
list of what it is made of. Its programs are false ones."""
import hashlib
import json
import os
import re
import shutil
import subprocess
from pathlib import Path

import pytest

TOP = Path(__file__).resolve().parents[2]
NEEDED = ("lowdown", "dpkg-deb", "objdump", "gpg", "apt-ftparchive", "git")
pytestmark = pytest.mark.skipif(any(not shutil.which(it) for it in NEEDED),
                                reason=f"one of {' '.join(NEEDED)} isn't here")


def run(*words, **more):
    """Runs a command, which has to end well; answers what it prints."""
    done = subprocess.run([str(it) for it in words], capture_output=True, text=True, **more)
    assert not done.returncode, done.stdout + done.stderr
    return done.stdout


@pytest.fixture(scope="module")
def key(tmp_path_factory):
    """A maker's key, in a folder of gpg of its own."""
    home = tmp_path_factory.mktemp("gpg")
    home.chmod(0o700)
    before = os.environ.get("GNUPGHOME")
    os.environ["GNUPGHOME"] = str(home)
    run("gpg", "--batch", "--pinentry-mode", "loopback", "--passphrase", "",
        "--quick-generate-key", "Maker <maker@example.org>", "ed25519", "sign", "1d")
    yield "maker@example.org"
    run("gpgconf", "--kill", "gpg-agent")
    os.environ.pop("GNUPGHOME")
    if before:
        os.environ["GNUPGHOME"] = before


@pytest.fixture(scope="module")
def made(tmp_path_factory, key):
    """A folder with what is handed out."""
    folder = tmp_path_factory.mktemp("made")
    given = {**os.environ, "PROGRAM": "/bin/true", "STATION": "/bin/true"}
    run(TOP / "tools/package", "--repository", key, folder, env=given)
    return folder


@pytest.fixture(scope="module")
def root(made, tmp_path_factory):
    """The package, unpacked."""
    folder = tmp_path_factory.mktemp("root")
    run("dpkg-deb", "-x", next(made.glob("*.deb")), folder)
    return folder


def test_what_the_pages_link_to_is_there(root):
    doc = root / "usr/share/doc/lapyrei"
    pages = [doc / "README.md", doc / "CHANGELOG.md", doc / "bench/README.md",
             *doc.glob("docs/*.md")]
    links = {(page, link) for page in pages
             for link in re.findall(r"\]\(([^)\s#]+)", page.read_text())}
    assert len(links) > 100
    assert not [link for link in links if "://" not in link[1]
                and not (link[0].parent / link[1]).exists()]


def test_the_examples_that_the_pages_name_are_there(root):
    doc = root / "usr/share/doc/lapyrei"
    named = {word for page in [doc / "README.md", *doc.glob("docs/*.md")]
             for word in re.findall(r"`(examples/[\w./-]+)", page.read_text())}
    assert len(named) > 5 and not [it for it in named if not (doc / it).exists()]


def test_each_program_has_a_manual_page_and_completion(root):
    for program in (root / "usr/bin").iterdir():
        assert list(root.glob(f"usr/share/man/man*/{program.name}.*.gz")), program
        assert (root / "usr/share/bash-completion/completions" / program.name).exists(), program


def test_files_that_logrotate_and_units_name_are_made_by_it(root):
    rotated = (root / "etc/logrotate.d/lapyrei").read_text()
    made = (root / "usr/lib/tmpfiles.d/lapyrei.conf").read_text()
    unit = (root / "usr/lib/systemd/system/loop_station.service").read_text()
    assert "/var/log/loop_station/answers {" in rotated and "create 0640" in rotated
    assert "d /var/log/loop_station " in made and "-/var/log/loop_station" in unit


def test_programs_that_units_name_are_there_and_may_be_run(root):
    named = {path for unit in root.glob("usr/lib/systemd/system/*.service")
             for path in re.findall(r"/usr/(?:bin/loop|share/lapyrei/)\w+", unit.read_text())}
    assert {"/usr/bin/loop_station", "/usr/share/lapyrei/loop_station_service"} <= named
    assert not [it for it in named if not os.access(f"{root}{it}", os.X_OK)]


def test_the_repository_is_signed_and_says_the_packages_checksum(made, key, tmp_path):
    place = made / "repository"
    words = ["--no-default-keyring", "--keyring", place / "lapyrei.gpg", "--verify"]
    run("gpg", *words, place / "dists/stable/InRelease")
    run("gpg", *words, place / "dists/stable/Release.gpg", place / "dists/stable/Release")
    packages = place / "dists/stable/main/binary-amd64/Packages"
    release = (place / "dists/stable/Release").read_text()
    assert hashlib.sha256(packages.read_bytes()).hexdigest() in release
    package = next(place.rglob("*.deb"))
    assert hashlib.sha256(package.read_bytes()).hexdigest() in packages.read_text()
    changed = tmp_path / "InRelease"
    changed.write_text((place / "dists/stable/InRelease").read_text().replace("stable", "stabel"))
    assert subprocess.run(["gpg", *words, changed], capture_output=True).returncode


def test_checksums_hold(made):
    run("sha256sum", "--check", "SHA256SUMS", cwd=made)


def test_the_list_has_programs_crates_and_debians_packages(made, root):
    bill = json.loads(next(made.glob("*.cdx.json")).read_text())
    parts = {it["bom-ref"]: it for it in bill["components"]}
    assert bill["specVersion"] == "1.5" and len(parts) == len(bill["components"])
    digest = hashlib.sha256((root / "usr/bin/loop_cli").read_bytes()).hexdigest()
    assert parts["file:usr/bin/loop_cli"]["hashes"] == [{"alg": "SHA-256", "content": digest}]
    assert {"kit:toml", "kit:rtrb", "deb:libc6", "deb:python3-aiohttp"} <= parts.keys()
    assert not {"kit:loop_store", "kit:loop_cli"} & parts.keys()


def test_a_key_that_nobody_has_makes_no_repository(made, key, tmp_path):
    done = subprocess.run([TOP / "tools/repository", "other@example.org", tmp_path / "it",
                           next(made.glob("*.deb"))], capture_output=True, text=True)
    assert done.returncode == 1 and "no secret key" in done.stderr
    assert not (tmp_path / "it").exists()
