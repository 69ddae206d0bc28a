"""loop_mqtt's words: its settings, what an order may say, and which states are told."""
import json
import re
import subprocess
import tomllib

import pytest
from conftest import SEVERAL, TOP, until
from station_links import archive, asked, bridge, doing, settings, standing, triggers


@pytest.mark.parametrize(
    "text, name",
    [
        ("{", "NotJson"),
        ("[]", "NotJson"),
        ("[" * 3000, "NotJson"),
        ('{"from": 1, "to": 2}', "BadId"),
        ('{"id": "a b", "from": 1, "to": 2}', "BadId"),
        ('{"id": "a", "seconds": 60}', "UnknownWord"),
        ('{"id": "a", "seconds": 60, "at": "noon"}', "BadTime"),
        ('{"id": "a", "seconds": 0, "at": 5000000}', "BadTime"),
        ('{"id": "a", "seconds": true, "at": 5000000}', "BadTime"),
        ('{"id": "a", "seconds": 86401, "at": 5000000}', "BadTime"),
        ('{"id": "a", "seconds": 1, "at": 5000000, "to": 6}', "BadTime"),
        ('{"id": "a", "from": 1, "to": 2, "at": null}', "BadTime"),
        ('{"id": "a"}', "BadTime"),
        ('{"id": "a", "from": "2026-11-22 15:38", "to": 5}', "BadTime"),
        ('{"id": "a", "from": 2, "to": 1}', "BadSpan"),
        ('{"id": "a", "from": 1, "to": 86400000002}', "BadSpan"),
        ('{"id": "a", "from": 1, "to": 2, "note": 3}', "BadNote"),
        ('{"id": "a", "from": 1, "to": 2, "note": "\\ud800"}', "BadNote"),
        ('{"id": "a", "from": 1, "to": 2, "camera": "../x"}', "BadCamera"),
        (json.dumps({"id": "a", "from": 1, "to": 2, "note": "x" * 5000}), "TooLong"),
    ],
)
def test_a_bad_order_is_refused_by_name(text, name):
    with pytest.raises(asked.Refused) as fault:
        asked.keep_in(text.encode())
    assert fault.value.name == name


def test_an_order_carries_its_moment():
    found = asked.keep_in(b'{"id": "a", "seconds": 3, "at": "1970-01-01T00:00:10Z"}')
    assert (found.since, found.until, found.moment) == (7_000_000, 10_000_000, 10_000_000)
    assert asked.keep_of("a", found.words()) == found
    # The seconds reach back before 1970 from no moment.
    assert asked.keep_in(b'{"id": "a", "seconds": 3, "at": 1}').since == 0
    plain = asked.keep_in(b'{"id": "a", "from": 1, "to": 2}')
    # As earlier programs wrote it down.
    assert plain.words() == '[1, 2, "", null]' and asked.keep_of("a", plain.words()) == plain


@pytest.mark.parametrize(
    "text",
    ["", "{", "[]", '{"archived": 1, "cameras": []}', '{"archived": [], "cameras": [1]}',
     '{"archived": [], "cameras": [{"name": 1}]}', "[" * 100_000, "\xff"],
)
def test_a_broken_archive_is_passed_over(tmp_path, text):
    (tmp_path / "archive.json").write_text(text, encoding="latin-1")
    assert standing.archive_in(str(tmp_path / "archive.json")) is None
    assert standing.archive_in(str(tmp_path / "none")) is None
    (tmp_path / "archive.json").write_text('{"archived": [], "cameras": [{"name": "left"}]}')
    assert standing.archive_in(str(tmp_path / "archive.json"))["cameras"][0]["name"] == "left"


class FakeBroker:
    """A broker that is there or not, and what was given to it."""

    def __init__(self):
        self.generation, self.is_up, self.given, self.is_full = 1, True, [], False

    def publish(self, topic, found, retain=False):
        """Gives it a message."""
        self.given.append((topic, found, retain))
        return None if self.is_full else len(self.given)


def test_a_state_is_told_when_it_changes_and_to_each_broker():
    broker = FakeBroker()
    states = standing.States(broker)
    for time_, room in ((1, 3), (2, 3), (3, 2)):
        states.set("t", {"time": time_, "room": room, "frames": time_})
    assert [found["time"] for _, found, _ in broker.given] == [1, 3]
    broker.is_up = False
    states.set("t", {"time": 4, "room": 1})
    assert len(broker.given) == 2
    broker.is_up, broker.generation = True, 2
    states.set("t", {"time": 5, "room": 2, "frames": 3})
    assert [found["time"] for _, found, _ in broker.given] == [1, 3, 5]
    assert all(retain for *_, retain in broker.given)
    # One that found no room is told again.
    broker.is_full = True
    states.set("t", {"room": 9})
    broker.is_full = False
    states.set("t", {"room": 9})
    states.set("t", {"room": 9})
    assert [found for _, found, _ in broker.given[3:]] == [{"room": 9}] * 2


@pytest.mark.parametrize(
    "text, why",
    [
        ("", "station is missing"),
        ('station = "all"', "station isn't a name of its own"),
        ('station = "a"\nstate = "none/x"', "state: none/x: "),
        ('station = "a"\nlook = 0', "look isn't a number"),
        ('station = "a"\nprefix = "a/#"', "prefix isn't the beginning of topics"),
        ('station = "a"\npage = "ftp://x"', "page isn't an address"),
        ('station = "a"\ntoken = "none"', "token: none: No such file"),
        ('station = "a"\n[broker]\nport = 0', "port isn't a whole number"),
        ('station = "a"\n[broker]\nhost = "a..b"', "host isn't a host's name"),
        ('station = "a"\n[broker]\ncert = "x"', "cert isn't there together with key"),
        ('station = "a"\n[broker]\nca = "none"', "TLS: .*No such file"),
        ('station = "a"\n[broker]\ntls = false\nca = "none"', "tls isn't true"),
        ('station = "a"\n[broker]\npassword = "x"', "name a user"),
        ('station = "a"\nbrokre = 1', "unknown words: brokre"),
    ],
)
def test_bad_settings_are_named(tmp_path, monkeypatch, text, why):
    monkeypatch.chdir(tmp_path)
    (tmp_path / "a.toml").write_text(text)
    with pytest.raises(settings.BadSettings, match=why):
        bridge.checked("a.toml", print)


def test_the_status_says_what_was_wrong(begin, tmp_path):
    (tmp_path / "a.toml").write_text("")
    runs = [begin(SEVERAL / "loop_mqtt", *words) for words in ((), ("--help",), ("a.toml",))]
    assert [run.ended() for run in runs] == [2, 0, 1]
    assert runs[2].printed() == "loop_mqtt: a.toml: station is missing: " \
        "a name of letters, digits, - or _\n"


def test_a_broker_that_refuses_is_told(make_broker, begin, tmp_path):
    (tmp_path / "passwords").write_text("")
    broker = make_broker("allow_anonymous false")
    (tmp_path / "a.toml").write_text(f'station = "a"\n[broker]\nport = {broker.port}\n')
    program = begin(SEVERAL / "loop_mqtt", "a.toml")
    until(lambda: "Look at user and password" in program.printed(), "refusal")
    assert program.run.poll() is None


def test_a_broker_may_want_tls_and_a_user(make_broker, begin, listen, tmp_path):
    make = "openssl req -x509 -newkey ec -pkeyopt ec_paramgen_curve:prime256v1 -nodes -days 9"
    names = "-subj /CN=broker -addext subjectAltName=IP:127.0.0.1 -keyout key.pem -out ca.pem"
    subprocess.run(f"{make} {names}".split(), cwd=tmp_path, check=True, capture_output=True)
    passwords = ["mosquitto_passwd", "-c", "-b", "users", "one", "its word"]
    subprocess.run(passwords, cwd=tmp_path, check=True)
    files = {word: tmp_path / name for word, name in
             (("cafile", "ca.pem"), ("certfile", "ca.pem"), ("keyfile", "key.pem"),
              ("password_file", "users"))}
    lines = [f"{word} {path}" for word, path in files.items()]
    broker = make_broker("allow_anonymous false", *lines)
    (tmp_path / "word").write_text("its word\n")
    (tmp_path / "word").chmod(0o600)
    (tmp_path / "a.toml").write_text(
        'station = "a"\npage = "http://127.0.0.1:1"\n[broker]\nca = "ca.pem"\nuser = "one"\n'
        f'password = "word"\nport = {broker.port}\n'
    )
    begin(SEVERAL / "loop_mqtt", "a.toml")
    more = {"username_pw_set": ("one", "its word"), "tls_set": (str(tmp_path / "ca.pem"),)}
    it = listen(broker.port, **more)
    until(lambda: it.newest("lapyrei/a/state").get("level") == "bad", "state")


def test_the_examples_are_read_with_the_token_of_the_packages_page(tmp_path, monkeypatch):
    """As docs/several.md has it they are copied, and begun: the page of the package wants a token,
    and each names the file that page.toml does."""
    page = tomllib.loads((TOP / "packaging" / "page.toml").read_text())["token"]
    read = []
    for module in (doing, archive):
        monkeypatch.setattr(module, "secret_in", lambda path, _: read.append(path) or "secret")
    monkeypatch.chdir(tmp_path)
    assert bridge.read_words(str(TOP / "examples" / "mqtt.toml")).station == "hall"
    text = (TOP / "examples" / "door.trigger").read_text()
    (tmp_path / "a.trigger").write_text(text)
    assert len(triggers.read_words("a.trigger").triggers) == 1
    archive.read_settings(str(TOP / "packaging" / "archive.toml"))
    assert read == [page] * 3
    # Each word that is commented out is one, too.
    words = re.sub(r"(?m)^#(?=\w+ = |\[\[)", "", text)
    (tmp_path / "a.trigger").write_text(words + "\n[broker]\n")
    assert len(triggers.read_words("a.trigger").triggers) == 3


def test_the_page_is_told_of_the_archive_also_where_it_shows_other_stations(tmp_path):
    """As docs/several.md has it, one after the other: a word after [[station]] would be that
    station's."""
    lines = (TOP / "docs/several.md").read_text().splitlines()
    (command,) = [it.strip() for it in lines if "archive.json" in it and "sudo" in it]
    text = (TOP / "packaging/page.toml").read_text()
    start = lines.index("    [[station]]")
    path = tmp_path / "page.toml"
    path.write_text(text + "".join(f"{it.strip()}\n" for it in lines[start : start + 4]))
    command = command.replace("sudo ", "").replace("/etc/lapyrei/page.toml", str(path))
    subprocess.run(["sh", "-c", command], check=True)
    table = tomllib.loads(path.read_text())
    assert table["archive"] == "/var/lib/loop_archive/archive.json"
    assert set(table["station"][0]) == {"name", "url", "token"}


def test_two_events_of_the_same_frames_are_two():
    def keys(number, *clips):
        return bridge.keys_of({"number": number, "tag": 0, "clips": clips})

    clip = {"camera": "left", "id": 4, "first": 69, "from_us": 7}
    assert keys(1, clip) != keys(2, clip)
    # A clip that grows has another id.
    assert keys(1, clip) == keys(1, clip | {"id": 5})
