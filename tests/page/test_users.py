"""Users with rights of their own, by a file of hashed tokens."""
import os
import subprocess
import types

import pytest
from conftest import PROGRAM, TOKEN, token_in
from station_page import limits
from station_page.guard import COOKIE, Gate
from station_page.settings import BadSettings
from station_page.users import OWNER, User, Users, add_user, hash_of, right_for, rights_in, users_in
from station_page.words import Unfit


def file_in(folder):
    """A file of three users, and their tokens by name."""
    path = str(folder / "users")
    words = {"ann": "see,keep,release", "bob": "see", "button": "keep"}
    return path, {name: add_user(path, name, rights) for name, rights in words.items()}


def test_a_user_is_known_by_the_hash_of_a_token_alone(tmp_path):
    path, tokens = file_in(tmp_path)
    text = (tmp_path / "users").read_text()
    assert not any(token in text for token in tokens.values())
    assert all(len(token) >= 40 for token in tokens.values())
    users = Users(path)
    assert users.of_token(tokens["bob"]) == User("bob", ("see",))
    assert users.of_token(tokens["ann"] + "x") is users.of_token("") is users.of_token(text) is None
    assert users.of_token(hash_of(tokens["ann"])) is None
    assert os.stat(path).st_mode & 0o027 == 0


def test_a_user_who_is_added_again_has_a_new_token_and_new_rights(tmp_path):
    path, tokens = file_in(tmp_path)
    token = add_user(path, "bob", "release,see")
    users = Users(path)
    assert users.of_token(tokens["bob"]) is None
    assert users.of_token(token) == User("bob", ("see", "release"))
    assert users.of_token(tokens["ann"]).name == "ann"


def test_who_is_taken_out_is_out_at_once(tmp_path, monkeypatch):
    monkeypatch.setattr(limits, "USERS_SECONDS", 0)
    path, tokens = file_in(tmp_path)
    users = Users(path)
    lines = (tmp_path / "users").read_text().splitlines()
    (tmp_path / "users").write_text("\n".join(it for it in lines if not it.startswith("bob")))
    assert users.of_token(tokens["bob"]) is users.named("bob") is None
    assert users.named("ann").name == "ann"
    # A file that can't be used lets nobody in, and once it can be, all of it.
    whole = (tmp_path / "users").read_text()
    (tmp_path / "users").write_text("ann see")
    assert users.of_token(tokens["ann"]) is None
    (tmp_path / "users").write_text(whole)
    assert users.of_token(tokens["ann"]).name == "ann"
    (tmp_path / "users").unlink()
    assert users.of_token(tokens["ann"]) is None


@pytest.mark.parametrize(
    "line",
    [
        "ann see",
        f"ann look {'0' * 64}",
        f"ann see,,keep {'0' * 64}",
        f"a:b see {'0' * 64}",
        f"ann see {'0' * 63}",
        f"ann see {'0' * 64} more",
        f"ann see {'0' * 64}\nann keep {'1' * 64}",
        f"ann see {'0' * 64}\nbob keep {'0' * 64}",
    ],
)
def test_a_line_that_is_none_is_refused_by_its_number(tmp_path, line):
    (tmp_path / "users").write_text(f"# who\n\n{line}\n")
    (tmp_path / "users").chmod(0o600)
    with pytest.raises(BadSettings, match=r"users:[34]: "):
        users_in(str(tmp_path / "users"))


def test_a_file_that_others_may_write_is_refused(tmp_path):
    path, _ = file_in(tmp_path)
    for mode in (0o620, 0o602):
        os.chmod(path, mode)
        with pytest.raises(BadSettings, match="you alone may write"):
            Users(path)
    with pytest.raises(BadSettings):
        Users(str(tmp_path / "none"))
    for name, rights in (("a b", "see"), ("ann", "look"), ("ann", "")):
        with pytest.raises(BadSettings):
            add_user(str(tmp_path / "more"), name, rights)


def test_the_rights_are_those_four():
    assert rights_in("release,see") == ("see", "release") and rights_in("see,all") is None
    assert [right_for(it) for it in ("/api/keep", "/api/event/note", "/api/seen")] == ["keep"] * 3
    assert right_for("/api/release") == right_for("/api/event/release") == "release"
    assert right_for("/") == right_for("/api/view") == right_for("/metrics") == "see"
    assert right_for("/api/camera") == "set"
    assert OWNER.rights == ("see", "keep", "release", "set")


# ----------------------------------------------------------------------------------------- the gate


def gate_of(path, token=None):
    """A gate with a file of users."""
    return Gate(types.SimpleNamespace(token=token, users=path, host="127.0.0.1"))


def request_of(path="/", token=None, cookie=None):
    """A request, as far as the gate looks at it."""
    headers = {"Authorization": f"Bearer {token}"} if token else {}
    cookies = {COOKIE: cookie} if cookie else {}
    return types.SimpleNamespace(path=path, headers=headers, cookies=cookies, remote="::1")


def test_each_has_the_rights_of_the_file_by_token_and_by_session(tmp_path):
    path, tokens = file_in(tmp_path)
    gate = gate_of(path, TOKEN)
    asked = {"/": "see", "/api/keep": "keep", "/api/release": "release"}
    may = {"ann": {"see", "keep", "release"}, "bob": {"see"}, "button": {"keep"}}
    for name, token in tokens.items():
        session = gate.sign_in(gate.user_with(token))
        for request in (lambda at: request_of(at, token), lambda at: request_of(at, None, session)):
            for at, right in asked.items():
                assert gate.is_known(request(at))
                if right in may[name]:
                    gate.refuse_without_right(request(at))
                    continue
                with pytest.raises(Unfit, match=f"{name} may not {right}") as fault:
                    gate.refuse_without_right(request(at))
                assert fault.value.status == 403
            gate.refuse_without_right(request("/sign-out"))
        assert gate.who(request_of("/", token)) == ("::1", f"{name}, token")
    # The page's own token is everybody's right.
    for at in asked:
        gate.refuse_without_right(request_of(at, TOKEN))
    assert gate.user_of(request_of("/", TOKEN)) is OWNER
    assert not gate.is_known(request_of("/", "x" * 43)) and not gate.is_known(request_of("/"))


def test_a_session_of_a_user_who_is_taken_out_has_ended(tmp_path, monkeypatch):
    monkeypatch.setattr(limits, "USERS_SECONDS", 0)
    path, tokens = file_in(tmp_path)
    gate = gate_of(path)
    session = gate.sign_in(gate.user_with(tokens["bob"]))
    assert gate.is_known(request_of("/", None, session)) and not gate.is_open()
    text = (tmp_path / "users").read_text()
    (tmp_path / "users").write_text(text.replace("bob see", "rob see"))
    assert not gate.is_known(request_of("/", None, session))
    assert gate.user_with(tokens["bob"]).name == "rob"


def test_without_token_and_users_everybody_may_all():
    gate = gate_of(None)
    assert gate.is_open() and gate.user_of(request_of()) is OWNER
    gate.refuse_without_right(request_of("/api/release"))


# ----------------------------------------------------------------------------------------- the page


def test_a_page_with_users_lets_each_do_what_the_file_says(make):
    lab = make(page=False)
    path, tokens = file_in(lab.folder)
    lab.start_page("--users", path, "--token", token_in(lab.folder))
    heads = {
        name: {"Authorization": f"Bearer {it}", "Content-Type": "application/json"}
        for name, it in (tokens | {"": TOKEN}).items()
    }
    assert lab.ask("/api/status").status == 401
    assert lab.ask("/api/me", headers=heads["bob"]).json() == {"user": "bob", "rights": ["see"]}
    rights = lab.ask("/api/me", headers=heads[""]).json()["rights"]
    assert rights == ["see", "keep", "release", "set"]
    lab.until(
        lambda: lab.post("/api/keep", {"seconds": 1}, heads["button"]).status == 200, "a keep"
    )
    answer = lab.post("/api/keep", {"seconds": 1}, heads["bob"])
    assert answer.status == 403 and "bob may not keep" in answer.json()["error"]
    assert lab.ask("/api/status", headers=heads["button"]).status == 403
    clip = lab.ask("/api/clips", headers=heads["bob"]).json()["clips"][0]
    body = {"camera": clip["camera"], "id": clip["id"], "first": clip["first"]}
    for name, status in (("bob", 403), ("button", 403), ("ann", 200)):
        assert lab.post("/api/release", body, heads[name]).status == status
    journal = lab.ask("/api/journal", headers=heads["bob"]).json()["journal"]
    assert {it["session"] for it in journal} >= {"button, token", "ann, token"}
    event = lab.ask("/api/events", headers=heads["ann"]).json()["events"][0]
    assert event["cause"]["who"].endswith("button, token")


def test_a_user_is_added_by_the_program_and_the_token_is_shown_once(tmp_path):
    def run(*words):
        done = subprocess.run([str(PROGRAM), *words], capture_output=True, text=True, cwd=tmp_path)
        return done.returncode, done.stdout + done.stderr

    status, said = run("--add-user", "users", "ann", "see,keep")
    found = users_in(str(tmp_path / "users"))
    assert status == 0
    assert found[hash_of(said.splitlines()[-1])] == User("ann", ("see", "keep"))
    status, said = run("--add-user", "users", "bob", "look")
    assert status == 1 and "rights of see, keep, release, set" in said
    assert run("--add-user", "users", "ann", "see", "--make-token", "t")[0] == 2
