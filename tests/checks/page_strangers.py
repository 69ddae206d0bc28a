"""The parts of tests/checks/page_check that come as strangers: requests that are none, what would
end the page, a clock that is set, a disk that hangs; a proxy with TLS before it; and how far its
services are confined."""
import contextlib
import gzip
import http.client
import json
import os
import random
import re
import shutil
import signal
import socket
import ssl
import subprocess
import tempfile
import threading
import time
from pathlib import Path

TOP = Path(__file__).resolve().parent.parent.parent
PACKAGING = TOP / "packaging"
UNITS = ("loop_station", "loop_camera@", "loop_page")
# The most that `systemd-analyze security` may say of a unit: 10 is the worst, and what isn't
# confined has 9.
EXPOSURE = 2.0
# What the page may take in memory, whatever strangers send it, in MB.
MEMORY = 200
CAMERAS = [
    {"name": "left", "pattern": "64x48 YM12 50:1"},
    {"name": "right", "pattern": "33x21 GREY 25:1"},
]
TOKEN = "a-token-of-more-than-16"

# Requests that are well formed, of which others are made.
PATHS = [
    "/",
    "/healthz",
    "/metrics",
    "/sign-in",
    "/sign-out",
    "/static/page.js",
    "/api/status",
    "/api/clips",
    "/api/journal",
    "/none",
    "/favicon.ico",
    "/api/cameras/left/newest.jpg",
    "/api/cameras/left/newest.jpg?number=5",
    "/api/cameras/left/frame?number=7&by=-2",
    "/api/cameras/left/frame?time=1",
    "/api/cameras/left/frames/7.jpg",
    "/api/clips/left/0.csv",
    "/api/clips/left/0.y4m",
    "/api/clips/left/0.jpg",
    "/api/clips/left/0.zip",
    "/api/clips/right/0.csv?first=3",
]
BODIES = [
    ("/api/keep", '{"seconds": 1}'),
    ("/api/keep", '{"camera": "left", "from": 1, "to": 2}'),
    ("/api/note", '{"camera": "left", "id": 0, "note": "x"}'),
    ("/api/release", '{"camera": "left", "id": 63, "first": 5}'),
    ("/api/seen", '{"id": 1}'),
    ("/sign-in", "token=x"),
]
HEADERS = [
    "Range: bytes=0-5",
    "Range: bytes=5-",
    'If-Range: "x"',
    "Cookie: loop_page=x",
    "Authorization: Bearer x",
    "Origin: http://localhost",
    "Accept: */*",
    "Sec-Fetch-Site: cross-site",
    "Expect: 100-continue",
    "X-Forwarded-For: 1.2.3.4",
    "Content-Encoding: gzip",
    "Connection: close",
    'Cookie: "',
    "Content-Type: text/plain",
    "Transfer-Encoding: chunked",
    "Content-Length: 99",
    "Upgrade: websocket",
    "Connection: upgrade",
]
METHODS = ["GET", "HEAD", "POST", "PUT", "OPTIONS", "get", "TRACE", "CONNECT", "G\0T", ""]
STRANGE = [
    "%00",
    "%0d%0a",
    "%ff",
    "..",
    "//",
    "\x7f",
    "\xff",
    "é",
    "%",
    "?",
    "#",
    ";",
    "9" * 25,
    "-1",
    " ",
    "\t",
    "[",
    "{",
    "a" * 5000,
    "%2e%2e%2f",
    "\x1b[31m",
]
# What is no fault where it is answered: refusals, and that a disk or a station isn't there.
GOOD = {
    100,
    200,
    206,
    303,
    400,
    401,
    403,
    404,
    405,
    408,
    409,
    413,
    415,
    416,
    417,
    421,
    429,
    431,
    503,
    507,
}


class Wrong(Exception):
    """What the page does wrong."""


def expect(is_so, what):
    """Fails where something isn't so."""
    if not is_so:
        raise Wrong(what)


@contextlib.contextmanager
def laboratory(*words, token=None, cameras=CAMERAS, spoilt=False):
    """A laboratory in a new folder, whose page prints into a file."""
    from conftest import Laboratory, token_in

    folder = tempfile.mkdtemp(prefix="page_check", dir="/var/tmp")
    lab = Laboratory(folder, cameras, as_it_is=True)
    try:
        lab.start_station()
        more = ["--token", token_in(folder, token)] if token else []
        (lab.start_spoilt if spoilt else lab.start_page)(*more, *words)
        lab.printed, out, lab.page.stdout = [], lab.page.stdout, None
        threading.Thread(target=lambda: lab.printed.extend(out), daemon=True).start()
        yield lab
    finally:
        lab.close()
        shutil.rmtree(folder)


def memory(lab):
    """The most memory that the page ever took, in MB."""
    return (
        int(re.search(r"VmHWM:\s+(\d+)", Path(f"/proc/{lab.page.pid}/status").read_text())[1])
        // 1024
    )


def is_well(lab, headers=None):
    """The page stands: it answers, is small, and has failed at nothing."""
    expect(lab.page.poll() is None, "the page has ended")
    expect(lab.ask("/healthz").status == 200, "the page doesn't answer")
    answer = lab.ask(
        "/api/keep",
        "POST",
        '{"camera": "left", "seconds": 1}',
        {"X-Loop-Page": "1", "Content-Type": "application/json"} | (headers or {}),
    )
    expect(answer.status in (200, 409), f"a keep is answered {answer.status}: {answer.body[:200]}")
    expect(memory(lab) < MEMORY, f"the page has taken {memory(lab)} MB")
    text = "".join(lab.printed)
    fault = re.search(r"Traceback|failed", text)
    expect(
        not fault,
        f"the page has failed:\n{text[max(0, fault.start() - 500):][:3000] if fault else ''}",
    )


# --------------------------------------------------------------------------- requests that are none


def request_of(choose):
    """A well formed request, as bytes."""
    lines, body = [], ""
    if choose.random() < 0.4:
        path, body = choose.choice(BODIES)
        kind = "application/x-www-form-urlencoded" if path == "/sign-in" else "application/json"
        lines += [
            f"POST {path} HTTP/1.1",
            "Host: localhost",
            "X-Loop-Page: 1",
            f"Content-Type: {kind}",
            f"Content-Length: {len(body)}",
        ]
    else:
        lines += [f"GET {choose.choice(PATHS)} HTTP/1.1", "Host: localhost"]
    return lines, body


def malformed(choose):
    """A request with some faults, as bytes."""
    lines, body = request_of(choose)
    for _ in range(choose.randint(1, 4)):
        place = choose.randrange(len(lines))
        fault = choose.randrange(9)
        if fault == 0:
            lines.insert(choose.randint(1, len(lines)), choose.choice(HEADERS))
        elif fault == 1:
            at = choose.randint(0, len(lines[place]))
            lines[place] = lines[place][:at] + choose.choice(STRANGE) + lines[place][at:]
        elif fault == 2:
            lines[0] = choose.choice(METHODS) + lines[0][lines[0].find(" ") :]
        elif fault == 3:
            del lines[place]
            lines = lines or ["GET / HTTP/1.1"]
        elif fault == 4:
            lines[place] = "".join(choose.sample(lines[place], len(lines[place])))
        elif fault == 5:
            body = choose.choice(
                [
                    '{"seconds": 1',
                    "[" * 2000,
                    '{"id": 1e999}',
                    "\0" * 50,
                    '{"camera": ["left"], "seconds": true}',
                    "null",
                    '"x"' * 500,
                ]
            )
        elif fault == 6:
            lines[0] = lines[0].replace(
                "HTTP/1.1", choose.choice(["HTTP/1.0", "HTTP/9.9", "HTTP/1.1 x", "", "http/1.1"])
            )
        elif fault == 7:
            lines += [choose.choice(HEADERS)] * choose.choice([1, 2, 200])
        else:
            lines[place] = lines[place].replace(
                ": ", choose.choice([":", " : ", ":\t", "", ": ,", ": \xff"]), 1
            )
    data = ("\r\n".join(lines) + "\r\n\r\n" + body).encode("latin-1", errors="replace")
    if choose.random() < 0.1:
        data = bytearray(data)
        for _ in range(choose.randint(1, 5)):
            data[choose.randrange(len(data))] = choose.randrange(256)
    return bytes(data[: choose.randint(1, len(data))] if choose.random() < 0.1 else data)


def status_of(port, data):
    """The status with which bytes are answered; nothing where the connection is closed, or nothing
    comes soon."""
    with socket.create_connection(("127.0.0.1", port), timeout=5) as client:
        try:
            client.sendall(data)
            client.settimeout(0.15)
            found = client.recv(200)
        except OSError:
            return None
    match = re.match(rb"HTTP/1\.[01] (\d{3})", found)
    return int(match[1]) if match else None


def send_many(port, count, seed, found):
    """Sends so many malformed requests, and counts the statuses."""
    choose = random.Random(seed)
    for _ in range(count):
        data = malformed(choose)
        try:
            status = status_of(port, data)
        except OSError as fault:
            status = fault
        found.append(status)
        if status is not None and status not in GOOD:
            raise Wrong(f"{status} answers {data[:500]!r}")


def look_at_malformed(lab, count, workers=4):
    """So many malformed requests, after which the page is well."""
    found, faults = [], []

    def work(seed):
        try:
            send_many(lab.port, count // workers, seed, found)
        except Wrong as wrong:
            faults.append(wrong)

    start, threads = time.monotonic(), [
        threading.Thread(target=work, args=(seed,)) for seed in range(workers)
    ]
    for thread in threads:
        thread.start()
    for thread in threads:
        thread.join()
    if faults:
        raise faults[0]
    answered = sum(status is not None for status in found)
    expect(answered > count / 3, f"of {count} malformed requests only {answered} were answered")
    is_well(lab)
    print(
        (
            f"    {count} malformed requests, {answered} of them answered, in"
            f" {time.monotonic() - start:.0f} s; {memory(lab)} MB at most"
        ),
        flush=True,
    )


# -------------------------------------------------------------------------------- what would end it


def look_at_killers(lab):
    """What strangers without the token could end it by, or keep others out."""
    bearer = {"Authorization": f"Bearer {TOKEN}"}
    lab.until(
        lambda: lab.ask("/api/status", headers=bearer).json()["cameras"][0].get("newest"), "frames"
    )
    packed, clients = gzip.compress(b"\0" * (32 << 20), 9)[: 32 * 1024], []
    head = (
        "POST /sign-in HTTP/1.1\r\nHost: a\r\nContent-Encoding: gzip\r\nContent-Length:"
        f" {len(packed)}\r\n\r\n".encode()
    )
    for _ in range(50):
        clients.append(socket.create_connection(("127.0.0.1", lab.port), timeout=5))
        clients[-1].sendall(head + packed)
    form = b"X-Loop-Page: 1\r\nContent-Type: application/x-www-form-urlencoded\r\n"
    upgrade = (
        b"POST /sign-in HTTP/1.1\r\nHost: a\r\n"
        + form
        + b"Connection: upgrade\r\nUpgrade: x\r\n\r\n"
    )
    for data in (b"GET /healthz HTTP/1.1\r\nHost: a\r\n\r\n" * 5000, upgrade + b"x" * (32 << 20)):
        for _ in range(8):
            with contextlib.suppress(OSError), socket.create_connection(
                ("127.0.0.1", lab.port), timeout=5
            ) as client:
                client.sendall(data)
    is_well(lab, bearer)
    for _ in range(300):
        clients.append(socket.create_connection(("127.0.0.1", lab.port), timeout=5))
        clients[-1].sendall(b"GET /healthz HTTP/1.1\r\nHost: a\r\n\r\n")
    for place in range(30):
        lab.ask("/api/status", headers={"Authorization": f"Bearer wrong{place}"})
    is_well(lab, bearer)
    for client in clients:
        client.close()
    print(
        (
            "    packed bodies, pipelined requests, upgrades, 300 connections, guessed tokens:"
            f" {memory(lab)} MB at most"
        ),
        flush=True,
    )


def look_at_clocks(lab):
    """A clock that is set back or ahead, while frames come and while they don't."""
    lab.filmed()
    for wrong in ("-86400", "86400", "-5", "31536000", "0"):
        lab.spoil("clock", wrong)
        time.sleep(1.2)
        expect(
            lab.camera()["level"] == "good",
            f"with a clock that is {wrong} s wrong a camera is {lab.camera()['state']}",
        )
    lab.order("!pause left")
    lab.until(lambda: lab.camera()["level"] == "bad", "word that no frames come")
    for wrong in ("-86400", "86400", "0"):
        lab.spoil("clock", wrong)
        time.sleep(0.7)
        expect(
            lab.camera()["level"] == "bad",
            f"with a clock that is {wrong} s wrong a dead camera is {lab.camera()['state']}",
        )
    lab.order("!go left")
    lab.until(
        lambda: lab.camera()["level"] == "good" and not lab.status()["alerts"], "frames again"
    )
    print("    a clock that is set changes nothing", flush=True)


def look_at_disk(lab):
    """A disk that hangs, and 60 who ask for its frames: the other camera's pictures and keeps go
    on."""
    lab.filmed(20, "right")
    lab.spoil("hangs", "left.loop")
    lab.until(lambda: lab.camera()["kind"] == "hangs", "word that the disk hangs")
    paths = [
        "/api/cameras/left/newest.jpg",
        "/api/clips/left/0.y4m",
        "/api/cameras/left/frames/3.jpg",
    ]
    for path in paths * 20:
        threading.Thread(target=lambda path=path: lab.ask(path, timeout=30), daemon=True).start()
    slowest, start, shown = 0.0, time.monotonic(), set()
    while time.monotonic() - start < 3:
        begun = time.monotonic()
        answer = lab.ask("/api/cameras/right/newest.jpg")
        expect(
            answer.status == 200, f"beside a disk that hangs a picture is answered {answer.status}"
        )
        shown.add(answer.headers["X-Frame-Number"])
        slowest = max(slowest, time.monotonic() - begun)
    expect(
        len(shown) > 3 and slowest < 1.5,
        (
            f"beside a disk that hangs {len(shown)} pictures were shown, the slowest after"
            f" {slowest:.1f} s"
        ),
    )
    begun = time.monotonic()
    kept = lab.post("/api/keep", {"camera": "right", "seconds": 1})
    took = time.monotonic() - begun
    expect(
        kept.status == 200 and took < 1.5,
        f"beside a disk that hangs a keep is answered {kept.status} after {took:.1f} s",
    )
    lab.spoil("hangs", "")
    lab.until(lambda: lab.camera()["level"] == "good", "the disk again")
    is_well(lab)
    print(
        (
            f"    a disk that hangs: the other camera's slowest picture after {slowest:.2f} s, its"
            f" keep after {took:.2f} s"
        ),
        flush=True,
    )


def strangers_part(is_quick, shots):
    """All that comes of strangers, clocks and disks."""
    with laboratory() as lab:
        lab.filmed().keep()
        look_at_malformed(lab, 4_000 if is_quick else 50_000)
    with laboratory(token=TOKEN) as lab:
        look_at_killers(lab)
    with laboratory(spoilt=True) as lab:
        look_at_clocks(lab)
        look_at_disk(lab)
    return "strangers: the page stands"


# ------------------------------------------------------------------------------------------ a proxy


def free_port():
    """A port that nobody has."""
    with socket.socket() as one:
        one.bind(("127.0.0.1", 0))
        return one.getsockname()[1]


def proxy_of(kind, folder, page, port):
    """Starts a proxy with the package's example, of which names, ports and the certificate are
    others here."""
    text = (
        (PACKAGING / f"page.{kind}")
        .read_text()
        .replace("127.0.0.1:8080", f"127.0.0.1:{page}")
        .replace("/etc/lapyrei", folder)
    )
    if kind == "nginx":
        text = text.replace("listen 443", f"listen 127.0.0.1:{port}")
        paths = " ".join(
            f"{it}_temp_path {folder};"
            for it in ("client_body", "proxy", "fastcgi", "uwsgi", "scgi")
        )
        whole = (
            f"daemon off; master_process off; pid {folder}/pid; error_log {folder}/errors;\nevents"
            f" {{}}\nhttp {{ access_log off; {paths}\n{text}}}\n"
        )
        Path(folder, "nginx.conf").write_text(whole)
        words = ["nginx", "-c", f"{folder}/nginx.conf", "-p", folder]
    else:
        text = text.replace(":443", f":{port}")
        Path(folder, "Caddyfile").write_text(
            f"{{\n\tadmin off\n\tauto_https disable_redirects\n\tskip_install_trust\n}}\n{text}"
        )
        words = ["caddy", "run", "--adapter", "caddyfile", "--config", f"{folder}/Caddyfile"]
    return subprocess.Popen(
        words,
        stdout=subprocess.DEVNULL,
        stderr=open(f"{folder}/errors", "a"),
        env=dict(os.environ, HOME=folder, XDG_DATA_HOME=folder),
    )


class Secure(http.client.HTTPSConnection):
    """A connection to the proxy under the name that its certificate has."""

    def __init__(self, folder, port):
        context = ssl.create_default_context(cafile=f"{folder}/page.crt")
        super().__init__("cameras.example.org", port, timeout=10, context=context)

    def connect(self):
        """Connects to this machine, whoever has the name elsewhere."""
        plain = socket.create_connection(("127.0.0.1", self.port), timeout=10)
        self.sock = self._context.wrap_socket(plain, server_hostname=self.host)


def ask(folder, port, path, method="GET", body=None, headers=None):
    """Asks by the proxy for something; answers it with its body."""
    connection = Secure(folder, port)
    connection.request(method, path, body, headers or {})
    answer = connection.getresponse()
    answer.whole = answer.read()
    connection.close()
    return answer


def look_at_proxy(kind, lab, folder):
    """A person signs in by a proxy, sees, keeps and fetches; another site can't."""
    port = free_port()
    run = proxy_of(kind, folder, lab.port, port)
    try:
        lab.until(lambda: is_open(port), f"{kind}: {Path(folder, 'errors').read_text()[-500:]}")
        origin = f"https://cameras.example.org:{port}"
        expect(
            ask(folder, port, "/").headers["Location"] == "/sign-in",
            f"{kind}: / doesn't lead to the sign-in",
        )
        form = {"Content-Type": "application/x-www-form-urlencoded", "Origin": origin}
        signed = ask(folder, port, "/sign-in", "POST", f"token={TOKEN}", form)
        expect(
            signed.status == 303,
            f"{kind}: the sign-in is answered {signed.status}: {signed.whole[:200]}",
        )
        expect("Secure" in signed.headers["Set-Cookie"], f"{kind}: the cookie isn't for TLS alone")
        cookie = {"Cookie": signed.headers["Set-Cookie"].split(";")[0]}
        change = cookie | {"Content-Type": "application/json", "Origin": origin}
        body = json.dumps({"camera": "left", "seconds": 1})
        spoofed = change | {"X-Forwarded-For": "9.9.9.9"}
        kept = ask(folder, port, "/api/keep", "POST", body, spoofed)
        expect(kept.status == 200, f"{kind}: a keep is answered {kept.status}: {kept.whole[:200]}")
        evil = ask(
            folder, port, "/api/keep", "POST", body, change | {"Origin": "https://evil.example"}
        )
        expect(evil.status == 403, f"{kind}: another site's keep is answered {evil.status}")
        clip = json.loads(kept.whole)["answers"][0]["clips"][0]
        part = ask(
            folder,
            port,
            f"/api/clips/left/{clip['id']}.y4m",
            headers=cookie | {"Range": "bytes=0-8"},
        )
        expect(
            (part.status, part.whole) == (206, b"YUV4MPEG2"),
            f"{kind}: a range is answered {part.status}, {part.whole[:20]}",
        )
        told = json.loads(ask(folder, port, "/api/journal", headers=cookie).whole)["journal"][-1]
        expect(told["address"] == "127.0.0.1 by 127.0.0.1", f"{kind}: the journal says {told}")
        look_at_stream(kind, folder, port, cookie)
        expect(
            "max-age" in signed.headers["Strict-Transport-Security"],
            f"{kind}: no Strict-Transport-Security",
        )
    finally:
        run.send_signal(signal.SIGTERM)
        run.wait(10)
    print(f"    {kind}: sign-in, keep, range and the stream pass", flush=True)


def look_at_stream(kind, folder, port, cookie):
    """The states of a page that is open come one after the other, and not all together."""
    connection = Secure(folder, port)
    connection.request("GET", "/events", headers=cookie)
    stream, times = connection.getresponse(), []
    start = time.monotonic()
    while len(times) < 4 and time.monotonic() - start < 10:
        if stream.readline().startswith(b"data: "):
            times.append(time.monotonic() - start)
    connection.close()
    expect(
        len(times) == 4 and times[-1] < 6 and times[-1] - times[1] > 0.4,
        f"{kind}: the states came after {times} s",
    )


def is_open(port):
    """Whether somebody listens."""
    with contextlib.suppress(OSError), socket.create_connection(("127.0.0.1", port), timeout=1):
        return True
    return False


def proxy_part(is_quick, shots):
    """nginx and caddy with the package's examples."""
    if is_quick:
        return "proxy: left out"
    with laboratory(token=TOKEN) as lab, tempfile.TemporaryDirectory(
        prefix="page_check", dir="/var/tmp"
    ) as folder:
        subject = [
            "-subj",
            "/CN=cameras.example.org",
            "-addext",
            "subjectAltName=DNS:cameras.example.org",
        ]
        keys = [
            "-newkey",
            "rsa:2048",
            "-nodes",
            "-keyout",
            f"{folder}/page.key",
            "-out",
            f"{folder}/page.crt",
        ]
        subprocess.run(
            ["openssl", "req", "-x509", "-days", "2", *keys, *subject],
            check=True,
            capture_output=True,
        )
        lab.until(
            lambda: lab.ask("/api/status", headers={"Authorization": f"Bearer {TOKEN}"})
            .json()["cameras"][0]
            .get("newest"),
            "frames",
        )
        for kind in ("nginx", "caddy"):
            look_at_proxy(kind, lab, folder)
    return "proxy: the examples work"


# -------------------------------------------------------------------------------------------- units


def exposure(unit):
    """How open a unit is, as systemd-analyze reckons it."""
    words = ["systemd-analyze", "security", "--offline=true", str(PACKAGING / f"{unit}.service")]
    done = subprocess.run(words, capture_output=True, text=True)
    found = re.search(r"Overall exposure level for .*: ([\d.]+) ", done.stdout)
    expect(found, f"systemd-analyze says {done.stdout[-300:]}{done.stderr[-300:]}")
    return float(found[1])


def calls_of(group):
    """The calls of one of systemd's groups."""
    found = set()
    for line in subprocess.run(
        ["systemd-analyze", "syscall-filter", group], capture_output=True, text=True, check=True
    ).stdout.splitlines():
        word = line.strip()
        if re.fullmatch(r"[a-z_0-9]+", word):
            found.add(word)
        elif word.startswith("@") and word != group:
            found |= calls_of(word)
    return found


def allowed(unit):
    """The calls that a unit allows."""
    found = set()
    for line in (PACKAGING / f"{unit}.service").read_text().splitlines():
        if line.startswith("SystemCallFilter="):
            words = line.partition("=")[2]
            named = {
                call
                for word in words.lstrip("~").split()
                for call in (calls_of(word) if word.startswith("@") else {word})
            }
            found = found - named if words.startswith("~") else found | named
    return found


def look_at_calls():
    """The calls of a session of the page, with a film, and a command of on_alert: its unit allows
    each."""
    import conftest

    plain = conftest.PROGRAM
    with tempfile.TemporaryDirectory(prefix="page_check", dir="/var/tmp") as folder:
        traced = Path(folder, "traced")
        traced.write_text(f'#!/bin/sh\nexec strace -f -qq -o {folder}/calls {plain} "$@"\n')
        traced.chmod(0o755)
        Path(folder, "page.toml").write_text('on_alert = ["logger", "-t", "page_check"]\n')
        conftest.PROGRAM = traced
        try:
            with laboratory(
                "--settings", f"{folder}/page.toml"
            ) as lab, contextlib.ExitStack() as stack:
                # strace ends with what it traces, which goes on where strace is killed.
                stack.callback(lab.page.wait, 10)
                stack.callback(
                    os.kill,
                    int(
                        Path(f"/proc/{lab.page.pid}/task/{lab.page.pid}/children")
                        .read_text()
                        .split()[0]
                    ),
                    signal.SIGTERM,
                )
                lab.filmed(60).keep(1, note="x")
                for kind in ("mp4", "y4m", "zip", "csv", "jpg"):
                    expect(
                        lab.ask(f"/api/clips/left/0.{kind}", timeout=60).status == 200,
                        f"no {kind} under strace",
                    )
                lab.say("all_locked", camera="left")
                lab.until(
                    lambda: '["logger"' in Path(folder, "calls").read_text(errors="replace"),
                    "command of on_alert",
                )
                lab.post("/api/release", {"camera": "left", "id": 0})
        finally:
            conftest.PROGRAM = plain
        made = set(
            re.findall(
                r"^\d+ +([a-z_0-9]+)\(", Path(folder, "calls").read_text(errors="replace"), re.M
            )
        )
    expect(len(made) > 30, f"strace has seen only {made}")
    expect(
        not (refused := made - allowed("loop_page")),
        f"the unit of the page refuses what it calls: {sorted(refused)}",
    )
    return len(made)


def units_part(is_quick, shots):
    """The services' confinement."""
    found = {unit: exposure(unit) for unit in UNITS}
    expect(max(found.values()) <= EXPOSURE, f"units that are too open: {found}")
    calls = "" if is_quick else f"; {look_at_calls()} kinds of calls of the page, each allowed"
    return f"units: exposure {', '.join(f'{unit} {value}' for unit, value in found.items())}{calls}"
