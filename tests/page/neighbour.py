"""A station's page that says whatever a test gives, and what a true one says; and wrong answers,
made of true ones."""
import json
import struct
import threading
import time
from http.server import BaseHTTPRequestHandler, ThreadingHTTPServer

CLIP = {
    "camera": "left",
    "id": 0,
    "first": 0,
    "last": 9,
    "event": None,
    "tag": 0,
    "from_us": 0,
    "to_us": 450_000,
    "note": "run",
    "frames": 10,
    "from": "1970-01-01T00:00:00Z",
    "to": "1970-01-01T00:00:00Z",
    "seconds": 0.5,
    "bytes": 7680,
    "fetched": False,
    "archived": False,
}
EVENT = {
    "key": "left.0.0",
    "number": 7,
    "from_us": 0,
    "to_us": 450_000,
    "seconds": 0.5,
    "bytes": 1,
    "tag": 0,
    "until_us": None,
    "note": "run",
    "fetched": False,
    "cameras": ["left"],
    "lacks": [{"camera": "left", "held_us": 1, "asked_us": 2, "why": ""}],
    "archived": False,
    "clips": [
        {
            "camera": "left",
            "id": 0,
            "first": 0,
            "last": 9,
            "from_us": 0,
            "to_us": 450_000,
            "frames": 10,
        }
    ],
}
CAMERA = {
    "name": "left",
    "level": "good",
    "state": "Recording.",
    "kind": "good",
    "short": "recording",
    "keep": 60,
    "after": 0,
    "given_up": 0,
    "behind": 0.0,
    "room": 3,
    "keeps": None,
    "width": 64,
    "height": 48,
    "format": "GREY",
    "bits": 8,
    "asked_rate": 20.0,
    "rate": 19.9,
    "seconds": 30.0,
    "frames": 600,
    "locked": 0.25,
    "pieces": [[0, 599, 0, 29_950_000]],
    "removed_next": [0, 63],
    "clips": [[0, 0, 9, 0, 450_000]],
    "newest": [599, 29_950_000],
    "oldest": [0, 0],
}
STATE = {
    "station": ["good", "The station runs."],
    "now": 1.5,
    "cameras": [CAMERA],
    "news": [],
    "alerts": [
        {"id": 3, "time": 1.5, "kind": "dark", "camera": "left", "text": "It is dark.", "times": 1}
    ],
}
MORE = {
    "cameras": {
        "left": {
            "advice": "",
            "source": "pattern",
            "room_blocks": 3,
            "slots": 64,
            "segments": 32,
            "clips_left": 63,
        }
    }
}
KEPT = {
    "camera": "left",
    "kept": True,
    "text": "left: kept.",
    "clips": [],
    "event": None,
    "until_us": None,
    "held_us": None,
    "asked_us": None,
    "why": "",
}
SAID = {"state": STATE, "more": MORE, "events": [EVENT]}
WRONG = [
    None,
    True,
    -1,
    0,
    1,
    2**63,
    2**64,
    10**30,
    1e300,
    float("nan"),
    float("inf"),
    "",
    "x",
    "../x",
    "a:b",
    "\udc00",
    "[" * 50,
    [],
    {},
    [[]],
    [None],
    {"a": 1},
]


def spoilt(luck, value, depth=0):
    """A value in which one place is something else."""
    if isinstance(value, dict) and value and luck.random() < 0.9:
        word = luck.choice(sorted(value))
        if luck.random() < 0.2:
            return {it: to for it, to in value.items() if it != word}
        return value | {word: spoilt(luck, value[word], depth + 1)}
    if isinstance(value, list) and value and luck.random() < 0.9:
        place = luck.randrange(len(value))
        return [*value[:place], spoilt(luck, value[place], depth + 1), *value[place + 1 :]]
    return luck.choice(WRONG)


def answer_of(luck, value):
    """The bytes of a wrong answer: one place is another value, or the text is another one."""
    raw = json.dumps(spoilt(luck, value)).encode()
    how = luck.randrange(8)
    if how == 0:
        raw = raw[: luck.randrange(len(raw) + 1)]
    elif how == 1:
        place = luck.randrange(len(raw) + 1)
        raw = raw[:place] + bytes([luck.randrange(256)]) + raw[place + 1 :]
    elif how == 2:
        place = luck.randrange(len(raw) + 1)
        raw = (
            raw[:place]
            + luck.choice([b"[" * 3000, b'"', b"NaN", b"1e999", b"\\ud800", b"{"])
            + raw[place:]
        )
    return raw


def message(kind, told, **more):
    """A message of a stream."""
    head = json.dumps({"kind": kind} | more).encode()
    body = told if isinstance(told, bytes) else json.dumps(told).encode()
    return struct.pack(">II", len(head), len(body)) + head + body


class Neighbour:
    """A station's page that says what a test gives: `answers` by path, each a body, or a body with
    a status and a type; and the messages of its stream."""

    def __init__(self):
        self.answers = {
            "/api/clock": lambda: {"now_us": time.time_ns() // 1000},
            "/api/clips": {"clips": [CLIP]},
            "/api/view": {"moment": 0},
            "/api/step": {"moment": 5},
            "/api/keep": {"kept": True, "answers": [KEPT]},
        }
        self.stream = [
            message("hello", b"", id="x"),
            *(message(kind, told) for kind, told in SAID.items()),
        ]
        # What its stream says each second beside the state: functions that give messages.
        self.again = []
        self.asked, self.over = [], threading.Event()
        this = self

        class Handler(BaseHTTPRequestHandler):
            def answer(self):
                self.rfile.read(int(self.headers.get("Content-Length") or 0))
                this.asked.append((self.path, dict(self.headers)))
                if self.path == "/api/stream":
                    return self.pour()
                found = this.answers.get(self.path.split("?")[0], {})
                found = found() if callable(found) else found
                body, status, kind = (
                    found if isinstance(found, tuple) else (found, 200, "application/json")
                )
                body = body if isinstance(body, bytes) else json.dumps(body).encode()
                self.send_response(status)
                if status in (301, 302, 307):
                    self.send_header("Location", body.decode())
                self.send_header("Content-Type", kind)
                self.send_header("Content-Length", str(len(body)))
                self.end_headers()
                self.wfile.write(body)

            def pour(self):
                self.send_response(200)
                self.end_headers()
                for one in list(this.stream):
                    self.wfile.write(one)
                while not this.over.wait(1):
                    state = [it for it in this.stream if b'"state"' in it[:40]]
                    self.wfile.write(b"".join([*state, *(it() for it in this.again)]))

            do_GET = do_POST = answer

            def log_message(self, *_):
                pass

        self.server = ThreadingHTTPServer(("127.0.0.1", 0), Handler)
        self.server.daemon_threads = True
        self.server.handle_error = lambda *_: None
        self.port = self.server.server_address[1]
        threading.Thread(target=self.server.serve_forever, daemon=True).start()

    def close(self):
        """Ends it."""
        self.over.set()
        self.server.shutdown()
        self.server.server_close()
