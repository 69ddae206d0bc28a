#!/usr/bin/python3
"""A TANGO device that keeps: a server of Debian's python3-tango beside a station's page. The
command `Keep` locks so many seconds before it on all cameras, and answers what was kept; `State` is
how the station stands.

    python3 tango_keep.py hall     with a database: its device is of the server LapyreiKeep/hall
    python3 tango_keep.py hall -nodb -port 10000 -dlist lab/lapyrei/hall
"""
import json
import urllib.error
import urllib.request

from lapyrei import answers
from tango import AttrWriteType, DevState
from tango.server import Device, attribute, command, device_property


class NoRedirect(urllib.request.HTTPRedirectHandler):
    """Follows no redirect: the token would go with it."""

    def redirect_request(self, *_words):
        return None


OPENER = urllib.request.build_opener(urllib.request.ProxyHandler({}), NoRedirect())


class LapyreiKeep(Device):
    """A station's button."""

    page = device_property(dtype=str, default_value="http://127.0.0.1:8080")
    token = device_property(dtype=str, default_value="")
    note = attribute(dtype=str, access=AttrWriteType.READ_WRITE)

    def init_device(self):
        super().init_device()
        self.words = "TANGO"

    def read_note(self):
        return self.words

    def write_note(self, words):
        self.words = words

    def ask(self, path, shape, body=None):
        head = {"X-Loop-Page": "1", "Content-Type": "application/json"}
        if self.token:
            head["Authorization"] = f"Bearer {open(self.token).readline().strip()}"
        data = None if body is None else json.dumps(body).encode()
        asked = urllib.request.Request(self.page + path, data, head)
        try:
            with OPENER.open(asked, timeout=25) as answer:
                return answers.answer_in(answer.read(answers.BYTES + 1), shape)
        except urllib.error.HTTPError as fault:
            with fault:
                found = answers.answer_in(fault.read(answers.BYTES + 1), answers.REFUSAL)
            if "answers" in found:
                answers.KEPT(found)
            return found

    @command(dtype_in=int, dtype_out=str)
    def Keep(self, seconds):
        found = self.ask("/api/keep", answers.KEPT, {"seconds": seconds, "note": self.words})
        return found.get("error") or " ".join(it["text"] for it in found.get("answers", []))

    def dev_state(self):
        level = self.ask("/api/status", answers.STATUS).get("station", ["bad"])[0]
        return DevState.ON if level == "good" else DevState.ALARM


if __name__ == "__main__":
    LapyreiKeep.run_server()
