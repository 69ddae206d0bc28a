"""How tools/check runs the check `save`, and what is wrong that this has to find."""
from kinds import Kind, Wrong

# A station whose saves look for their clip later, once the orders that came with them are done.
LATE_SAVES = """#!/usr/bin/env python3
import ctypes, os, signal, subprocess, sys, threading, time
def dies():
    ctypes.CDLL(None).prctl(1, signal.SIGKILL)
dies()
run = subprocess.Popen([{real!r}, *sys.argv[1:]], stdin=subprocess.PIPE, preexec_fn=dies)
threading.Thread(target=lambda: os._exit(run.wait())).start()
while orders := os.read(0, 65536):
    lines = orders.decode().splitlines(keepends=True)
    for late in (False, True):
        those = [it for it in lines if (" save" in it) == late]
        os.write(run.stdin.fileno(), "".join(those).encode())
        time.sleep(0.1)
run.stdin.close()
"""

KIND = Kind(
    "save_check",
    [],
    ["3"],
    ["LOOP_CLI", "LOOP_STATION"],
    "saves clips beside orders that would take them away, and onto disks that fail",
    [
        Wrong(
            "a station whose saves look for their clip later",
            {"LOOP_STATION": LATE_SAVES},
            words=["3"],
            says="try 0: ",
        )
    ],
)
