"""A disk that loses its power: what a program wrote and synced, as preload.c logs it, and what a
loss of power may leave of a file then. It needs nothing but Python, and cc where the library isn't
there yet."""
import os
import random
import struct
import subprocess

HERE = os.path.dirname(os.path.abspath(__file__))
# Where the package has it compiled.
COMPILED = os.path.join(HERE, "..", "..", "lib/lapyrei/preload.so")
SECTOR = 512


def library(folder):
    """The preloaded library, built into a folder; that of the package where it is installed."""
    source, path = os.path.join(HERE, "preload.c"), os.path.join(folder, "preload.so")
    if not os.path.exists(source):
        return COMPILED
    subprocess.run(
        ["cc", "-shared", "-fPIC", "-O2", "-o", path, source, "-ldl"],
        check=True,
    )
    return path


def under(
    preload, path, log=None, mode=None, fail=None, threads=None, text=None, kill=None, clip=None
):
    """The environment of a program with the library before it."""
    env = dict(os.environ, LD_PRELOAD=preload, LOOP_FILE=path)
    given = (
        ("LOOP_LOG", log),
        ("LOOP_MODE", mode),
        ("LOOP_FAIL", fail),
        ("LOOP_THREADS", threads),
        ("LOOP_TEXT", text),
        ("LOOP_KILL", kill),
        ("LOOP_CLIP", clip),
    )
    env.update({name: value for name, value in given if value})
    return env


def log_of(path):
    """The records of a log, as far as they are whole: (kind, place or length, bytes)."""
    if not os.path.exists(path):
        return []
    with open(path, "rb") as file:
        data = file.read()
    records, at = [], 0
    while at + 17 <= len(data):
        kind = chr(data[at])
        place, count = struct.unpack_from("<QQ", data, at + 1)
        if at + 17 + count > len(data):
            break
        records.append((kind, place, data[at + 17 : at + 17 + count]))
        at += 17 + count
    return records


def write_to(image, at, data):
    """Writes bytes into an image, which grows where it has to."""
    if len(image) < at + len(data):
        image.extend(bytes(at + len(data) - len(image)))
    image[at : at + len(data)] = data


def set_length(image, length):
    """Cuts an image, or lets it grow."""
    del image[length:]
    image.extend(bytes(length - len(image)))


def change(image, record):
    """Makes a change that stands in a log."""
    kind, place, data = record
    if kind == "W":
        write_to(image, place, data)
    elif kind == "T":
        set_length(image, place)


def torn(image, record, choose):
    """Makes what a loss of power leaves of a change: of each sector of a write what was chosen for
    it, new, old or zero."""
    kind, place, data = record
    if kind == "T":
        if choose() != "old":
            set_length(image, place)
        return
    at = 0
    while at < len(data):
        part = data[at : at + SECTOR - (place + at) % SECTOR]
        what = choose()
        if what != "old":
            write_to(image, place + at, part if what == "new" else bytes(len(part)))
        at += len(part)


def after_power_loss(base, records, choose):
    """A file after the loss of power after these records: what was synced, and of all else what was
    chosen."""
    image = bytearray(base)
    pending: list[tuple] = []
    for record in records:
        if record[0] == "S":
            for it in pending:
                change(image, it)
            pending = []
        elif record[0] in "WT":
            pending.append(record)
    for it in pending:
        torn(image, it, choose)
    return bytes(image)


def at_random():
    """What is left of a sector."""
    return random.choice(("new", "old", "zero"))
