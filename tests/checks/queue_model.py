#!/usr/bin/env python3
"""The rules of a buffer queue and its ioctls a second time, in plain Python, and a comparison with
the program test_lane_cases.

    queue_model.py PROGRAM short [KINDS]         every list of at most five events of SHORT, of the
                                                 kinds of memory KINDS (m, u, d)
    queue_model.py PROGRAM all [KINDS]           every list of at most three events of ALL
    queue_model.py PROGRAM random COUNT SEED     so many random lists of up to a thousand events of
                                                 ALL

It prints how many lists were compared. At the first for which the program prints something else, it
prints the list with both lines, and exits with 1.

A list is one line: the kind of memory of the queue (m, u or d: MMAP, USERPTR, DMABUF), then two
characters an event, a letter and a digit (a buffer's index, or a count). The queue has two buffers
of GREY 1x1, and min_queued 1. The fds 0 and 1 name a plane each; 2 names nothing.

    q p    QBUF and PREPARE_BUF without planes
    Q P    the same with planes: fd 0 for DMABUF, else a USERPTR plane by value
    R S    QBUF with the fd 1, with the fd 2
    T K    QBUF, USERPTR by value: a plane that is too short; a plane of another kind
    d + -  DQBUF, STREAMON, STREAMOFF
    m u ?  mmap, munmap, QUERYBUF
    r s    REQBUFS of so many without a supply, with as many sets of MMAP planes
    t      an ioctl for another buffer type
    c f x  the device completes a buffer, gives it up, can't go on

The program prints a line for each list. A reply is `ok`, or `n` with the buffers granted and the
sets that lay in old ones, or `I` with flags and used bytes, or `F` with index, flags, used bytes,
sequence and whether planes come out, or `E` with reason, errno, whether planes come back and how
many sets of the supply do. After `|` come flags, state and used bytes of the buffers 0 to 2, which
of the fds 0 and 1 aren't attached, whether the device has started and the buffer that has been
active longest.
"""
import copy
import itertools
import os
import random
import subprocess
import sys

sys.path.insert(1, os.path.join(os.path.dirname(os.path.abspath(__file__)), "../../tools"))
import about

about.answers(__doc__)

MOST_BUFFERS, MIN_QUEUED = 32, 1
ERRNO = dict.fromkeys(range(1, 19), 22) | {5: 5, 9: 11, 10: 16, 11: 16, 15: 16, 17: 12}
FLAGS = {"Dequeued": 0, "Prepared": 0x400, "Queued": 0x2, "Active": 0x2, "Done": 0x4, "Error": 0x44}
OWNER = {
    "Dequeued": "application",
    "Active": "device",
    "Prepared": "queue",
    "Queued": "queue",
    "Done": "queue",
    "Error": "queue",
}
MAPPED, ERROR, MONOTONIC = 0x1, 0x40, 0x2000
ENDED = ("Done", "Error")
# What can change a queue of two buffers, for each kind of memory: the lists of at most five events
# are made of these.
SHORT = {
    "m": "q0 q1 p0 p1 d0 +0 -0 c0 c1 f0 f1 x0 m0 m1 u0 u1 r0 s1 s2".split(),
    "u": "q0 q1 p0 p1 Q0 Q1 P0 P1 d0 +0 -0 c0 c1 f0 f1 x0 r0 r1 r2".split(),
    "d": "q0 q1 p0 p1 Q0 Q1 R0 R1 P0 P1 d0 +0 -0 c0 c1 f0 f1 x0 r0 r1 r2".split(),
}
ALL = (
    "q0 q1 q2 p0 p1 p2 Q0 Q1 Q2 P0 P1 R0 R1 S0 T0 T1 K0 d0 +0 -0 m0 m1 m2 u0 u1 u2 ?0 ?1 ?2 r0 r1"
    " r2 s0 s1 s2 t0 c0 c1 c2 f0 f1 f2 x0"
).split()
# What keeps a long list going, more often than the rest.
OFTEN = "q0 q1 Q0 Q1 R0 R1 d0 d0 d0 +0 +0 c0 c1 c0 c1 r2 s2".split() * 3


class Refused(Exception):
    """The number of a reason."""


def first_of(*checks):
    """Refuses for the first check that fails, each a reason and a function."""
    for reason, fails in checks:
        if fails():
            raise Refused(reason)


class Buffer:
    """A buffer that the application has; `planes` is None, or says what lies in it (the fd, for
    DMABUF)."""

    def __init__(self, planes):
        self.state, self.mapped, self.planes, self.used, self.sequence = (
            "Dequeued",
            False,
            planes,
            0,
            0,
        )
        self.queued_as = self.ended_as = 0

    def shown(self):
        return MONOTONIC | FLAGS[self.state] | (MAPPED if self.mapped else 0)


class Model:
    """A queue, and which of the fds are attached."""

    def __init__(self, kind):
        self.kind = kind
        self.buffers = [Buffer("mmap" if kind == "m" else None) for _ in range(2)]
        self.attached = {0: False, 1: False}
        self.streaming = self.started = self.fatal = False
        self.clock = 0
        self.number, self.said = 0, ""

    def copy(self):
        other = copy.copy(self)
        other.buffers, other.attached = [copy.copy(buffer) for buffer in self.buffers], dict(
            self.attached
        )
        return other

    def tick(self):
        self.clock += 1
        return self.clock

    def stop(self):
        """STREAMOFF: every buffer is the application's, and the start and a fatal error end. Planes
        stay."""
        self.streaming = self.started = self.fatal = False
        for buffer in self.buffers:
            buffer.state = "Dequeued"

    def start_if_due(self):
        """Where streaming is on and enough is queued the device starts; after that each queued
        buffer is active."""
        if self.streaming and not self.started:
            self.started = sum(buffer.state == "Queued" for buffer in self.buffers) >= MIN_QUEUED
        if self.started:
            for buffer in self.buffers:
                if buffer.state == "Queued":
                    buffer.state = "Active"

    def put(self, index, prepare, named, given):
        """QBUF or PREPARE_BUF. `named` is the kind that the call names; `given` None, or (kind, is
        too short, fd)."""
        bad_index = (2, lambda: index >= len(self.buffers))
        other_call = (3, lambda: named != self.kind)
        if given is not None and named == "d":
            first_of(
                bad_index,
                other_call,
                (14, lambda: given[2] not in self.attached),
                (15, lambda: self.attached[given[2]]),
            )
        buffer = self.buffers[index] if index < len(self.buffers) else None
        first_of(
            bad_index,
            other_call,
            (3, lambda: given is not None and given[0] != self.kind),
            (4, lambda: (given is None) == (buffer.planes is None)),
            (5, lambda: self.fatal and not prepare),
            (
                6,
                lambda: buffer.state
                not in (("Dequeued",) if prepare else ("Dequeued", "Prepared")),
            ),
            (7, lambda: given is not None and given[1]),
        )
        if given is not None:
            buffer.planes = given[2] if named == "d" else "user"
            if named == "d":
                self.attached[given[2]] = True
        buffer.used = 0
        if prepare:
            buffer.state = "Prepared"
        else:
            buffer.state, buffer.queued_as = "Queued", self.tick()
            self.start_if_due()
        return "ok"

    def let_out(self, buffer):
        """Planes of USERPTR and DMABUF leave; an fd is given back. Whether the caller gets
        planes."""
        if self.kind == "m" or buffer.planes is None:
            return 0
        planes, buffer.planes = buffer.planes, None
        if self.kind == "d":
            self.attached[planes] = False
            return 0
        return 1

    def dequeue(self):
        ended = [buffer for buffer in self.buffers if buffer.state in ENDED]
        first_of((8, lambda: not self.streaming), (5, lambda: self.fatal), (9, lambda: not ended))
        buffer = min(ended, key=lambda one: one.ended_as)
        flags = (
            MONOTONIC | (MAPPED if buffer.mapped else 0) | (ERROR if buffer.state == "Error" else 0)
        )
        buffer.state = "Dequeued"
        index, out = self.buffers.index(buffer), self.let_out(buffer)
        return f"F{index}:{flags}:{buffer.used}:{buffer.sequence}:{out}"

    def request(self, count, sets):
        grants = min(max(count, MIN_QUEUED), MOST_BUFFERS) if count else 0
        first_of(
            (10, lambda: count > 0 and self.streaming),
            (11, lambda: any(buffer.mapped for buffer in self.buffers)),
            (13, lambda: sets != (grants if self.kind == "m" else 0)),
        )
        if count == 0:
            self.stop()
        left = sum(self.let_out(buffer) for buffer in self.buffers)
        self.buffers = [Buffer("mmap" if self.kind == "m" else None) for _ in range(grants)]
        return f"n{grants}:{left}"

    def end(self, index, state, used):
        """The device has filled an active buffer, or gives it up."""
        first_of(
            (2, lambda: index >= len(self.buffers)),
            (18, lambda: self.buffers[index].state != "Active"),
        )
        buffer = self.buffers[index]
        buffer.state, buffer.used, buffer.sequence, buffer.ended_as = (
            state,
            used,
            self.number,
            self.tick(),
        )
        return "ok"

    def stream_on(self):
        first_of((12, lambda: not self.buffers))
        self.streaming = True
        self.start_if_due()
        return "ok"

    def map(self, index):
        first_of(
            (2, lambda: index >= len(self.buffers)),
            (3, lambda: self.kind != "m"),
            (11, lambda: self.buffers[index].mapped),
        )
        self.buffers[index].mapped = True
        return "ok"

    def unmap(self, index):
        first_of(
            (2, lambda: index >= len(self.buffers)), (16, lambda: not self.buffers[index].mapped)
        )
        self.buffers[index].mapped = False
        return "ok"

    def query(self, index):
        first_of((2, lambda: index >= len(self.buffers)))
        return f"I{self.buffers[index].shown()}:{self.buffers[index].used}"

    def event(self, letter, digit):
        """The reply to an event, or Refused."""
        if letter in "qp":
            return self.put(digit, letter == "p", self.kind, None)
        if letter in "QPRSTK":
            return self.put(digit, letter == "P", *self.given(letter))
        if letter in "rs":
            return self.request(digit, digit if letter == "s" else 0)
        if letter in "cf":
            return self.end(digit, "Done" if letter == "c" else "Error", int(letter == "c"))
        if letter in "mu?":
            return {"m": self.map, "u": self.unmap, "?": self.query}[letter](digit)
        if letter == "d":
            return self.dequeue()
        if letter == "+":
            return self.stream_on()
        if letter == "t":
            raise Refused(1)
        if letter == "-":
            self.stop()
        elif letter == "x":
            self.fatal = True
        else:
            raise ValueError(letter)
        return "ok"

    def given(self, letter):
        """The kind that a QBUF or PREPARE_BUF with planes names, and its plane."""
        if letter in "TK":
            return "u", ("d" if letter == "K" else "u", letter == "T", None)
        if self.kind == "d":
            return "d", ("d", False, {"Q": 0, "P": 0, "R": 1, "S": 2}[letter])
        return "u", ("u", False, None)

    def check(self):
        """Each buffer has one owner, and the counts are whole."""
        count = {
            owner: sum(OWNER[buffer.state] == owner for buffer in self.buffers)
            for owner in ("application", "queue", "device")
        }
        assert sum(count.values()) == len(self.buffers) <= MOST_BUFFERS
        assert count["device"] == 0 or self.started
        assert self.streaming or not self.started
        assert not (self.started and any(buffer.state == "Queued" for buffer in self.buffers))
        assert all(
            buffer.state == "Dequeued" or buffer.planes is not None for buffer in self.buffers
        )
        held = [
            buffer.planes
            for buffer in self.buffers
            if self.kind == "d" and buffer.planes is not None
        ]
        assert sorted(held) == [fd for fd, away in self.attached.items() if away]
        ended = [buffer.ended_as for buffer in self.buffers if buffer.state in ENDED]
        waiting = [
            buffer.queued_as for buffer in self.buffers if buffer.state in ("Queued", "Active")
        ]
        assert len(set(ended)) == len(ended) and len(set(waiting)) == len(waiting)

    def reply(self, letter, digit):
        """The text of the reply; planes and supply of a refused call come back."""
        try:
            return self.event(letter, digit)
        except Refused as refused:
            reason = refused.args[0]
            back = int(letter in "TK" or (letter in "QPRS" and self.kind != "d"))
            return f"E{reason}:{ERRNO[reason]}:{back}:{digit if letter == 's' else 0}"

    def state(self):
        """What is there: buffers, fds, the start, the buffer that has been active longest."""
        shown = [f"{b.shown()}:{b.state}:{b.used}" for b in self.buffers[:3]]
        shown += ["E2:22:0:0"] * (3 - len(shown)) + [
            str(int(not away)) for away in self.attached.values()
        ]
        active = [buffer for buffer in self.buffers if buffer.state == "Active"]
        longest = (
            self.buffers.index(min(active, key=lambda one: one.queued_as)) if active else "none"
        )
        return f"{' '.join(shown)} {int(self.started)} {longest}"

    def run(self, events):
        """Runs events, and notes their replies."""
        for at in range(0, len(events), 2):
            self.said += " " + self.reply(events[at], int(events[at + 1]))
            self.number += 1
            self.check()
        return self

    def told(self):
        """The line that the rules say of the events so far."""
        return f"{self.said} | {self.state()}"


def every(events, most, kinds):
    """Every list of at most so many events, with its line. What lists share but for the last event
    is run once."""
    for kind in kinds:
        yield kind, Model(kind).told()
        for length in range(most):
            for first in map("".join, itertools.product(events(kind), repeat=length)):
                begun = Model(kind).run(first)
                for last in events(kind):
                    yield kind + first + last, begun.copy().run(last).told()


def some(count, seed):
    """Random lists with their lines; each draws from a part of the letters, so that some lists stay
    clear of what ends a stream."""
    chance = random.Random(seed)
    for _ in range(count):
        events = OFTEN + chance.sample(ALL, chance.randrange(1, len(ALL) + 1))
        kind, line = chance.choice("mud"), "".join(chance.choices(events, k=chance.randrange(1001)))
        yield kind + line, Model(kind).run(line).told()


def compare(program, lists, batch=20000):
    """Runs the program on the lists, so many at a time. How many were compared, and how many events
    they had."""
    count = events = 0
    while told := list(itertools.islice(lists, batch)):
        text = "".join(line + "\n" for line, _ in told)
        answers = subprocess.run(
            [program, "lists"], input=text, capture_output=True, text=True, check=True
        ).stdout.splitlines()
        for (line, rules), answer in itertools.zip_longest(told, answers, fillvalue=("", "")):
            if answer != rules:
                print(f"list    {line}\nprogram {answer}\nrules   {rules}")
                sys.exit(1)
        count, events = count + len(told), events + sum(len(line) // 2 for line, _ in told)
    return count, events


def main():
    program, what, *rest = sys.argv[1:]
    if what == "random":
        lists = some(int(rest[0]), int(rest[1]))
    else:
        kinds = rest[0] if rest else "mud"
        lists = every(SHORT.get, 5, kinds) if what == "short" else every(lambda kind: ALL, 3, kinds)
    count, events = compare(program, lists)
    print(f"{count} lists of {events} events compared ({' '.join(sys.argv[2:])}): all alike")


main()
