"""Runs tests: compiles their programs side by side, then runs each test in a process and a folder
of its own."""
import itertools
import os
import re
import shutil
import signal
import struct
import threading
from bisect import bisect
from concurrent.futures import ThreadPoolExecutor
from typing import NamedTuple

import processes
import unproved
from found import cases_of
from programs import origin, words_of
from unproved import RUST, TOP

# The memory that one compilation takes at most, in gigabytes.
COMPILING = 2.7
NOT_COMPILED = "was not compiled"
# What the sanitizer tells of a place in a program.
FRAME = re.compile(r"^ *frame 0x([0-9a-f]+) \(BuildId: \w+\)$", re.M)


class Result(NamedTuple):
    """What a test came to: what was said of it, nothing where it passed, and its seconds of
    processors."""

    test: object
    said: str
    seconds: float


def symbols(path):
    """The functions of a program, by their places in it: (place, name), sorted."""
    data = path.read_bytes()
    start, = struct.unpack_from("<Q", data, 40)
    size, count = struct.unpack_from("<HH", data, 58)
    heads = [struct.unpack_from("<IIQQQQIIQQ", data, start + at * size) for at in range(count)]
    found = []
    for head in (it for it in heads if it[1] == 2):
        names = heads[head[6]][4]
        for at in range(head[4], head[4] + head[5], 24):
            name, info, _, _, value, _ = struct.unpack_from("<IBBHQQ", data, at)
            if info & 15 == 2:
                end = data.index(b"\0", names + name)
                found.append((value, data[names + name:end].decode(errors="replace")))
    return sorted(found)


def named(text, program):
    """What the sanitizer told, in which its frames have the names of their functions, and nothing
    but them."""
    frames = [int(it, 16) for it in FRAME.findall(text)]
    if not frames:
        return text
    of_program = symbols(program)
    places = [it for it, _ in of_program]
    names = [of_program[bisect(places, it - 1) - 1][1] for it in frames]
    names = [re.sub(r"<\d+'.*", "", it).removesuffix("::") for it in names]
    told = re.search(r"AddressSanitizer: ([\w-]+)", text)
    kind = told[1] if told else "a fault"
    if kind == "ILL":
        kind = "a check of bounds, overflow or a cast (or an unreachable place)"
    before = text[:text.index("==")].replace("AddressSanitizer:DEADLYSIGNAL", "").strip()
    return "\n".join([before, f"stopped by {kind}, in", *(f"    {it}" for it in names)]).strip()


def ending(status):
    """How a process ended."""
    if status >= 0:
        return f"ended with status {status}"
    return f"ended by signal {-status} ({signal.Signals(-status).name})"


def told(ended, limit, program):
    """What is said of a test that failed."""
    text = origin(named(f"{ended.out}{ended.err}".strip(), program))
    last = f"had no result after {limit} s, and was ended" if ended.is_late \
        else ending(ended.status)
    lines = [it for it in text.split("\n") if it.strip()]
    return "\n".join([*lines[:40], last])


def differences(path, out):
    """The first lines in which what a program printed isn't what it has to print."""
    got, want = out.split("\n"), path.read_text().split("\n")
    pairs = enumerate(itertools.zip_longest(got, want, fillvalue="(no line)"), 1)
    return [f"{path.relative_to(TOP)}:{at}: wanted {right}\n    got {line}"
            for at, (line, right) in pairs if line != right][:5]


def copy_data(crate, room):
    """Lays what a program reads by its name in its folder."""
    data = RUST / crate / "data"
    for path in (it for it in data.rglob("*") if it.is_file()):
        copy = room / path.relative_to(data)
        copy.parent.mkdir(parents=True, exist_ok=True)
        shutil.copyfile(path, copy)


def run_test(test, program, limit):
    """Runs a test in a folder of its own; a program with its words, cases and data."""
    words, given, wanted = [test.name], None, RUST / test.crate / "stdout"
    is_program = unproved.is_program(test.crate)
    with unproved.room() as room:
        if is_program:
            program = program.with_name(test.crate)
            words, given = words_of(test.crate), cases_of(test.crate)
            copy_data(test.crate, room)
        env = {**os.environ, "TMPDIR": str(room)}
        ended = processes.run([program, *words], room, env, given, limit)
    if ended.is_late or ended.status:
        return Result(test, told(ended, limit, program), ended.seconds)
    said = differences(wanted, ended.out) if is_program and wanted.exists() else []
    return Result(test, "\n".join(said), ended.seconds)


class Compilers:
    """Lets as many compile at once as the memory that is free lets, and one always."""

    def __init__(self):
        self.running, self.turn = 0, threading.Condition()

    def __enter__(self):
        with self.turn:
            # What runs grows on: half of its memory isn't taken yet.
            while self.running and processes.free_gigabytes() < COMPILING * (1 + self.running / 2):
                self.turn.wait(2)
            self.running += 1

    def __exit__(self, *_):
        with self.turn:
            self.running -= 1
            self.turn.notify_all()


class Run:
    """Groups of tests under way: what is told of them, and what has failed."""

    def __init__(self, jobs, limit, goes_on):
        self.limit, self.goes_on = limit, goes_on
        self.slots, self.compilers = threading.Semaphore(jobs), Compilers()
        self.tests = ThreadPoolExecutor(jobs)
        self.lock = threading.Lock()
        self.results, self.left, self.seconds = [], [], 0.0

    def has_failed(self):
        """Whether any test has."""
        return any(it.said for it in self.results)

    def _compiled(self, group):
        """The program of a group, or what was said of it; None where it isn't begun any more."""
        with self.compilers, self.slots:
            if self.has_failed() and not self.goes_on:
                return None, ""
            try:
                program, seconds = group.program.made()
            except unproved.Unmade as error:
                return None, origin(str(error))
        with self.lock:
            self.seconds += seconds
            how = f"compiled in {seconds:.0f} s of a processor" if seconds else "compiled before"
            print(f"{' '.join(group.crates)} ({group.program.level}): {how}", flush=True)
        return program, ""

    def _test(self, test, program):
        """Runs a test when there is a processor for it."""
        with self.slots:
            return run_test(test, program, self.limit)

    def group(self, group):
        """Compiles a group's program and runs its tests."""
        program, said = self._compiled(group)
        if program:
            results = list(self.tests.map(lambda it: self._test(it, program), group.tests))
        elif said:
            results = [Result(it, NOT_COMPILED, 0) for it in group.tests]
        else:
            results = []
            self.left.append(group)
        with self.lock:
            self.results += results
            self.seconds += sum(it.seconds for it in results)
            if said:
                lines = ["\n    ".join(said.split("\n"))]
                print(f"{' '.join(group.crates)} ({group.program.level}): not compiled", *lines,
                      sep="\n    ", flush=True)
            elif results:
                tell(group, results)
        return results


def tell(group, results):
    """Prints how many tests of each crate of a group passed, and what was said of others."""
    for crate in group.crates:
        of_crate = [it for it in results if it.test.crate == crate]
        failed = [it for it in of_crate if it.said]
        print(f"{crate}: {len(of_crate) - len(failed)} passed, {len(failed)} failed", flush=True)
        for it in failed:
            lines = [line[:300] for line in it.said.split("\n")]
            print("\n    ".join([f"  FAILED {it.test.name} ({it.test.place})", *lines]), flush=True)


def run(groups, jobs, limit, goes_on, keeps):
    """Runs groups of tests, and keeps which of them passed."""
    state = Run(jobs, limit, goes_on)
    with ThreadPoolExecutor(max(1, len(groups))) as pool:
        for results in pool.map(state.group, groups):
            keeps(results)
    return state
