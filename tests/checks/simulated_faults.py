"""How tests/simulate looks for the faults of tests/wrong/station.faults: first it runs seeds
without a fault, and remembers each life; then, for each fault, it runs them again. A life whose log
is the same needs no judge."""
from __future__ import annotations

import hashlib
import multiprocessing
import pickle
import resource
import time
from typing import NamedTuple

import planted
from simulated_judge import Judge
from simulated_run import Lived, Runner
from simulated_world import World

# So many seconds of a processor a fault is looked for.
SECONDS = 60


class Before(NamedTuple):
    """A life without a fault: the sum of its log and output, what was of it, and the judge before
    it."""

    sum: str
    lived: Lived
    judge: bytes


class Found(NamedTuple):
    """What came of a fault: the seed, the life and what was wrong, where that was found, how many
    seeds were run, in how many of them anything was otherwise, and the seconds of a processor."""

    name: str
    seed: int | None
    life: int
    wrong: list[str]
    seeds: int
    others: int
    seconds: float


def used() -> float:
    """The seconds of a processor that this process and its children have used."""
    all_of = (resource.getrusage(it) for it in (resource.RUSAGE_SELF, resource.RUSAGE_CHILDREN))
    return sum(it.ru_utime + it.ru_stime for it in all_of)


def sum_of(lived: Lived) -> str:
    """A sum of all that a life did."""
    return hashlib.sha256(lived.log + lived.output).hexdigest()


class Search:
    """Seeds that are run without a fault, and then with one."""

    def __init__(self, program: str, top: str, first: int) -> None:
        self.program, self.top, self.first = program, top, first
        self.known: dict[int, list[Before]] = {}
        self.runner: Runner | None = None

    def run(self, seed: int, wrong: int) -> tuple[int, list[str]] | None:
        """Runs a seed with a fault. None: nothing was otherwise than without it; else the life in
        which something was wrong, or the last one."""
        if self.runner is None:
            self.runner = Runner(self.program, self.top)
        runner, world, now = self.runner, World(seed), 0
        runner.wrong = wrong
        judge: Judge | None = None
        runner.begins(world)
        lives, known = world.chance.randint(2, 5), self.known.get(seed, [])
        if not wrong:
            judge, known = Judge(world), []
            self.known[seed] = known
        for at in range(lives):
            life = world.life(now, at == 0, at == lives - 1)
            lived = runner.lives(life, f"{seed} {at}", known[at].lived if wrong else None)
            is_other = not wrong or sum_of(lived) != known[at].sum
            if not wrong:
                known.append(Before(sum_of(lived), lived, pickle.dumps(judge)))
            if judge is None and is_other:
                judge = pickle.loads(known[at].judge)
            if judge is not None:
                judge.world, judge.cameras = world, {it.name: it for it in world.cameras}
                # A judge that was kept asks by the world that is there now.
                found = judge.judges(lived, f"{seed} {at}")
                if found:
                    return at, found
            now = lived.end() + life.downtime
        return None if judge is None else (lives, [])

    def looks(self, fault: planted.Fault, seeds: list[int]) -> Found:
        """Runs seeds with a fault until something is wrong, or its time is over."""
        began, others, count = used(), 0, 0
        for seed in seeds:
            if used() - began > SECONDS:
                break
            count += 1
            if seed not in self.known:
                self.run(seed, 0)
            came = self.run(seed, fault.number)
            others += came is not None
            if came and came[1]:
                return Found(fault.name, seed, came[0], came[1], count, others, used() - began)
        return Found(fault.name, None, 0, [], count, others, used() - began)


SEARCH: Search | None = None


def without_fault(seed: int) -> tuple[int, list[Before], list[str]]:
    """Runs a seed without a fault, in a process of its own."""
    assert SEARCH is not None
    came = SEARCH.run(seed, 0)
    return seed, SEARCH.known[seed], came[1] if came else []


def with_fault(given: tuple[planted.Fault, list[int]]) -> Found:
    """Looks for a fault in a process of its own."""
    assert SEARCH is not None
    return SEARCH.looks(*given)


def tells(found: Found, fault: planted.Fault) -> None:
    """Prints what came of a fault."""
    took = f"{found.seconds:.1f} s of a processor, {found.seeds} seeds"
    if found.seed is None:
        print(f"NOT found {fault.name}: {took}, {found.others} of them otherwise. {fault.says}",
              flush=True)
    else:
        print(f"found     {fault.name}: seed {found.seed}, life {found.life}: {took}:"
              f" {found.wrong[0][:160]}", flush=True)


def finds(names: list[str], first: int, count: int, jobs: int, kept: bool) -> int:
    """Looks for faults, of all or of these, in so many seeds: `kept`: in each one's own seed alone.
    Answers the status."""
    global SEARCH
    faults = [it for it in planted.all_faults() if not names or it.name in names]
    if not kept and not names:
        # Those that are found already have their seed.
        faults = [it for it in faults if it.seed is None]
    if missing := set(names) - {it.name for it in faults}:
        print(f"there is no fault {sorted(missing)}")
        return 2
    if kept:
        faults = [it for it in faults if it.seed is not None]
    program = planted.program().made()[0]
    SEARCH = Search(str(program), "/dev/shm", first)
    seeds = sorted({it.seed for it in faults if it.seed is not None}) if kept else \
        list(range(first, first + count))
    began, well = time.monotonic(), []
    with multiprocessing.Pool(jobs) as pool:
        for seed, known, wrong in pool.imap_unordered(without_fault, seeds):
            SEARCH.known[seed] = known
            if wrong:
                print(f"seed {seed} isn't well without a fault: {wrong[0][:200]}", flush=True)
            else:
                well.append(seed)
    print(f"{len(well)} of {len(seeds)} seeds are well without a fault,"
          f" {time.monotonic() - began:.0f} s", flush=True)
    count = 0
    well.sort()
    with multiprocessing.Pool(jobs) as pool:
        todo = [(it, [it.seed] if kept else well) for it in faults]
        for fault, found in zip(faults, pool.imap(with_fault, todo)):
            tells(found, fault)
            count += found.seed is not None
            if found.seed is not None and not kept:
                text = planted.with_seeds(planted.FAULTS.read_text(), {fault.name: found.seed})
                planted.FAULTS.write_text(text)
    print(f"{count} of {len(faults)} faults are found")
    return 0 if count == len(faults) else 1
