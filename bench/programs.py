"""Times programs as processes: they read a file and print into nothing. Used by generate.py and growth.py."""

import os
import time
from dataclasses import dataclass
from statistics import median


@dataclass
class Times:
    """Seconds of several runs: by the clock, and of the processor alone (what else the machine does counts less there)."""
    clock: list
    processor: list

    def text(self):
        """best, median and worst by the clock, in milliseconds"""
        return f"{1000 * min(self.clock):8.2f} {1000 * median(self.clock):8.2f} {1000 * max(self.clock):8.2f}"

    def less(self, start):
        """Milliseconds of the processor, the best run less the best of a run with nothing to do."""
        return 1000 * (min(self.processor) - min(start.processor))


def run_once(program, file):
    """Seconds by the clock and of the processor."""
    with open(file, "rb") as source, open(os.devnull, "wb") as sink:
        redirect = [(os.POSIX_SPAWN_DUP2, source.fileno(), 0), (os.POSIX_SPAWN_DUP2, sink.fileno(), 1)]
        start = time.perf_counter()
        process = os.posix_spawn(program, [program], os.environ, file_actions=redirect)
        _, status, usage = os.wait4(process, 0)
        taken = time.perf_counter() - start
    if status != 0:
        raise SystemExit(f"{program} ended with {status}")
    return taken, usage.ru_utime + usage.ru_stime


def one_turn(runs, backwards):
    """What run_once gives for each run."""
    order = [*range(len(runs))][::-1 if backwards else 1]
    taken = {at: run_once(runs[at][0], str(runs[at][1])) for at in order}
    return [taken[at] for at in range(len(runs))]


def take_turns(runs, repeats):
    """Times for each run, a program and its file. All of them run once in each turn, so that a slow minute of the machine meets
    all of them and none has all its runs in it. Every other turn goes backwards: what starts right after a long run is slower."""
    taken = [one_turn(runs, backwards=turn % 2 == 1) for turn in range(repeats)]
    return [Times([turn[at][0] for turn in taken], [turn[at][1] for turn in taken]) for at in range(len(runs))]


def load():
    return " ".join(open("/proc/loadavg").read().split()[:3])
