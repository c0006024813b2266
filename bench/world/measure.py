#!/usr/bin/env python3
"""Runs the network's program with 50 and 200 orders a station, and another beside it: measure.py WORLD_BENCH [PROGRAM WORDS..].
Prints the best of five runs of each, interleaved."""
import os
import sys
import time

RUNS = 5


def once(words):
    """Seconds by the clock and of processor time, and MB of memory, of one run."""
    sink = os.open(os.devnull, os.O_WRONLY)
    moves = [(os.POSIX_SPAWN_DUP2, sink, 1), (os.POSIX_SPAWN_DUP2, sink, 2)]
    start = time.perf_counter()
    child = os.posix_spawn(words[0], words, os.environ, file_actions=moves)
    _, status, usage = os.wait4(child, 0)
    wall = time.perf_counter() - start
    os.close(sink)
    if os.waitstatus_to_exitcode(status) != 0:
        sys.exit(f"{words[0]} failed")
    return wall, usage.ru_utime + usage.ru_stime, usage.ru_maxrss / 1024


def main():
    world = os.path.abspath(sys.argv[1])
    programs = {"50 orders": [world, "50"], "200 orders": [world, "200"]}
    if sys.argv[2:]:
        programs["beside"] = [os.path.abspath(sys.argv[2])] + sys.argv[3:]
    runs = {name: [] for name in programs}
    for _ in range(RUNS):
        for name, words in programs.items():
            runs[name].append(once(words))
    for name, found in runs.items():
        wall, processor, memory = min(r[0] for r in found), min(r[1] for r in found), max(r[2] for r in found)
        print(f"{name:<12}{wall * 1e3:>9.1f} ms{processor * 1e3:>9.1f} ms of processor{memory:>8.1f} MB")


main()
