#!/usr/bin/env python3
"""Runs scripts of one kind of event through the program, and another beside it: measure.py VANLAB [PROGRAM WORDS..].
Prints the best of five runs of each, interleaved, and how the time grows from a quarter of the events. What both print
is compared."""
import os
import sys
import tempfile
import time

RUNS = 5
EVENTS = 16_000


def order(number, lines=1):
    """An outsider's order of so many lines, under a number."""
    items = "".join(f"PO1*{line}*10*EA*5~" for line in range(1, lines + 1))
    return (f"ISA*00*          *00*          *ZZ*ALPHA          *ZZ*BETA           *250102*0930*U*00401*{number:09}*1*P*:~"
            f"GS*PO*ALPHA*BETA*20250102*0930*{number}*X*004010~ST*850*0001~BEG*00*SA*PO-1**20250102~{items}"
            f"SE*{lines + 3}*0001~GE*1*{number}~IEA*1*{number:09}~")


RECEIVER = ["station BETA", "agree BETA ALPHA PO850"]
HUB = ["station BETA", "enrol BETA BETA"]

# Scripts of n events that cost alike, or of fewer that cost more.
SCRIPTS = {
    "arrivals": lambda n: RECEIVER + [f"outside BETA {order(i + 1)}" for i in range(n)],
    "repeated arrivals": lambda n: RECEIVER + [f"outside BETA {order(i % 500 + 1)}" for i in range(n)],
    "large arrivals": lambda n: RECEIVER + [f"outside BETA {order(i + 1, 5000)}" for i in range(n // 100)],
    "deposits": lambda n: HUB + [f"outside HUB {order(i + 1)}" for i in range(n)],
    "repeated deposits": lambda n: HUB + [f"outside HUB {order(i % 500 + 1)}" for i in range(n)],
    "submissions": lambda n: ["station ALPHA"] + [f"orders ALPHA BETA PO-{i + 1}" for i in range(n)],
    "ticks": lambda n: ["station ALPHA"] + [f"orders ALPHA BETA PO-{i + 1}" for i in range(100)]
    + [f"tick ALPHA {64 * (i + 1)}" for i in range(n // 100)],
}


def write(path, script, events):
    """In a child, so that this process stays small: less memory than it takes itself doesn't show."""
    child = os.fork()
    if child == 0:
        with open(path, "w") as file:
            file.write("\n".join(script(events)) + "\n")
        os._exit(0)
    os.waitpid(child, 0)


def once(words, path, out):
    """Seconds by the clock and of processor time, and MB of memory, of one run."""
    source, sink = os.open(path, os.O_RDONLY), os.open(out, os.O_WRONLY | os.O_CREAT | os.O_TRUNC)
    moves = [(os.POSIX_SPAWN_DUP2, source, 0), (os.POSIX_SPAWN_DUP2, sink, 1)]
    start = time.perf_counter()
    child = os.posix_spawn(words[0], words, os.environ, file_actions=moves)
    _, status, usage = os.wait4(child, 0)
    wall = time.perf_counter() - start
    os.close(source)
    os.close(sink)
    if os.waitstatus_to_exitcode(status) != 0:
        sys.exit(f"{words[0]} failed")
    return wall, usage.ru_utime + usage.ru_stime, usage.ru_maxrss / 1024


def best(programs, path, folder):
    """The least times and the greatest memory of each program, and whether they print the same."""
    runs = [[] for _ in programs]
    for _ in range(RUNS):
        for at, words in enumerate(programs):
            runs[at].append(once(words, path, f"{folder}/out{at}"))
    printed = {open(f"{folder}/out{at}", "rb").read() for at in range(len(programs))}
    return [(min(r[0] for r in found), min(r[1] for r in found), max(r[2] for r in found)) for found in runs], len(printed) == 1


def main():
    programs = [[os.path.abspath(sys.argv[1]), "script"]]
    if sys.argv[2:]:
        programs.append([os.path.abspath(sys.argv[2])] + sys.argv[3:])
    with tempfile.TemporaryDirectory() as folder:
        path = f"{folder}/script"
        for name, script in SCRIPTS.items():
            found = {}
            for events in (EVENTS // 4, EVENTS):
                write(path, script, events)
                found[events], same = best(programs, path, folder)
            (wall, processor, memory), *beside = found[EVENTS]
            text = f"{name:<20}{wall * 1e3:>9.1f} ms{processor * 1e3:>9.1f} ms of processor{memory:>8.1f} MB"
            text += f"   four times the events: {wall / found[EVENTS // 4][0][0]:.1f} times the time"
            for other in beside:
                text += f"   {wall / other[0]:.2f} times the other, {'same' if same else 'ANOTHER'} output"
            print(text, flush=True)


main()
