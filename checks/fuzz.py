#!/usr/bin/env python3
"""Random transmissions and scripts through van and vanlab; what they write must meet laws that are computed.

usage: fuzz.py [--minutes N] [--seed S] [--only K]

A round is a number: round K of a seed is the same input each time. Without --minutes there are 400 rounds. What fails
is told with its round, and its input is left in a folder that is named; `--seed S --only K` runs that round alone.

Of a transmission: `answer` and `check` agree, interchange by interchange, group by group, set by set; where its sender
may submit it, its reply, read back by `explain --of`, closes exactly its sets, each as `check` says; where its headers
can be read, `show --plain` and `show --join` give its bytes back; `check --lint` finds what `check` does, besides its remarks. Of a script: its report has no BAD; each delivery made again at its end leaves
the report as it is; `report` is what `script` prints for a line `report`. Of all: the status is 0 or 1, within 20
seconds and 1 GB. The laws are in tools/fuzz_laws.py, the inputs in tools/fuzz_inputs.py.

The last line is 'N passed, M failed', a round each.
"""
import argparse
import os
import random
import sys
import tempfile
import time
from concurrent.futures import ThreadPoolExecutor

sys.dont_write_bytecode = True
sys.path.insert(0, f"{os.path.dirname(os.path.realpath(__file__))}/tools")
from crates import processors
from fuzz_inputs import script, transmission
from fuzz_laws import Broken, try_script, try_transmission

ROUNDS, BATCH = 400, 16


def tried(seed, number, room):
    """Runs a round; the law that it broke, or None."""
    rng = random.Random(f"{seed} {number}")
    folder = f"{room}/{number}"
    os.mkdir(folder)
    kind, make, law = ("script", script, try_script) if number % 4 == 0 else ("edi", transmission, try_transmission)
    path = f"{folder}/input.{kind}"
    with open(path, "wb") as file:
        file.write(make(rng))
    try:
        law(path, folder)
    except Broken as why:
        return f"round {number} of seed {seed}: {why}: {path}"
    for name in os.listdir(folder):
        os.remove(f"{folder}/{name}")
    os.rmdir(folder)
    return None


def main():
    reader = argparse.ArgumentParser(usage="fuzz.py [--minutes N] [--seed S] [--only K]")
    reader.add_argument("--minutes", type=float)
    reader.add_argument("--seed", type=int, default=1)
    reader.add_argument("--only", type=int)
    words = reader.parse_args()
    until = time.monotonic() + 60 * (words.minutes or 0)
    room = tempfile.mkdtemp(prefix="fuzz-")
    passed, broken, number = 0, [], 0
    with ThreadPoolExecutor(processors()) as lanes:
        while number < ROUNDS if words.minutes is None else time.monotonic() < until:
            some = range(number, number + BATCH) if words.only is None else [words.only]
            told = list(lanes.map(lambda it: tried(words.seed, it, room), some))
            broken += [it for it in told if it]
            passed += told.count(None)
            number = number + len(some) if words.only is None else ROUNDS
    for line in broken:
        print(line)
    if not broken:
        os.rmdir(room)
    print(f"{passed} passed, {len(broken)} failed")
    return 1 if broken or not passed else 0


sys.exit(main())
