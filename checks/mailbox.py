#!/usr/bin/env python3
"""Mailboxes in folders: the program of mailboxes over real files.

usage: mailbox.py [PROGRAM] [--kills N] [--orders N] [--each] [--seed N] [--only STORY]

Runs each command of docs/mailbox.md, in its order, and holds what it prints (page). Stories of checks/mailbox: two programs
over one folder (two); a watch on a terminal (terminal); programs that are killed (SIGKILL) at random moments of a turn, N times
in all (200), while N orders are submitted (400), and then finished, where all nodes watch and the orders are dropped into
`submit` (watched), and command by command, a fifth of them (kills); files that come twice and in another order (twice); a
carrier that loses each third file (losses); a disk that is full, where a small one can be mounted (full); file calls of commands
that are refused, some of them or by --each all (refused); numbers far apart (far); records that something else changed (verify); watches whose clock moves on (clock).
Of two connected hubs: kills (hubs-kills); file calls that are refused (hubs-refused); a carrier between them that loses each third
file (hubs-losses); a ring (hubs-ring). Each story ends with `reconcile` and with what its status says. Kills and orders are drawn
by the seed. What is refused on the command line, and what lists say, is in checks/rows: mailbox.txt, connected.txt, lists.txt.

Prints a line for what is wrong, and last 'N passed, M failed'.
"""
import argparse
import os
import random
import re
import sys
import tempfile

sys.dont_write_bytecode = True
HERE = os.path.dirname(os.path.realpath(__file__))
TOP = os.path.dirname(HERE)
sys.path[:0] = [f"{HERE}/mailbox", f"{HERE}/tools"]
from carriers import try_far, try_hubs_losses, try_hubs_ring, try_losses, try_twice
from changes import try_verify
from clock import try_clock
from kills import try_kills, try_terminal, try_two, try_watched
from places import CLOCK, Mailboxes, Place
from refusals import try_full, try_refused

PAGE = f"{TOP}/docs/mailbox.md"
TWO_HUBS = ("hub1", "hub2")
PART = 5  # of the kills and orders, where programs are killed command by command


def commands_of(text):
    """The commands of a page's blocks that begin with a `$`, and what is to come of each."""
    for block in re.findall(r"^```text\n(\$ [\s\S]*?)^```$", text, re.M):
        for part in re.split(r"^\$ ", block, flags=re.M)[1:]:
            command, _, wanted = part.partition("\n")
            yield command, wanted


def try_page(tally, program, room):
    place = Place(program, room, "page")
    with open(PAGE, encoding="utf-8") as file:
        commands = list(commands_of(file.read()))
    tally.want("page", len(commands) >= 20, f"{len(commands)} commands")
    for command, wanted in commands:
        status, out, err = place.run(command)
        is_so = CLOCK.sub("", out + err) == CLOCK.sub("", wanted)
        tally.want("page", is_so, f"{command}\n  wanted {wanted!r}\n  found  {out + err!r}, status {status}")


def asked_of(words):
    """What the command line asks for."""
    reading = argparse.ArgumentParser()
    reading.add_argument("program", nargs="?", default=f"{TOP}/crates/van/out/van")
    reading.add_argument("--kills", type=int, default=200)
    reading.add_argument("--orders", type=int, default=400)
    reading.add_argument("--seed", type=int, default=1)
    reading.add_argument("--each", action="store_true")
    reading.add_argument("--only")
    return reading.parse_args(words)


def stories(asked):
    """The stories, by their names."""
    draw = random.Random(asked.seed)
    part = (asked.kills // PART, asked.orders // PART, draw)

    def strides(least, most):
        return iter(lambda: 1 if asked.each else draw.randint(least, most), 0)

    return {
        "page": try_page,
        "two": try_two,
        "terminal": try_terminal,
        "kills": lambda *words: try_kills(*words, *part),
        "watched": lambda *words: try_watched(*words, asked.kills, asked.orders, draw),
        "twice": lambda *words: try_twice(*words, draw),
        "losses": try_losses,
        "full": try_full,
        "refused": lambda *words: try_refused(*words, strides(1, 7)),
        "far": try_far,
        "verify": try_verify,
        "clock": try_clock,
        "hubs-kills": lambda *words: try_kills(*words, *part, TWO_HUBS),
        "hubs-refused": lambda *words: try_refused(*words, strides(4, 16), TWO_HUBS),
        "hubs-losses": try_hubs_losses,
        "hubs-ring": try_hubs_ring,
    }


def main():
    asked = asked_of(sys.argv[1:])
    tally, program = Mailboxes("mailbox"), os.path.abspath(asked.program)
    with tempfile.TemporaryDirectory(prefix="mailbox-") as room:
        for name, story in stories(asked).items():
            if asked.only in (None, name):
                story(tally, program, room)
    return tally.end()


if __name__ == "__main__":
    sys.exit(main())
