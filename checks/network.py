#!/usr/bin/env python3
"""Networks that run with threads: runs `vanlab network` with all its options, and reads the reports.

What a network prints is no two times the same: each line has its form, each submitted set has its line, by rising key, and
no line says BAD. Records in files are read by another SQLite; a terminal is one that is made here. What is always the same
is in checks/rows/network.txt. The last line is 'N passed, M failed'.
"""
import os
import random
import re
import sqlite3
import subprocess
import sys
import tempfile
from concurrent.futures import ThreadPoolExecutor

sys.dont_write_bytecode = True
HERE = os.path.dirname(os.path.realpath(__file__))
sys.path.insert(0, f"{HERE}/tools")
from crates import processors
from tally import Tally
from terminal import on_terminal

PROGRAM = f"{os.path.dirname(HERE)}/crates/vanlab/out/vanlab"

LINE = re.compile(r"ZZ/(ST[0-9]{2})            ([0-9]{9}) 01 001 ZZ/(ST[0-9]{2})            "
                  r"(?:accepted    1|rejected    0|pending     [01]) ok")
FIRST = {"stations": 2, "hubs": 1, "orders": 20, "lose": 0, "double": 0, "hold": 0, "turns": 100000}
TALLY = Tally("network")


def run(words):
    """What a network prints, what it says on standard error, and its status."""
    it = subprocess.run([PROGRAM, "network", *words], capture_output=True, text=True, timeout=300, check=False)
    return it.stdout, it.stderr, it.returncode


def words_of(options):
    return [word for name, value in options.items() for word in (f"--{name}", str(value))]


def orders_of(stations, orders, turns, **_):
    """How many orders a station submits within its turns, one job a turn: its agreement, half of the orders, a restart,
    and the others."""
    jobs = ["agreement", *["order"] * (orders // 2), "restart", *["order"] * (orders - orders // 2)]
    return jobs[:turns].count("order")


def is_report(out, options):
    """Whether these are the lines of such a network, none of which says BAD, and `settled`. Each station orders of the
    next one, the last of the first; the numbers rise, and those between them are of replies."""
    wanted = {**FIRST, **options}
    *lines, last = out.split("\n")[:-1] or [""]
    keys = [it and it.groups() for it in map(LINE.fullmatch, lines)]
    stations = wanted["stations"]
    pairs = [(f"ST{at:02}", f"ST{at % stations + 1:02}") for at in range(1, stations + 1) for _ in range(orders_of(**wanted))]
    return last == "settled" and all(keys) and keys == sorted(set(keys)) and [(it[0], it[2]) for it in keys] == pairs


def pending_in(out):
    """What is said on standard error of the pending sets of a report."""
    pending = sum(" pending " in line for line in out.split("\n"))
    return f"consistent, {pending} pending\n" if pending else ""


def try_losses():
    """Nothing is left pending in time, and all orders are accepted but those that come before their receiver has agreed, as
    a starved station does late: a network in which one is rejected is run again, three times in all."""
    for options in ({}, {"orders": 1}, {"stations": 5, "orders": 3, "double": 2}, {"orders": 200},
                    {"stations": 16, "orders": 10}, {"lose": 3, "double": 4}, {"stations": 4, "lose": 5, "double": 3, "hold": 7},
                    {"hubs": 2}, {"hubs": 2, "lose": 3, "double": 4}, {"hubs": 2, "stations": 16, "orders": 10},
                    {"hubs": 2, "stations": 5, "lose": 5, "double": 3, "hold": 7}):
        for _ in range(3):
            out, err, status = run(words_of(options))
            is_so = is_report(out, options) and "pending" not in out and (err, status) == ("", 0)
            if not (is_so and "rejected" in out):
                break
        TALLY.want(f"{options}", is_so and "rejected" not in out, f"{status} {err} {out[:300]}")


def some_network(pick):
    """Options of a network, each of which may be left out."""
    few = lambda most: pick.choice([0, 0, pick.randrange(1, 5), pick.randrange(1, most)])
    options = {
        "stations": pick.choice([2, 2, 3, 4, 5, 16]),
        "hubs": pick.choice([1, 2]),
        "orders": pick.randrange(1, 5),
        "lose": few(20),
        "double": few(20),
        "hold": few(20),
        "turns": pick.choice([1, pick.randrange(1, 50), 300, 1000]),
    }
    return {name: value for name, value in options.items() if name in ("orders", "turns") or pick.randrange(4)}


def try_random():
    """200 networks at random."""
    pick = random.Random(20250102)
    networks = [some_network(pick) for _ in range(200)]
    with ThreadPoolExecutor(processors()) as pool:
        for options, told in zip(networks, pool.map(lambda it: run(words_of(it)), networks)):
            out, err, status = told
            TALLY.want(" ".join(words_of(options)), is_report(out, options) and (err, status) == (pending_in(out), 0), f"{status} {err} {out[:300]}")


def rows_in(folder):
    """How many postings and open sets each station's file has, as another SQLite reads it."""
    found = {}
    for name in sorted(os.listdir(folder)):
        if re.fullmatch(r"ST[0-9]{2}\.db", name):
            conn = sqlite3.connect(f"{folder}/{name}")
            found[name] = tuple(conn.execute(it).fetchone()[0] for it in (
                "SELECT count(*) FROM posting", "SELECT count(*) FROM outset WHERE fate = 0"))
            conn.close()
    return found


def bytes_in(folder):
    """The files of a folder."""
    found = {}
    for name in os.listdir(folder):
        with open(f"{folder}/{name}", "rb") as file:
            found[name] = file.read()
    return found


def try_records(name, folder, stations, hubs):
    """Records in files of a new folder, one a node: the same report, and the postings stand in the files."""
    options = {"hubs": len(hubs), "stations": stations, "orders": 4, "lose": 5, "double": 4}
    out, err, status = run([*words_of(options), "--sqlite", folder])
    is_so = is_report(out, options) and "pending" not in out and "rejected" not in out
    TALLY.want(name, is_so and (err, status) == ("", 0), f"{status} {err} {out[:300]}")
    its, files = [f"ST{it + 1:02}.db" for it in range(stations)], set(os.listdir(folder))
    TALLY.want(f"{name}, one a node", {*hubs, *its} <= files, files)
    TALLY.want(f"{name}, postings", rows_in(folder) == {it: (4, 0) for it in its}, rows_in(folder))


def try_files():
    """Records in files. A folder that holds something is refused, and left as it is; so is what is no folder."""
    with tempfile.TemporaryDirectory() as room:
        folder = f"{room}/new/records"
        try_records("records in files", folder, 3, ["HUB.db"])
        before = bytes_in(folder)
        for wrong, why in ((folder, "isn't empty"), (f"{folder}/HUB.db", "can't be used as a folder"), ("", "can't be used")):
            out, err, status = run(["--sqlite", wrong])
            is_said = err.startswith(f"error: {wrong}: ") and why in err and err.count("\n") == 1
            TALLY.want(f"--sqlite {wrong}", is_said and (out, status) == ("", 1), f"{status} {err}")
        TALLY.want("a folder that was refused", bytes_in(folder) == before)
        try_records("records of two hubs in files", f"{room}/two", 4, ["HUB.db", "HUB2.db"])


def on_screen(options, *more):
    """The status of a network, what it prints, and what it says on a terminal that is its standard error."""
    status, out, said = on_terminal([PROGRAM, "network", *words_of(options), *more], "stderr", stdout=subprocess.PIPE)
    return status, out.decode(), said.decode()


def try_terminal():
    """On a terminal one line says how the network stands; it is written anew, and gone at the end."""
    options = {"stations": 4, "orders": 30, "lose": 7}
    status, out, said = on_screen(options)
    shown = re.fullmatch(r"((?:\r\d+ events, \d+ open, turn \d+ )+)\r\x1b\[K", said)
    events = [int(it) for it in re.findall(r"(\d+) events", said)]
    TALLY.want("a line on a terminal", is_report(out, options) and status == 0 and shown and len(events) > 2 and max(events) > 100,
               f"{status} {said[:300]!r}")
    status, out, said = on_screen(options, "--quiet")
    TALLY.want("--quiet", is_report(out, options) and (said, status) == ("", 0), f"{status} {said!r}")


if __name__ == "__main__":
    try_losses()
    try_random()
    try_files()
    try_terminal()
    sys.exit(TALLY.end())
