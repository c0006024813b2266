#!/usr/bin/env python3
"""Measures mailboxes in folders: bench/mailbox.py [PROGRAM] [--most N] [--waiting N] [--rounds N] [--room FOLDER].

First it fills a station's records, by SQLite, with submissions of one order each that were answered, in rows as the program
writes them: 14,000, 140,000 and 1,400,000 (some 10 MB, 100 MB and 1 GB), or up to N. Over each it tells by the clock how long
an open takes, how long `status` of all and `log` of one, and how much memory they take. Then it tells how long a station's turn takes
over N waiting interchanges (10,000), beside the same commits and file calls in C (mailbox/main.c, over libsqlite3 with its
header), and a hub's; the least of N rounds (three), interleaved. PROGRAM is van; an unproved build tells other
figures.
"""
import argparse
import contextlib
import os
import shutil
import sqlite3
import subprocess
import sys
import tempfile
import time

HERE = os.path.dirname(os.path.realpath(__file__))
TOP = os.path.dirname(HERE)
BETA = b"ZZBETA           "


def interchange(sender, receiver, number, group, sets):
    """An interchange of one group, with these sets."""
    isa = f"ISA*00*          *00*          *ZZ*{sender:<15}*ZZ*{receiver:<15}*250102*0930*U*00401*{number:09}*0*P*:~"
    return f"{isa}GS*{group}*{sender}*{receiver}*20250102*0930*{number}*X*004010~{sets}GE*1*{number}~IEA*1*{number:09}~"


def order(number):
    return interchange("ALPHA", "BETA", number, "PO", f"ST*850*0001~BEG*00*SA*PO-{number}**20250102~PO1*1*10*EA*5~SE*4*0001~")


def answer(number):
    return interchange("BETA", "ALPHA", number, "FA", f"ST*997*0001~AK1*PO*{number}~AK2*850*0001~AK5*A~AK9*A*1*1*1~SE*6*0001~")


class Mailboxes:
    """A hub and two stations in a folder, not linked."""

    def __init__(self, program, room, name):
        self.program, self.folder = program, f"{room}/{name}"
        os.makedirs(self.folder)
        self.run("init hub --me ZZHUB --is-hub", "enrol hub ZZALPHA", "enrol hub ZZBETA", "init alpha --me ZZALPHA --hub ZZHUB",
                 "init beta --me ZZBETA --hub ZZHUB", "agree beta ZZALPHA PO850")

    def run(self, *commands):
        for command in commands:
            self.measured(command)

    def measured(self, command, program=None):
        """Seconds of a command by the clock, and of the processor, and megabytes of memory."""
        begun = time.monotonic()
        words = [program or self.program, *command.split()]
        running = subprocess.Popen(words, cwd=self.folder, stdin=subprocess.DEVNULL, stdout=subprocess.DEVNULL)
        _, status, spent = os.wait4(running.pid, 0)
        running.returncode = os.waitstatus_to_exitcode(status)
        if running.returncode:
            raise RuntimeError(f"{command}: status {running.returncode}")
        return time.monotonic() - begun, spent.ru_utime + spent.ru_stime, spent.ru_maxrss / 1000

    def fill(self, count):
        """Has alpha's records hold so many submissions and their answers."""
        with contextlib.closing(sqlite3.connect(f"{self.folder}/alpha/records.db", isolation_level=None)) as base:
            base.execute("PRAGMA synchronous = off")
            base.execute("BEGIN")
            numbers = range(1, count + 1)
            base.executemany("INSERT INTO outbound VALUES (?, ?, ?, ?)", ((n, 2 * n - 1, BETA, order(n).encode()) for n in numbers))
            base.executemany("INSERT INTO outset VALUES (?, ?, 1, 1, ?, ?, ?, 1)", ((n, n, n, b"PO", b"0001") for n in numbers))
            base.executemany("INSERT INTO inbound VALUES (?, ?, ?, NULL, ?)", ((2 * n, BETA, n, answer(n).encode()) for n in numbers))
            base.execute("UPDATE numbers SET icn = ?, gcn = ?, seq = ?", (count, count, 2 * count))
            base.execute("COMMIT")
        return os.path.getsize(f"{self.folder}/alpha/records.db") / 1e6

    def bring(self, folder, count):
        """So many orders wait in a folder, as items of a mailbox."""
        for n in range(1, count + 1):
            with open(f"{self.folder}/{folder}/item-{n:09}.edi", "w", encoding="ascii") as file:
                file.write(order(n))
        os.sync()


def over_history(program, room, most):
    """What commands take over a history."""
    for count in (14_000, 140_000, 1_400_000):
        if count > most:
            break
        place = Mailboxes(program, room, f"history-{count}")
        size = place.fill(count)
        for command in ("run alpha", "status alpha", f"log alpha --number {count}"):
            clock, processor, memory = place.measured(command)
            print(f"{count:,} submissions, {size:,.0f} MB: {command}: {clock:.2f} s ({processor:.2f} of the processor), {memory:.0f} MB", flush=True)
        shutil.rmtree(place.folder)


def turns(program, room, waiting, rounds):
    """What a turn takes over what waits, beside C."""
    subprocess.run(["cc", "-O2", "-o", f"{room}/turn", f"{HERE}/mailbox/main.c", "-lsqlite3"], check=True)
    least = {}
    for at in range(rounds):
        place = Mailboxes(program, room, f"turn-{at}")
        place.bring("beta/in", waiting)
        place.bring("hub/ZZALPHA/in", waiting)
        for part in ("in", "out", "posted"):
            os.makedirs(f"{place.folder}/theirs/{part}")
        place.bring("theirs/in", waiting)
        for name, words in (("station", ("run beta",)), ("C", ("theirs", f"{room}/turn")), ("hub", ("run hub",))):
            found = place.measured(*words)
            least[name] = min(least.get(name, found), found)
            for _ in range(2):
                os.sync()
        shutil.rmtree(place.folder)
    for name, (clock, processor, memory) in least.items():
        print(f"a turn over {waiting:,} interchanges, {name}: {clock:.1f} s ({processor:.1f} of the processor), {memory:.0f} MB", flush=True)
    print(f"a station's turn over that in C: {least['station'][0] / least['C'][0]:.2f}")


def main():
    reading = argparse.ArgumentParser()
    reading.add_argument("program", nargs="?", default=f"{TOP}/crates/van/out/van")
    reading.add_argument("--most", type=int, default=1_400_000)
    reading.add_argument("--waiting", type=int, default=10_000)
    reading.add_argument("--rounds", type=int, default=3)
    reading.add_argument("--room")
    asked = reading.parse_args()
    program = os.path.abspath(asked.program)
    with tempfile.TemporaryDirectory(prefix="mailbox-", dir=asked.room) as room:
        over_history(program, room, asked.most)
        turns(program, room, asked.waiting, asked.rounds)


if __name__ == "__main__":
    sys.exit(main())
