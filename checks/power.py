#!/usr/bin/env python3
"""Losses of power: what a disk may hold behind each call of a command, and whether the next runs go on from it.

usage: power.py [PROGRAM] [--all] [--states N] [--seed N] [--only TEXT]

Two stations and a hub exchange an order: it is submitted, passed on, taken, handed over and answered. `strace` records each
call of these commands that writes, syncs, names, renames or removes. Behind each call the power goes: what wasn't synced is on
the disk or isn't, in any combination. That is the bytes of a file until the file is synced, and a name, a rename (as one step)
and a removal until a folder of it is synced. All combinations are built where there are at most 16, and else 16 are drawn.

From each disk that comes of it an order system first takes away what was handed over, and then the next runs go on: the order
has to be accepted, its set handed over once and as it was sent, and what `verify` and `reconcile` say has to be right. Of all
disks 40 are drawn by the seed, evenly from each kind of call of each command; --states says how many, --all takes all, and
--only those whose place has this text, as 'run beta'. Where no call can be recorded it says so.

Prints a line for what is wrong, how many disks there were, and last 'N passed, M failed'.
"""
import argparse
import hashlib
import os
import random
import re
import shutil
import subprocess
import sys
import tempfile

sys.dont_write_bytecode = True
HERE = os.path.dirname(os.path.realpath(__file__))
TOP = os.path.dirname(HERE)
sys.path[:0] = [f"{HERE}/mailbox", f"{HERE}/tools"]
from places import Place, order, take_posted
from tally import Tally

# The commands of the exchange, in their order.
COMMANDS = [
    "init hub --me ZZHUB --is-hub", "enrol hub ZZALPHA", "enrol hub ZZBETA",
    "init alpha --me ZZALPHA --hub ZZHUB --at hub", "init beta --me ZZBETA --hub ZZHUB --at hub",
    "agree beta ZZALPHA PO850", "submit alpha order.edi", "run hub", "run beta", "run hub", "run alpha",
]
# The commands with which people go on: each of the first ones again, as the pages say, and then turns.
AGAIN = "\n".join(f"./van {it} >/dev/null 2>&1" for it in COMMANDS[:7])
TURNS = "for n in 1 2 3; do for who in alpha hub beta hub alpha; do ./van run $who --resend >/dev/null || :; done; done 2>turns"
CALLS = "openat,open,creat,write,pwrite64,writev,pwritev,ftruncate,fsync,fdatasync,rename,renameat,renameat2,unlink,unlinkat," \
    "mkdir,mkdirat,link,linkat,symlink,symlinkat,dup,dup2,fcntl,close"
SET = "ST*850*0001~BEG*00*SA*PO-1**20250102~PO1*1*10*EA*5~SE*4*0001~"
MOST = 16  # combinations behind one call

# --- What was called ----------------------------------------------------------------------------------------------------


def text_in(words):
    """The bytes of the first text of strace, which writes each as \\x41."""
    found = re.search(r'"((?:\\x[0-9a-f]{2})*)"', words)
    return bytes.fromhex(found[1].replace("\\x", "")) if found else b""


def calls_of(log):
    """The calls of a log of strace that were done: name, arguments, result."""
    for line in log.splitlines():
        found = re.match(r"(?:\d+ +)?(\w+)\((.*)\) += (-?\d+)(?:<.*>)?(?: \(.*\))?$", line)
        if found and int(found[3]) >= 0:
            yield found[1], found[2], int(found[3])


# --- What the disk may hold ---------------------------------------------------------------------------------------------


class Disk:
    """The files below a folder: what is on the disk, and what was called since and may be there.

    A name is a path below the folder. A file has a number, under which its bytes are kept; a folder's bytes are None, and those
    of a link a text."""

    def __init__(self, folder):
        self.folder = os.path.realpath(folder)
        self.names, self.bytes = {}, {}  # what is on the disk
        self.pending = []  # what may be: (where a sync has to be, what it does)
        self.live, self.open, self.next = {}, {}, 0

    def new(self):
        self.next += 1
        return self.next

    def path(self, text):
        """A path of a call below the folder, or None. The folders on its way are where they are now."""
        path = os.path.join(self.folder, text.decode())
        path = os.path.join(os.path.realpath(os.path.dirname(path)), os.path.basename(path.rstrip("/")))
        return os.path.relpath(path, self.folder) if path.startswith(self.folder + "/") else None

    def pend(self, where, names=(), data=None):
        """A call whose effect lasts once one of these is synced: names that become numbers (None: that go), or bytes."""
        self.pending.append((set(where), tuple(names), data))
        self.live.update({name: number for name, number in names})

    def sync(self, what):
        """A file or a folder is synced: what was pending of it is on the disk."""
        for where, names, data in self.pending:
            if what in where:
                self.apply(self.names, self.bytes, names, data)
        self.pending = [it for it in self.pending if what not in it[0]]

    @staticmethod
    def apply(names, held, effects, data):
        for name, number in effects:
            names[name] = number
        if data:
            number, at, piece = data
            was = held.get(number, b"")
            if piece is None:
                held[number] = was[:at].ljust(at, b"\0")
            elif at is None:
                held[number] = piece  # a folder or a link, which is made with its name
            else:
                held[number] = was[:at].ljust(at, b"\0") + piece + was[at + len(piece):]

    def call(self, name, words, result):
        """What a call does; whether it does anything."""
        if name in ("openat", "open", "creat"):
            path = self.path(text_in(words))
            if path is None:
                return False
            number = self.live.get(path)
            if number is None and "O_CREAT" in words:
                number = self.new()
                self.pend([os.path.dirname(path)], [(path, number)], (number, 0, b""))
            elif "O_TRUNC" in words:
                self.pend([number], data=(number, 0, None))
            where = path if os.path.isdir(f"{self.folder}/{path}") else number
            self.open[result] = [where, 0]
            return "O_CREAT" in words or "O_TRUNC" in words
        first = re.match(r"(\d+)", words)
        held = self.open.get(int(first[1])) if first else None
        if name == "close" and held:
            del self.open[int(first[1])]
        elif name in ("dup", "dup2", "fcntl") and held and (name != "fcntl" or "F_DUPFD" in words):
            self.open[result] = held
        elif name in ("write", "pwrite64") and held:
            at = int(words.rsplit(", ", 1)[1]) if name == "pwrite64" else held[1]
            self.pend([held[0]], data=(held[0], at, text_in(words)[:result]))
            held[1] = at + result if name == "write" else held[1]
            return True
        elif name == "ftruncate" and held:
            self.pend([held[0]], data=(held[0], int(words.rsplit(", ", 1)[1]), None))
            return True
        elif name in ("fsync", "fdatasync") and held:
            self.sync(held[0] if held[0] != "." else "")
            return True
        elif name in ("writev", "pwritev") and held:
            raise SystemExit(f"power: {name} isn't known")
        return self.name_call(name, [text_in(it) for it in re.findall(r'"[^"]*"', words)])

    def name_call(self, name, texts):
        """What a call of names does; whether it does anything."""
        paths = [self.path(it) for it in texts]
        if not paths or None in paths[-1:] or name not in ("mkdir", "mkdirat", "symlink", "symlinkat", "link", "linkat",
                                                             "rename", "renameat", "renameat2", "unlink", "unlinkat"):
            return False
        folders = [os.path.dirname(it) for it in paths if it is not None]
        if name.startswith(("mkdir", "symlink")):
            number = self.new()
            held = None if name.startswith("mkdir") else texts[0].decode()
            self.bytes[number] = held
            self.pend(folders[-1:], [(paths[-1], number)])
        elif name.startswith("link"):
            self.pend(folders[-1:], [(paths[1], self.live.get(paths[0]))])
        elif name.startswith("rename"):
            self.pend(folders, [(paths[0], None), (paths[1], self.live.get(paths[0]))])
        else:
            self.pend(folders, [(paths[0], None)])
        return True

    def states(self, draw):
        """The disks that a loss of power may leave now: each as names and what stands under them."""
        count = len(self.pending)
        if 2 ** count <= MOST:
            chosen = range(2 ** count)
        else:
            ends = [0, 2 ** count - 1, 1, 2 ** count - 2, 1 << (count - 1), (1 << (count - 1)) - 1]
            chosen = ends + [draw.getrandbits(count) for _ in range(MOST - len(ends))]
        for choice in chosen:
            names, held = dict(self.names), dict(self.bytes)
            for n, (_, effects, data) in enumerate(self.pending):
                if choice >> n & 1:
                    self.apply(names, held, effects, data)
            yield {name: held.get(number, b"") for name, number in names.items() if number is not None}


def digest(state):
    return hashlib.sha256(repr(sorted(state.items(), key=lambda it: it[0])).encode()).digest()


def build(folder, state):
    """Makes the files of a state. What lies in a folder that isn't there isn't there either."""
    for name in os.listdir(folder):
        path = f"{folder}/{name}"
        if name not in ("van", "order.edi"):
            shutil.rmtree(path) if os.path.isdir(path) and not os.path.islink(path) else os.remove(path)
    for name, held in sorted(state.items()):
        path = f"{folder}/{name}"
        if not os.path.isdir(os.path.dirname(path)):
            continue
        if held is None:
            os.mkdir(path)
        elif isinstance(held, str):
            os.symlink(held, path)
        else:
            with open(path, "wb") as file:
                file.write(held)


# --- Going on -----------------------------------------------------------------------------------------------------------


def recorded(folder, command):
    """The log of a command under strace, or None where none can be made."""
    log = f"{folder}.calls"
    try:
        words = ["strace", "-f", "-xx", "-s", "99999999", "-e", f"trace={CALLS}", "-o", log, f"{folder}/van", *command.split()]
        ran = subprocess.run(words, cwd=folder, stdin=subprocess.DEVNULL, capture_output=True, check=False)
    except OSError:
        return None
    if not os.path.isfile(log) or os.path.getsize(log) == 0:
        return None
    if ran.returncode:
        raise SystemExit(f"power: van {command}: {ran.stderr.decode()}")
    with open(log, encoding="ascii") as file:
        return file.read()


def goes_on(place, state):
    """What is wrong with how the next runs go on from a state; '' where nothing is."""
    build(place.folder, state)
    taken = []
    take_posted(place, taken)
    place.run(AGAIN)
    place.run(TURNS)
    take_posted(place, taken)
    if taken != [("ZZALPHA-000000001-01-001.850", SET.encode())]:
        return f"handed over {taken}: {place.run('cat turns')[1][-600:]}"
    status, out, err = place.run("./van reconcile alpha beta && ./van verify alpha && ./van verify beta")
    if status or err or len(re.findall(r"accepted +1 ok$", out, re.M)) != 1:
        return f"status {status}: {out} {err}"
    return ""


def states_of(folder, draw):
    """All disks, each once, with where the power went; or None where no call can be recorded."""
    disk, found = Disk(folder), {}
    for n, command in enumerate(COMMANDS):
        log = recorded(folder, command)
        if log is None:
            return None
        disk.open = {}
        for at, (name, words, result) in enumerate(calls_of(log)):
            if disk.call(name, words, result):
                for state in disk.states(draw):
                    found.setdefault(digest(state), (f"command {n + 1} ({command}), behind call {at} ({name})", state))
    return list(found.values())


def drawn(states, count, draw):
    """So many of these, in turn from each command and kind of call."""
    kinds = {}
    for where, state in draw.sample(states, len(states)):
        kinds.setdefault(re.sub(r" call \d+", "", where), []).append((where, state))
    chosen, kinds = [], draw.sample(list(kinds.values()), len(kinds))
    while kinds and len(chosen) < count:
        chosen += [kind.pop() for kind in kinds[:count - len(chosen)]]
        kinds = [kind for kind in kinds if kind]
    return chosen


def main():
    reading = argparse.ArgumentParser()
    reading.add_argument("program", nargs="?", default=f"{TOP}/crates/van/out/van")
    reading.add_argument("--all", action="store_true")
    reading.add_argument("--states", type=int, default=40)
    reading.add_argument("--seed", type=int, default=1)
    reading.add_argument("--only", default="")
    asked = reading.parse_args()
    draw = random.Random(asked.seed)
    with tempfile.TemporaryDirectory(prefix="power-") as room:
        place, tally = Place(os.path.abspath(asked.program), os.path.realpath(room), "place"), Tally("power")
        place.write("order.edi", order("ALPHA", "BETA", 1))
        states = states_of(place.folder, draw)
        if states is None:
            print("power: strace can't record calls here, so this wasn't tried\n0 passed, 0 failed")
            return 0
        chosen = [it for it in states if asked.only in it[0]]
        chosen = chosen if asked.all else drawn(chosen, asked.states, draw)
        for where, state in chosen:
            wrong = goes_on(place, state)
            tally.want(where, not wrong, wrong)
        print(f"power: {len(states)} disks, {len(chosen)} tried")
        return tally.end()


if __name__ == "__main__":
    sys.exit(main())
