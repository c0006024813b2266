#!/usr/bin/env python3
"""Damage to the files in which folders keep what they know: bits that flip, parts that are zero, ends that are cut off, files
that are lost or are an older copy. After each, the commands say the same as before, or one of them says that something is wrong.

usage: damage.py [PROGRAM] [--tries N] [--seed N]

Two stations and a hub exchange a dozen orders, and the folders are kept. Each try damages one file of one folder in a copy, and
runs the commands that tell what a folder knows, `verify` among them. A try fails where all of them end with status 0, and any of
them tells another state than before.

Prints how many tries changed nothing, were told by all commands, or by some; a line for each that failed, and last
'N passed, M failed'.
"""
import argparse
import collections
import os
import random
import re
import shutil
import subprocess
import sys
import tempfile

TOP = os.path.dirname(os.path.dirname(os.path.realpath(__file__)))
KEPT = ("records.db", "records.db-wal", "counts", "handed")
WAITS = re.compile(rb'"waiting":\d+|waits in mailbox|was taken out of mailbox')
ASKED = {
    "alpha": ["status alpha --json", "log alpha --json", "verify alpha"],
    "beta": ["status beta --json", "postings beta", "log beta --json", "verify beta"],
    "hub": ["status hub --json", "log hub --json"],
}
EXCHANGE = """set -e
van init hub --me ZZHUB --is-hub; van enrol hub ZZALPHA; van enrol hub ZZBETA
van init alpha --me ZZALPHA --hub ZZHUB --at hub; van init beta --me ZZBETA --hub ZZHUB --at hub
van agree beta ZZALPHA PO850
for n in 1 2 3 4 5 6; do
  van submit alpha --to ZZBETA --order A-$n --order B-$n --now 202501020930
  for who in hub beta hub alpha; do van run $who --now 202501020930; done
done
van submit alpha --to ZZBETA --order LAST --now 202501020930
van run hub --now 202501020930"""


def run(program, folder, words):
    how = {"stdin": subprocess.DEVNULL, "stdout": subprocess.PIPE, "stderr": subprocess.PIPE, "timeout": 60, "check": False}
    ran = subprocess.run([program, *words.split()], cwd=folder, **how)
    return ran.returncode, ran.stdout, ran.stderr


def damaged(draw, before, older):
    """A kind of damage, and the bytes that it leaves; None where the file is lost."""
    kind = draw.choice(["bit", "bit", "bit", "zeros", "cut", "lost", "older"])
    if kind == "lost" or not before:
        return "lost", None
    if kind == "older" and older is not None:
        return kind, older
    place = draw.randrange(len(before))
    if kind == "cut":
        return kind, before[:place]
    if kind == "zeros":
        return kind, before[:place] + bytes(min(512, len(before) - place)) + before[place + 512:]
    return "bit", before[:place] + bytes([before[place] ^ 1 << draw.randrange(8)]) + before[place + 1:]


def bytes_of(path):
    if not os.path.isfile(path):
        return None
    with open(path, "rb") as file:
        return file.read()


def put(path, its):
    if its is None:
        os.remove(path)
        return
    with open(path, "wb") as file:
        file.write(its)


def told_of(said):
    """What commands said, but whether an item of a hub still waits: what is deposited again is put back, so nothing is lost."""
    return [(status, WAITS.sub(b"", out), err) for status, out, err in said]


def judged(before, after):
    """Whether damage changed nothing, was told by all commands or by some, or was told by none."""
    if told_of(before) == told_of(after):
        return "nothing changed"
    told = [it[0] != 0 and it[2].startswith(b"van: ") or it[0] == 1 and b"differ" in it[1] for it in after]
    if all(told):
        return "told by all"
    return "told by some" if any(told) else "not told"


def exchanged(program, room):
    """The folders after half of the exchange, and after all of it."""
    os.mkdir(f"{room}/bin")
    os.symlink(program, f"{room}/bin/van")
    its = {**os.environ, "PATH": f"{room}/bin:{os.environ['PATH']}"}
    for name, script in (("older", EXCHANGE.replace("1 2 3 4 5 6", "1 2 3")), ("kept", EXCHANGE)):
        os.mkdir(f"{room}/{name}")
        subprocess.run(["bash", "-c", script], cwd=f"{room}/{name}", env=its, stdout=subprocess.DEVNULL, check=True)


def damage_one(program, room, draw):
    """Damages a file in a copy. Returns what it did, whose folder it was, and what the commands say then."""
    who = draw.choice(list(ASKED))
    name = draw.choice([it for it in KEPT if os.path.exists(f"{room}/kept/{who}/{it}")])
    before, older = (bytes_of(f"{room}/{it}/{who}/{name}") for it in ("kept", "older"))
    kind, its = damaged(draw, before, older)
    shutil.copytree(f"{room}/kept", f"{room}/try", symlinks=True)
    put(f"{room}/try/{who}/{name}", its)
    after = [run(program, f"{room}/try", words) for words in ASKED[who]]
    shutil.rmtree(f"{room}/try")
    return f"{kind} in {who}/{name}", who, after


def main():
    reading = argparse.ArgumentParser()
    reading.add_argument("program", nargs="?", default=f"{TOP}/crates/van/out/van")
    reading.add_argument("--tries", type=int, default=100)
    reading.add_argument("--seed", type=int, default=1)
    asked = reading.parse_args()
    program, draw = os.path.abspath(asked.program), random.Random(asked.seed)
    found = collections.Counter()
    with tempfile.TemporaryDirectory(prefix="damage-") as room:
        exchanged(program, room)
        said = {who: [run(program, f"{room}/kept", words) for words in lines] for who, lines in ASKED.items()}
        for _ in range(asked.tries):
            what, who, after = damage_one(program, room, draw)
            became = judged(said[who], after)
            found[became] += 1
            if became == "not told":
                print(f"damage: {what}: {[it[:2] for it in after if it not in said[who]]}"[:600])
    failed = found["not told"]
    print("damage: " + ", ".join(f"{became} {number}" for became, number in sorted(found.items())))
    print(f"{asked.tries - failed} passed, {failed} failed")
    return 1 if failed else 0


if __name__ == "__main__":
    sys.exit(main())
