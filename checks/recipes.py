#!/usr/bin/env python3
"""The recipes that an operator copies from docs/mailbox.md, and the commands of the first page: run as they stand there.

usage: recipes.py [PROGRAM]

The commands of the first page print what is shown below them (first page). The lines of rsync carry files between
stations and a hub, and between two hubs, each machine being a folder here: orders are accepted, a refusal arrives, and
then the carrier brings nothing more (carried, hubs). No minute of the crontab fires two lines of one folder, and each
line does its turn (crontab). The unit of systemd watches (unit). PROGRAM is the program of mailboxes; without the word
it is the one in its crate's out/, or is built first, unproved. Where rsync isn't there, its lines aren't tried, which is
told.

Prints a line for what is wrong, and last 'N passed, M failed'.
"""
import os
import re
import shutil
import subprocess
import sys
import tempfile

sys.dont_write_bytecode = True
HERE = os.path.dirname(os.path.realpath(__file__))
TOP = os.path.dirname(HERE)
sys.path[:0] = [HERE, f"{HERE}/tools"]
from crates import crates_of
from tally import Tally
from unproved import build_program

PAGE = f"{TOP}/docs/mailbox.md"
FIRST_PAGE = f"{TOP}/README.md"
# The crate of the program that has the commands of mailboxes.
PROGRAM = "van"
ROUNDS = 6
MINUTES = range(60)


class Room:
    """The machines of the page, side by side in one folder, and what passed there."""

    def __init__(self, program, folder, tally):
        self.folder, self.want = folder, tally.want
        os.mkdir(folder)
        os.symlink(program, f"{folder}/van")

    def run(self, command):
        """The status of a line of the page in this room, and what it wrote: a host is no other machine here."""
        here = re.sub(r"\bhost2:|\bhubhost:", "", command).replace("/srv/x12", self.folder)
        how = {"stdin": subprocess.DEVNULL, "stdout": subprocess.PIPE, "stderr": subprocess.STDOUT, "text": True}
        ran = subprocess.run(["bash", "-c", here], cwd=self.folder, timeout=300, check=False, **how)
        return ran.returncode, ran.stdout

    def do(self, name, *commands):
        """Runs lines that have to end with status 0; what the last one wrote."""
        said = ""
        for command in commands:
            status, said = self.run(command)
            self.want(name, status == 0, f"{command}\n  status {status}: {said}")
        return said

    def files(self, folder):
        return sorted(os.listdir(f"{self.folder}/{folder}"))


def blocks_of(text):
    """The blocks of a page, as lists of lines."""
    return [it.split("\n") for it in re.findall(r"^```text\n([\s\S]*?)\n```$", text, re.M)]


def lines_from(text, first):
    """The lines of the one block whose first line has this form."""
    found = [it for it in blocks_of(text) if re.match(first, it[0])]
    return found[0] if len(found) == 1 else []


def first_page(room, text):
    """That each command of the first page prints what stands below it."""
    commands = [it for block in blocks_of(text) if block[0].startswith("$ ") for it in "\n".join(block)[2:].split("\n$ ")]
    room.want("first page", commands, "no command")
    for command, _, wanted in (it.partition("\n") for it in commands):
        said = room.do("first page", command)
        room.want("first page", said == f"{wanted}\n", f"{command}\n  wanted {wanted!r}\n  found  {said!r}")


def carried(room, text):
    """Two stations and their hub, which the page's first lines of rsync join: an order, and one that the hub refuses."""
    lines = lines_from(text, "rsync .* alpha/out/ ")
    room.want("carried", len(lines) == 3, f"{len(lines)} lines of rsync")
    both = lines + [it.replace("alpha", "beta").replace("ZZALPHA", "ZZBETA") for it in lines]
    room.do("carried", "./van init hub --me ZZHUB --is-hub", "./van enrol hub ZZALPHA", "./van enrol hub ZZBETA")
    room.do("carried", "./van init alpha --me ZZALPHA --hub ZZHUB", "./van init beta --me ZZBETA --hub ZZHUB")
    room.do("carried", "./van agree beta ZZALPHA PO850", "./van submit alpha --to ZZBETA --order PO-1",
            "./van submit alpha --to ZZOMEGA --order PO-2")
    for _ in range(ROUNDS):
        room.do("carried", *both, "./van run hub", *both, "./van run alpha", "./van run beta")
    said = room.do("carried", "./van status alpha")
    room.want("carried", said.endswith("0 pending, 1 accepted, 0 noted, 1 rejected; 0 postings\n"), said)
    room.do("carried", *both)
    left = [room.files(it) for it in ("alpha/in", "beta/in", "alpha/out", "hub/ZZALPHA/in")]
    room.want("carried", left == [[], [], [], []], f"the carrier still brings {left}")


def hubs(room, text):
    """Two hubs that the page's second lines of rsync join: an order through both, and its answer."""
    lines = lines_from(text, "rsync .* hub1/")
    room.want("hubs", len(lines) == 2, f"{len(lines)} lines of rsync")
    connecting = re.findall(r"`(van enrol hub\d ZZ\w+ --hub ZZHUB\d)`", text)
    room.want("hubs", len(connecting) == 2, f"{len(connecting)} commands that connect the hubs")
    room.do("hubs", "./van init hub1 --me ZZHUB1 --is-hub", "./van init hub2 --me ZZHUB2 --is-hub", "./van enrol hub1 ZZGAMMA",
            "./van enrol hub2 ZZDELTA", *[f"./{it}" for it in connecting])
    room.do("hubs", "./van init gamma --me ZZGAMMA --hub ZZHUB1 --other-hub ZZHUB2 --at hub1",
            "./van init delta --me ZZDELTA --hub ZZHUB2 --other-hub ZZHUB1 --at hub2")
    room.do("hubs", "./van agree delta ZZGAMMA PO850", "./van submit gamma --to ZZDELTA --order PO-1")
    for _ in range(ROUNDS):
        room.do("hubs", "./van run hub1", *lines, "./van run hub2", *lines, "./van run gamma", "./van run delta")
    said = room.do("hubs", "./van status gamma")
    room.want("hubs", said.endswith("0 pending, 1 accepted, 0 noted, 0 rejected; 0 postings\n"), said)


def minutes_of(field):
    """The minutes of a crontab's first field."""
    if field == "*":
        return set(MINUTES)
    spans = [it.split("-") for it in field.split(",")]
    return {minute for it in spans for minute in range(int(it[0]), int(it[-1]) + 1)}


def crontab(room, text):
    """That no minute fires two lines of one folder, and that each line does a turn."""
    lines = [re.fullmatch(r"(\S+) \* \* \* \* +(.*)", it) for it in lines_from(text, r"\S+ \* \* \* \* ")]
    room.want("crontab", len(lines) == 2 and all(lines), f"{len(lines)} lines")
    fired = {}
    for it in filter(None, lines):
        folder = re.search(r"van run (\w+)", it[2])[1]
        for minute in minutes_of(it[1]):
            fired.setdefault((folder, minute), []).append(it[2])
        room.do("crontab", it[2])
    room.want("crontab", len(fired) == len(MINUTES), "a minute fires no line")
    for (folder, minute), commands in fired.items():
        room.want("crontab", len(commands) == 1, f"minute {minute} fires {len(commands)} lines of {folder}")
    room.want("crontab", os.path.exists(f"{room.folder}/alpha.log"), "no log was written")


def unit(room, text):
    """That what systemd is to start watches: one turn of it."""
    started = re.findall(r"^ExecStart=(.*)$", text, re.M)
    room.want("unit", len(started) == 1, f"{len(started)} lines ExecStart")
    room.do("unit", *[f"{it} --turns 1" for it in started])


def read(path):
    with open(path, encoding="utf-8") as file:
        return file.read()


def main(words):
    text, first, tally = read(PAGE), read(FIRST_PAGE), Tally("recipes")
    with tempfile.TemporaryDirectory(prefix="recipes-") as folder:
        program = os.path.realpath(words[0]) if words else f"{TOP}/crates/{PROGRAM}/out/{PROGRAM}"
        if not os.path.isfile(program):
            program = f"{folder}/{PROGRAM}"
            build_program(next(it for it in crates_of(TOP) if it.name == PROGRAM), program)
        rooms = [Room(program, f"{folder}/{name}", tally) for name in ("first", "carried")]
        first_page(rooms[0], first)
        crontab(rooms[0], text)
        unit(rooms[0], text)
        if shutil.which("rsync"):
            carried(rooms[1], text)
            hubs(rooms[1], text)
        else:
            print("recipes: rsync isn't there, so its lines weren't tried")
        return tally.end()


if __name__ == "__main__":
    sys.exit(main(sys.argv[1:]))
