"""Laws of what van writes of transmissions at random, and on a terminal."""
import csv
import io
import json
import os
import random
import re

import fuzz_inputs
from terminal import on_terminal

HEAD = b"ISA*00*          *00*          *ZZ*ALPHA          *ZZ*BETA           *250102*0930*U*00401*000000001*1*P*:"
REJECTED = ["check", "--me", "ZZBETA", "PO850", "samples/rejected.edi"]
INKS = ("\x1b[0m", "\x1b[1m", "\x1b[32m", "\x1b[1;31m")
PLACE = re.compile(rb"^  group (\d+), .*?, set (\d+), ...? \S*: rejected: |^  group (\d+), .*: refused: \w+/(\d+) ")
NOTE = re.compile(rb'^    segment (\d+) .*?(?:, element (\d+) \(\d+[^)]*\)(?: ".*")?)?: \w+/(\d+) [^":]*$')


def interchange(pick, terminator):
    """An interchange with random segments: its pieces, each without line ends in front."""
    letters = [b for b in range(256) if b != terminator and b not in b"*:\r\n"]
    pieces = [HEAD]
    for _ in range(pick.randrange(12)):
        body = bytes(pick.choice(letters) for _ in range(pick.randrange(30)))
        if pick.random() < 0.3 and body:
            # a line end inside a segment stays
            end = b"\n" if terminator == 13 else b"\r"
            body = body[:1] + end + body[1:] if body[0] not in b"\r\n" else body
        pieces.append(b"REF*" + body)
    pieces.append(b"IEA*0*000000001")
    return pieces


def is_joined(run, seed):
    """Whether joining what --plain shows gives a file without the line ends between its segments."""
    pick, text, joined, plain = random.Random(f"850 {seed}"), b"", b"", b""
    for _ in range(pick.randrange(1, 4)):
        terminator = pick.choice(b"~\n\r'\x1c")
        ends = b"\r\n".replace(bytes([terminator]), b"")
        for piece in interchange(pick, terminator):
            text += bytes(pick.choice(ends) for _ in range(pick.randrange(4))) + piece + bytes([terminator])
            joined += piece + bytes([terminator])
            plain += piece + bytes([terminator]) + (b"" if terminator == 10 else b"\n")
    show = lambda layout, given: run("van", ["show", layout], given.decode("latin-1"))[0].encode("latin-1")
    shown = show("--plain", text)
    return (shown, show("--join", shown), show("--join", text)) == (plain, joined, joined)


def of_words(said):
    """Of each finding its places and codes, as words tell it, and how many interchanges are refused as a whole."""
    found, whole = [], 0
    for line in said.split(b"\n"):
        place, note = PLACE.match(line), NOTE.match(line)
        if place and place[2]:
            codes = re.findall(r"(?:: |, )\w+/(\d+) ", line[place.end() - 2 :].decode("latin-1"))
            found.append(("set", int(place[1]), int(place[2]), tuple(codes)))
        elif place:
            found.append(("group", int(place[3]), place[4].decode()))
        elif note:
            found.append(("note", int(note[1]), int(note[2] or 0), note[3].decode()))
        elif re.match(rb"interchange \d+(, \d{9}, .*)?: (refused: \w+/\d|H\d )", line):
            whole += 1
    return found, whole


def is_heading(notes, at):
    """Whether a note says no more than that elements of its segment are noted next, which words don't say."""
    return notes[at][3] == "8" and not notes[at][2] and at + 1 < len(notes) and notes[at + 1][0] == "note" and notes[at + 1][2]


def of_json(said):
    """The same, as JSON tells it."""
    found, whole = [], 0
    for one in map(json.loads, said.splitlines()):
        whole += "fault" in one or "refused" in one
        for group in one.get("groups", []):
            if group["refused"]:
                found.append(("group", group["group"], group["refused"]["code"]))
            for it in group["sets"]:
                if not it["accepted"]:
                    found.append(("set", group["group"], it["set"], tuple(code["code"] for code in it["codes"])))
                found += [("note", note["segment"], note.get("element", 0), code["code"]) for note in it["notes"] for code in note["codes"]]
    return found, whole


def of_csv(said):
    """The same, as CSV tells it."""
    found, whole = [], 0
    for one in csv.DictReader(io.StringIO(said.decode(), newline="")):
        if one["segment"]:
            found.append(("note", int(one["segment"]), int(one["element"] or 0), one["code"]))
        elif one["set"]:
            found.append(("set", int(one["group"]), int(one["set"]), tuple(one["code"].split(" "))))
        elif one["group"]:
            found.append(("group", int(one["group"]), one["code"]))
        else:
            whole += 1
        if None in one or len(one) != 20:
            found.append(one)
    return found, whole


def findings(run, seed):
    """The findings in a transmission at random, in words, JSON and CSV."""
    text = fuzz_inputs.transmission(random.Random(f"997 {seed}")).decode("latin-1")
    forms = ((), ("--json",), ("--csv",))
    words, objects, rows = (run("van", ["check", *it, "--me", "ZZBETA", "PO850"], text)[0].encode("latin-1") for it in forms)
    return of_words(words), of_json(objects), of_csv(rows)


def are_alike(run, seeds):
    """Whether words, JSON and CSV tell of the same findings, in the same order, and of one a transmission at least."""
    count = 0
    for seed in seeds:
        words, objects, rows = findings(run, seed)
        count += len(rows[0]) + rows[1]
        kept = [it for at, it in enumerate(rows[0]) if it[0] != "note" or not is_heading(rows[0], at)]
        if objects != rows or words != (kept, rows[1]):
            return False
    return count >= len(seeds)


def shown_by(program, words, **environment):
    """What van writes to a terminal."""
    kept = {name: value for name, value in os.environ.items() if name != "NO_COLOR"}
    said = on_terminal([program("van"), *words], "stdout", env={**kept, **environment})[2]
    return said.replace(b"\r\n", b"\n").decode("latin-1")


def is_coloured(run):
    """Whether words are coloured on a terminal, with carets; with carets alone where colours aren't wanted."""
    written = lambda *more: run("van", [*REJECTED, *more], "")[0]
    shown = lambda *more, **its: shown_by(run.program, [*REJECTED, *more], **its)
    colours, carets = written("--color", "always"), "      BEG*000*SA***20250102\n          ^^^\n"
    plain = colours
    for ink in INKS:
        plain = plain.replace(ink, "")
    return all([
        shown() == colours, shown(NO_COLOR="") == colours, shown("--color", "always", NO_COLOR="1") == colours,
        shown(NO_COLOR="1") == plain, shown("--color", "never") == plain, carets in plain,
        shown("--json") == written("--json"), shown("--csv") == written("--csv")])


def laws():
    """Each law, and its tries: calls that are given a run of a program."""
    yield "joining what --plain shows gives the file without line ends", [
        lambda run, seed=seed: is_joined(run, seed) for seed in range(300)]
    yield "words, JSON and CSV tell of the same findings", [
        lambda run, first=first: are_alike(run, range(first, first + 100)) for first in range(0, 1000, 100)]
    yield "a terminal is shown colours and carets", [is_coloured]
