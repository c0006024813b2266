"""What must hold of whatever van and vanlab write of an input: laws that are computed, without an expected value."""
import csv
import io
import json
import os
import re
import resource
import subprocess

from laws_of_replies import ANSWER

TOP = os.path.dirname(os.path.dirname(os.path.dirname(os.path.realpath(__file__))))
PROGRAMS = {name: f"{TOP}/crates/{name}/out/{name}" for name in ("van", "vanlab")}
SECONDS, ROOM = 20, 1 << 30
# Whether a set is accepted, and whether with errors noted, by its code (AK501)
FARES = {"A": (True, False), "E": (True, True), "R": (False, False)}


class Broken(Exception):
    """A law doesn't hold; in a sentence."""


def ran(name, words, given=b""):
    """What a program writes of an input. It must end with 0 or 1, in time and within its memory."""
    how = {"input": given, "capture_output": True, "timeout": SECONDS, "check": False}
    limits = lambda: resource.setrlimit(resource.RLIMIT_AS, (ROOM, ROOM))
    try:
        it = subprocess.run([PROGRAMS[name], *words], preexec_fn=limits, **how)
    except subprocess.TimeoutExpired as late:
        raise Broken(f"{name} {words[0]} didn't end in {SECONDS} s") from late
    if it.returncode not in (0, 1):
        raise Broken(f"{name} {' '.join(words[:2])} ended with status {it.returncode}: {it.stderr[-200:]!r}")
    return it.stdout


def members_of_page():
    """The types of each member of JSON, as the table of docs/van.md has them: {member: {type, ..}}."""
    with open(f"{TOP}/docs/van.md", encoding="utf-8") as file:
        rows = [it.split("|") for it in file if re.match(r"\| `\w+`.*\| (number|text|object|list|truth|null)", it)]
    return {name: set(row[2].strip().split(" or ")) for row in rows for name in re.findall(r"`(\w+)`", row[1])}


MEMBERS = members_of_page()


def try_scheme(value, name=None):
    """A value of JSON has the members and types that the page says."""
    if name is not None:
        kind = {bool: "truth", int: "number", str: "text", dict: "object", list: "list", type(None): "null"}[type(value)]
        if kind not in MEMBERS.get(name, ()):
            raise Broken(f"the member {name} is a {kind}, and docs/van.md has it as {MEMBERS.get(name)}")
    for key, held in value.items() if isinstance(value, dict) else ():
        try_scheme(held, key)
    for held in value if isinstance(value, list) else ():
        try_scheme(held)


def objects(name, words, given=b""):
    """The objects of interchanges that a program writes, one a line; all it writes is by the scheme of the page."""
    found = [json.loads(line) for line in ran(name, words, given).split(b"\n") if line]
    for it in found:
        try_scheme(it)
    return [it for it in found if "error" not in it]


def note_of_controls(text):
    """The note on ISA11 and ISA12 (X12.5) of a header that can be read; None where both are supported."""
    standard, version = text[82:83], int(text[84:89]) if text[84:89].isdigit() else 0
    if standard != b"U" and (200 <= version <= 401 or 402 <= version <= 501 and (standard == b" " or standard.isalnum())):
        return "002"
    return None if 200 <= version <= 501 else "003"


def try_controls(text, first):
    """The first interchange, where it is the receiver's, is refused for its controls just where they aren't supported.
    Where it holds TA1s alone, nothing is judged."""
    if "number" in first and first.get("receiver") == "ZZ/BETA" and (first.get("refused") or first.get("groups")):
        told = first["refused"]["code"] if first.get("refused") else None
        wanted = note_of_controls(text)
        if (told if told in ("002", "003") else None) != wanted:
            raise Broken(f"ISA11 and ISA12 want {wanted}, and check says {told}")


def try_csv(path):
    """CSV by RFC 4180: each line ends with CR LF and has the columns of the first."""
    text = ran("van", ["check", "--csv", path]).decode("utf-8")
    rows = list(csv.reader(io.StringIO(text, newline=""), strict=True))
    if text.count("\n") != text.count("\r\n") or text.count("\n") != len(rows) or {len(it) for it in rows} != {20}:
        raise Broken("the CSV isn't by RFC 4180")


def wanted_of(found):
    """What a reply must say of an interchange as `check` found it: a refusal's note, or each group's sets."""
    if found.get("refused"):
        return found["refused"]["code"]
    return [it["refused"]["code"] if it["refused"] else [(of["type"], of["set_number"], (of["accepted"], of["noted"]),
            [code["code"] for code in of["codes"]]) for of in it["sets"]] for it in found.get("groups", [])]


def said_of(reply):
    """What a reply says, in the same form, as `explain` reads it."""
    tas = [it for it in reply["answers"] if it["about"] == "interchange"]
    groups = [it for it in reply["answers"] if it["about"] == "group"]
    if len(tas) + len(groups) != len(reply["answers"]) or len(tas) > 1:
        raise Broken("the reply has what is neither a TA1 nor a 997 that can be read")
    if tas and tas[0]["fares"]["code"] != "A":
        return tas[0]["note"]["code"]
    return [it["codes"][0]["code"] if it["codes"] else [(of["type"], of["set_number"], FARES[of["fares"]["code"]],
            [code["code"] for code in of["codes"]]) for of in it["sets"]] for it in groups]


def agree(found, replies):
    """Each reply is that of the next interchange that has one, and says what `check` says of it."""
    left = list(replies)
    for it in found:
        wanted = wanted_of(it) if "number" in it else []
        if wanted == [] and not (left and said_of(left[0]) == []):
            continue
        if not left:
            raise Broken(f"interchange {it['interchange']} has no reply")
        said = said_of(left.pop(0))
        if said != wanted:
            raise Broken(f"interchange {it['interchange']}: check says {wanted}, the reply {said}")
    if left:
        raise Broken(f"{len(left)} replies more than check has interchanges that want one")


def closes_its_sets(path, folder, found, count, reply):
    """`explain --of` says that a reply closes so many sets of a file, those as accepted or noted that `check` says so."""
    with open(f"{folder}/reply.edi", "wb") as file:
        file.write(reply)
    told = objects("van", ["explain", "--json", "--of", path, f"{folder}/reply.edi"])
    closed = [(of["type"], of["set_number"], of["closes"]) for it in told if "answers" in it
              for answer in it["answers"] for of in answer["speaks_of"]]
    sets = [(of["type"], of["set_number"], "noted" if of["noted"] else "accepted")
            for it in found.get("groups", []) for of in it["sets"] if of["accepted"]]
    if any(it.get("pending") for it in told):
        raise Broken("the reply leaves a set pending")
    if len(closed) != count:
        raise Broken(f"the reply closes {len(closed)} of {count} sets")
    if sorted(sets) != sorted(it for it in closed if it[2] != "rejected"):
        raise Broken(f"the reply closes {closed}, and check accepts {sets}")


def try_transmission(path, folder):
    with open(path, "rb") as file:
        text = file.read()
    lenient = ["--lenient"] if len(text) % 2 else []
    replies = ran("vanlab", [*ANSWER, *lenient], text)
    found = objects("van", ["check", "--json", *lenient, "--me", "ZZBETA", "PO850", path])
    try_controls(text, found[0])
    agree(found, objects("van", ["explain", "--json"], replies))
    sent = objects("van", ["check", "--json", "--as-sender", "--me", "ZZALPHA", path])
    if len(sent) == 1 and sent[0]["accepted"] and found[0].get("receiver") == "ZZ/BETA" and replies:
        closes_its_sets(path, folder, found[0], sent[0]["sets_included"], replies)
    plain = ran("van", ["show", "--plain", path])
    can_be_read = all("number" in it for it in found)
    if can_be_read and not set(b"\r\n") & set(text) and ran("van", ["show", "--join"], plain) != text:
        raise Broken("show --plain and show --join don't give the bytes back")
    try_csv(path)
    objects("van", ["show", "--json", path])
    objects("van", ["show", "--names", "--json", path])
    bare, linted = (objects("van", ["check", *lint, "--json", path]) for lint in ([], ["--lint"]))
    if [{name: it[name] for name in it if name not in ("remarks", "remarks_made")} for it in linted] != bare:
        raise Broken("check --lint finds something else than check")
    for words in (["show", path], ["explain", path], ["check", "--me", "ZZBETA", "PO850", path]):
        ran("van", words)


def report_of(text):
    lines = ran("vanlab", ["report"], text)
    if b" BAD\n" in lines:
        raise Broken("the report has BAD")
    return lines


def try_script(path, folder):
    del folder
    with open(path, "rb") as file:
        text = file.read()
    report, printed = report_of(text), ran("vanlab", ["script"], text)
    if ran("vanlab", ["script"], text + b"report\n") != printed + report:
        raise Broken("report isn't what a line report prints")
    lines = text.split(b"\n")[:-1]
    events = [it for it in lines if it.split(b" ")[0] not in (b"station", b"clock")]
    told = printed.split(b"\n")[:-1]
    if len(told) != len(events):
        raise Broken(f"{len(events)} events print {len(told)} lines")
    again = [it for it, how in zip(events, told) if it.startswith(b"deliver ") and b" ok" in how]
    if report_of(text + b"".join(it + b"\n" for it in again)) != report:
        raise Broken("deliveries made again at the end change the report")
