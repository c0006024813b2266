"""The form of a row: what is run, on what, and what has to come of it. rows.py says what a file of rows looks like."""
import re
import shlex
from dataclasses import dataclass, field, replace

ESCAPE = re.compile(r"\\(?:x([0-9a-fA-F]{2})|(.))")
PLAIN = {"n": "\n", "r": "\r", "t": "\t", "e": "\x1b", "\\": "\\"}


class Unreadable(Exception):
    """A file of rows isn't one; in a sentence."""


@dataclass
class Wanted:
    """What a stream has to hold: a text, what a command of the shell writes, a part, or all of an expression."""

    kind: str = "is"
    text: str = ""


@dataclass
class Row:
    """One run of a program. Texts are of bytes, one a character."""

    name: str
    words: list
    files: dict = field(default_factory=dict)
    given: str = ""
    given_by: str = ""
    given_from: str = ""
    output_to: str = ""
    out: Wanted = field(default_factory=Wanted)
    err: Wanted = field(default_factory=Wanted)
    status: int = 0


def plain(text):
    """A text without its escapes; a backslash at its end says that no line feed stands behind it."""
    return ESCAPE.sub(lambda it: chr(int(it[1], 16)) if it[1] else PLAIN[it[2]], text)


def line_of(text):
    """The bytes that a line of a text stands for."""
    is_open = len(text) - len(text.rstrip("\\")) & 1
    return plain(text[:-1]) if is_open else plain(text) + "\n"


def ends(text, at):
    """Where the brace that opens here is closed."""
    depth = 0
    for place in range(at, len(text)):
        depth += {"{": 1, "}": -1}.get(text[place], 0)
        if not depth:
            return place
    raise Unreadable(f"a brace isn't closed: {text[at:at + 60]}")


def filled(text, names):
    """A text with its pieces: ${NAME}, ${NAME:4} of four digits, ${N*TEXT}, ${NAME=1..N TEXT}, ${cut N TEXT}, its first N bytes,
    and ${fill N TEXT}, as often as the whole has room for in N bytes. A name that nothing has stays as it is."""
    done, at, room = "", 0, None
    while (opens := text.find("${", at)) >= 0:
        closes = ends(text, opens + 1)
        held, done = text[opens + 2 : closes], done + text[at:opens]
        at = closes + 1
        named, many, each = (re.match(it, held, re.S) for it in (r"(\w+)(?::(\d+))?$", r"(\d+)\*(.*)", r"(\w+)=(\d+)\.\.(\d+) (.*)"))
        if held.startswith("cut "):
            number, text_of_it = filled(held[4:], names).split(" ", 1)
            done += text_of_it[: int(number)] if number.isdigit() else text[opens : closes + 1]
        elif held.startswith("fill "):
            most, unit = held[5:].split(" ", 1)
            room, front, done = (int(most), filled(unit, names)), done, ""
        elif named and named[1] in names:
            value = str(names[named[1]])
            done += value.zfill(int(named[2])) if named[2] else filled(value, names)
        elif many:
            done += filled(many[2], names) * int(many[1])
        elif each:
            done += "".join(filled(each[4], {**names, each[1]: n}) for n in range(int(each[2]), int(each[3]) + 1))
        else:
            done += text[opens : closes + 1]
    done += text[at:]
    return front + room[1] * ((room[0] - len(front) - len(done)) // len(room[1])) + done if room else done


class File:
    """A file of rows, read line by line."""

    def __init__(self, path, pieces=()):
        self.pieces, self.lists, self.cases, self.shell = dict(pieces), {}, [], ""
        with open(path, encoding="ascii") as file:
            for number, line in enumerate(file.read().split("\n"), 1):
                if line.strip() and not line.startswith("--"):
                    try:
                        self.take(*(line.split(" ", 1) if " " in line else (line, "")))
                    except (KeyError, IndexError, ValueError) as why:
                        raise Unreadable(f"{path}:{number}: it can't be read: {line[:60]}") from why

    def take(self, sign, text):
        """Takes a line: its sign, and what stands behind it."""
        if sign == "#":
            self.cases.append({"name": text, "files": {}, "runs": [], "values": [], "delimiters": None})
        elif sign == "let":
            name, _, said = text.partition(" ")
            self.pieces[name] = self.pieces.get(name, "") + plain(said)
        elif sign == "shell":
            self.shell = text
        elif sign == "list":
            self.lists[text] = []
            self.cases.append({"values": self.lists[text], "runs": [], "is_list": True})
        elif sign == "=":
            self.cases[-1]["values"].append([plain(it) for it in re.split(r" \\\|(?: |$)", text)])
        elif sign == "each":
            self.cases[-1]["values"] = self.lists[text]
        elif sign == "numbers":
            first, last = map(int, text.split(".."))
            self.cases[-1]["values"] = [[str(it)] for it in range(first, last + 1)]
        elif sign == "delimiters":
            self.cases[-1]["delimiters"] = plain(text)
        elif sign == "@":
            self.cases[-1]["files"][text] = ""
        elif sign == "|":
            files = self.cases[-1]["files"]
            files[list(files)[-1]] += line_of(text)
        elif sign == "$":
            self.cases[-1]["runs"].append(Row(self.cases[-1]["name"], text))
        else:
            self.take_of_run(self.cases[-1]["runs"][-1], sign, text)

    def take_of_run(self, row, sign, text):
        """Takes a line that says what a run is given, and what has to come of it."""
        if sign == "<":
            row.given += line_of(text)
        elif sign == "<$":
            row.given_by = text
        elif sign == "<-":
            row.given_from = text
        elif sign == ">-":
            row.output_to = text
        elif sign == "?":
            row.status = int(text)
        else:
            wanted = {">": row.out, "!": row.err}[sign[0]]
            wanted.kind = {"": wanted.kind, "$": "by", "~": "has", "/": "like"}[sign[1:]]
            wanted.text += {"is": line_of, "by": str}.get(wanted.kind, plain)(text)

    def files(self):
        """The files of all rows, by their names."""
        return {name: text for case in self.cases for name, text in case["files"].items()}

    def turns(self):
        """The rows as commands of the shell, in their order."""
        return [row for case in self.cases for row in case["runs"]]

    def rows(self):
        """All rows, each with its pieces and values."""
        for case in self.cases:
            for values in case["values"] or [[]]:
                for row in case["runs"]:
                    yield self.made(row, case, values)

    def made(self, row, case, values):
        """A row of a case for these values."""
        names = {**self.pieces, **{str(at): it for at, it in enumerate(values, 1)}}
        put = lambda text: filled(text, names)
        words = [plain(filled(it, names)) for it in shlex.split(filled(row.words, self.pieces).replace("\\", "\\\\"))]
        given, out = put(row.given), put(row.out.text)
        if case["delimiters"]:
            three, behind = case["delimiters"][:3], case["delimiters"][3:]
            given = given.translate(str.maketrans(dict(zip("*:~", [three[0], three[1], three[2] + behind]))))
            out = out.translate(str.maketrans("*:~", three))
        return replace(row, words=words, files={name: put(it) for name, it in case["files"].items()}, given=given,
                       out=Wanted(row.out.kind, out), err=Wanted(row.err.kind, put(row.err.text)))
