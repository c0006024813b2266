#!/usr/bin/env python3
"""Rows: runs a program over an input, and holds what it writes and its status byte for byte.

usage: rows.py [SUBJECT ..]

Each file of checks/rows is a subject, whose rows are written by hand, as the standard wants it (X12.5, X12.6, the 997) or
by the pages. A line is a sign and a text:

  # NAME            a row begins             $ WORDS     a run: the program's name and its words
  @ FILE            a file lies there        | TEXT      a line of that file
  < TEXT            a line of the input      > TEXT      a line of the output
  ! TEXT            a line of standard error ? STATUS    the status, where it isn't 0
  = A \\| B          run with A for ${1} and B for ${2}; a line for each run
  list NAME         rows of `=` follow, which `each NAME` takes
  numbers 1..9      run with each of these for ${1}
  let NAME TEXT     a piece, ${NAME}; tools/row_files.py says how a text is repeated or cut
  shell PROGRAM     all rows of the file are commands of the shell, run in turn in one folder, whose ./van is this program
  delimiters ABC    in the places of * : ~ in the input and the output; what stands behind follows each ~ of the input

A backslash at a line's end says that no line feed stands there; \\n, \\r, \\t, \\e, \\x7f and \\\\ are bytes. `<- closed` and
`>- closed` close a stream; `<- silent` is an input that never ends and never gives a byte; another word there is a path.
`<$ COMMAND` and `>$ COMMAND` take what a command writes. `>~ TEXT` and `!~ TEXT` want a part, `>/` and `!/` an expression that
all of it matches. `--` begins a comment. A row runs in a folder with its files and the folder samples/.

What holds of each script is tried of each row that is one: the last line feed may be missing; a report says what the
line `report` does, whatever questions stand in front; what stands behind a bad line changes nothing. The rows of THROUGH run
through the launcher, too. The last line is 'N passed, M failed', a run each.
"""
import os
import re
import subprocess
import sys
import tempfile
from concurrent.futures import ThreadPoolExecutor
from dataclasses import replace

sys.dont_write_bytecode = True
HERE = os.path.dirname(os.path.realpath(__file__))
sys.path.insert(0, f"{HERE}/tools")
from crates import processors
from row_files import File, Unreadable, Wanted

TOP = os.path.dirname(HERE)
SECONDS = 120
THROUGH = ("vanlab",)
# What the other files are made of.
PIECES = "pieces.txt"
# The questions of a script, which change nothing; and what may stand behind a bad line.
QUESTIONS = ("show ", "fate ", "counts ", "postings ", "report")
BEHIND = ("", "\n", "\nreport\n", "\nstation ALPHA")


def program(name):
    """The path of a program, or of its launcher."""
    return f"{TOP}/{name}" if name.startswith("./") else f"{TOP}/crates/{name}/out/{name}"


def shell(command, room):
    """What a command of the shell writes, of the repository's top."""
    how = {"stdin": subprocess.DEVNULL, "stdout": subprocess.PIPE, "cwd": room, "check": True}
    return subprocess.run(["bash", "-c", command], **how).stdout.decode("latin-1")


def holds(wanted, text):
    """Whether a stream is as it is to be."""
    if wanted.kind == "like":
        return re.fullmatch(wanted.text, text) is not None
    return wanted.text in text if wanted.kind == "has" else text == wanted.text


def placed(files, room):
    """The folder that a row runs in, with its files."""
    if not files:
        return room
    folder = tempfile.mkdtemp(dir=room)
    os.symlink(f"{TOP}/samples", f"{folder}/samples")
    for name, text in files.items():
        with open(f"{folder}/{name}", "w", encoding="latin-1", newline="") as file:
            file.write(text)
    return folder


def ran(row, room):
    """What a row's program wrote, and its status."""
    words = [program(row.words[0]), *[it.encode("latin-1") for it in row.words[1:]]]
    streams = {"": "", "closed": "<&-", "silent": f"<>{room}/silent"}.get(row.given_from, f"<{row.given_from}")
    streams += {"": "", "closed": " >&-"}.get(row.output_to, f" >{row.output_to}")
    words = ["bash", "-c", f'exec "$@" {streams}', "bash", *words] if streams else words
    try:
        it = subprocess.run(words, cwd=placed(row.files, room), input=row.given.encode("latin-1"), capture_output=True,
                            timeout=SECONDS, check=False)
    except (OSError, subprocess.TimeoutExpired) as why:
        return "", f"it can't be run: {why}", -1
    return it.stdout.decode("latin-1"), it.stderr.decode("latin-1"), it.returncode


def more_of_script(row):
    """What holds of a script that ends well: its last line feed may be missing, and `report` says what the last line
    `report` does, whatever questions stand in front."""
    if row.given.endswith("\n"):
        yield replace(row, name=f"{row.name}, without its last line feed", given=row.given[:-1])
    if row.given.endswith("\nreport\n"):
        told = Wanted("is", "".join(it for it in row.out.text.splitlines(True) if it.startswith("ZZ/")))
        unasked = "".join(it for it in row.given.splitlines(True) if not it.startswith(QUESTIONS))
        as_report = replace(row, name=f"{row.name}, its report", words=[row.words[0], "report"], out=told)
        yield as_report
        yield replace(as_report, name=f"{row.name}, its report without its questions", given=unasked)


def more_of_bad_line(row):
    """What holds of a script that ends at a bad line: nothing that stands behind it counts."""
    told = re.search(r"^line (\d+): bad line\n\Z", row.out.text, re.M)
    text = row.given.removesuffix("\n")
    if not told or text.count("\n") + 1 != int(told[1]) or row.output_to or row.given_from:
        return
    for behind in BEHIND if text and not text.endswith("\n") else BEHIND[1:]:
        named = replace(row, name=f"{row.name}, with {behind!r} behind", given=text + behind)
        yield named
        yield replace(named, name=f"{named.name}, as a report", words=[row.words[0], "report"], out=Wanted("is", told[0]))


def runs_of(row, room):
    """All runs of a row."""
    if row.given_by:
        row = replace(row, given=shell(row.given_by, room))
    if row.out.kind == "by":
        row = replace(row, out=Wanted("is", shell(row.out.text, room)))
    yield row
    if row.words[1:] == ["script"] and not row.output_to and not row.given_from:
        yield from more_of_bad_line(row) if row.status else more_of_script(row)


def told(row, command, out, err, status):
    """What isn't as a row wants it, or nothing."""
    said = [] if status == row.status else [f"status {status}, and not {row.status}"]
    said += [] if holds(row.out, out) else [f"output {out[-300:]!r}, and not {row.out.text[-300:]!r}"]
    said += [] if holds(row.err, err) else [f"standard error {err[:300]!r}, and not {row.err.text[:300]!r}"]
    return f"{row.name}: {command[:80]}: {'; '.join(said)}" if said else ""


def wrong(row, room):
    """What is wrong of a run, as a list of one."""
    return [told(row, " ".join(row.words), *ran(row, room))]


def wrong_in_turn(file, room):
    """What is wrong of each row of a file whose rows are commands of the shell."""
    folder, found = placed(file.files(), room), []
    os.symlink(program(file.shell), f"{folder}/van")
    for row in file.turns():
        it = subprocess.run(["bash", "-c", row.words], cwd=folder, stdin=subprocess.DEVNULL, capture_output=True,
                            timeout=SECONDS, check=False)
        found.append(told(row, row.words, it.stdout.decode("latin-1"), it.stderr.decode("latin-1"), it.returncode))
    return found


def tries_in(path, room):
    """All that is to be run of a subject: calls that tell what is wrong of each of their runs."""
    subject = os.path.basename(path).removesuffix(".txt")
    file = File(path, File(f"{HERE}/rows/{PIECES}").pieces)
    if file.shell:
        yield lambda: wrong_in_turn(file, room)
    for row in () if file.shell else file.rows():
        for run in runs_of(replace(row, name=f"{subject}: {row.name}"), room):
            yield lambda run=run: wrong(run, room)
            if subject in THROUGH:
                through = replace(run, words=[f"./{run.words[0]}", *run.words[1:]])
                yield lambda run=through: wrong(run, room)


def main(subjects):
    paths = sorted(f"{HERE}/rows/{it}" for it in os.listdir(f"{HERE}/rows") if it != PIECES)
    paths = [it for it in paths if not subjects or os.path.basename(it).removesuffix(".txt") in subjects]
    with tempfile.TemporaryDirectory(prefix="rows-") as room, ThreadPoolExecutor(processors()) as lanes:
        os.symlink(f"{TOP}/samples", f"{room}/samples")
        os.mkfifo(f"{room}/silent")
        try:
            tries = [it for path in paths for it in tries_in(path, room)]
        except Unreadable as why:
            print(f"{why}\n0 passed, 1 failed")
            return 1
        found = [it for its in lanes.map(lambda it: it(), tries) for it in its]
    failed = [it for it in found if it]
    print("".join(f"{it}\n" for it in failed), end="")
    print(f"{len(found) - len(failed)} passed, {len(failed)} failed")
    return 1 if failed or not found else 0


if __name__ == "__main__":
    sys.exit(main(sys.argv[1:]))
