#!/usr/bin/env python3
"""The examples of the pages, run: each command that a page shows of van or vanlab prints what stands below it.

Of each page a line '    ./van check ..', with show and explain too, prints what follows it, indented. Of the help and of
each page the first line that runs `vanlab answer`, `script` or `report` gives the stored reply, or what is stored beside
the script of samples/. docs/codes.md says of each code what the table says. recipes.py runs the blocks that
begin with a `$`. The last line is 'N passed, M failed'.
"""
import glob
import os
import re
import subprocess
import sys

sys.dont_write_bytecode = True
HERE = os.path.dirname(os.path.realpath(__file__))
TOP = os.path.dirname(HERE)
sys.path.insert(0, f"{HERE}/tools")
from tally import Tally

PAGES = ["README.md", *sorted(os.path.relpath(it, TOP) for form in ("docs/*.md", "crates/*/README.md") for it in glob.glob(f"{TOP}/{form}"))]
FAMILIES = "H N O S B V L TA1 TA104 AK304 AK403 AK501 AK502 AK901 AK905 LINT".split()
TALLY = Tally("examples")


def text_of(path):
    with open(f"{TOP}/{path}", encoding="utf-8") as file:
        return file.read()


def run(command):
    """What a command of the shell writes, in which van and vanlab are the programs."""
    named = "".join(f"{it}() {{ {TOP}/crates/{it}/out/{it} \"$@\"; }}; " for it in ("van", "vanlab"))
    it = subprocess.run(["bash", "-c", named + command], cwd=TOP, stdin=subprocess.DEVNULL, capture_output=True, text=True, check=False)
    return it.stdout


def try_examples():
    """What stands below a command of van is what it prints."""
    found = [(page, it) for page in PAGES for it in
             re.findall(r"^    (?:\./)?(van (?:check|show|explain).*)\n((?:    .*\n)*)", text_of(page), re.M)]
    for page, (command, wanted) in found:
        out = run(command)
        TALLY.want(f"{page}: {command}", out == re.sub(r"^    ", "", wanted, flags=re.M), out[:300])
    TALLY.want("docs/van.md has no example", "docs/van.md" in dict(found))


def first_line(text, word):
    """The first line of a text that runs a word of vanlab on a file or a script: its words, and the file."""
    found = re.search(rf"^ *(?:\./)?van(?:lab)? ({word} .*?)(?:< *(\S+)|(samples/\S+))", text, re.M)
    return found and (found[1], found[2] or found[3])


def stored(word, path):
    """What a word of vanlab has to print of a sample: the stored reply, or what is stored beside a script."""
    if word == "answer":
        return text_of("crates/vanlab/stdout") if text_of(path) == text_of("crates/vanlab/stdin") else None
    told = text_of(path.replace(".script", ".expected")).splitlines(True)
    return "".join(it for it in told if word == "script" or it.startswith("ZZ/"))


def try_words():
    """What the help and the pages run on a sample gives what is stored."""
    for word in ("answer", "script", "report"):
        texts = {"the help": run(f"vanlab {word} --help"), **{it: text_of(it) for it in PAGES}}
        found = {name: first_line(text, word) for name, text in texts.items() if first_line(text, word)}
        TALLY.want(f"{word}: no page and help run it", len(found) > 1 and "the help" in found, list(found))
        for name, (words, path) in found.items():
            # the words of `answer` are run on the stored order, whatever its file is called there
            path = "samples/order.edi" if word == "answer" else path
            is_sample = path.startswith("samples/") and os.path.isfile(f"{TOP}/{path}")
            TALLY.want(f"{name}: {word}", is_sample and run(f"vanlab {words} < {path}") == stored(word, path), path)


def try_codes():
    """docs/codes.md has a row of each code, with its words and with what to do."""
    page, rows = set(text_of("docs/codes.md").split("\n")), []
    for family in FAMILIES:
        lines = run(f"van explain --code {family}").split("\n")
        rows += [(code, action.strip()) for code, action in zip(lines[::2], lines[1::2])]
    lost = [it for it in rows if f"| {it[0].partition(': ')[0]} | {it[0].partition(': ')[2]} | {it[1]} |" not in page]
    TALLY.want("docs/codes.md", rows and not lost, lost[:3])


if __name__ == "__main__":
    try_examples()
    try_words()
    try_codes()
    sys.exit(TALLY.end())
