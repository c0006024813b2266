#!/usr/bin/env python3
"""Pages that are made from the sources when somebody asks, and are kept nowhere.

usage: pages.py model | pages.py refusals

`model` prints each definition that a public contract cites, by crate and file, with the comment above it; those that
have none are told so. `refusals` prints each public call that can be refused: its fault, the clauses that say when, and
those that say what is left.
"""
import os
import re
import sys

sys.dont_write_bytecode = True
HERE = os.path.dirname(os.path.realpath(__file__))
sys.path[:0] = [HERE, f"{HERE}/tools"]
from contracts import Sources
from refusals import tables
from source_text import files_of, words_in


def comment_above(lines, number):
    """The comment that stands right above a line, as one text."""
    said = []
    while number > 1 and (found := re.match(r"\s*-- (.*)", lines[number - 2])):
        said.insert(0, found[1].strip())
        number -= 1
    return " ".join(said)


def definitions():
    """Each definition of `specs/`: its name, its file, and its comment."""
    for path, text in files_of("specs", ".antt"):
        lines = text.split("\n")
        for number, name in words_in(text):
            yield name, path.replace(os.sep, "/"), comment_above(lines, number)


def model():
    """The definitions that public contracts cite, as tables."""
    cited, lines, crate = Sources().cited(), ["# The definitions that public contracts cite"], None
    for name, path, said in definitions():
        if name in cited and not path.startswith("proved_callers/"):
            if path.split("/")[0] != crate:
                crate = path.split("/")[0]
                lines.append(f"\n## {crate}\n\n| Definition | Says | File |\n|---|---|---|")
            lines.append(f"| `{name}` | {said.replace('|', chr(92) + '|') or 'no comment'} | `{path.split('/', 2)[2]}` |")
    return "\n".join(lines) + "\n"


PAGES = {"model": model, "refusals": tables}


def main(words):
    if len(words) != 1 or words[0] not in PAGES:
        print(__doc__, end="", file=sys.stderr)
        return 2
    print(PAGES[words[0]](), end="")
    return 0


if __name__ == "__main__":
    sys.exit(main(sys.argv[1:]))
