#!/usr/bin/env python3
"""Rules that the sources keep: one line for what breaks one, and status 1 if any does.

usage: sources.py [sizes | imports | words | types ..]

sizes    a function has at most 8 clauses, 6 parameters beside `self` and 40 lines between the braces of its body; a file
         of src/, tests/ or specs/ has at most 350 lines
imports  a name that a file imports is used there: as a whole word outside comments, an operator where it stands at all,
         `fmt` where an error type is derived, a trait of METHODS where one of its methods is called; a `ghost use` has no alias
words    a word of specs/ stands in one file, and so does the statement of a lemma of proofs/, whatever its variables are
         called; a body of three lines and more stands once in src/
types    a public type of src/ has a name of its own among all crates

What may stand twice, or unused, is in sources.txt, a line each: the kind, the name, and behind a colon the reason, of a type
its crates; a line that isn't needed is wrong, so that the list doesn't grow. The last line is 'N passed, M failed'.
"""
import collections
import os
import re
import sys

sys.dont_write_bytecode = True
HERE = os.path.dirname(os.path.realpath(__file__))
sys.path.insert(0, f"{HERE}/tools")
from source_text import files_of, files_of_tests, functions_in, statements_in, words_in

MOST = {"clauses": 8, "parameters": 6, "lines": 40}
FILE_LINES, BODY_LINES = 350, 3
# How a comment and an import stand in the files of a part.
FORMS = {"src": (r"//[^\n]*", r"^[ \t]*(ghost )?use ([^;]*);"), "specs": (r"--[^\n]*", r"^()use (.*)$")}
# Traits that a file may import for a method alone.
METHODS = {
    "Write": r"\.(write|write_all|flush)\(",
    "OpenFile": r"\.(sync_all|set_len)\(",
    "Read": r"\.read\(",
    "MetadataExt": r"\.(mode|mtime)\(",
    "OpenOptionsExt": r"\.mode\(",
    "DirBuilderExt": r"\.mode\(",
    "PermissionsExt": r"::from_mode\(",
    "IsTerminal": r"\.is_terminal\(",
    "Node": r"\.(take|free|offer)\(",
    "Spool": r"\.(waiting|read|send|put|confirm|set_aside|remove)\(",
}
TYPE = re.compile(r"^pub (?:struct|enum|union|trait|type) (\w+)", re.M)


class Sources:
    """The files of src/, specs/ and proofs/, and what may stand twice there."""

    def __init__(self):
        self.src, self.specs, self.proofs = (list(files_of(*it)) for it in (("src", ".rt"), ("specs", ".antt"), ("proofs", ".antt")))
        self.src += files_of_tests()
        self.functions = {path: list(functions_in(text)) for path, text in self.src}
        self.may = collections.defaultdict(dict)
        with open(f"{HERE}/sources.txt", encoding="utf-8") as file:
            for kind, name, reason in re.findall(r"^(\w+) (\S+): (.+)$", file.read(), re.M):
                self.may[kind][name] = reason


def crate_of(path):
    return path.split(os.sep)[0]


def sizes(sources):
    """What is too large, of each file."""
    for path, text in [*sources.src, *sources.specs]:
        lines = text.count("\n")
        found = [f"{path}: {lines} lines, and {FILE_LINES} is the most"] if lines > FILE_LINES else []
        for it in sources.functions.get(path, ()):
            sizes_of = {"clauses": len(it.clauses), "parameters": it.parameters, "lines": it.lines}
            found += [f"{path}:{it.line}: {it.name} has {size} {what}, and {MOST[what]} is the most"
                      for what, size in sizes_of.items() if size > MOST[what]]
        yield found


def imported(text, form):
    """Each import: where it stands, whether it is ghost, the name that it brings, and the alias."""
    for use in re.finditer(form, text, re.M):
        ghost = use.group(1) is not None
        for item in re.finditer(r"[^\s,{}]+(?: as [^\s,{}]+)?(?=\s*[,}]|\s*$)", use.group(2)):
            path, _, alias = item.group(0).partition(" as ")
            line = text.count("\n", 0, use.start(2) + item.start()) + 1
            yield use, line, ghost, path.split("." if ghost else "::")[-1], alias


def is_used(name, rest):
    if name == "fmt" and re.search(r"derive\([^)]*\bError\b", rest) or name in METHODS and re.search(METHODS[name], rest):
        return True
    if "◌" in name:
        return all(part in rest for part in name.split("◌") if part)
    return name in rest if not re.match(r"\w", name) else re.search(rf"(?<!\w){re.escape(name)}(?!\w)", rest) is not None


def imports(sources):
    """Names that are imported and not used, and aliases, of each file."""
    may = dict(sources.may["import"])
    for part, (comment, form) in FORMS.items():
        for path, text in sources.src if part == "src" else sources.specs:
            text = re.sub(comment, "", text)
            rest, found = re.sub(form, "", text, flags=re.M), []
            for use, line, ghost, name, alias in imported(text, form):
                if ghost and alias and part == "src":
                    found.append(f"{path}:{line}: {name} as {alias}: an alias, which no search finds")
                is_open = name in ("*", "self") or alias == "_" or use.group(0).lstrip().startswith("pub")
                if not is_open and not is_used(alias or name, rest) and not may.pop(f"{path}|{name}", None):
                    found.append(f"{path}:{line}: {alias or name}: not used")
            yield found
    for name in may:
        yield [f"import {name}: may stand unused by sources.txt, and doesn't"]


def gathered(sources, kind):
    """Where each thing of a kind stands: by what it is, the places and the names."""
    places = collections.defaultdict(list)
    if kind == "body":
        found = [("\n".join(it.body), path, it.line, it.name) for path, its in sources.functions.items() for it in its
                 if len(it.body) >= BODY_LINES]
    elif kind == "word":
        found = [(name, path, line, name) for path, text in sources.specs for line, name in words_in(text)]
    elif kind == "type":
        found = [(name, path, text.count("\n", 0, it.start()) + 1, name) for path, text in sources.src for it in TYPE.finditer(text)
                 for name in [it[1]]]
    else:
        found = [(its, path, line, name) for path, text in sources.proofs for line, name, its in statements_in(text)]
    for key, *place in found:
        places[key].append(place)
    return places


def twice(sources, kind, apart):
    """What of a kind stands twice and may not, and what may without need; `apart` tells the places that count apart."""
    left = dict(sources.may[kind])
    for found in gathered(sources, kind).values():
        names, wrong = {name for _, _, name in found}, []
        if len({apart(path, line) for path, line, _ in found}) > 1:
            if kind == "type" and {crate_of(path) for path, _, _ in found} <= set(left.get(found[0][2], "").split()):
                left.pop(found[0][2])
            elif kind != "type" and names & sources.may[kind].keys():
                for name in names:
                    left.pop(name, None)
            else:
                wrong = [f"{kind} " + ", ".join(f"{name} {path}:{line}" for path, line, name in found)]
        yield wrong
    for name in left:
        yield [f"{kind} {name}: may stand twice by sources.txt, and doesn't"]


def words(sources):
    """Words, statements and bodies that stand twice."""
    yield from twice(sources, "word", lambda path, line: path)
    yield from twice(sources, "statement", lambda path, line: path)
    yield from twice(sources, "body", lambda path, line: (path, line))


def types(sources):
    """Names of public types that several crates define."""
    yield from twice(sources, "type", lambda path, line: crate_of(path))


RULES = {"sizes": sizes, "imports": imports, "words": words, "types": types}


def main(names):
    unknown = set(names) - RULES.keys()
    if unknown:
        print(f"usage: sources.py [{' | '.join(RULES)} ..]", file=sys.stderr)
        return 2
    sources = Sources()
    told = [it for name in names or RULES for it in RULES[name](sources)]
    failed = [it for it in told if it]
    print("".join(f"{line}\n" for it in failed for line in it), end="")
    print(f"{len(told) - len(failed)} passed, {len(failed)} failed")
    return 1 if failed or not told else 0


if __name__ == "__main__":
    sys.exit(main(sys.argv[1:]))
