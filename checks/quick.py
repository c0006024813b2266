#!/usr/bin/env python3
"""The quick test, ./test --quick, for whoever is at work: some five minutes, and it proves next to nothing.

It looks at layout, sources and pages; builds the programs unproved, optimized and with their run-time checks, and runs the
rows, the laws and the examples over them; and runs all tests, unproved and without the address sanitizer. Of
what is proved it tries only the functions whose own lines differ from the last commit on main, where the libraries
below them were built here before (`rt check` in a crate above does that): a clause that was changed is not tried on
those who call it. What lands is what passes ./test.

The last line is 'N passed, M failed'.
"""
import os
import re
import shutil
import subprocess
import sys
import tempfile
from concurrent.futures import ThreadPoolExecutor

sys.dont_write_bytecode = True
HERE = os.path.dirname(os.path.realpath(__file__))
TOP = os.path.dirname(HERE)
sys.path[:0] = [HERE, f"{HERE}/tools"]
import unproved
from crates import KIT, PARTS, crates_of, processors
from gate import PROGRAMS, ignored
from source_text import functions_in
from tests import lay_out

OF_TEXTS = ["sources.py", "documents.py"]
OF_PROGRAMS = ["rows.py", "laws.py", "examples.py", "fuzz.py", "launcher.sh", "network.py"]
COUNTS = re.compile(r"(\d+) passed, (\d+) failed")


def ran(words, folder):
    """Runs a command; returns what it said, and how much passed and failed by its last line, or else by its status."""
    how = {"stdin": subprocess.DEVNULL, "stdout": subprocess.PIPE, "stderr": subprocess.STDOUT, "check": False}
    it = subprocess.run(words, cwd=folder, text=True, errors="replace", **how)
    said = it.stdout.rstrip("\n")
    found = COUNTS.fullmatch(said.split("\n")[-1])
    passed, failed = map(int, found.groups()) if found else (int(it.returncode == 0), 0)
    return said, passed, failed or int(it.returncode != 0)


def layout(crate):
    """Whether the files of a crate are laid out as `rt fmt` lays them out."""
    files = [f"{at}/{name}" for part in PARTS for at, _, names in os.walk(f"{crate.folder}/{part}") for name in names]
    said, passed, failed = ran([f"{KIT}/bin/rattle", "fmt", "--check", *sorted(files)], crate.folder)
    return "" if passed else f"{crate.name}: run rt fmt in its folder\n{said[-500:]}", passed, failed


def layout_of_tests():
    """The same of the files of tests/."""
    other = lay_out(False)
    return f"{', '.join(other)}: run checks/tests.py --fmt" if other else "", int(not other), len(other)


def changed_lines(path):
    """The numbers of the lines of a file that differ from the last commit on main."""
    said = ran(["git", "diff", "-U0", "main", "--", path], TOP)[0]
    spans = re.findall(r"^@@ -\S+ \+(\d+)(?:,(\d+))? @@", said, re.M)
    return {first for at, count in spans for first in range(int(at), int(at) + int(count or 1))}


def changed_functions(crate):
    """The functions of a crate whose own lines differ from the last commit on main."""
    found = []
    for path, text in crate.sources().items():
        lines, module = changed_lines(f"{crate.folder}/{path}"), os.path.splitext(os.path.basename(path))[0]
        its = functions_in(text, "" if path == crate.root else module)
        found += [it.path for it in its if lines & set(range(it.first, it.last + 1))]
    return sorted(set(found))


def prove_changed(crate):
    """Proves the functions of a crate that were changed, where the libraries below it are built."""
    names = changed_functions(crate)
    if not names:
        return "", 0, 0
    if not all(it.is_built() for it in crate.below()):
        return f"{crate.name}: {len(names)} changed functions not proved: the libraries below aren't built", 0, 0
    status, said, seconds = crate.timed_check({}, names)
    told = f"{crate.name}: {', '.join(names)}: {'proved' if status == 0 else 'NOT PROVED'}, {seconds:.0f} s"
    return told if status == 0 else f"{told}\n{said[-3000:]}", int(status == 0), int(status != 0)


def over_programs():
    """Runs the scripts that want programs, over a copy in which these are built, unproved."""
    with tempfile.TemporaryDirectory(prefix="quick-") as room:
        shutil.copytree(TOP, f"{room}/top", ignore=ignored(TOP))
        crates = [it for it in crates_of(f"{room}/top") if it.name in PROGRAMS]
        for crate in crates:
            os.mkdir(f"{crate.folder}/out")
        try:
            with ThreadPoolExecutor(len(crates)) as lanes:
                list(lanes.map(lambda it: unproved.build_program(it, f"{it.folder}/out/{it.name}"), crates))
        except unproved.Unbuilt as why:
            return [(str(why), 0, 1)]
        with ThreadPoolExecutor(processors()) as lanes:
            return list(lanes.map(lambda name: ran([f"checks/{name}"], f"{room}/top"), OF_PROGRAMS))


def main():
    crates = crates_of(TOP)
    with ThreadPoolExecutor(max(2, processors())) as lanes:
        programs = lanes.submit(over_programs)
        tests = lanes.submit(ran, ["checks/tests.py", "--native"], TOP)
        told = [ran([f"checks/{name}"], TOP) for name in OF_TEXTS]
        told += [layout_of_tests(), *map(layout, crates)]
        told += [prove_changed(it) for it in crates]
        told += [*programs.result(), tests.result()]
    for said, _, failed in told:
        if failed or "prove" in said:
            print(said)
    passed, failed = (sum(it[at] for it in told) for at in (1, 2))
    print(f"{passed} passed, {failed} failed")
    return 1 if failed else 0


if __name__ == "__main__":
    sys.exit(main())
