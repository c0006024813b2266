#!/usr/bin/env python3
"""Shows that values which only evidence, a judgement or a plan can make are made by nothing else, read by nobody, and
used once: puts each file of checks/misuses into a crate above, and wants the compiler to refuse it, at a line of its
own, with the words of its line '// refused: WORDS'. A file without such a line is a control, which has to be proved.

Files that are to be refused by one kind of error are modules of one crate, since the compiler tells all errors of a
kind at once, twenty at most. What isn't told so goes into the next such crate, and what is told by none is tried
alone, before it is judged. A file is refused where all errors at its lines are of the wanted kind, and one has the
words. A control is a crate alone.

Prints a line for each file, and last 'N passed, M failed'.
"""
import os
import re
import sys
import tempfile

sys.dont_write_bytecode = True
HERE = os.path.dirname(os.path.realpath(__file__))
sys.path.insert(0, f"{HERE}/tools")
from crates import Crate, crates_of, text_of

BELOW = ["x12_outbound", "x12_inbound", "x12_hub", "x12_acks", "x12_envelopes"]
TACTIC = "#![tactic(auto)]\n"


def crate_above(top, folder):
    """A crate that stands on the libraries of BELOW, and has an empty source."""
    listed = {it.name: [below.name for below in it.libraries] for it in crates_of(top)}
    crate = Crate(top, "misuses", {**listed, "misuses": BELOW})
    crate.folder = folder
    os.mkdir(f"{folder}/src")
    return crate


def words_of(text):
    """The words that a file is to be refused with; None of a control."""
    wanted = re.search(r"^// refused: (.*)$", text, re.M)
    return wanted and wanted[1]


def kind_of(words):
    return re.match(r"error\[[\w-]+\]", words)[0]


def is_refused(name, words, said):
    """Whether the errors at the lines of this module are of one kind, and one has the words."""
    errors = re.findall(rf"^src/{name}\.rt:\d+:\d+: (error.*)$", said, re.M)
    return all(it.startswith(kind_of(words)) for it in errors) and any(it.startswith(words) for it in errors)


def refused_together(crate, wanted, texts):
    """Those of the wanted files that are refused as modules of one crate; and what was said."""
    modules = "".join(f"pub mod {name};\n" for name in wanted)
    source = {crate.root: f"//! Misuses.\n{TACTIC}\n{modules}"}
    # a line in the place of the tactic's, which only the crate has, so that the places are those of the file
    source.update({f"src/{name}.rt": texts[name].replace(TACTIC, "\n") for name in wanted})
    # what is to be refused is refused before any proof, so no function is named
    status, said = crate.check(source, [""])
    return {name for name in wanted if status and is_refused(name, wanted[name], said)}, said


def refusals(crate, texts):
    """Of each file that is to be refused, whether it is; and what was said."""
    found, words = {}, {name: words_of(text) for name, text in texts.items() if words_of(text)}
    for kind in sorted({kind_of(it) for it in words.values()}):
        rest = {name: it for name, it in words.items() if kind_of(it) == kind}
        told = True
        while rest and told:
            told, said = refused_together(crate, rest, texts)
            found.update({name: (True, said) for name in told})
            rest = {name: it for name, it in rest.items() if name not in told}
        for name in rest:
            told, said = refused_together(crate, {name: rest[name]}, texts)
            found[name] = name in told, said
    return found


def proof(crate, text):
    """Whether a control is proved; and what was said."""
    status, said = crate.check({crate.root: text})
    return status == 0 and "logic=proved" in said, said


def main():
    folder = f"{HERE}/misuses"
    files = sorted(it for it in os.listdir(folder) if it.endswith(".misuse"))
    texts = {it.removesuffix(".misuse"): text_of(f"{folder}/{it}") for it in files}
    failed = 0
    with tempfile.TemporaryDirectory(prefix="misuses-") as room:
        crate = crate_above(os.path.dirname(HERE), room)
        crate.build_below()
        found = refusals(crate, texts)
        controls = [name for name in texts if name not in found]
        found.update({name: proof(crate, texts[name]) for name in controls})
    for name, text in texts.items():
        is_right, said = found[name]
        words = "proved" if name in controls else f"refused, {words_of(text)}"
        failed += not is_right
        print(f"{name}: {'' if is_right else 'NOT '}{words}")
        if not is_right:
            print("\n".join([line for line in said.split("\n") if "error" in line or "logic=" in line][:3]))
    if not 0 < len(controls) < len(files):
        failed += 1
        print("a control or a misuse is missing")
    print(f"{len(files) - failed} passed, {failed} failed")
    return 1 if failed else 0


if __name__ == "__main__":
    sys.exit(main())
