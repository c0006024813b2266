#!/usr/bin/env python3
"""Laws: what must hold of whatever van and vanlab write, without an expected value, over inputs that are computed.

An order with each byte changed, and replies at the limits (tools/laws_of_replies.py); lines of a script at random
(tools/laws_of_scripts.py); transmissions at random in each form, and a terminal (tools/laws_of_files.py). fuzz.py has those
that one tries as long as there is time. The last line is 'N passed, M failed', a law each.
"""
import os
import subprocess
import sys
from concurrent.futures import ThreadPoolExecutor

sys.dont_write_bytecode = True
HERE = os.path.dirname(os.path.realpath(__file__))
sys.path.insert(0, f"{HERE}/tools")
import laws_of_files
import laws_of_replies
import laws_of_scripts
from crates import processors

TOP = os.path.dirname(HERE)


def program(name):
    return f"{TOP}/crates/{name}/out/{name}"


def run(name, words, given):
    """What a program writes of an input, on standard error too, and its status. Texts are of bytes, one a character."""
    it = subprocess.run([program(name), *words], input=given.encode("latin-1"), capture_output=True, cwd=TOP, timeout=300, check=False)
    return it.stdout.decode("latin-1"), it.stderr.decode("latin-1"), it.returncode


run.program = program


def main():
    failed = count = 0
    with ThreadPoolExecutor(processors()) as lanes:
        for law, tries in [it for part in (laws_of_replies, laws_of_scripts, laws_of_files) for it in part.laws()]:
            wrong = [at for at, is_well in enumerate(lanes.map(lambda it: it(run), tries), 1) if not is_well]
            count += 1
            if wrong or not tries:
                failed += 1
                print(f"{law}: wrong in {len(wrong)} of {len(tries)} tries, first in try {min(wrong, default=0)}")
    print(f"{count - failed} passed, {failed} failed")
    return 1 if failed else 0


if __name__ == "__main__":
    sys.exit(main())
