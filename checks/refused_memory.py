#!/usr/bin/env python3
"""Refuses each allocation of a run in turn, of the program and of the crates' tests, and looks at the answer.

usage: refused_memory.py [program | tests [TESTS]]

With a word it looks at the program alone, or at the tests alone.

The program has to end as its help says of a run that stopped: status 1, and one sentence on standard error that says so; what
it wrote are whole replies, from the first on. A test has to pass, or to end by the error of want of memory. All else is a
failure: another answer, a torn reply, a crash, a run without end. The tests of the modules memory have calls made again where
they were refused, and the second call has to succeed.

Then each allocation above a limit is refused, and all has to go on as if none were: no call takes much memory to spare, which
no contract says. An order is answered with pieces of at most 64 KiB, and the ledger and the register make room for an
interchange, and for a thousand, with pieces of at most 4 MiB.

`rt try --fail-alloc N` refuses one allocation too, but builds for each N, which takes a minute. So this runs what was built,
with a library in front of malloc and realloc that refuses the one (tools/refuse_memory.c). The program is the proved one. The
tests are built unproved and without LLVM's optimizations, which leave allocations out; unless they stand at TESTS, as
`tests.py --unoptimized TESTS` makes them, they are built first.

Not tried: two refusals in one run; the tests of interchanges and judgements, whose calls the program and the other tests make,
and those of whole transmissions, which make the program's; those of a station's orders, limits and journeys, of a network and
of scripts, which assert what such calls answer or make thousands of allocations; records in SQLite tables, for the same
reasons; control numbers, which take no memory; and the tests in ASSERT_MEMORY. The last line is 'N passed, M failed'.
"""
import collections
import os
import re
import subprocess
import sys
import tempfile
from concurrent.futures import ThreadPoolExecutor

sys.dont_write_bytecode = True
HERE = os.path.dirname(os.path.realpath(__file__))
sys.path.insert(0, f"{HERE}/tools")
import preload
from crates import processors
from tally import Tally

TOP = os.path.dirname(HERE)
PROGRAM, SECONDS = f"{TOP}/crates/vanlab/out/vanlab", 20
# These tests assert what a call which allocates answers, or end by another word than its own, so they fail where it is refused.
ASSERT_MEMORY = """
answers::command::the_first_wrong_word_is_named
ledgers::sending::after_a_restart_all_that_is_open_is_due
ledgers::sending::an_interchange_is_sent_at_its_ticks
ledgers::sending::what_is_loaded_is_due_and_is_sent_by_the_schedule
networks::hub::a_hub_that_is_closed_goes_on_where_it_was
networks::station_arrivals::a_refusal_needs_no_group_number
networks::station_arrivals::nothing_is_filed_where_no_number_is_left_for_its_reply
""".split()
# The modules whose tests are swept, and those whose tests take little memory at once.
SWEPT = {
    "answers": "answer command memory need reply writing",
    "ledgers": "memory plan register settling",
    "networks": "hub hub_records station_answers station_arrivals station_ticks",
    "nodes": "memory",
}
SPARING = {"ledgers": "large memory register sending"}
OF_PROGRAM = re.compile(r"(error: there is not enough memory|[Ee]rror: out of memory|Error: memory allocation failed)\n")
# How a test ends by want of memory: by the error that `?` hands on, or by `expect`; Write is a vector's as a writer.
OF_TESTS = {
    101: re.compile(r"error: (AllocError|AllocFailed \{ \.\. \}|Memory|Write)|no memory"),
    134: re.compile(r"[a-z ]+: (Memory|AllocError|AllocFailed \{ \.\. \})"),
}
Ran = collections.namedtuple("Ran", "status out err refused")


class Sweeps(Tally):
    """Runs with refused allocations, and what passed and failed of them."""

    def __init__(self, library):
        super().__init__("refused memory")
        self.library = library

    def run(self, words, given=b"", **limits):
        """What came of a run with this refused; the status is -1 where it didn't end."""
        ours, its = os.pipe()
        named = [f"LD_PRELOAD={self.library}", *[f"{name}={it}" for name, it in limits.items()]]
        how = {"input": given, "capture_output": True, "timeout": SECONDS, "check": False, "pass_fds": [its]}
        try:
            # descriptor 9 is where the library writes
            ran = subprocess.run(["bash", "-c", f'ulimit -c 0; exec 9>&{its} env "$@"', "bash", *named, *words], **how)
        except subprocess.TimeoutExpired:
            return Ran(-1, b"", b"it didn't end", True)
        finally:
            os.close(its)
            refused = os.read(ours, 1)
            os.close(ours)
        status = 128 - ran.returncode if ran.returncode < 0 else ran.returncode
        return Ran(status, ran.stdout, ran.stderr, bool(refused))

    def sweep(self, name, words, given, wrong):
        """Refuses each allocation of a run, and tells once of each thing that `wrong` says of one; returns all runs."""
        found, runs, number = {}, [], 1
        while (ran := self.run(words, given, REFUSED_ALLOCATION=number)).refused:
            runs.append(ran)
            said = wrong(ran)
            if said:
                found.setdefault(said, []).append(number)
            if ran.status == -1:
                break
            number += 1
        told = [f"{said} (at allocation {numbers[0]}, and {len(numbers)} in all)" for said, numbers in found.items()]
        self.want(f"{name}: {'; '.join(told)}", not found)
        return runs, ran

    def spares(self, most, name, words, given=b""):
        """Wants a run to make no larger allocation."""
        ran = self.run(words, given, MOST_ALLOCATED=most)
        self.want(f"{name}: more than {most} bytes are taken at once", not ran.refused)
        self.want(f"{name}: status {ran.status} where nothing is refused", ran.refused or ran.status == 0)


def first_line(ran):
    return next((it for it in ran.err.decode(errors="replace").split("\n") if it), "")


# --- The program ---------------------------------------------------------------------------------------------------


def words_of_program():
    with open(f"{TOP}/crates/vanlab/args", encoding="utf-8") as file:
        return [PROGRAM, *file.read().splitlines()]


def is_whole(out, whole):
    """Whether what was written is the front of the whole output, and ends behind a reply."""
    return not out or whole.startswith(out) and re.fullmatch(rb"IEA\*[01]\*[0-9]{9}~", out[-16:]) is not None


def wrong_of(ran, ended, is_front):
    """What is wrong of a run of the program in which an allocation was refused."""
    if ran[:3] == ended[:3]:
        return ""
    if ran.status != 1:
        return f"status {ran.status}, {first_line(ran)}"
    if not OF_PROGRAM.fullmatch(ran.err.decode(errors="replace")):
        return f"said {first_line(ran)}"
    return "" if is_front(ran.out) else f"printed {ran.out[-60:]!r}"


def look_at_answers(sweeps):
    words = words_of_program()
    with open(f"{TOP}/crates/vanlab/stdin", "rb") as file:
        order = file.read()
    # An order, one with a wrong count, one with an element in error, a refused interchange, an unreadable one and a refused
    # group, sixty times: the replies to the first of them are written before the last are made.
    changes = ((b"SE*4", b"SE*5"), (b"BEG*00", b"BEG*000"), (b"IEA*1", b"IEA*2"), (b"*U*", b"*UU"), (b"GS*PO", b"GS*IN"))
    long = b"".join([order, *[order.replace(*it, 1) for it in changes]]) * 60
    sweeps.spares(65536, "an order", words, order)
    for name, given in (("an order", order), ("a long transmission", long)):
        ended = sweeps.run(words, given)
        runs, _ = sweeps.sweep(name, words, given, lambda ran: wrong_of(ran, ended, lambda out: is_whole(out, ended.out)))
        sweeps.want(f"{name}: only {len(runs)} allocations were refused", len(runs) > 99)
        partly = sum(bool(ran.out) and ran.status == 1 for ran in runs)
        sweeps.want(f"{name}: no run stopped behind a reply that was written", partly or given == order)


def look_at_script(sweeps, path):
    """A run stops where an allocation is refused: what it printed is the front of all that it prints, and it says so."""
    with open(f"{TOP}/{path}", "rb") as file:
        given = file.read()
    words = [PROGRAM, "script"]
    ended = sweeps.run(words, given)
    runs, _ = sweeps.sweep(path, words, given, lambda ran: wrong_of(ran, ended, ended.out.startswith))
    stopped = sum(ran.status == 1 for ran in runs)
    sweeps.want(f"{path}: only {stopped} runs stopped", stopped > 100)


def look_at_program(sweeps):
    if not os.path.isfile(PROGRAM):
        return sweeps.want(f"{PROGRAM} isn't built", False)
    look_at_answers(sweeps)
    for path in ("samples/kept_reply.script", "samples/lost_twice.script"):
        look_at_script(sweeps, path)
    return None


# --- The crates ----------------------------------------------------------------------------------------------------


def wrong_of_test(ran):
    """What is wrong of a test in which an allocation was refused."""
    is_refusal = ran.status in OF_TESTS and OF_TESTS[ran.status].fullmatch(first_line(ran))
    return "" if ran.status == 0 or is_refusal else f"status {ran.status}, {first_line(ran)}"


def names_in(tests, modules):
    """The tests of these modules of a part, by their modules."""
    listed = subprocess.run([tests, "--list"], capture_output=True, text=True, check=True).stdout
    found = re.findall(r"^(\S+): test$", listed, re.M)
    return {(part, module): [it for it in found if it.startswith(f"{part}::{module}::")]
            for part, names in modules.items() for module in names.split()}


def sweep_test(sweeps, tests, name):
    """Sweeps a test; returns how many allocations were refused."""
    runs, last = sweeps.sweep(name, [tests, name], b"", wrong_of_test)
    sweeps.want(f"{name}: status {last.status} where nothing is refused", last.status == 0)
    if "::memory::" in name:
        sweeps.want(f"{name}: no refused call was made again", any(ran.status == 0 for ran in runs))
    return len(runs)


def look_at_tests(sweeps, tests):
    with ThreadPoolExecutor(processors()) as lanes:
        for (part, module), names in names_in(tests, SWEPT).items():
            swept = [it for it in names if it not in ASSERT_MEMORY]
            refused = sum(lanes.map(lambda name: sweep_test(sweeps, tests, name), swept))
            sweeps.want(f"{part} {module}: no allocation was refused", refused)
        for (part, module), names in names_in(tests, SPARING).items():
            sweeps.want(f"{part} {module}: no test shows what is taken at once", names)
            for name in names:
                sweeps.spares(4194304, name, [tests, name])


def main(words):
    if words[:1] not in ([], ["program"], ["tests"]) or len(words) > 1 + (words[:1] == ["tests"]):
        print("usage: refused_memory.py [program | tests [TESTS]]", file=sys.stderr)
        return 2
    with tempfile.TemporaryDirectory(prefix="refused-") as room:
        library = preload.library("refuse_memory", room)
        sweeps = Sweeps(library)
        sweeps.want("the library that refuses can't be built", library)
        if library and words != ["program"] and words[:1] != ["program"]:
            tests = words[1] if len(words) > 1 else f"{room}/tests"
            built = len(words) > 1 or subprocess.run([f"{HERE}/tests.py", "--unoptimized", tests], check=False).returncode == 0
            sweeps.want("the tests can't be built", built)
            if built:
                look_at_tests(sweeps, tests)
        if library and words[:1] != ["tests"]:
            look_at_program(sweeps)
    return sweeps.end()


if __name__ == "__main__":
    sys.exit(main(sys.argv[1:]))
