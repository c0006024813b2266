#!/usr/bin/env python3
"""Measures records in tables of a file beside the same statements in C over SQLite: bench/records.py [EVENTS].

Builds what checks/database_file has as a program, proved, over the libraries as they are proved;
bench/records/statements, which runs the statements alone over the toolchain's SQLite, over a file and in memory,
without the look-up in front of an arrival and a deposit; and bench/records/main.c with the C compiler over libsqlite3
(with its header). Tells instructions of an event by valgrind, without the kernel's, and microseconds of the processor,
the kernel's too.
"""
import os
import re
import shutil
import subprocess
import sys
import tempfile

sys.dont_write_bytecode = True
HERE = os.path.dirname(os.path.realpath(__file__))
TOP = os.path.dirname(HERE)
sys.path[:0] = [f"{TOP}/checks", f"{TOP}/checks/tools"]
from crates import Crate, crates_of
from database_file import BELOW, OF_KIT, order, orders

# A kind of event, whose program, and its first line and the line of an event.
KINDS = {
    "submission": ("station", "agree ZZGAMMA PO850", lambda n: "submit " + orders("ZZALPHA", "ZZGAMMA", n, n, order("0001"))),
    "arrival": ("station", "agree ZZGAMMA PO850", lambda n: "arrive " + orders("ZZGAMMA", "ZZALPHA", n, n, order("0001"))),
    "deposit": ("hub", "enrol ZZBETA 1", lambda n: "deposit " + orders("ZZALPHA", "ZZBETA", n, n, order("0001"))),
}


def build(room):
    """Builds the program over the libraries as they are proved; raises where it isn't proved."""
    listed = {it.name: [below.name for below in it.libraries] for it in crates_of(TOP)}
    crate = Crate(TOP, "database_file", {**listed, "database_file": BELOW + OF_KIT})
    crate.folder, crate.root = f"{room}/database_file", "src/main.rt"
    shutil.copytree(f"{TOP}/checks/database_file", crate.folder)
    shutil.copyfile(f"{HERE}/records/main.rattle", f"{crate.folder}/src/main.rattle")
    shutil.copytree(f"{HERE}/records/proofs", f"{crate.folder}/proofs")
    for at, _, names in os.walk(crate.folder):
        for name in names:
            os.rename(f"{at}/{name}", f"{at}/{re.sub('[.]rattle$', '.rt', re.sub('[.]answers$', '.antt', name))}")
    crate.build_below()
    crate.build(f"{room}/program")
    return f"{room}/program"


def build_statements(room):
    """Builds the program of the statements alone, proved."""
    crate = Crate(TOP, "statements", {"statements": OF_KIT})
    crate.folder, crate.root = f"{room}/statements", "src/main.rt"
    os.makedirs(f"{crate.folder}/src")
    shutil.copyfile(f"{HERE}/records/statements/main.rattle", f"{crate.folder}/src/main.rt")
    crate.build(f"{room}/alone")
    return f"{room}/alone"


def ran(words, script, room):
    """Processor seconds of a run over a new file, and what it says on standard error."""
    for name in os.listdir(room):
        if name.startswith("new.db"):
            os.remove(f"{room}/{name}")
    with tempfile.TemporaryFile() as lines, tempfile.TemporaryFile() as said:
        lines.write(script.encode())
        lines.seek(0)
        run = subprocess.Popen(words, stdin=lines, stdout=subprocess.DEVNULL, stderr=said)
        _, status, spent = os.wait4(run.pid, 0)
        run.returncode = os.waitstatus_to_exitcode(status)
        said.seek(0)
        if run.returncode:
            raise RuntimeError(said.read())
        return spent.ru_utime + spent.ru_stime, said.read().decode()


def measured(words, script, events, room):
    """Instructions and microseconds of an event: of a run with so many, less one with none."""
    counter = ["valgrind", "--tool=callgrind", "--callgrind-out-file=/dev/null"]
    counts = [int(re.search(r"Collected : (\d+)", ran([*counter, *words(n)], script(n), room)[1])[1]) for n in (0, events)]
    times = [min(ran(words(n), script(n), room)[0] for _ in range(3)) for n in (0, events)]
    return (counts[1] - counts[0]) / events, (times[1] - times[0]) * 1e6 / events


def main():
    events = int(sys.argv[1]) if len(sys.argv) > 1 else 10_000
    with tempfile.TemporaryDirectory(prefix="records-") as room:
        ours, alone, theirs, file = build(room), build_statements(room), f"{room}/theirs", f"{room}/new.db"
        subprocess.run(["cc", "-O2", "-o", theirs, f"{HERE}/records/main.c", "-lsqlite3"], check=True)
        for kind, (program, first, line) in KINDS.items():
            script = lambda count: "\n".join([first, *map(line, range(1, count + 1))]) + "\n"
            os.environ["RECORDS"] = f"{program} new {file}"
            told = {"ours": measured(lambda _: [ours], script, events, room)}
            for at in (file, ":memory:"):
                for name, its in (("its statements alone", alone), ("C", theirs)):
                    told[name] = measured(lambda count: [its, kind, str(count), at], lambda _: "", events, room)
                for name, (counted, took) in told.items():
                    of_c = f"{counted / told['C'][0]:.2f} and {took / told['C'][1]:.2f} times C"
                    where = "in memory" if at == ":memory:" else "over a file"
                    print(f"{kind}, {name}, {where}: {counted:,.0f} instructions, {took:.0f} us; {of_c}", flush=True)
                told = {}


if __name__ == "__main__":
    main()
