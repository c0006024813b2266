"""The whole test: ./test, ./test --all, ./test --quick.

./test works in a copy of the repository without the crate proved_callers. `rt ci` proves every crate there, tries wrong bodies of
must-fail/ and runs the programs; what an earlier run on this machine passed, and what has not changed since, it takes from there.
Of the wrong bodies ./test draws BODIES: first those of crates that differ from the branch main or stand on one that does, then
others. The text of the crates decides which: so a second run takes them from the first. --all tries every one.

Beside it, at a lower priority, run the tests and the scripts that need no proved program (BESIDE); behind it, side by side, those
that do (BEHIND). --all also proves proved_callers, runs the tests with the address sanitizer, kills mailboxes more often, and
fails where a wrong body shows nothing; ./test tells of such a body and goes on.
--quick proves next to nothing: quick.py says what it does.

A script of checks/ that isn't listed here, or can't be run, is a failure. What failed is told where it was tried, and once more
at the end, with the last lines that say so. The last line is 'N passed, M failed', of all that was tried, and where wrong
bodies weren't drawn ', K skipped'.
"""
import glob
import os
import random
import re
import shutil
import subprocess
import sys
import tempfile
import threading
import time
from concurrent.futures import ThreadPoolExecutor

sys.dont_write_bytecode = True
HERE = os.path.dirname(os.path.realpath(__file__))
sys.path.insert(0, HERE)
from crates import crates_of, processors

TOP = os.path.dirname(os.path.dirname(HERE))
# Each entry is a script with its words; {run} is the folder of this run. ALL says what takes its place in --all.
BESIDE = [
    "sources.py",
    "documents.py",
    "tests.py --native --keep {run}/tests",
    "refused_memory.py tests",
    "database_file.py",
    "linear_values.py",
]
BEHIND = [
    "refused_memory.py program",
    "mailbox.py",
    "rows.py",
    "laws.py",
    "examples.py",
    "fuzz.py",
    "launcher.sh",
    "network.py",
    "recipes.py",
    "package.py",
    "power.py",
    "strangers.py",
    "damage.py",
]
ALL = {"tests.py --native --keep {run}/tests": "tests.py --keep {run}/tests", "mailbox.py": "mailbox.py --kills 1000 --orders 2000", "damage.py": "damage.py --tries 1000"}
# What the others use.
NOT_RUN = ["quick.py", "pages.py"]
# The crate that is proved in --all alone.
CALLERS = "proved_callers"
# How many wrong bodies ./test tries.
BODIES = 120
# The first crates wait for one another, and are proved by runs of their own: as far as the one, then the other.
FIRST = ["x12_numbers", "x12_acks"]
PROGRAMS = ("van", "vanlab")
COUNTS = re.compile(r"(\d+) passed, (\d+) failed")
# A library is there once it is proved, or given by an earlier run that proved the same files on this machine.
PROVED = re.compile(r"rt: (\w+) (?:proved|is kept: .*)")
# A wrong body that shows nothing: `rt ci` says so, and fails nothing.
SHOWS_NOTHING = re.compile(r"BAD EDIT: |only because a proof file names what the edit took away")
# Lines that tell of no failure, and how many of the others are told once more.
WELL, AGAIN = re.compile(r": refused\b|^logic=proved|^rt: \w+ (?:proved|is kept)"), 20
PRINTING = threading.Lock()


def say(text):
    with PRINTING:
        print(text, flush=True)


def ignored(top):
    """What a copy leaves out: what was made."""

    def names(folder, found):
        at = os.path.relpath(folder, top)
        return [it for it in found if at == "." and it in (".git", "out") or os.path.dirname(at) == "crates" and it == "out"]

    return names


def leave_callers_out(top):
    """Takes proved_callers out of a copy."""
    shutil.rmtree(f"{top}/crates/{CALLERS}")
    with open(f"{top}/crates.txt", "r+", encoding="utf-8") as file:
        kept = [line for line in file if not line.startswith(f"{CALLERS}:")]
        file.seek(0)
        file.truncate()
        file.writelines(kept)


def changed_crates():
    """The crates that differ from the branch main, and those that stand on one that does."""
    words = ["git", "diff", "--name-only", "main", "--", "crates"]
    said = subprocess.run(words, cwd=TOP, capture_output=True, text=True, check=False).stdout
    changed = set(re.findall(r"^crates/(\w+)/(?:src|specs|proofs|must-fail)/", said, re.M))
    return {it.name for it in crates_of(TOP) if changed & {it.name, *[below.name for below in it.below()]}}


def leave_bodies_out(top):
    """Takes the wrong bodies that aren't drawn out of a copy; returns how many."""
    bodies, changed = sorted(glob.glob(f"{top}/crates/*/must-fail/*.edit")), changed_crates()
    tree = subprocess.run(["git", "rev-parse", "HEAD:crates"], cwd=TOP, capture_output=True, text=True, check=False).stdout
    random.Random(tree).shuffle(bodies)
    bodies.sort(key=lambda it: it.split("/")[-3] not in changed)
    for path in bodies[BODIES:]:
        os.remove(path)
    return len(bodies[BODIES:])


def copies(run, is_all):
    """Copies the repository twice: whole, and as it is proved. Returns how many wrong bodies were left out."""
    for name in ("whole", "top"):
        shutil.copytree(TOP, f"{run}/{name}", ignore=ignored(TOP))
    if not is_all:
        leave_callers_out(f"{run}/top")
    os.makedirs(f"{run}/top/.git")
    os.makedirs(f"{run}/proved")
    return 0 if is_all else leave_bodies_out(f"{run}/top")


def lanes_of_proofs(number):
    """How many proofs run side by side on so many processors, where RT_JOBS doesn't say: of more than two, one less. The
    longest chain of crates decides when they end, and each is dearer by what runs beside it."""
    return number - 1 if number > 2 and not os.environ.get("RT_JOBS") else number


class Gate:
    """A run: where it works, and what was counted so far."""

    def __init__(self, run, is_all, skipped):
        self.run, self.is_all, self.skipped, self.counts = run, is_all, skipped, [0, 0]
        self.failures, self.began, self.proved = [], time.monotonic(), 0

    def count(self, name, said, status):
        """Adds what the last of a command's lines says, or else its status. What fails without a count is one failure."""
        found = COUNTS.fullmatch(said[-1])
        passed, failed = map(int, found.groups()) if found else (int(status == 0), 0)
        failed = failed or int(status != 0)
        if failed:
            say(f"failed: {name}")
        with PRINTING:
            self.counts = [self.counts[0] + passed, self.counts[1] + failed]
            if failed:
                lines = [it for it in said if it.strip() and not WELL.search(it)]
                self.failures += [f"failed: {name}, status {status}", *[f"  {it[:300]}" for it in lines[-AGAIN:]]]

    def start(self, folder, words, nice, **more):
        """Starts a command in a folder, with these variables more."""
        how = {"stdin": subprocess.DEVNULL, "stdout": subprocess.PIPE, "stderr": subprocess.STDOUT, "text": True, "errors": "replace"}
        its = {**os.environ, "GATE_RUN": self.run, **more}
        return subprocess.Popen([*["nice", "-n", "10"] * nice, *words], cwd=folder, env=its, **how)

    def run_ci(self, words, **more):
        """Runs `rt ci`, tells what it says as it says it, and notes each library that is there then: with names it works in a
        copy. Returns its lines and its status."""
        running, said = self.start(f"{self.run}/top", ["rt", "ci", *words], 0, **more), [""]
        for line in running.stdout:
            said.append(line.rstrip("\n"))
            found = PROVED.fullmatch(said[-1])
            if found and not words:
                open(f"{self.run}/proved/{found[1]}", "w", encoding="utf-8").close()
            say(said[-1])
        return said, running.wait()

    def prove(self, lanes):
        """Proves all crates, and has each wrong body refused.

        RT_JOBS says how many proofs run side by side: by itself `rt ci` wants four times the memory that they take. But it
        gives a proof one processor then, and most of them idle while the first crates wait for one another: so these are
        proved without it, where there are more than two lanes and the kit keeps what it proved for the next run."""
        for name in FIRST if lanes > 2 and not os.environ.get("RT_JOBS") else []:
            said, _ = self.run_ci([name])
            if not any(line.endswith("and that is kept. This is not the gate: run rt ci with no names") for line in said):
                break
        said, status = self.run_ci([], RT_JOBS=str(lanes))
        self.count("rt ci", said, status)
        weak = [it for it in said if SHOWS_NOTHING.search(it)]
        if weak and self.is_all:
            self.count("wrong bodies that show nothing", [*weak, f"0 passed, {len(weak)} failed"], 1)
        self.proved = time.monotonic()
        open(f"{self.run}/proved/.ended", "w", encoding="utf-8").close()

    def check(self, entry, folder, nice):
        """Runs a script of checks/, and tells what it said once it has ended."""
        name, *words = (ALL.get(entry, entry) if self.is_all else entry).format(run=self.run).split()
        running = self.start(folder, [f"checks/{name}", *words], nice)
        said = running.communicate()[0].rstrip("\n")
        say(f"== {entry}\n{said}")
        self.count(entry, said.split("\n"), running.returncode)

    def check_programs(self, entry):
        """Runs a script over the proved programs, where they are there."""
        if all(os.path.isfile(f"{self.run}/top/crates/{it}/out/{it}") for it in PROGRAMS):
            self.check(entry, f"{self.run}/top", 0)
        else:
            self.count(f"{entry}, since the programs aren't proved", [""], 1)

    def check_beside(self):
        for entry in BESIDE:
            self.check(entry, f"{self.run}/whole", 1)

    def check_list(self):
        """Wants each script of checks/ to be listed, and to be one that can be run."""
        listed = {it.split()[0] for it in [*BESIDE, *BEHIND]} | set(NOT_RUN)
        there = {it for it in os.listdir(f"{TOP}/checks") if os.path.isfile(f"{TOP}/checks/{it}") and not it.endswith(".txt")}
        for name in sorted(listed ^ there):
            self.count(f"checks/{name}, which isn't in the list of what ./test runs, or isn't there", [""], 1)
        for name in sorted(listed & there):
            if not os.access(f"{TOP}/checks/{name}", os.X_OK):
                self.count(f"checks/{name}, which may not be executed", [""], 1)

    def whole(self, processors):
        """All of it, on so many processors; returns whether nothing failed."""
        self.check_list()
        beside = threading.Thread(target=self.check_beside)
        beside.start()
        self.prove(lanes_of_proofs(processors))
        with ThreadPoolExecutor(processors) as behind:
            list(behind.map(self.check_programs, BEHIND))
        beside.join()
        return not self.counts[1]

    def leave(self):
        """Leaves the proved programs for ./van and ./vanlab."""
        for name in PROGRAMS:
            os.makedirs(f"{TOP}/crates/{name}/out", exist_ok=True)
            shutil.copy2(f"{self.run}/top/crates/{name}/out/{name}", f"{TOP}/crates/{name}/out/{name}")

    def tell(self):
        """Tells how long it took, what failed, and the counts."""
        ended, proved = ((it - self.began) / 60 for it in (time.monotonic(), self.proved))
        print(f"  {ended:.0f} minutes by the clock, {proved:.0f} of them until `rt ci` ended")
        print("\n".join(self.failures), end="\n" * bool(self.failures))
        if self.skipped:
            print(f"{self.skipped} wrong bodies weren't drawn: ./test --all tries every one")
        print(f"{self.counts[0]} passed, {self.counts[1]} failed" + (f", {self.skipped} skipped" if self.skipped else ""))


def main(words):
    if words not in ([], ["--all"], ["--quick"]):
        print("usage: ./test [--all | --quick]", file=sys.stderr)
        return 2
    if words == ["--quick"]:
        return subprocess.run([f"{TOP}/checks/quick.py"], check=False).returncode
    with tempfile.TemporaryDirectory(prefix="gate-") as run:
        skipped = copies(run, words == ["--all"])
        gate = Gate(run, words == ["--all"], skipped)
        if gate.whole(processors()):
            gate.leave()
        gate.tell()
        return 1 if gate.counts[1] else 0


if __name__ == "__main__":
    sys.exit(main(sys.argv[1:]))
