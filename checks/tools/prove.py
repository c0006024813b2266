"""Proves all that van and vanlab stand on, then both, and builds them: ./prove.

A crate is proved by `rt lib` once those that it stands on are, several side by side; a program by `rt run`. What is proved
stays, in crates/*/out: who stops this and runs it again goes on where it was. On a terminal a line says how many crates are
done, how many minutes it has taken and what is being proved; elsewhere there is a line for each crate.
"""
import os
import re
import shutil
import signal
import subprocess
import sys
import time

sys.dont_write_bytecode = True
HERE = os.path.dirname(os.path.realpath(__file__))
TOP = os.path.dirname(os.path.dirname(HERE))
sys.path.insert(0, HERE)
from crates import crates_of, processors

PROGRAMS = ("van", "vanlab")
LOGS = f"{TOP}/out/proofs"


def wanted():
    """The programs' crates, and those below them, lowest first."""
    programs = [it for it in crates_of(TOP) if it.name in PROGRAMS]
    return list({it.name: it for program in programs for it in [*program.below(), program]}.values())


def program_of(crate):
    return f"{crate.folder}/out/{crate.name}"


def is_done(crate):
    """Whether it is proved, and no source of it or below is newer."""
    if crate.name not in PROGRAMS:
        return crate.is_built()
    if not os.path.isfile(program_of(crate)):
        return False
    made = os.path.getmtime(program_of(crate))
    folders = [f"{it.folder}/{part}" for it in [crate, *crate.below()] for part in ("src", "specs", "proofs")]
    return all(os.path.getmtime(f"{at}/{name}") < made for it in folders for at, _, names in os.walk(it) for name in names)


class Proofs:
    """What is proved, is being proved, and is left."""

    def __init__(self, crates):
        self.done = {it.name for it in crates if is_done(it)}
        self.left = [it for it in crates if it.name not in self.done]
        self.all, self.running, self.failed, self.began = len(crates), {}, [], time.monotonic()

    def ready(self):
        return [it for it in self.left if all(below.name in self.done for below in it.below())]

    def start(self, crate, jobs):
        words = ["rt", "run", "--jobs", str(jobs), "--", "--version"] if crate.name in PROGRAMS else ["rt", "lib", "--jobs", str(jobs)]
        with open(f"{LOGS}/{crate.name}.log", "w", encoding="utf-8") as log:
            how = {"stdin": subprocess.DEVNULL, "stdout": log, "stderr": log, "start_new_session": True}
            self.running[crate.name] = crate, subprocess.Popen(words, cwd=crate.folder, **how)
        self.left.remove(crate)

    def fill(self, lanes):
        """Starts as many as there are lanes for."""
        ready = self.ready()[: lanes - len(self.running)] if not self.failed else []
        for crate in ready:
            self.start(crate, max(1, lanes // (len(ready) + len(self.running))))

    def gather(self):
        """Takes note of what ended."""
        for name, (crate, running) in list(self.running.items()):
            if running.poll() is None:
                continue
            del self.running[name]
            if running.returncode:
                self.failed.append(name)
                continue
            self.done.add(name)
            if name in PROGRAMS:
                os.utime(program_of(crate))
            if not sys.stderr.isatty():
                self.tell("\n")

    def tell(self, end):
        """Says how far it is."""
        minutes = (time.monotonic() - self.began) / 60
        now = f"; now {', '.join(self.running)}" if self.running else ""
        line = f"prove: {len(self.done)} of {self.all} crates, {minutes:.0f} minutes{now}"
        print(f"\r\033[K{line[:shutil.get_terminal_size().columns - 1]}" if not end else line, end=end, file=sys.stderr, flush=True)

    def run(self, lanes):
        """Proves all, until one fails; returns whether none did."""
        self.fill(lanes)
        while self.running:
            time.sleep(0.5)
            self.gather()
            self.fill(lanes)
            if sys.stderr.isatty():
                self.tell("")
        if sys.stderr.isatty():
            print(file=sys.stderr)
        return not self.failed

    def stop(self):
        for _, running in self.running.values():
            os.killpg(running.pid, signal.SIGTERM)


def reason(name):
    """The last lines of what `rt` said of a crate, or that the disk is full."""
    with open(f"{LOGS}/{name}.log", encoding="utf-8", errors="replace") as log:
        said = log.read()
    if re.search("No space left on device", said):
        return "there is no space left on the disk"
    return "\n".join(["it is not proved; the end of what rt said:", *said.rstrip().split("\n")[-8:]])


def stopped(*_):
    raise KeyboardInterrupt


def main(words):
    if words:
        print("usage: ./prove", file=sys.stderr)
        return 2
    if not shutil.which("rt"):
        print("prove: the Rattle kit's command rt isn't on the path", file=sys.stderr)
        return 1
    signal.signal(signal.SIGTERM, stopped)
    try:
        os.makedirs(LOGS, exist_ok=True)
        proofs = Proofs(wanted())
    except OSError as error:
        print(f"prove: {error.filename}: {error.strerror}", file=sys.stderr)
        return 1
    try:
        well = proofs.run(processors())
    except KeyboardInterrupt:
        proofs.stop()
        print(f"\nprove: stopped after {len(proofs.done)} of {proofs.all} crates; ./prove goes on from here", file=sys.stderr)
        return 130
    for name in proofs.failed:
        print(f"prove: {name}: {reason(name)}", file=sys.stderr)
    if well:
        print(f"prove: {proofs.all} crates are proved, and ./van and ./vanlab run what was built of them", file=sys.stderr)
    return 0 if well else 1


if __name__ == "__main__":
    sys.exit(main(sys.argv[1:]))
