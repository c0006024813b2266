"""Builds a program unproved, for ./van and ./vanlab, and says so in a sentence on standard error.

usage: build.py van | vanlab | files

`files` is van without SQLite, for the commands of files: half of the time that van takes to build is SQLite's. It is made of
the same sources, with RECORDS in place of crates/van/src/records.rt, and says the same help.

A program is built beside its place and then moved there: a build that is stopped leaves none. Of two builds at once the
second waits for the first, and takes what it made. All stands in out/unproved/ at the top of the repository.
"""
import errno
import fcntl
import glob
import os
import shutil
import signal
import sys
import tempfile
import threading
import time

sys.dont_write_bytecode = True
HERE = os.path.dirname(os.path.realpath(__file__))
TOP = os.path.dirname(os.path.dirname(HERE))
sys.path.insert(0, HERE)
from crates import crates_of
from unproved import Unbuilt, build_program

ROOM = f"{TOP}/out/unproved"
OF_SQLITE = ("x12_records", "sqlite")
RECORDS = """//! In place of records in databases: this build has none.

use clap::ArgMatches;
use std::process::ExitCode;
use x12_mailbox::Command;

/// Says that this build runs no command of mailboxes.
pub fn run(rt: &HostRuntime, _: Command, _: &ArgMatches<'_>) -> ExitCode {
    let _ = eprintln!(rt; "van: this build is for files alone, and keeps no mailboxes");
    ExitCode::from(1)
}
"""


class Stopped(Exception):
    """Why there is no program; in a sentence."""


def crate_of(program, room):
    """The crate of a program; of `files`, a copy in this folder."""
    crate = next(it for it in crates_of(TOP) if it.name == ("van" if program == "files" else program))
    if program == "files":
        shutil.copytree(f"{crate.folder}/src", f"{room}/src")
        with open(f"{room}/src/records.rt", "w", encoding="utf-8") as file:
            file.write(RECORDS)
        crate.folder = room
        crate.libraries = [it for it in crate.libraries if it.name not in OF_SQLITE]
        crate.of_kit = [it for it in crate.of_kit if it not in OF_SQLITE]
    return crate


def is_current(path):
    """Whether the program is there, and no source is newer."""
    if not os.path.exists(path):
        return False
    sources = [f"{TOP}/crates.txt", *glob.iglob(f"{TOP}/crates/*/src/**/*.rt", recursive=True)]
    return max(os.path.getmtime(it) for it in sources) <= os.path.getmtime(path)


def make(program, to):
    """Builds the program at this path. Its time is that of its beginning: a source that changes meanwhile is newer."""
    began = time.time()
    with tempfile.TemporaryDirectory(prefix="build-") as room:
        build_program(crate_of(program, room), f"{room}/program")
        shutil.move(f"{room}/program", f"{to}.part")
    os.utime(f"{to}.part", (began, began))
    os.replace(f"{to}.part", to)


def show(name, ended):
    """On a terminal a line says how long the build has taken so far, until it has ended."""
    began = time.monotonic()
    while sys.stderr.isatty() and not ended.wait(1):
        print(f"\r{name}: building it, {time.monotonic() - began:.0f} s ", end="", file=sys.stderr, flush=True)
    if sys.stderr.isatty():
        print("\r\033[K", end="", file=sys.stderr, flush=True)


def locked(name, program):
    """A lock of this program's builds, which ends with the process."""
    os.makedirs(ROOM, exist_ok=True)
    lock = open(f"{ROOM}/{program}.lock", "w", encoding="utf-8")
    try:
        fcntl.flock(lock, fcntl.LOCK_EX | fcntl.LOCK_NB)
    except BlockingIOError:
        print(f"{name}: another call is building it, and this one waits", file=sys.stderr)
        fcntl.flock(lock, fcntl.LOCK_EX)
    return lock


def build(name, program):
    """Builds the program, unless another call did so meanwhile."""
    to, began, ended = f"{ROOM}/{program}", time.time(), threading.Event()
    with locked(name, program):
        if is_current(to):
            return
        line = threading.Thread(target=show, args=(name, ended), daemon=True)
        line.start()
        try:
            make(program, to)
        finally:
            ended.set()
            line.join()
    took = time.time() - began
    print(f"{name}: this program isn't proved: it was built in {took:.0f} seconds, and ./prove proves and builds both", file=sys.stderr)


def why(error):
    """Why the system refused, in a sentence."""
    if error.errno == errno.ENOSPC:
        return "there is no space left on the disk"
    if error.errno in (errno.EROFS, errno.EACCES, errno.EPERM):
        return f"{error.filename or ROOM} can't be written: copy the clone to where it can"
    return f"{error.filename or ROOM}: {error.strerror}"


def said(name, program):
    """Builds the program; what went wrong, in a sentence."""
    if not shutil.which("rt"):
        return "the Rattle kit's command rt isn't on the path"
    try:
        build(name, program)
    except KeyboardInterrupt:
        return "the build was stopped"
    except Unbuilt as error:
        lines = str(error).strip().split("\n")
        full = any("No space left on device" in it for it in lines)
        return "there is no space left on the disk" if full else "; ".join([lines[0], *lines[1:][-3:]])
    except OSError as error:
        return why(error)
    return None


def stop(*_):
    raise KeyboardInterrupt


def main(words):
    if len(words) != 1 or words[0] not in ("van", "vanlab", "files"):
        print(__doc__.split("\n\n")[1], file=sys.stderr)
        return 2
    for it in (signal.SIGTERM, signal.SIGHUP):
        signal.signal(it, stop)
    name = "vanlab" if words == ["vanlab"] else "van"
    wrong = said(name, words[0])
    if wrong:
        print(f"{name}: it can't be built: {wrong}", file=sys.stderr)
    return 1 if wrong else 0


if __name__ == "__main__":
    sys.exit(main(sys.argv[1:]))
