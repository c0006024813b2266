"""The crates of a repository, and checks of edited copies of them, made by the toolchain's `rattle check`.

Where GATE_RUN names the folder of a run of ./test, the statements of libraries are those that its `rt ci` makes, as they
come: a check waits for those that it needs, and half the processors are left to what is proved meanwhile.
"""
import atexit
import contextlib
import os
import re
import shutil
import subprocess
import tempfile
import threading
import time

KIT = os.path.dirname(os.path.dirname(os.path.realpath(shutil.which("rt") or "/")))
PARTS = ("src", "specs", "proofs")
RUN = os.environ.get("GATE_RUN")
ROOM = 4_000_000  # kilobytes that a check wants to find free
RUNNING = set()
STARTING = threading.Condition()
atexit.register(lambda: [it.kill() for it in RUNNING])


class Unproved(Exception):
    """A library that a check stands on isn't proved."""


def text_of(path):
    with open(path, encoding="utf-8") as file:
        return file.read()


class Crate:
    """A crate of the repository whose crates.txt lies in `top`."""

    def __init__(self, top, name, listed):
        self.top, self.name, self.folder = top, name, f"{top}/crates/{name}"
        self.root = f"src/{'main' if os.path.isfile(f'{self.folder}/src/main.rt') else 'lib'}.rt"
        self.of_kit = ["std", *[it for it in listed[name] if it not in listed]]
        self.libraries = [Crate(top, it, listed) for it in listed[name] if it in listed]

    def below(self):
        """The repository's libraries that it stands on, each once, lowest first."""
        found = {}
        for library in self.libraries:
            found.update({it.name: it for it in [*library.below(), library]})
        return list(found.values())

    def statements(self):
        """What a check of a crate above reads of it: made by `rt ci` and by `rt lib`."""
        folder = f"{RUN}/top/crates/{self.name}" if RUN else self.folder
        return f"{folder}/out/rlib/{self.name}.rlib"

    def is_built(self):
        """Whether its statements are there, and no source of it or of a library below is newer."""
        if RUN:
            return os.path.exists(f"{RUN}/proved/{self.name}")
        if not os.path.isfile(f"{self.statements()}/format"):
            return False
        made = os.path.getmtime(f"{self.statements()}/format")
        folders = [f"{it.folder}/{part}" for it in [self, *self.below()] for part in PARTS]
        files = [f"{at}/{name}" for it in folders for at, _, names in os.walk(it) for name in names]
        return all(os.path.getmtime(it) < made for it in files)

    def build_below(self):
        """Builds the statements of the libraries below that lack them, or waits for them; raises where one isn't proved."""
        for library in self.below():
            while RUN and not library.is_built() and not is_ended():
                time.sleep(1)
            if not RUN and not library.is_built():
                subprocess.run(["rt", "lib"], cwd=library.folder, stdout=subprocess.DEVNULL, check=False)
            if not library.is_built():
                raise Unproved(library.name)

    def sources(self):
        """The text of each file of src/, by its path in the crate."""
        paths = [f"{at}/{name}" for at, _, names in os.walk(f"{self.folder}/src") for name in names]
        return {os.path.relpath(it, self.folder): text_of(it) for it in sorted(paths)}

    def command(self, name, jobs=1):
        """The words of a command of rattle over the crate, in its folder."""
        words = [f"{KIT}/bin/rattle", name, "--crate-name", self.name, self.root, "--jobs", str(jobs)]
        words += ["--antt-project", f"{KIT}/rattle/logic/antt-project.json", "--logic-built", f"{KIT}/logic_built"]
        words += ["-L", f"dependency={KIT}/rlibs", "--links", f"{self.name}="]
        for library in self.of_kit:
            words += ["--extern", f"{library}={KIT}/rlibs/{library}.rlib"]
        for library in self.libraries:
            words += ["--extern", f"{library.name}={library.statements()}"]
        for library in self.below():
            words += ["-L", f"dependency={os.path.dirname(library.statements())}"]
        return words

    def build(self, to):
        """Proves the crate, which is a program, and makes it at this path; raises where it is not proved."""
        tools = ["--toolchain", f"{KIT}/toolchain", "-o"]
        words = [*self.command("build", processors()), *tools, f"{to}.o"]
        subprocess.run(words, cwd=self.folder, stdout=subprocess.DEVNULL, check=True)
        words = [f"{KIT}/bin/rattle-link", "--target", "x86_64-unknown-linux-gnu", *tools, to, f"{to}.o"]
        words += [f"{KIT}/c/libos_c.a", f"{KIT}/c/liblibc_c.a"]
        subprocess.run(words, stderr=subprocess.DEVNULL, check=True)

    def check(self, texts, only=()):
        """Checks a copy with these texts, by path, in place of its own, from nothing; of some functions alone, where
        they are named. Returns the exit status and what was said."""
        return self.timed_check(texts, only)[:2]

    def timed_check(self, texts, only=()):
        """The same, and the processor seconds that it took."""
        words = self.command("check")
        for name in only:
            words += ["--only", name]
        with tempfile.TemporaryDirectory(prefix="edited-") as room, tempfile.TemporaryFile() as said:
            for part in PARTS:
                if os.path.isdir(f"{self.folder}/{part}"):
                    shutil.copytree(f"{self.folder}/{part}", f"{room}/{part}")
            for path, text in texts.items():
                os.makedirs(os.path.dirname(f"{room}/{path}"), exist_ok=True)
                with open(f"{room}/{path}", "w", encoding="utf-8") as file:
                    file.write(text)
            with started(words, cwd=room, stdin=subprocess.DEVNULL, stdout=said, stderr=said) as running:
                _, status, spent = os.wait4(running.pid, 0)
                running.returncode = os.waitstatus_to_exitcode(status)
            said.seek(0)
            return running.returncode, said.read().decode(errors="replace"), spent.ru_utime + spent.ru_stime


def crates_of(top):
    """The crates that crates.txt lists, in its order."""
    listed = {}
    for line in text_of(f"{top}/crates.txt").split("\n"):
        found = re.match(r"(\w+)[^:#]*:([^#]*)", line)
        if found:
            listed[found[1]] = found[2].split()
    return [Crate(top, name, listed) for name in listed]


def free_memory():
    """How many kilobytes are free."""
    return int(re.search(r"MemAvailable:\s+(\d+)", text_of("/proc/meminfo"))[1])


def processors():
    """How many checks may run side by side: one a processor, and one for each 4 GB of free memory."""
    number = os.environ.get("RT_JOBS", "")
    if number.isdigit() and int(number):
        return int(number)
    return max(1, min(len(os.sched_getaffinity(0)), free_memory() // ROOM))


def is_ended():
    """Whether the `rt ci` of this run of ./test has ended."""
    return os.path.exists(f"{RUN}/proved/.ended")


def may_start(lanes):
    """Whether one more check may run now: the processors and the memory for it are there, or nothing else runs."""
    most = max(1, lanes // 2) if RUN and not is_ended() else lanes
    return not RUNNING or len(RUNNING) < most and free_memory() > ROOM


@contextlib.contextmanager
def started(words, lanes=processors(), **how):
    """A check that runs, once there is room for it."""
    with STARTING:
        while not may_start(lanes):
            STARTING.wait(1)
        running = subprocess.Popen(words, **how)
        RUNNING.add(running)
    try:
        yield running
    finally:
        with STARTING:
            RUNNING.discard(running)
            STARTING.notify_all()
