"""Folders in which the program of mailboxes is run, and what is made there: networks, orders, and what is taken away."""
import os
import re
import shutil
import subprocess

from tally import Tally

# Dates and times of day of the clock, which differ in each run.
CLOCK = re.compile(r"\b\d{6} \d{4}\b")
# The nodes of one hub, and of two connected hubs, in the order of an order's way there and back.
ONE_HUB = ("hub", "beta", "hub", "alpha")
THERE_AND_BACK = ("hub1", "hub2", "beta", "hub2", "hub1", "alpha")


class Place:
    """A folder in which commands are run, with the program as ./van in it."""

    def __init__(self, program, room, name):
        self.folder = f"{room}/{name}"
        os.makedirs(self.folder)
        os.symlink(program, f"{self.folder}/van")

    def run(self, command, **more):
        """The status of a command of the shell, and what it wrote."""
        how = {"stdin": subprocess.DEVNULL, "stdout": subprocess.PIPE, "stderr": subprocess.PIPE, "text": True, "errors": "replace"}
        ran = subprocess.run(["bash", "-c", command], cwd=self.folder, timeout=300, check=False, **how, **more)
        return ran.returncode, ran.stdout, ran.stderr

    def start(self, words, **more):
        """The program, running."""
        how = {"stdin": subprocess.DEVNULL, "stdout": subprocess.PIPE, "stderr": subprocess.PIPE}
        return subprocess.Popen([f"{self.folder}/van", *words.split()], cwd=self.folder, **how, **more)

    def path(self, name):
        return f"{self.folder}/{name}"

    def names(self, folder):
        """The files of a folder that are there, in order."""
        return sorted(it for it in os.listdir(self.path(folder)) if not it.startswith("."))

    def write(self, name, text):
        with open(self.path(name), "w", encoding="latin-1") as file:
            file.write(text)


class Mailboxes(Tally):
    """What passed and what failed of commands of mailboxes."""

    def row(self, place, name, command, wanted):
        """Runs a command, and wants its status, output and sentences."""
        found = place.run(command)
        is_so = all(CLOCK.sub("", str(a)) == CLOCK.sub("", str(b)) for a, b in zip(found, wanted))
        self.want(name, is_so, f"{command}\n  wanted {wanted!r}\n  found  {found!r}")

    def ended_well(self, place, name, lines):
        """Wants that `reconcile` of alpha and beta has so many lines, and each says that a set was accepted."""
        status, out, err = place.run("./van reconcile alpha beta")
        accepted = len(re.findall(r"accepted +1 ok$", out, re.M))
        is_so = status == 0 and accepted == lines == len(out.splitlines())
        self.want(name, is_so, f"status {status}, {accepted} of {lines} accepted: {out[-600:]} {err}")
        for who in ("alpha", "beta"):
            status, out, err = place.run(f"./van verify {who}")
            self.want(name, status == 0, f"verify {who}: status {status}, {out} {err}")


def order(sender, receiver, icn, number="PO-1"):
    """An interchange with one order."""
    isa = f"ISA*00*          *00*          *ZZ*{sender:<15}*ZZ*{receiver:<15}*250102*0930*U*00401*{icn:09}*0*P*:~"
    told = f"ST*850*0001~BEG*00*SA*{number}**20250102~PO1*1*10*EA*5~SE*4*0001~"
    return f"{isa}GS*PO*{sender}*{receiver}*20250102*0930*{icn}*X*004010~{told}GE*1*{icn}~IEA*1*{icn:09}~"


def network(place, at=True, umask="077"):
    """A hub, and two stations at it, of which beta takes orders of alpha."""
    link = " --at hub" if at else ""
    return place.run(f"""
        set -e; umask {umask}
        ./van init hub --me ZZHUB --is-hub && ./van enrol hub ZZALPHA && ./van enrol hub ZZBETA
        ./van init alpha --me ZZALPHA --hub ZZHUB{link} && ./van init beta --me ZZBETA --hub ZZHUB{link}
        ./van agree beta ZZALPHA PO850""")


def two_hubs(place, at=True):
    """Two connected hubs, alpha at the one and beta at the other, which takes orders of alpha."""
    beyond = ("--at hub2", "--at hub1") if at else ("--hub ZZHUB2", "--hub ZZHUB1")
    return place.run(f"""
        set -e
        ./van init hub1 --me ZZHUB1 --is-hub && ./van init hub2 --me ZZHUB2 --is-hub
        ./van enrol hub1 ZZALPHA && ./van enrol hub1 ZZBETA {beyond[0]}
        ./van enrol hub2 ZZBETA && ./van enrol hub2 ZZALPHA {beyond[1]}
        ./van init alpha --me ZZALPHA --hub ZZHUB1 --other-hub ZZHUB2 --at hub1
        ./van init beta --me ZZBETA --hub ZZHUB2 --other-hub ZZHUB1 --at hub2
        ./van agree beta ZZALPHA PO850""")


def finish(place, nodes=ONE_HUB, carry=None):
    """Turns until nothing is pending, at most twelve times, and how often."""
    for turn in range(12):
        if re.search(r"^0 pending", place.run("./van status alpha")[1], re.M):
            return turn
        place.run("./van run alpha --resend")
        for node in nodes:
            if carry:
                carry()
            place.run(f"./van run {node}")
        if carry:
            carry()
    return 12


def take_posted(place, taken):
    """An order system takes away what was handed over to it."""
    for name in place.names("beta/posted") if os.path.isdir(place.path("beta/posted")) else ():
        with open(place.path(f"beta/posted/{name}"), "rb") as file:
            taken.append((name, file.read()))
        os.remove(place.path(f"beta/posted/{name}"))


def are_taken_once(tally, place, name, taken, count):
    """That each accepted set was handed over once, and as it was posted."""
    place.run("./van run beta")
    take_posted(place, taken)
    shutil.rmtree(place.path("all"), ignore_errors=True)
    place.run("./van postings beta --into all")
    there = [(it, open(place.path(f"all/{it}"), "rb").read()) for it in place.names("all")]
    tally.want(f"{name}, handed over once", sorted(taken) == sorted(there) and len(taken) == count,
               f"{len(taken)} were handed over, {len(there)} posted, of {count}")
