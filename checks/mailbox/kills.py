"""Programs that are killed at random moments, and others that are over the same folder."""
import os
import signal
import subprocess
import time

from places import ONE_HUB, THERE_AND_BACK, Place, are_taken_once, finish, network, order, take_posted, two_hubs
from terminal import on_terminal


def try_two(tally, program, room):
    """A second program over a folder is refused, while one holds it; and a killed one holds nothing."""
    place = Place(program, room, "two")
    network(place)
    place.run("./van submit alpha --to ZZBETA --order PO-1")
    watching = place.start("run alpha --watch 600")
    # Its first line says that it sent the order again, so it has the folder.
    line = watching.stdout.readline()
    tally.want("two at once", line.startswith(b"alpha/out/sent-000000001.edi"), f"{line!r}")
    ends = time.monotonic() + 60
    while "status.json" not in place.names("alpha") and time.monotonic() < ends:
        time.sleep(0.02)
    wanted = (0, '{"turns":1,"done":true,"open":1,"settled":0}\n', "")
    tally.row(place, "two at once", "cat alpha/status.json", wanted)
    where = "where it watches, read alpha/status.json"
    for command in ("run alpha", "status alpha", "submit alpha --to ZZBETA --order PO-1", "agree alpha ZZBETA PO850", "reconcile alpha beta"):
        found = place.run(f"./van {command}")
        tally.want("two at once", found == (1, "", f"van: alpha/records.db is in use by another van: {where}\n"), f"{command}: {found!r}")
    tally.want("two at once", watching.poll() is None, "the first one ended")
    watching.kill()
    watching.communicate()
    tally.row(place, "two at once", "./van status alpha",
              (0, "000000001 01 001 ZZ/BETA 250102 0930 pending\n1 pending, 0 accepted, 0 noted, 0 rejected; 0 postings\n", ""))


def try_terminal(tally, program, room):
    """On a terminal, where lines go elsewhere, a watch says how it stands on one line that it rewrites."""
    place = Place(program, room, "terminal")
    network(place)
    words = [place.path("van"), "run", "alpha", "--watch", "1", "--turns", "2"]
    status, _, said = on_terminal(words, "stderr", cwd=place.folder, stdout=subprocess.DEVNULL)
    wanted = b"\rturn 1: open 0, settled 0 \rturn 2: open 0, settled 0 "
    tally.want("terminal", (status, said) == (0, wanted), f"status {status}, {said!r}")


def try_kills(tally, program, room, kills, before, draw, hubs=("hub",)):
    """Programs are killed at random moments, before each of which orders are submitted; then they are finished."""
    place = Place(program, room, "kills" if hubs == ("hub",) else "hubs-kills")
    (network if hubs == ("hub",) else two_hubs)(place)
    way = ONE_HUB if hubs == ("hub",) else THERE_AND_BACK
    orders, submitted, taken = 0, 0, []
    spent = {}
    for n in range(kills):
        more = [f"MORE-{k}" for k in range(before * n // kills, before * (n + 1) // kills)]
        if more:
            status, out, err = place.run(f"./van submit alpha --to ZZBETA --order {' '.join(more)}")
            tally.want("kills", status == 0, f"submit: status {status}, {out} {err}")
            submitted += len(more)
        node = draw.choice(["alpha", "beta", *hubs, "submit"])
        if orders < 4 or node == "submit":
            orders += 1
            command = f"submit alpha --to ZZBETA --order PO-{orders}"
        else:
            command = f"run {node}" + " --resend" * (node == "alpha" and draw.random() < 0.5)
        # A moment within what such a command took that wasn't killed, which is measured at times.
        if command.split()[0] not in spent or draw.random() < 0.1:
            begun = time.monotonic()
            status, out, err = place.run(f"./van {command}")
            tally.want("kills", status == 0, f"{command}: status {status}, {out} {err}")
            submitted += command.startswith("submit")
            spent[command.split()[0]] = time.monotonic() - begun
        running = place.start(command)
        time.sleep(draw.random() * spent[command.split()[0]])
        running.send_signal(signal.SIGKILL)
        err = running.communicate()[1]
        tally.want("kills", running.returncode in (0, -signal.SIGKILL), f"{command}: {running.returncode} {err}")
        submitted += command.startswith("submit") and running.returncode == 0
        if draw.random() < 0.3:
            take_posted(place, taken)
        if n % 9 == 8:
            status, out, err = place.run("./van reconcile alpha beta")
            tally.want("kills, meanwhile", status == 0, f"{out[-600:]} {err}")
    finish(place, way)
    found = place.run("./van reconcile alpha beta")[1].count("\n")
    # What a submission that wasn't killed has answered for is there; of a killed one nobody knows.
    tally.want("kills", found >= submitted > 0, f"{found} submissions, and {submitted} at least")
    tally.ended_well(place, "kills, at the end", found)
    are_taken_once(tally, place, "kills", taken, found)


class Watched:
    """A hub and its stations, each run by `--watch`, of which one is killed and run again."""

    def __init__(self, place, nodes):
        self.place, self.running = place, {}
        self.said = open(place.path("said"), "ab")
        for node in nodes:
            self.start(node)

    def start(self, node):
        words = [self.place.path("van"), "run", node, "--watch", "1"]
        how = {"stdin": subprocess.DEVNULL, "stdout": subprocess.DEVNULL, "stderr": self.said}
        self.running[node] = subprocess.Popen(words, cwd=self.place.folder, **how)

    def kill(self, node):
        """Kills one; whether it ran still."""
        ran = self.running[node].poll() is None
        self.running[node].kill()
        self.running[node].wait()
        return ran

    def end(self):
        for node in self.running:
            self.kill(node)
        self.said.close()


def try_watched(tally, program, room, kills, orders, draw):
    """Orders are dropped into a station's `submit` while all three nodes watch, and these are killed at random moments,
    and run again."""
    place = Place(program, room, "watched")
    network(place)
    watched, taken, dropped = Watched(place, ("hub", "alpha", "beta")), [], 0
    try:
        for n in range(kills):
            for dropped in range(orders * n // kills + 1, orders * (n + 1) // kills + 1):
                place.write("alpha/submit/.part", order("ALPHA", "BETA", dropped, f"PO-{dropped}"))
                os.rename(place.path("alpha/submit/.part"), place.path(f"alpha/submit/{dropped:09}"))
            # A moment of the opening, of the first turn, or of the rest behind it.
            time.sleep(draw.random() * draw.choice([0.1, 0.4, 1.2]))
            node = draw.choice(["hub", "alpha", "beta"])
            tally.want("watched", watched.kill(node), f"{node} had ended by itself")
            watched.start(node)
            if draw.random() < 0.3:
                take_posted(place, taken)
    finally:
        watched.end()
    with open(place.path("said"), encoding="utf-8") as file:
        tally.want("watched", not (said := file.read()), said)
    place.run("./van run alpha")
    turns = finish(place)
    tally.want("watched", turns < 12 and not place.names("alpha/submit"), f"{turns} turns, {place.names('alpha/submit')[:3]} wait")
    tally.ended_well(place, "watched, at the end", orders)
    are_taken_once(tally, place, "watched", taken, orders)
