"""A disk that is full, and file calls that are refused."""
import os
import re
import shutil
import subprocess

import preload
from places import ONE_HUB, THERE_AND_BACK, Place, are_taken_once, finish, network, order, take_posted, two_hubs


def mounted(folder):
    """Whether a disk of 16 MiB could be mounted there."""
    try:
        words = ["mount", "-t", "tmpfs", "-o", "size=16m", "tmpfs", folder]
        return subprocess.run(words, stdin=subprocess.DEVNULL, capture_output=True, check=False).returncode == 0
    except OSError:
        return False


def fill(place, left):
    """Fills the disk of a place, but for so many bytes."""
    disk = os.statvfs(place.folder)
    with open(place.path("filler"), "wb") as file:
        file.write(bytes(max(0, disk.f_bavail * disk.f_frsize - left)))


def try_full(tally, program, room):
    """A disk that is full, or nearly: what a command can't do the next one does, once there is room."""
    place = Place(program, room, "full")
    if not mounted(place.folder):
        print("mailbox, full disk: no small disk can be mounted here, so this wasn't tried")
        return
    try:
        os.symlink(program, place.path("van"))
        network(place)
        taken, refused, submitted = [], 0, 0
        for n in range(24):
            # Nothing is left at first, and then more and more, page by page.
            for command in ("submit alpha --to ZZBETA --order PO-1", "run hub", "run beta", "run hub", "run alpha"):
                came = {it: place.names(it) for it in ("alpha/in", "beta/in", "hub/ZZALPHA/in", "hub/ZZBETA/in")}
                fill(place, 4096 * n)
                status, out, err = place.run(f"./van {command}")
                os.remove(place.path("filler"))
                refused += status == 1
                submitted += command.startswith("submit") and status == 0
                is_told = err.startswith("van: ") if status else not err
                tally.want("full disk", status in (0, 1) and is_told, f"{command}: status {status}, {out} {err}")
                if not n:
                    # What isn't taken is there still: only what was lets a file go.
                    stays = all(it in place.names(a) for a, names in came.items() for it in names)
                    tally.want("full disk, nothing removed", stays, f"{command}: {out} {err}")
            take_posted(place, taken)
            tally.want("full disk, meanwhile", place.run("./van reconcile alpha beta")[0] == 0, "reconcile")
        finish(place)
        found = place.run("./van reconcile alpha beta")[1].count("\n")
        tally.want("full disk", refused > 0 and found >= submitted > 0, f"{refused} refused, {found} sets, {submitted} at least")
        tally.ended_well(place, "full disk, at the end", found)
        are_taken_once(tally, place, "full disk", taken, found)
    finally:
        subprocess.run(["umount", "--lazy", place.folder], stdin=subprocess.DEVNULL, check=False)


def copied(program, room, name, place):
    """A place as another one, with links of its own."""
    shutil.rmtree(f"{room}/{name}", ignore_errors=True)
    copy = Place(program, room, name)
    for part in os.listdir(place.folder):
        if part not in ("van", "refused"):
            like = shutil.copytree if os.path.isdir(place.path(part)) else shutil.copyfile
            like(place.path(part), copy.path(part), **{"symlinks": True} if like is shutil.copytree else {})
    for folder, names, _ in os.walk(copy.folder):
        for path in (f"{folder}/{it}" for it in names if os.path.islink(f"{folder}/{it}")):
            to = os.readlink(path)
            os.remove(path)
            os.symlink(to.replace(os.path.realpath(place.folder), os.path.realpath(copy.folder)), path)
    return copy


def try_refused(tally, program, room, strides, hubs=("hub",)):
    """Calls that write, sync, rename, make or remove a file are refused one at a time, of each command on an order's way;
    what comes behind ends as if none had been. The next one that is refused is a stride further on. Where there are two hubs,
    only their commands are looked at."""
    library = preload.library("refuse_calls", room)
    tally.want("refused", library, "the library that refuses can't be built")
    place = Place(program, room, "refused" if hubs == ("hub",) else "hubs-refused")
    (network if hubs == ("hub",) else two_hubs)(place)
    way = ONE_HUB if hubs == ("hub",) else THERE_AND_BACK
    place.write("order.edi", order("ALPHA", "BETA", 1))
    place.write("alpha/submit/order", order("ALPHA", "BETA", 2))
    for command in ("submit alpha order.edi", "run alpha", *[f"run {node}" for node in way]):
        number, refused = 0, hubs == ("hub",) or command in ("run hub1", "run hub2")
        tries = refused
        while refused and library:
            number += next(strides)
            copy = copied(program, room, f"{os.path.basename(place.folder)}-copy", place)
            refusing = f"REFUSED_CALL={number} LD_PRELOAD={library}"
            status, out, err = copy.run(f"{refusing} ./van {command} 9>refused")
            refused = os.path.getsize(copy.path("refused")) > 0
            is_told = err.startswith("van: ") and "no control number" not in err if status else not err
            tally.want("refused", status in (0, 1) and is_told, f"{command}, call {number}: status {status}, {out} {err}")
            taken = copy.names("beta/posted")
            turns = f"for who in alpha {' '.join(way)}; do ./van run $who; done"
            copy.run(f"rm -f beta/posted/*; ./van submit alpha order.edi; {turns}")
            status, out, err = copy.run("./van reconcile alpha beta && ./van verify alpha && ./van verify beta")
            accepted = len(re.findall(r"accepted +1 ok$", out, re.M))
            taken += copy.names("beta/posted")
            is_so = (status, err, accepted, len(set(taken)), len(taken)) == (0, "", 2, 2, 2)
            tally.want("refused", is_so, f"{command}, call {number}: {taken}, {out} {err}")
        tally.want("refused", number > 8 or not tries, f"{command} made {number} calls")
        status, out, err = place.run(f"./van {command}")
        tally.want("refused", status == 0, f"{command}: status {status}, {out} {err}")
