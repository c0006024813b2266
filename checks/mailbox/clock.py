"""Watches while the clock moves on: when they send again, and which moments they write."""
import datetime
import os
import re
import subprocess
import time

import preload
from places import Place, network, order

SHIFT = 3665  # a minute and five seconds past an hour


def waits(so, seconds=30):
    ends = time.monotonic() + seconds
    while not so() and time.monotonic() < ends:
        time.sleep(0.05)
    return so()


def moments_of(text):
    """The moment of each interchange, by its sender."""
    found = re.findall(r"ISA\*.{27}\*ZZ\*(\w+) *\*ZZ\*.{15}\*(\d{6})\*(\d{4})", text)
    return {sender: datetime.datetime.strptime(day + minute, "%y%m%d%H%M") for sender, day, minute in found}


def try_clock(tally, program, room):
    """A watch sends again behind a minute, and not sooner; a reply and a hub's refusal have the moment of their turn."""
    library = preload.library("shift_clock", room)
    tally.want("clock", library, "the library that moves the clock can't be built")
    place = Place(program, room, "clock")
    network(place)
    place.write("shift", "0")
    place.run("./van submit alpha --to ZZBETA --order PO-1; rm alpha/out/*")
    shifting = {**os.environ, "LD_PRELOAD": library or "", "SHIFT_CLOCK": place.path("shift")}
    sent, watches = place.path("alpha/out/sent-000000001.edi"), []

    def watch(who):
        quiet = {"stdout": subprocess.DEVNULL, "stderr": subprocess.DEVNULL}
        watches.append(subprocess.Popen([place.path("van"), "run", who, "--watch", "1"], cwd=place.folder, env=shifting, **quiet))
        return waits(lambda: os.path.exists(place.path(f"{who}/status.json")))

    try:
        tally.want("clock", watch("alpha") and os.path.exists(sent), "a watch doesn't begin with what isn't answered")
        os.remove(sent)
        tally.want("clock", watch("beta") and watch("hub"), "a watch takes no turn")
        time.sleep(3)
        tally.want("clock", not os.path.exists(sent), "it is sent again within a minute")
        place.write("hub/ZZALPHA/in/other.edi.part", order("ALPHA", "NOBODY", 50))
        place.write("shift", str(SHIFT))
        begun = datetime.datetime.utcnow()
        os.rename(place.path("hub/ZZALPHA/in/other.edi.part"), place.path("hub/ZZALPHA/in/other.edi"))
        settled = waits(lambda: '"settled":1' in open(place.path("alpha/status.json"), encoding="ascii").read())
        tally.want("clock", settled, "it isn't sent again behind a minute")
    finally:
        for one in watches:
            one.kill()
            one.wait()
    found = moments_of(place.run("./van log alpha --bytes")[1])
    for who in ("BETA", "HUB"):
        late = (found.get(who, begun) - begun).total_seconds() - SHIFT
        tally.want("clock", -90 < late < 90, f"{who}: {found}, {late} seconds late")
