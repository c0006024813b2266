"""Records that something else changed, and what `verify` says of them."""
import contextlib
import os
import shutil
import sqlite3

from places import Place, network

# What something else writes into a copy of records, whose, and what `verify` says of it.
CHANGES = [
    ("alpha", "UPDATE outset SET fate = 2 WHERE icn = 1", "000000001 01 001 is rejected, and by what came accepted"),
    ("alpha", "UPDATE outset SET fate = 0 WHERE icn = 2 AND place = 2", "000000002 01 002 is pending, and by what came accepted"),
    ("alpha", "UPDATE outset SET number = X'30303037' WHERE icn = 1",
     "000000001: what is kept of this submission isn't what its bytes say"),
    ("alpha", "UPDATE outbound SET partner = CAST('ZZGAMMA          ' AS BLOB) WHERE icn = 1",
     "000000001: what is kept of this submission isn't what its bytes say"),
    ("alpha", "UPDATE inbound SET bytes = CAST(replace(bytes, 'AK5*A', 'AK5*R') AS BLOB) WHERE icn = 1",
     "000000001 01 001 is accepted, and by what came rejected"),
    ("alpha", "UPDATE inbound SET icn = 9 WHERE icn = 3", "number 6 of the history: it isn't filed under its sender and number"),
    ("alpha", "UPDATE outbound SET bytes = CAST(replace(bytes, 'ALPHA', 'GAMMA') AS BLOB) WHERE icn = 2",
     "number 2 of the history: S5: the sender of the prepared interchange isn't this station"),
    ("beta", "UPDATE inbound SET bytes = CAST(replace(bytes, 'PO-1', 'PO-7') AS BLOB) WHERE seq = 1",
     "posting 1 isn't the set that was accepted there, by what came and its reply"),
    ("beta", "UPDATE inbound SET reply = CAST(replace(reply, 'AK5*A', 'AK5*R') AS BLOB) WHERE seq = 1",
     "number 1 of the history: what is kept as its reply isn't one that was due"),
    ("beta", "UPDATE inbound SET reply = NULL WHERE seq = 2", "number 2 of the history: what is kept as its reply isn't one that was due"),
    ("beta", "UPDATE numbers SET gcn = 2", "number 3 of the history: its reply has a control number above the last that was used"),
    ("beta", "UPDATE posting SET bytes = CAST(replace(bytes, 'PO-2', 'PO-9') AS BLOB) WHERE at = 2",
     "posting 2 isn't the set that was accepted there, by what came and its reply"),
    ("beta", "DELETE FROM posting WHERE at = 3", "posting 3 isn't the set that was accepted there, by what came and its reply"),
]


def try_verify(tally, program, room):
    """Records are verified, under agreements that change meanwhile; and what something else wrote is told."""
    place = Place(program, room, "verify")
    network(place)
    turns = "for who in hub beta hub alpha; do ./van run $who; done"
    place.run(f"./van submit alpha --to ZZBETA --order PO-1; ./van submit alpha --to ZZBETA --order PO-2 PO-3; {turns}")
    for taken in ("", "PO855", "IN810"):
        place.run(f"./van agree beta ZZALPHA {taken}; ./van submit alpha --to ZZBETA --order PO-4; {turns}")
    place.run("./van agree beta ZZALPHA IN810 PO855")
    for who, rows in (("alpha", ("5 submitted, 5 came, 0 postings", 5, 5, 0)), ("beta", ("0 submitted, 5 came, 3 postings", 0, 5, 3))):
        tally.row(place, "verify", f"./van verify {who}", (0, f"sound: {rows[0]}\n", ""))
        told = '{"sound":true,"submitted":%d,"came":%d,"postings":%d}\n' % rows[1:]
        tally.row(place, "verify", f"./van verify {who} --json", (0, told, ""))
    tally.row(place, "verify", "./van verify hub", (1, "", "van: hub is the hub of ZZ/HUB, and no station\n"))
    for who, change, said in CHANGES:
        shutil.rmtree(place.path("copy"), ignore_errors=True)
        shutil.copytree(place.path(who), place.path("copy"), symlinks=True)
        os.remove(place.path("copy/counts"))  # it would tell of the lost posting before `verify` does
        with contextlib.closing(sqlite3.connect(place.path("copy/records.db"), isolation_level=None)) as base:
            rows = base.execute(change).rowcount
        tally.want("verify", rows == 1, f"{change}: {rows} rows")
        tally.row(place, change, "./van verify copy", (1, "", f"van: copy: {said}\n"))
