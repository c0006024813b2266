#!/usr/bin/env python3
"""Database files that the records make, looked at by SQLite itself: runs a hub and a station over files by lines of
standard input, and holds what each call answered, each row of each table, the schema and the questions of
docs/records.md. All that is wanted is written by hand, by the standard and that page.

usage: database_file.py [TESTS]

What is run stands in checks/database_file. It is built unproved, natively, without LLVM's optimizations, and with tests
of each index, sum and `unwrap` (checks/tools/unproved.py); it does nothing but call what stands below. So this shows
what the calls leave in a file, and proves nothing: that each call keeps its contract, the proofs of the crates below
show. `checks/tests.py --keep TESTS` builds it with the tests; without a word TESTS is tests in the folder of the gate's
run, and where there is none it is built alone.

Prints a line for what is wrong, and last 'N passed, M failed'.
"""
import os
import re
import shutil
import sqlite3
import subprocess
import sys
import tempfile

sys.dont_write_bytecode = True
HERE = os.path.dirname(os.path.realpath(__file__))
TOP = os.path.dirname(HERE)
sys.path.insert(0, f"{HERE}/tools")
from crates import Crate, crates_of, text_of
from tests import modules_in, placed, write_crate
from unproved import Unbuilt, build_program

BELOW = ["x12_records", "x12_station", "x12_hub", "x12_outbound", "x12_acks", "x12_judge", "x12_envelopes"]
OF_KIT = ["sqlite", "sqlite_store", "sqlite_std_file", "anyhow"]

# --- Interchanges ----------------------------------------------------------------------------------------------------

# A partner whose identifier is a D-U-N-S number, as in the questions of docs/records.md.
DUNS = "01000000001"


def stored(party):
    """A party as it is stored: 17 bytes."""
    return f"{party:<17}".encode()


def isa(sender, receiver, icn, time="0930", ack=0, controls="U*00401"):
    parties = "*".join(f"{it[:2]}*{it[2:]:<15}" for it in (sender, receiver))
    return f"ISA*00*          *00*          *{parties}*250102*{time}*{controls}*{icn:09}*{ack}*P*:~"


def group(functional, sender, receiver, gcn, *sets, time="0930"):
    front = f"GS*{functional}*{sender[2:]}*{receiver[2:]}*20250102*{time}*{gcn}*X*004010~"
    return f"{front}{''.join(sets)}GE*{len(sets)}*{gcn}~"


def iea(groups, icn):
    return f"IEA*{groups}*{icn:09}~"


def order(number, segments=4, name="PO-1"):
    return f"ST*850*{number}~BEG*00*SA*{name}**20250102~PO1*1*10*EA*5~SE*{segments}*{number}~"


def orders(sender, receiver, icn, gcn, *sets, ack=0):
    """An interchange with one group of orders."""
    return isa(sender, receiver, icn, ack=ack) + group("PO", sender, receiver, gcn, *sets) + iea(1, icn)


def answer(sender, receiver, icn, gcn, told, time="0931", ta1="", controls="U*00401"):
    """An interchange with a 997, and what stands in front of it."""
    said = f"ST*997*0001~{told}SE*{told.count('~') + 2}*0001~"
    return isa(sender, receiver, icn, time, 0, controls) + ta1 + group("FA", sender, receiver, gcn, said, time=time) + iea(1, icn)


# --- A hub's story: a line, and what is answered ---------------------------------------------------------------------

TO_BETA = [orders("ZZALPHA", "ZZBETA", n, n, order("0001"), ack=1) for n in (1, 2, 3, 4)]
REFUSAL = isa("ZZHUB", "ZZALPHA", 1, "0931") + "TA1*000000001*250102*0930*R*009~IEA*0*000000001~"

NEW_HUB = [
    ("", "opened\nopen, new true"),
    (f"deposit {TO_BETA[0]}", f"refused {REFUSAL}"),
    ("enrol ZZALPHA 1", "enrolled"),
    ("enrol ZZBETA 2", "enrolled"),
    (f"deposit {TO_BETA[0]}", f"refused {REFUSAL}"),
    (f"deposit {TO_BETA[1]}", "boxed 2 2"),
    (f"deposit {TO_BETA[2]}", "boxed 2 3"),
    (f"deposit {TO_BETA[1]}", "boxed 2 2"),
    ("collect 2", f"item 2 {TO_BETA[1]}\nitem 3 {TO_BETA[2]}\nitems 2"),
    ("taken 2 2", "taken true"),
    ("", "failures 0"),
]
NEW_HUB_ROWS = {
    "directory": [(1, stored("ZZALPHA"), 1), (2, stored("ZZBETA"), 2)],
    "decision": [(1, None, REFUSAL.encode(), TO_BETA[0].encode()), (2, 2, None, TO_BETA[1].encode()),
                 (3, 2, None, TO_BETA[2].encode())],
    "mailbox": [(3, 2)],
    "hubnumber": [(1, 1, stored("ZZHUB"), 1, 3)],
}
# The questions of the page, and their answers.
HUB_ANSWERS = [[f"2|3|{len(TO_BETA[2])}", f"1|{REFUSAL}"]]

OLD_HUB = [
    ("", "opened\nopen, new false"),
    (f"deposit {TO_BETA[0]}", f"refused {REFUSAL}"),
    ("collect 2", f"item 3 {TO_BETA[2]}\nitems 1"),
    ("dismiss ZZALPHA", "dismissed true"),
    ("enrol ZZBETA 3", "enrolled"),
    (f"deposit {TO_BETA[3]}", "boxed 3 4"),
    ("taken 2 3", "taken true"),
    ("", "failures 0"),
]
OLD_HUB_ROWS = {
    "directory": [(3, stored("ZZBETA"), 3)],
    "decision": [*NEW_HUB_ROWS["decision"], (4, 3, None, TO_BETA[3].encode())],
    "mailbox": [(4, 3)],
    "hubnumber": [(1, 1, stored("ZZHUB"), 1, 4)],
}
SEEN_HUB = [("", "opened\nopen, new false"), ("collect 3", f"item 4 {TO_BETA[3]}\nitems 1"), ("collect 2", "items 0"),
            ("", "failures 0")]

# --- A station's story -----------------------------------------------------------------------------------------------

TWO_GROUPS = (isa("ZZALPHA", DUNS, 5) + group("PO", "ZZALPHA", DUNS, 7, order("0001"), order("0002"))
              + group("PO", "ZZALPHA", DUNS, 8, order("0001")) + iea(2, 5))
TO_GAMMA = orders("ZZALPHA", "ZZGAMMA", 6, 9, order("0001"))
ANSWER = answer(DUNS, "ZZALPHA", 21, 21, "AK1*PO*7~AK2*850*0001~AK5*A~AK2*850*0002~AK5*R*5~AK9*P*2*2*1~")
ONE_WRONG = orders(DUNS, "ZZALPHA", 22, 31, order("0001"), order("0002", 5))
REPLY = answer("ZZALPHA", DUNS, 7, 10, "AK1*PO*31~AK2*850*0001~AK5*A~AK2*850*0002~AK5*R*4~AK9*P*2*2*1~")
# The second set of ALPHA's second group was accepted with errors noted.
NOTED = answer(DUNS, "ZZALPHA", 23, 22, "AK1*PO*8~AK2*850*0001~AK5*E*5~AK9*E*1*1*1~")
# GAMMA's number of a purchase order (BEG03, element 324) has 23 characters, one more than it may have.
LONG = "PO-12345678901234567890"
FROM_GAMMA = orders("ZZGAMMA", "ZZALPHA", 1, 1, order("0001", name=LONG), ack=1)
TOLD_OF_LONG = f"AK2*850*0001~AK3*BEG*2**8~AK4*3*324*5*{LONG}~"
GAMMA_REPLY = answer("ZZALPHA", "ZZGAMMA", 8, 11, f"AK1*PO*1~{TOLD_OF_LONG}AK5*E*5~AK9*E*1*1*1~",
                     ta1="TA1*000000001*250102*0930*A*000~")
FROM_DUNS = orders(DUNS, "ZZALPHA", 24, 32, order("0001", name=LONG))
STRICT_REPLY = answer("ZZALPHA", DUNS, 9, 12, f"AK1*PO*32~{TOLD_OF_LONG}AK5*R*5~AK9*R*1*1*0~")
GAMMA_AGAIN = orders("ZZGAMMA", "ZZALPHA", 2, 2, order("0001", name=LONG))
AGAIN_REPLY = answer("ZZALPHA", "ZZGAMMA", 10, 13, f"AK1*PO*2~{TOLD_OF_LONG}AK5*E*5~AK9*E*1*1*1~")

NEW_STATION = [
    ("", "opened\nopen, new true"),
    (f"agree {DUNS} PO850", "agreed"),
    ("agree ZZGAMMA lenient PO850 IN810", "agreed"),
    (f"agree {DUNS} PO850 PR855", "agreed"),
    (f"submit {TWO_GROUPS}", "sent 5"),
    (f"submit {TO_GAMMA}", "sent 6"),
    (f"arrive {ANSWER}", "new, settled 2, no reply"),
    (f"arrive {ONE_WRONG}", f"new, settled 0, {REPLY}"),
    (f"arrive {ONE_WRONG}", f"same, settled 0, {REPLY}"),
    (f"arrive {FROM_GAMMA}", f"new, settled 0, {GAMMA_REPLY}"),
    (f"arrive {NOTED}", "new, settled 1, no reply"),
    ("", "failures 0"),
]
STATION_ROWS = {
    "numbers": [(1, 3, stored("ZZALPHA"), stored("ZZHUB"), None, 8, 11, 6, 0, 0, 0)],
    "agreement": [(2, stored("ZZGAMMA"), b"PO", 1, b"850"), (3, stored("ZZGAMMA"), b"IN", 1, b"810"),
                  (4, stored(DUNS), b"PO", 0, b"850"), (5, stored(DUNS), b"PR", 0, b"855")],
    "outbound": [(5, 1, stored(DUNS), TWO_GROUPS.encode()), (6, 2, stored("ZZGAMMA"), TO_GAMMA.encode())],
    "outset": [(1, 5, 1, 1, 7, b"PO", b"0001", 1), (2, 5, 1, 2, 7, b"PO", b"0002", 2),
               (3, 5, 2, 1, 8, b"PO", b"0001", 3), (4, 6, 1, 1, 9, b"PO", b"0001", 0)],
    "inbound": [(3, stored(DUNS), 21, None, ANSWER.encode()), (4, stored(DUNS), 22, REPLY.encode(), ONE_WRONG.encode()),
                (5, stored("ZZGAMMA"), 1, GAMMA_REPLY.encode(), FROM_GAMMA.encode()),
                (6, stored(DUNS), 23, None, NOTED.encode())],
    "posting": [(1, stored(DUNS), 22, 1, 1, b"PO", b"850", b"0001", order("0001").encode()),
                (2, stored("ZZGAMMA"), 1, 1, 1, b"PO", b"850", b"0001", order("0001", name=LONG).encode())],
}
# What was kept is found again: who is taken leniently, who isn't, and that no fate is told anew.
OLD_STATION = [
    ("", "opened\nopen, new false"),
    (f"arrive {FROM_GAMMA}", f"same, settled 0, {GAMMA_REPLY}"),
    (f"arrive {FROM_DUNS}", f"new, settled 0, {STRICT_REPLY}"),
    (f"arrive {GAMMA_AGAIN}", f"new, settled 0, {AGAIN_REPLY}"),
    ("fate 5 1 1", "accepted"),
    ("fate 5 1 2", "rejected"),
    ("fate 5 2 1", "noted"),
    ("fate 6 1 1", "pending"),
    ("", "failures 0"),
]
STATION_ANSWERS = [
    [f"{'ZZALPHA':<17}|{'ZZHUB':<17}|3"],
    [f"2|{'ZZGAMMA':<17}|6|1|1|PO|9|0001"],
    ["pending|1", "accepted|1", "rejected|1", "noted|1"],
    [f"{DUNS:<17}|5|1|2|0002"],
    [f"3|21|{len(ANSWER)}|none", f"4|22|{len(ONE_WRONG)}|kept", f"6|23|{len(NOTED)}|none"],
    [f"{DUNS:<17}|22|1|1|850|0001", f"{'ZZGAMMA':<17}|1|1|1|850|0001"],
]

# --- What nobody left ------------------------------------------------------------------------------------------------

# What is done to a file, and what its rows then are: no hub and no station leaves them so.
CHANGED_HUB = {
    "UPDATE hubnumber SET icn = 2": "one refusal, and two numbers used",
    "UPDATE hubnumber SET icn = 0": "a refusal whose number isn't used",
    "UPDATE hubnumber SET item = 5": "more items than decisions",
    "UPDATE hubnumber SET item = 3": "a decision whose item isn't numbered",
    "DELETE FROM decision WHERE item = 2": "a decision is missing between two",
    "UPDATE decision SET node = NULL WHERE item = 2": "a decision that is none",
    "UPDATE mailbox SET node = 2": "an item waits in another mailbox than it was put into",
    "UPDATE mailbox SET item = 1": "an item waits that was refused",
    "UPDATE directory SET party = x'5A5A'": "a party of two bytes",
}
CHANGED_STATION = {
    "UPDATE numbers SET seq = 5": "an arrival isn't counted",
    "UPDATE numbers SET seq = 7": "more is counted than came and was submitted",
    "UPDATE numbers SET noted = 1": "more is read as before sets were noted than as before the edition",
    "UPDATE numbers SET noted = 7, era = 7": "an arrival to come is read as before",
    "UPDATE numbers SET era = -1": "a mark below nought",
    "UPDATE agreement SET lenient = 2 WHERE at = 2": "an agreement is neither strict nor lenient",
    "UPDATE agreement SET lenient = 0 WHERE at = 2": "one partner's agreement is strict and lenient",
    "UPDATE outset SET fate = 4 WHERE at = 1": "a fate that is none",
    "DELETE FROM outset WHERE icn = 6": "a submission without a set",
    "UPDATE posting SET setid = x'3835' WHERE at = 1": "a transaction set's identifier of two bytes",
}
OUT_OF_FORM = "the database failed, or holds a row out of form"
# What is done to a file, and why the version of its tables is then what is refused: first as version 1 or 2 would have
# left it.
OLDER = {version: f"UPDATE numbers SET version = {version}" for version in (1, 2)}
OF_OLDER = {
    "UPDATE agreement SET lenient = 0; UPDATE outset SET fate = 1 WHERE fate = 3": "as they are",
    "DELETE FROM outset WHERE icn = 6; UPDATE numbers SET seq = 900": "with rows that are out of form",
    "UPDATE numbers SET party = x'5A5A'": "with a party of two bytes",
}
IS_OLDER = {version: f"its records are of version {version}: copy the folder, then run `van migrate DIR`" for version in OLDER}
OTHER_VERSIONS = ("UPDATE numbers SET version = 0", "UPDATE numbers SET version = 4", "DELETE FROM numbers")
NOT_OURS = "the database has other tables than these records"
# What is done to a file, and what may then be in force: records that a station may have left.
ALLOWED_STATION = {
    "UPDATE agreement SET lenient = 1": "every agreement lenient",
    "UPDATE outset SET fate = 3 WHERE fate = 1": "an accepted set noted",
    "UPDATE numbers SET noted = 6, era = 6": "all arrivals read as before",
    "UPDATE numbers SET era = 6": "all arrivals judged as before",
}

# --- Records of version 1 --------------------------------------------------------------------------------------------

# ALPHA's two orders. Its partner accepted the first with errors noted, which version 1 read as accepted.
OLD_ORDERS = [orders("ZZALPHA", DUNS, n, n + 2, order("0001")) for n in (5, 6)]
OLD_ANSWERS = [answer(DUNS, "ZZALPHA", n, n, f"AK1*PO*{n - 14}~AK2*850*0001~AK5*E*5~AK9*E*1*1*1~") for n in (21, 22)]
VERSION_1 = [
    ("", "opened\nopen, new true"),
    (f"submit {OLD_ORDERS[0]}", "sent 5"),
    (f"submit {OLD_ORDERS[1]}", "sent 6"),
    (f"arrive {OLD_ANSWERS[0]}", "new, settled 1, no reply"),
    ("", "failures 0"),
]
AS_VERSION_1 = "UPDATE outset SET fate = 1 WHERE fate = 3;UPDATE numbers SET version = 1"
MIGRATED_ROWS = {"numbers": [(1, 3, stored("ZZALPHA"), stored("ZZHUB"), None, 6, 8, 3, 0, 3, 3)]}
# What was accepted stays so, and what comes now is read anew.
MIGRATED = [
    ("", "opened\nopen, new false"),
    ("fate 5 1 1", "accepted"),
    ("fate 6 1 1", "pending"),
    (f"arrive {OLD_ANSWERS[1]}", "new, settled 1, no reply"),
    ("fate 6 1 1", "noted"),
    (f"arrive {OLD_ANSWERS[0]}", "same, settled 0, no reply"),
    ("fate 5 1 1", "accepted"),
    ("", "failures 0"),
]

# --- Records of version 2 --------------------------------------------------------------------------------------------

# ALPHA's order. Its partner accepts it, in interchanges of control version 00501, the second with a repetition separator.
NEWER = {21: "U*00501", 22: "^*00501"}
TAKEN = "AK1*PO*7~AK2*850*0001~AK5*A~AK9*A*1*1*1~"
NEWER_ANSWERS = [answer(DUNS, "ZZALPHA", n, n, TAKEN, controls=it) for n, it in NEWER.items()]
VERSION_2 = [("", "opened\nopen, new true"), (f"submit {OLD_ORDERS[0]}", "sent 5"), ("", "failures 0")]
# Version 2 refused the first answer, read nothing of it, and kept its reply.
NOT_SUPPORTED = isa("ZZALPHA", DUNS, 6, "0931") + "TA1*000000021*250102*0931*R*003~IEA*0*000000006~"
AS_VERSION_2 = (f"INSERT INTO inbound VALUES (2, CAST('{DUNS:<17}' AS BLOB), 21, CAST('{NOT_SUPPORTED}' AS BLOB),"
                f" CAST('{NEWER_ANSWERS[0]}' AS BLOB));UPDATE numbers SET version = 2, icn = 6, seq = 2")
MIGRATED_ROWS_2 = {"numbers": [(1, 3, stored("ZZALPHA"), stored("ZZHUB"), None, 6, 7, 2, 0, 0, 2)]}
# What was refused stays so, and its repeat gets the reply that was kept. What comes now is judged anew.
MIGRATED_2 = [
    ("", "opened\nopen, new false"),
    ("fate 5 1 1", "pending"),
    (f"arrive {NEWER_ANSWERS[0]}", f"same, settled 0, {NOT_SUPPORTED}"),
    ("fate 5 1 1", "pending"),
    (f"arrive {NEWER_ANSWERS[1]}", "new, settled 1, no reply"),
    ("fate 5 1 1", "accepted"),
    ("", "failures 0"),
]
# What a station noted under version 2, with a mark of its own and without: `noted` stays, and `era` is `seq`.
MARKED = {
    "UPDATE numbers SET version = 2": (0, 8),
    "UPDATE numbers SET version = 2, noted = 3, era = 3": (3, 8),
    "UPDATE numbers SET version = 1": (8, 8),
}

# --- The page --------------------------------------------------------------------------------------------------------


def part(page, heading):
    """What stands under a heading of the page."""
    return re.search(rf"^## {heading}\n(.*?)(?=^## |\Z)", page, re.M | re.S)[1]


def blocks(text):
    """The SQL of a part of the page, each block."""
    return re.findall(r"^```sql\n(.*?)^```", text, re.M | re.S)


def statements(text):
    """The CREATE statements of a part of the page, each in one line."""
    return [" ".join(it.split()) for block in blocks(text) for it in block.split(";") if it.strip()]


def columns(text):
    """The columns of each table, by the tables of a part of the page."""
    found, name = {}, None
    for table, names in re.findall(r"^\| (?:`(\w+)`)? *\| ((?:`\w+`(?:, )?)+) \|", text, re.M):
        name = table or name
        found.setdefault(name, []).extend(re.findall(r"`(\w+)`", names))
    return found


# --- Files -----------------------------------------------------------------------------------------------------------


def build(room):
    """Builds what is run, unproved, from the sources of all below."""
    listed = {it.name: [below.name for below in it.libraries] + it.of_kit[1:] for it in crates_of(TOP)}
    crate = Crate(TOP, "database_file", {**listed, "database_file": BELOW + OF_KIT})
    crate.folder = f"{room}/database_file"
    write_crate(crate.folder, placed("database_file", modules_in(f"{HERE}/database_file/src")))
    build_program(crate, f"{room}/program", is_tests=True)
    return f"{room}/program"


# What a test says behind all else where it ended well, and the status of one that failed.
ENDED, FAILED = "\ntest result: ok\n", 101


def command(kind, age, path):
    """How records are asked for."""
    how = {"env": {**os.environ, "RECORDS": f"{kind} {age} {path}"}, "text": True}
    return {"args": [PROGRAM, "database_file::run::records"], **how}


def run(words, lines):
    """What the program says of these lines, and how it ends."""
    script = "".join(f"{it}\n" for it in lines if it)
    ran = subprocess.run(**command(*words), input=script, capture_output=True, timeout=600)
    return ran.stdout.removesuffix(ENDED), ran.returncode


def tells(kind, age, path, story, last=()):
    """Whether the program answers a story as it is to be; where last is a line, it is the file that is closed by it."""
    said, status = run([kind, age, path], [*[line for line, _ in story], *[line for line, _ in last]])
    return status == 0 and said == "".join(f"{it}\n" for _, it in [*story, *last])


CLOSE = [("close", "closed")]


def copy(path, name):
    """A copy of a database: its file, and its log."""
    to = os.path.join(os.path.dirname(path), name)
    for end in ("", "-wal"):
        if os.path.exists(path + end):
            shutil.copyfile(path + end, to + end)
    return to


def ask(path, sql):
    """The rows of a query, in a database that nobody else uses."""
    with tempfile.TemporaryDirectory(prefix="asked-") as room:
        conn = sqlite3.connect(copy(path, f"{room}/asked.db"))
        try:
            return conn.execute(sql).fetchall()
        finally:
            conn.close()


def paste(path, sql):
    """The lines that the program sqlite3 prints of this, or would."""
    with tempfile.TemporaryDirectory(prefix="pasted-") as room:
        asked = copy(path, f"{room}/asked.db")
        if shutil.which("sqlite3"):
            ran = subprocess.run(["sqlite3", asked], input=sql, capture_output=True, text=True)
            return ran.stdout.splitlines() + ran.stderr.splitlines()
        conn = sqlite3.connect(asked)
        rows = [row for it in sql.split(";") if it.strip() for row in conn.execute(it)]
        conn.close()
        return ["|".join("" if it is None else str(it) for it in row) for row in rows]


def is_sound(path):
    """Whether SQLite finds no fault in a database."""
    return paste(path, "PRAGMA integrity_check; PRAGMA foreign_key_check;") == ["ok"]


def has_rows(path, rows):
    """Whether these rows stand in the tables, and there are no others."""
    found = {name: ask(path, f"SELECT * FROM {name} ORDER BY 1") for name in rows}
    for name in rows:
        if found[name] != rows[name]:
            print(f"{name}: {found[name]}")
    return found == rows


def has_schema(path, text):
    """Whether the schema is what a part of the page says: its statements, and the columns of its tables."""
    made = [it for it, in ask(path, "SELECT sql FROM sqlite_schema WHERE sql IS NOT NULL ORDER BY rowid")]
    tables = {name: [row[1] for row in ask(path, f"PRAGMA table_info({name})")] for name, in ask(
        path, "SELECT name FROM sqlite_schema WHERE type = 'table'")}
    return made == statements(text) and tables == columns(text)


def answers(path, questions, wanted):
    """Whether pasted questions are answered so."""
    return len(questions) == len(wanted) > 0 and all(paste(path, sql) == rows for sql, rows in zip(questions, wanted))


# --- What is shown ---------------------------------------------------------------------------------------------------


def started(age, path):
    """A run over a hub's records that has begun."""
    return subprocess.Popen(**command("hub", age, path), stdin=subprocess.PIPE, stdout=subprocess.PIPE)


def sees_lock(path):
    """Whether SQLite and a second run are kept out while a run has the file open, which then ends well."""
    with started("old", path) as first:
        is_open = first.stdout.readline() == "opened\n"
        conn = sqlite3.connect(path, timeout=0)
        try:
            conn.execute("SELECT count(*) FROM decision")
            is_kept_out = False
        except sqlite3.OperationalError as error:
            is_kept_out = "locked" in str(error)
        finally:
            conn.close()
        second = run(["hub", "old", path], [])
        said, _ = first.communicate("")
        is_ended = first.returncode == 0 and said == f"open, new false\nfailures 0\n{ENDED}"
        return is_open and is_kept_out and second == ("", FAILED) and is_ended


def opens_with_sqlite(path):
    """Whether SQLite, opening the very files to write, finds all rows, and then leaves no log."""
    conn = sqlite3.connect(path)
    found = conn.execute("SELECT count(*) FROM decision").fetchone()
    conn.close()
    return found == (len(OLD_HUB_ROWS["decision"]),) and not os.path.exists(f"{path}-wal")


def copies_of_sqlite(path):
    """Copies that SQLite makes of a database."""
    vacuumed, backup = f"{path}.vacuumed", f"{path}.backup"
    conn, to = sqlite3.connect(path), sqlite3.connect(backup)
    conn.execute("VACUUM INTO ?", (vacuumed,))
    conn.backup(to)
    to.close()
    conn.close()
    return vacuumed, backup


def changed_by(path, sql, to):
    """A copy of a database to which SQLite has done this, each statement to one row at least."""
    changed = copy(path, to)
    conn = sqlite3.connect(changed)
    counts = [conn.execute(it).rowcount for it in sql.split(";")]
    conn.commit()
    conn.close()
    return changed if min(counts) > 0 else None


def refuses(kind, path, sql, why=OUT_OF_FORM, age="old"):
    """Whether records are refused for this reason, once SQLite has done this to a copy of their file, and the file is
    left byte for byte as it was."""
    with tempfile.TemporaryDirectory(prefix="changed-") as room:
        changed = changed_by(path, sql, f"{room}/changed.db")
        if not changed:
            return False
        with open(changed, "rb") as file:
            before = file.read()
        ran = subprocess.run(**command(kind, age, changed), input="", capture_output=True, timeout=600)
        with open(changed, "rb") as file:
            return file.read() == before and ran.returncode == FAILED and why in ran.stderr


def takes(path, sql):
    """Whether a station's records are taken over, once SQLite has done this to a copy of their file."""
    with tempfile.TemporaryDirectory(prefix="changed-") as room:
        changed = changed_by(path, sql, f"{room}/changed.db")
        return bool(changed) and tells("station", "old", changed, [("", "opened\nopen, new false"), ("", "failures 0")])


def migrates(path, was):
    """Whether a station's records are migrated, which were of this version, and stay as they are where that was 3."""
    with open(path, "rb") as file:
        before = file.read()
    told = run(["station", "migrate", path], [])
    with open(path, "rb") as file:
        return told == (f"migrated, was {was}\n", 0) and (was < 3 or file.read() == before)


def is_marked(path, sql, marks):
    """Whether a station's records are migrated with these marks, once SQLite has done this to a copy of their file."""
    with tempfile.TemporaryDirectory(prefix="changed-") as room:
        changed = changed_by(path, sql, f"{room}/changed.db")
        was = ask(changed, "SELECT version FROM numbers")[0][0]
        return migrates(changed, was) and ask(changed, "SELECT version, noted, era FROM numbers") == [(3, *marks)]


def survives_kills(path):
    """Whether what a killed run had answered is in the file, whole, and the next run goes on behind it."""
    more = [orders("ZZALPHA", "ZZBETA", n, n, order("0001")) for n in range(1001, 1401)]
    script = "enrol ZZBETA 2\n" + "".join(f"deposit {it}\n" for it in more)
    for age, told in (("new", 1), ("old", 40), ("old", 150)):
        with started(age, path) as killed:
            killed.stdin.write(script)
            killed.stdin.close()
            lines = [killed.stdout.readline() for _ in range(told + 3)]
            killed.kill()
            lines += killed.stdout.read().splitlines(True)
        answered = max(int(line.split()[2]) for line in lines if line.startswith("boxed ") and line.endswith("\n"))
        rows = ask(path, "SELECT item, bytes FROM decision ORDER BY item")
        is_whole = is_sound(path) and ask(path, "SELECT item FROM hubnumber") == [(len(rows),)]
        if not is_whole or len(rows) < answered or rows != [*enumerate((it.encode() for it in more), 1)][:len(rows)]:
            return False
    return True


def shown(room, page):
    """What is shown, and whether it holds."""
    of_station, of_hub = part(page, "A station's"), part(page, "The hub's")
    questions = blocks(part(page, "Questions, to be pasted into `sqlite3`"))
    hub, station = f"{room}/hub.db", f"{room}/station.db"
    yield "a hub over a new file answers", tells("hub", "new", hub, NEW_HUB)
    yield "SQLite finds no fault in a hub's file and its log", is_sound(hub)
    yield "the schema of a hub's file is that of the page", has_schema(hub, of_hub)
    yield "a hub's calls made these rows", has_rows(hub, NEW_HUB_ROWS)
    yield "the page's questions to a hub", answers(hub, questions[len(STATION_ANSWERS):], HUB_ANSWERS)
    yield "a hub goes on over its file, and closes it", tells("hub", "old", hub, OLD_HUB, CLOSE)
    yield "SQLite finds no fault in a hub's file that was closed", is_sound(hub)
    yield "and in these rows", has_rows(hub, OLD_HUB_ROWS)
    yield "nobody else opens the file meanwhile", sees_lock(hub)
    yield "SQLite opens the files to write, and removes the log", opens_with_sqlite(hub)
    yield "a hub goes on behind SQLite", tells("hub", "old", hub, SEEN_HUB)
    yield "a hub goes on over SQLite's copies", all(tells("hub", "old", it, SEEN_HUB) for it in copies_of_sqlite(hub))
    for sql, what in CHANGED_HUB.items():
        yield f"a hub doesn't take over records in which {what}: {sql}", refuses("hub", hub, sql)
    yield "a hub's records aren't made where tables are", run(["hub", "new", hub], [])[1] == FAILED
    yield "a killed run leaves what it answered", survives_kills(f"{room}/killed.db")
    yield "a station over a new file answers", tells("station", "new", station, NEW_STATION)
    yield "SQLite finds no fault in a station's file and its log", is_sound(station)
    yield "the schema of a station's file is that of the page", has_schema(station, of_station)
    yield "a station's calls made these rows", has_rows(station, STATION_ROWS)
    yield "the page's questions to a station", answers(station, questions[:len(STATION_ANSWERS)], STATION_ANSWERS)
    yield "a hub's records aren't taken over from a station's file", run(["hub", "old", station], [])[1] == FAILED
    yield "a station isn't opened over another's file", run(["station", "other", station], [])[1] == FAILED
    for sql, what in CHANGED_STATION.items():
        yield f"a station doesn't take over records in which {what}: {sql}", refuses("station", station, sql)
    for sql, what in OF_OLDER.items():
        for age, version in (("old", 1), ("other", 1), ("old", 2), ("other", 2)):
            yield (f"records of version {version}, {what}, are refused as such, asked for as {age}",
                   refuses("station", station, f"{OLDER[version]};{sql}", IS_OLDER[version], age))
    for sql in OTHER_VERSIONS:
        yield f"tables of no version up to this one aren't a station's: {sql}", refuses("station", station, sql, NOT_OURS)
    for sql, what in ALLOWED_STATION.items():
        yield f"a station takes over records with {what}: {sql}", takes(station, sql)
    yield "a station goes on over its file", tells("station", "old", station, OLD_STATION)
    yield from migrated(room, hub, station)


def migrated(room, hub, station):
    """What is shown of records of version 1, and whether it holds."""
    made = f"{room}/made.db"
    yield "a station over a new file answers, of version 1", tells("station", "new", made, VERSION_1)
    older = changed_by(made, AS_VERSION_1, f"{room}/older.db")
    yield "records of version 1 aren't taken over", refuses("station", made, AS_VERSION_1, IS_OLDER[1])
    yield "nor migrated as another's", refuses("station", made, AS_VERSION_1, "the records are of", "migrate-other")
    out_of_form = f"{AS_VERSION_1};UPDATE numbers SET seq = 900"
    yield "nor where they are out of form", refuses("station", made, out_of_form, OUT_OF_FORM, "migrate")
    for sql in OTHER_VERSIONS:
        yield f"nor are tables of no version up to this one: {sql}", refuses("station", made, sql, NOT_OURS, "migrate")
    yield "nor a hub's", run(["station", "migrate", hub], [])[1] == FAILED
    yield "records of version 1 are migrated", migrates(older, 1)
    yield "SQLite finds no fault in a file that was migrated", is_sound(older)
    yield "they are of version 3, with their marks", has_rows(older, MIGRATED_ROWS)
    yield "the migrated station goes on: what was accepted stays", tells("station", "old", older, MIGRATED)
    yield "records of version 3 are migrated by nothing", migrates(older, 3) and migrates(station, 3)
    yield from migrated_from_2(room, station)


def migrated_from_2(room, station):
    """What is shown of records of version 2, and whether it holds."""
    made = f"{room}/made2.db"
    yield "a station over a new file answers, of version 2", tells("station", "new", made, VERSION_2)
    older = changed_by(made, AS_VERSION_2, f"{room}/older2.db")
    yield "records of version 2 aren't taken over", refuses("station", made, AS_VERSION_2, IS_OLDER[2])
    out_of_form = f"{AS_VERSION_2};UPDATE numbers SET noted = 3"
    yield "nor migrated where they are out of form", refuses("station", made, out_of_form, OUT_OF_FORM, "migrate")
    yield "records of version 2 are migrated", migrates(older, 2)
    yield "SQLite finds no fault in that file", is_sound(older)
    yield "they are of version 3, and all that came is judged as before", has_rows(older, MIGRATED_ROWS_2)
    yield "what was refused stays so, and what comes is taken", tells("station", "old", older, MIGRATED_2)
    for sql, marks in MARKED.items():
        yield f"these marks are {marks} then: {sql}", is_marked(station, sql, marks)


def main():
    failed = passed = 0
    for name, holds in shown(ROOM, text_of(f"{TOP}/docs/records.md")):
        passed, failed = passed + bool(holds), failed + (not holds)
        if not holds:
            print(f"not so: {name}", flush=True)
    print(f"{passed} passed, {failed} failed")
    return 1 if failed else 0


if __name__ == "__main__":
    with tempfile.TemporaryDirectory(prefix="files-") as ROOM:
        try:
            KEPT = sys.argv[1] if len(sys.argv) > 1 else f"{os.environ.get('GATE_RUN')}/tests"
            PROGRAM = KEPT if sys.argv[1:] or os.path.exists(KEPT) else build(ROOM)
        except Unbuilt as why:
            print(f"{why}\n0 passed, 1 failed")
            sys.exit(1)
        sys.exit(main())
