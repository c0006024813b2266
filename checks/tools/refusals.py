"""Each public call of a library that can be refused, by its contract: the page of `checks/pages.py refusals`.

A row is a call that answers a Result: its fault, the clauses that say when it comes, and the clauses that say what it
leaves. A reader's or a writer's own errors are those of whoever passed it in. A call may also answer that memory ran out.
"""
import os
import re

from source_text import behind, files_of, functions_in

TITLE = "# Each call that can be refused"
RESULT = re.compile(r"->\s*(Result<.*?>)\s*(?=where\b|requires\b|ensures\b|\{|;)", re.S)
OF_ERR = re.compile(r"\b(?:IfErr|OnErr|IsErr|IsErrAnd|MatchResult)\b")
OF_OK = re.compile(r"\b(?:IfOk|OnOk)\b")
# The words of clauses that say when a call is refused, and of those that say what is left where it is.
WHEN = {"refused", "fault", "err", "exhausted", "not_new", "other", "others", "ours", "inconsistent", "stopped", "device",
        "store", "memory", "outline", "fails", "once", "read", "unreadable", "too_long", "fits", "bad_line"}
LEFT = {"unchanged", "back", "same", "front", "crash", "disk", "answered", "never_won_back", "goes_on", "was_clean", "answers",
        "clean", "asked", "nodes", "written", "plan", "moves", "no_replies", "no_lines", "stopped", "nothing_printed", "nothing_told",
        "asks_none", "left", "counted", "unsent", "unsettled", "undrafted", "unnamed", "unkept", "unsure", "reserved", "survives", "mode", "hub", "lost", "err"}
# Where no clause says when: what shows it.
SHOWN = {
    "command_table": "`checks/rows.py` and `checks/refused_memory.py`",
    "x12_inspect": "`checks/rows.py`",
    "x12_segments": "`checks/rows.py`",
    "x12_sent": "`checks/rows.py`",
    "x12_mailbox": "`checks/mailbox.py`",
    "x12_network": "`tests/trials`",
    "x12_nodes": "`tests/nodes`",
    "x12_records": "`tests/records`, and `checks/mailbox.py`",
    "x12_tables": "`tests/records`",
    "x12_answering": "`tests/answers`",
    "x12_trial": "`checks/network.py`",
    "sql_rows": "`tests/records`",
    "x12_verify": "nothing: its records answer nothing then, or memory is missing",
}
APART = ("van", "vanlab", "x12_samples", "proved_callers")


def last_type(result):
    """What a Result's Err holds."""
    depth, cut = 0, 0
    for at, byte in enumerate(result):
        depth += byte in "<([" and 1 or byte in ">)]" and -1 or 0
        if byte == "," and depth == 1:
            cut = at
    return " ".join(result[cut + 1:-1].split())


def rows_in(text):
    """The calls of a file that can be refused: name, fault, clauses, whether it may change something, and whether it is a trait's."""
    for it in functions_in(text):
        result = RESULT.search(it.head)
        if it.is_public and result:
            taken = it.head[:behind(it.head, it.head.index("("))]
            # what is given the host may change files
            may_change = "&mut" in taken or "HostRuntime" in taken or "self" in taken and "&self" not in taken
            clauses = [(name, is_ensured, said) for is_ensured, name, said in it.clauses]
            yield f"{it.owner}::{it.name}" if it.owner else it.name, last_type(result[1]), clauses, may_change, it.of_trait


def listed(names):
    return ", ".join(f"`{it}`" for it in names)


def row(crate, name, fault, clauses, may_change, of_trait):
    """The cells of a call."""
    ensured = [(clause, text) for clause, is_ensured, text in clauses if is_ensured]
    when = [clause for clause, text in ensured if clause in WHEN and (OF_ERR.search(text) or clause not in LEFT)]
    left = [clause for clause, text in ensured if clause in LEFT and (OF_ERR.search(text) or not OF_OK.search(text))]
    of_all = any(clause is None for clause, _ in ensured)
    others = "who implements it says" if of_trait else f"shown by {SHOWN[crate]}" if crate in SHOWN else "no clause says"
    said = listed(when) or ("memory is missing" if "AllocError" in fault else "its one clause" if of_all else others)
    kept = listed(left) or ("nothing to change" if not may_change else "its one clause" if of_all else others)
    return f"| `{name}` | `{fault}` | {said} | {kept} |"


def tables():
    """The page."""
    lines, crate = [TITLE], None
    for path, text in files_of("src", ".rt"):
        here = path.split(os.sep)[0]
        if here in APART:
            continue
        for it in rows_in(text):
            if here != crate:
                crate = here
                lines.append(f"## {crate}\n\n| Call | Its fault | When | What is left |\n|---|---|---|---|")
            lines.append(row(here, *it))
    return re.sub(r"\n(## )", r"\n\n\1", "\n".join(lines)) + "\n"
