"""Laws of what `vanlab answer` writes of one order with a byte changed, and of interchanges at the limits."""
import re

ANSWER = ["answer", "--me", "ZZBETA", "--icn", "1", "--gcn", "1", "--date", "20250102", "--time", "0931", "PO850"]
ISA = "ISA*00*          *00*          *ZZ*ALPHA          *ZZ*BETA           *250102*0930*U*00401*000000001*1*P*:~"
GS = "GS*PO*ALPHA*BETA*20250102*0930*1*X*004010~"
ORDER = ISA + GS + "ST*850*0001~BEG*00*SA*PO-1**20250102~PO1*1*10*EA*5~SE*4*0001~GE*1*1~IEA*1*000000001~"
REFUSAL = ("ISA*00*          *00*          *ZZ*BETA           *ZZ*ALPHA          *250102*0931*U*00401*000000001*0*P*:~"
           "TA1*000000001*250102*0930*R*{}~IEA*0*000000001~")

# Which segment may follow which in a reply; nothing stands in front of ISA.
FOLLOWS = set(""">ISA ISA>TA1 ISA>GS TA1>GS TA1>IEA GS>ST ST>AK1 AK1>AK2 AK1>AK9 AK2>AK3 AK2>AK5 AK3>AK3 AK3>AK4 AK3>AK5
    AK4>AK3 AK4>AK4 AK4>AK5 AK5>AK2 AK5>AK9 AK9>SE SE>ST SE>GE GE>IEA""".split())


def is_reply(text, terminator="~"):
    """Whether a text is one whole reply: each segment may stand where it does, each trailer tells what was counted."""
    segments = [it.split("*") for it in text[:-1].split(terminator)]
    names = [it[0] for it in segments]
    counts = {"GS": 0, "ST": 0, "segments": 0}
    for name, *rest in segments:
        counts["segments"] += 1
        if name == "GS":
            counts.update(GS=counts["GS"] + 1, ST=0)
        elif name == "ST":
            counts.update(ST=counts["ST"] + 1, segments=1)
        told = {"SE": "segments", "GE": "ST", "IEA": "GS"}.get(name)
        if told and rest[:1] != [str(counts[told])]:
            return False
    follows = all(f"{one}>{next}" in FOLLOWS for one, next in zip(["", *names], names))
    return text.endswith(terminator) and follows and names[-1] == "IEA"


NASTY = "\0\n\r\x1f *~:A0\x7f\x80\xff"

# What may stand at each place of the order. In ISA (X12.5): `=` that byte alone, `9` a digit, `x` a byte of text, `:` a
# component separator and `~` a terminator; behind it `-` anything, and `i` in IEA, which a terminator cuts in two.
KINDS = "====xx=xxxxxxxxxx=xx=xxxxxxxxxx=xx=xxxxxxxxxxxxxxx=xx=xxxxxxxxxxxxxxx=xxxxxx=xxxx=x=xxxxx=999999999=x=x=:~"
KINDS += "-" * 113 + "i" * 12 + "-"

# The nasty bytes that may not stand at a place of a kind, and the line that one leaves.
BAD = {
    "=": (NASTY, "interchange 1: H3\n"),
    "9": ("\0\n\r\x1f *~:A\x7f\x80\xff", "interchange 1: H5\n"),
    "x": ("\0\n\r\x1f*~:", "interchange 1: H5\n"),
    ":": ("\n\r *~:A0", "interchange 1: H4\n"),
    "~": (" *~:A0", "interchange 1: H4\n"),
    "-": ("", ""),
    "i": ("~", "interchange 2: H2\n"),
}


def order_with(at, byte):
    return ORDER[:at] + byte + ORDER[at + 1 :]


def is_well_with(run, at, byte):
    """Whether the order with another byte at a place gets one whole reply where its header can be read, else a line."""
    bad, line = BAD[KINDS[at]]
    line = line if byte in bad else ""
    out, err, status = run("vanlab", ANSWER, order_with(at, byte))
    is_right = out == "" if line.startswith("interchange 1") else is_reply(out, byte if at == 105 else "~")
    return is_right and err == line and status == (1 if line else 0)


def is_refused(run, text, note, terminator="~"):
    """Whether an interchange gets the reply that refuses it with this note."""
    return run("vanlab", ANSWER, text) == (REFUSAL.format(note).replace("~", terminator), "", 0)


def is_short(run, text, notes):
    """Whether 400 sets get one whole reply of less than 400,000 bytes, with so many segments in error."""
    out, err, status = run("vanlab", ANSWER, text)
    return (err, status) == ("", 0) and len(out) < 400_000 and is_reply(out) and len(re.findall("~AK3\\*", out)) == notes


def sets(form):
    return ISA + GS + "".join(form.format(f"{n:04}") for n in range(400)) + "GE*400*1~IEA*1*000000001~"


def laws():
    """Each law, and its tries: calls that are given a run of a program."""
    nines = "9" * 100
    noisy = "ST*850*{0}~A*1~B*1~C*1~D*1~E*1~F*1~G*1~H*1~I*1~SE*11*{0}~"
    longest = f"ST*850*000000001~BEG*{nines}*{nines}*{nines}**{nines}~PO1~CTT*{nines}~CTT*{nines}~SE*1*1~"
    yield "an order with one nasty byte gets a reply or a line", [
        lambda run, at=at, byte=byte: is_well_with(run, at, byte)
        for at, was in enumerate(ORDER) for byte in NASTY if byte != was]
    # A line end is a control byte too, but where a segment begins.
    yield "a control byte behind the header refuses the interchange", [
        lambda run, at=at, byte=byte: is_refused(run, order_with(at, byte), "022")
        for at in range(106, 232) for byte in "\0\x1f" + ("" if ORDER[at - 1] == "~" else "\r\n")]
    # A terminator of its own in the header, which no other segment has: the input ends before one.
    yield "a terminator that no segment has refuses the interchange", [
        lambda run, byte=byte: is_refused(run, order_with(105, byte), "023", byte) for byte in "\0\n\r\x1f\x7f\x80\xff"]
    yield "a reply to 400 sets stays short", [
        lambda run: is_short(run, sets(noisy), 3200), lambda run: is_short(run, sets(longest), 1200)]
