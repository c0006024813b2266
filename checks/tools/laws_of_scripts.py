"""Laws of what `vanlab script` prints of lines at random."""
import random
import re

NETWORK = ["station ALPHA", "station BETA", "enrol ALPHA ALPHA", "enrol BETA BETA", "agree BETA ALPHA PO850"]

# ALPHA at the first hub, BETA at the second one, and each hub has a mailbox for the other.
NETWORK_OF_TWO_HUBS = [
    "hub2", "station ALPHA", "station BETA HUB2", "enrol ALPHA ALPHA", "enrol BETA HUB2", "enrol BETA BETA HUB2",
    "enrol ALPHA HUB HUB2", "agree BETA ALPHA PO850"]


def from_outside(receiver, icn):
    """An interchange with one order, from DELTA."""
    isa = f"ISA*00*          *00*          *ZZ*DELTA          *ZZ*{receiver:<15}*250102*0930*U*00401*{icn:09}*0*P*:~"
    told = "ST*850*0001~BEG*00*SA*PO-1**20250102~PO1*1*10*EA*5~SE*4*0001~"
    return f"{isa}GS*PO*DELTA*{receiver}*20250102*0930*{icn}*X*004010~{told}GE*1*{icn}~IEA*1*{icn:09}~"


def some_line_of_two_hubs(pick, packets):
    """The same in a network of two hubs."""
    node, party = (pick.choice(["ALPHA", "BETA", "GAMMA", "HUB", "HUB2"]) for _ in range(2))
    if pick.randrange(3):
        return some_line(pick, packets)
    return pick.choice([
        *["collect HUB2", "collect HUB HUB2", "collect BETA HUB2", "collect ALPHA"] * 5, "enrol BETA HUB2",
        "enrol BETA BETA HUB2", "enrol ALPHA HUB HUB2", "enrol ALPHA ALPHA", f"enrol {party} {node} HUB2",
        f"enrol {party} {node}", f"dismiss {party} HUB2", f"collect {node} HUB2", f"restart {node}",
        f"outside HUB2 {from_outside('ALPHA', pick.randrange(1, 9))}", f"tick {node} 5"])


def some_line(pick, packets):
    """A line of a form that there is, of words that mostly fit. Most bring a packet, mostly one of the last."""
    node, party = (pick.choice(["ALPHA", "BETA", "GAMMA", "HUB"]) for _ in range(2))
    packet = pick.choice([*packets[-20:], pick.choice(packets or ["1.1"]), "0.1"])
    return pick.choice([
        *[f"deliver {packet}"] * 30, *[f"collect {name}" for name in ("ALPHA", "BETA", "ALPHA", "BETA", node)],
        "orders ALPHA BETA P", "orders ALPHA BETA P-1 P-2", "orders BETA ALPHA P", f"orders {node} {party} P",
        "tick ALPHA 0", f"tick {node} {pick.randrange(100)}", f"restart {node}", "enrol BETA BETA", "enrol ALPHA ALPHA",
        f"enrol {party} {node}", f"dismiss {party}", f"agree {node} {party} PO850", "agree BETA ALPHA PO850",
        "agree BETA ALPHA", f"outside {node} ISA",
        f"outside {node} {from_outside('BETA', pick.randrange(1, 9))}", f"show {packet}",
        f"fate ALPHA {pick.randrange(9)} 1 1", "counts ALPHA", "postings BETA", "report", "clock 20250103 1000"])


# What lines at random are made of, beside packets of low numbers, and bytes.
LINES = [
    "enrol ALPHA ALPHA", "enrol BETA BETA", "enrol BETA ALPHA", "enrol GAMMA HUB", "dismiss BETA",
    "agree BETA ALPHA PO850", "agree BETA ALPHA", "agree ALPHA BETA PO850 IN810", "orders ALPHA BETA PO-1",
    "orders BETA ALPHA PO-1 PO-2", "orders ALPHA GAMMA P*", "orders ALPHA ALPHA P", "prepared ALPHA ISA*",
    "outside BETA ISA", "outside HUB GS*PO~", "collect ALPHA", "collect BETA", "restart ALPHA", "restart BETA",
    "restart HUB", "tick DELTA 7", "clock 20250103 1200", "fate ALPHA 1 1 1", "fate BETA 1 1 2", "counts ALPHA",
    "postings BETA", "report", "tick ALPHA 5", "tick BETA 9", "show 3.1", "show 12.2", "collect DELTA"]


def chance(seed=1):
    """A sequence that looks like chance: gives a call for its next number below a bound."""
    def below(bound):
        nonlocal seed
        seed = (seed * 1664525 + 1013904223) % 2**32
        return (seed >> 8) % bound
    return below


def mixed_line(below, has_bytes):
    """A line at random: one of LINES, a packet of a low number, or bytes."""
    kind = below(4)
    if kind == 0:
        word = "deliver " if below(4) else "show 0"
        return f"{word}{below(10)}{below(10)}{'.1' if below(3) else '.2'}"
    if kind == 1 and has_bytes:
        return "".join(chr(below(256)) for _ in range(below(9)))
    return LINES[below(len(LINES))]


# What a line may say. S13 and B3 are of a failed device, which records in memory haven't.
FORM = re.compile(
    r"(?P<event>[1-9][0-9]*) ok( \[[1-9][0-9]* [A-Z]+2? (deposit|refusal|(item|taken) [1-9][0-9]*)\])*"
    r"|refused (V[1-5]|S[1-9]|S1[0-24]|B[1-24])( [HO][1-5])?|accepted|rejected|pending|unknown|none|[0-9]+|ISA\*.*"
    r"|settled [0-9]+ repeated [0-9]+ unmatched [0-9]+ conflicting [0-9]+ unclear [0-9]+"
    r"|ZZ/[ -~]{15} [0-9]{9} [0-9]{2} [0-9]{3} ZZ/[ -~]{15} "
    r"(?P<ended>(accepted|rejected|pending ) [ 0-9]{3}[-0-9] (ok|ext))")


def forms(out):
    """What each printed line matches: a form, or None."""
    return [FORM.fullmatch(line) for line in out.splitlines()]


def are_in_turn(found):
    """Whether each line has a form, and events count up by one."""
    events = [int(match["event"]) for match in found if match and match["event"]]
    return all(found) and events == list(range(1, len(events) + 1))


def sent(out):
    """The names of the packets that events sent."""
    events = (line.split(" ", 1) for line in out.splitlines() if " ok" in line)
    return [f"{event}.{place}" for event, told in events for place in re.findall(r"\[([0-9]+) ", told)]


def text_of(lines):
    return "".join(f"{it}\n" for it in lines)


def are_in_form(run, network, some, seed):
    """Whether each output line of lines at random has its form, events count up by one, and no report line says BAD. The
    script grows by 100 lines that bring packets which it has sent; returns what a set came to, or nothing."""
    pick, script, before, reached = random.Random(f"20250102 {seed}"), text_of(network), "", set()
    for _ in range(10):
        packets = sent(before)
        script += text_of(some(pick, packets) for _ in range(100))
        out, err, status = run("vanlab", ["script"], script)
        found = forms(out)
        reached |= {match["ended"] for match in found if match}
        if not (status == 0 and err == "" and are_in_turn(found) and out.startswith(before)):
            return None
        before = out
    return reached


def reach_all(run, network, some):
    """Whether ten such scripts keep the form, and reach all that a set can come to."""
    reached = [are_in_form(run, network, some, seed) for seed in range(10)]
    wanted = {"accepted    1 ok", "rejected    0 ok", "pending     1 ok", "pending     0 ok"}
    return None not in reached and set().union(*reached) >= wanted


def are_bad(run, seed):
    """Whether bytes at random end at a bad line, with a sentence of it."""
    pick = random.Random(f"20250102 {seed}")
    script = "station ALPHA\n" + "".join(chr(pick.randrange(256)) for _ in range(pick.randrange(1, 4000)))
    out, err, status = run("vanlab", ["script"], script)
    return re.fullmatch(r"line [0-9]+: bad line\n", out) is not None and status == 1 and err.count("\n") == 1


def is_told_of(run, below, has_bytes):
    """Whether of lines at random none is bad, each that they print has its form, and no report says BAD. Where bytes are
    among them the run ends at a bad line, and in front of that the same is true."""
    script = text_of(["station ALPHA", "station BETA", *(mixed_line(below, has_bytes) for _ in range(100))])
    out, err, status = run("vanlab", ["script"], script)
    bad = re.search(r"^line ([0-9]+): bad line\n\Z", out, re.MULTILINE)
    is_told_well = re.fullmatch(f"line {bad[1]}: [^\n]+\n", err) is not None if bad else err == ""
    is_formed = are_in_turn(forms(out[: bad.start()] if bad else out))
    return bool(bad) == has_bytes and status == has_bytes and is_told_well and is_formed


def laws():
    """Each law, and its tries: calls that are given a run of a program."""
    below = chance()
    yield "lines at random print lines of their form, and reach all that a set can come to", [
        lambda run: reach_all(run, NETWORK, some_line), lambda run: reach_all(run, NETWORK_OF_TWO_HUBS, some_line_of_two_hubs)]
    yield "bytes at random end at a bad line", [lambda run, seed=seed: are_bad(run, seed) for seed in range(20)]
    mixed = [(lambda run, n=n: is_told_of(run, below, n % 2 == 1)) for n in range(100)]
    # one after another, since each goes on in the sequence of the one before
    yield "mixed lines are told of", [lambda run: all(it(run) for it in mixed)]
