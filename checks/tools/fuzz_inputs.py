"""Random inputs: transmissions that are mostly X12 and then bitten, and scripts of a network of three stations."""
NASTY = b"\0\n\r\x1f *~:|>+A0\x7f\x80\xff"
# ISA11 and ISA12: supported ones mostly, then of every kind.
CONTROLS = ["U*00401"] * 12 + ["^*00501", "U*00501", "^*00402", "!*00500", "U*00200", "^*00401", "^*00200", "B*00501", "7*00402",
            " *00501", "u*00500", "U*00502", "^*00601", "U*00199", "^*00199", "^*0050A", "X*00401"]
DELIMITERS = [b"*:~"] * 4 + [b"|>~", b"*:\n", b"+@'", b"*<\r", b"\x1d\x1f\x1c"]
BEGS = ["BEG*00*SA*PO-1**20250102", "BEG*00*SA*X**20250102", "BEG*000*SA***20250102", "BEG*00*SA*PO-1**20251302", "BEG"]
PO1S = ["PO1*1*10*EA*5", "PO1*1*10*EA*5", "PO1**1*EA", "PO1*1*x*EA*5", "PO1*1*10*EA*5****VP*7", "REF*ZZ*1", "ZZZ*1", "N1*ST*A"]


def segments_of_set(rng, number):
    kind = rng.choice(["850"] * 9 + ["810"])
    body = [rng.choice(BEGS[:2] if rng.random() < 0.7 else BEGS)] + [rng.choice(PO1S) for _ in range(rng.randrange(4))]
    count = len(body) + 2 + (rng.random() < 0.05)
    said = number if rng.random() < 0.97 else "0099"
    return [f"ST*{kind}*{number}", *body, f"SE*{count}*{said}"]


def segments_of_group(rng, number):
    functional = rng.choice(["PO"] * 8 + ["IN", "FA"])
    sets = [segments_of_set(rng, f"{at + 1:04}" if rng.random() < 0.95 else "0001") for at in range(rng.randrange(4))]
    count = len(sets) + (rng.random() < 0.05)
    front = f"GS*{functional}*ALPHA*BETA*20250102*0930*{number}*X*004010"
    return [front, *[it for one in sets for it in one], f"GE*{count}*{number}"]


def interchange(rng, icn):
    groups = [segments_of_group(rng, icn * 10 + at) for at in range(rng.choice([0, 1, 1, 1, 2, 3]))]
    receiver = rng.choice(["BETA"] * 12 + ["GAMMA"]).ljust(15)
    front = "ISA*00*          *00*          *ZZ*ALPHA          *ZZ*" + receiver
    front += f"*250102*0930*{rng.choice(CONTROLS)}*{icn:09}*{rng.randrange(2)}*P*:"
    said = icn if rng.random() < 0.97 else icn + 1
    segments = [front, *[it for one in groups for it in one], f"IEA*{len(groups)}*{said:09}"]
    delimiters = rng.choice(DELIMITERS)
    places = {ord(old): bytes([new]) for old, new in zip("*:~", delimiters)}
    behind = rng.choice([b"", b"", b"", b"\n", b"\r\n"])
    return b"".join(b"".join(places.get(b, bytes([b])) for b in f"{it}~".encode()) + behind for it in segments)


def bitten(rng, text):
    """The bytes with some of them changed, lost, doubled or cut off."""
    for _ in range(rng.choice([0, 0, 0, 1, 1, 2, 5])):
        at, more = rng.randrange(len(text) + 1), rng.randrange(1, 30)
        byte = bytes([rng.choice(NASTY)])
        text = rng.choice([
            text[:at] + byte + text[at + 1:], text[:at] + byte + text[at:], text[:at] + text[at + 1:],
            text[:at] + text[at:at + more] + text[at:], text[:at] + text[at + more:], text[:at] if at else text])
    return text


def transmission(rng):
    text = b"".join(interchange(rng, at + 1) for at in range(rng.choice([1, 1, 1, 2, 3])))
    return bitten(rng, text)


NAMES = ["ALPHA", "BETA", "GAMMA"]
# Texts of orders: the last is longer than an order's number may be.
TEXTS = ["P1", "P2", "P3", "P-4", "P" * 23]


def line_of_script(rng, events):
    """A line of a script in which so many events may stand so far."""
    one, two = rng.choice(NAMES), rng.choice(NAMES)
    number = rng.randrange(1, max(events, 1) + 1)
    deliver = f"deliver {number}.{rng.choice([1, 1, 1, 2, 3])}"
    order = f"orders {one} {two} " + " ".join(rng.choice(TEXTS) for _ in range(rng.randrange(1, 4)))
    return rng.choice([deliver] * 14 + [order] * 3 + [
        f"collect {one}", f"collect {one}", f"collect {two}", f"tick {one} {rng.randrange(40)}", f"restart {one}",
        "restart HUB", f"agree {one} {two} PO850", f"agree {one} {two} lenient PO850", f"agree {one} {two}",
        f"enrol {one} {rng.choice(NAMES)}",
        f"dismiss {one}", f"outside {one} {interchange(rng, number).decode('latin-1')}".replace("\n", "").replace("\r", ""),
        f"prepared {one} {interchange(rng, number).decode('latin-1')}".replace("\n", "").replace("\r", "")])


def script(rng):
    lines = [f"station {it}" for it in NAMES] + [f"enrol {it} {it}" for it in NAMES if rng.random() < 0.9]
    lines += [f"agree {one} {two} {rng.choice(['', 'lenient '])}PO850" for one in NAMES for two in NAMES
              if one != two and rng.random() < 0.8]
    for at in range(rng.randrange(5, 120)):
        lines.append(line_of_script(rng, len(lines) + at // 4))
    # what isn't ASCII is a bad line
    return "".join(f"{it}\n" for it in lines if it.isascii()).encode("latin-1")
