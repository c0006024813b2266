#!/usr/bin/env python3
"""Draws a script and what it prints as a sequence chart: chart.py SCRIPT PRINTED >PICTURE. Without words each story of
samples/: NAME.script, with what it prints in NAME.expected, as NAME.svg.

The nodes are columns, and each line of the script is a row. A packet is an arrow from the row in which it is sent to the
row in which it is delivered; each further delivery is dashed; one that no line delivers is cut off.
"""
import glob
import html
import os
import re
import sys

TOP = os.path.dirname(os.path.dirname(os.path.dirname(os.path.realpath(__file__))))
TEXT, COLUMN, ROW, HEAD, MARGIN = 300, 210, 30, 50, 60
QUESTIONS = ("fate", "counts", "postings", "show")
# How many words a line has that a hub acts by: one more is the name of the second hub.
OF_HUBS = {"enrol": 3, "dismiss": 2, "collect": 2}
# What prints nothing, and is no row.
QUIET = ("clock", "hub2", "station")
COLOURS = {"sent": "#1a1a1a", "again": "#2458a6", "lost": "#b3261e", "grey": "#c8c8c8", "said": "#5a5a5a"}
HALO = 'paint-order="stroke" stroke="#ffffff" stroke-width="3"'
SENT = re.compile(r"\[(\d+) (\w+) ([a-z]+(?: \d+)?)\]")


class Row:
    """A line of a script: its words, its number as an event, the node where it acts, and what it printed."""

    def __init__(self, line):
        self.line, self.words = line, line.split(" ")
        self.event, self.node, self.said, self.sends = None, None, "", []


def rows_of(script, expected):
    """The rows of a story, in order. Each line but a report prints one line; some print none."""
    printed, rows, packets = expected.split("\n"), [], {}
    for line in script.rstrip("\n").split("\n"):
        row = Row(line)
        word = row.words[0]
        if word == "report":
            row.said = "; ".join(re.sub(r" +", " ", it) for it in printed if it)
        elif word not in QUIET:
            row.said = printed.pop(0) if printed else ""
        found = re.match(r"(\d+) ok", row.said)
        row.event = int(found[1]) if found else None
        row.node = node_of(row.words, packets)
        row.sends = [(int(at), to, what) for at, to, what in SENT.findall(row.said)]
        packets.update({f"{row.event}.{at}": to for at, to, _ in row.sends})
        rows.append(row)
    return rows


def packet_of(word):
    """A packet's name without zeros in front; the word as it is, where it is no name."""
    return re.sub(r"0*(\d+)\.0*(\d+)", r"\1.\2", word)


def node_of(words, packets):
    """The node at which a line acts; none of a line that asks for no node."""
    if words[0] in OF_HUBS:
        return "HUB2" if len(words) > OF_HUBS[words[0]] else "HUB"
    if words[0] == "deliver":
        return packets.get(packet_of(words[1]))
    return words[1] if words[0] in ("agree", "orders", "prepared", "outside", "tick", "restart", *QUESTIONS[:3]) else None


def columns_of(rows):
    """The nodes from left to right: the first station, the hubs, the other stations."""
    names = [it.words[1] for it in rows if it.words[0] == "station"]
    hubs = ["HUB", "HUB2"] if rows[0].words == ["hub2"] else ["HUB"]
    return {name: TEXT + COLUMN // 2 + COLUMN * at for at, name in enumerate([*names[:1], *hubs, *names[1:]])}


def text(x, y, words, colour="sent", anchor="start", size=12):
    return f'<text x="{x:.0f}" y="{y:.0f}" fill="{COLOURS[colour]}" text-anchor="{anchor}" font-size="{size}" {HALO}>{html.escape(words)}</text>'


def line(ends, colour, more=""):
    (x, y), (to_x, to_y) = ends
    return f'<line x1="{x:.0f}" y1="{y:.0f}" x2="{to_x:.0f}" y2="{to_y:.0f}" stroke="{COLOURS[colour]}" {more}/>'


def arrow(start, end, colour, label, at):
    """An arrow with its label near where it begins; the second packet of an event has its label below the line."""
    dashes = 'stroke-dasharray="5 4" ' if colour == "again" else ""
    share = 0.75 if abs(end[1] - start[1]) > 2 * ROW else min(0.5, 70 / max(1, abs(end[0] - start[0])))
    x, y = start[0] + (end[0] - start[0]) * share, start[1] + (end[1] - start[1]) * share
    drawn = [line((start, end), colour, f'{dashes}marker-end="url(#{colour})"')]
    return drawn + ([text(x, y + (13 if at > 1 else -5), label, colour, "middle", 11)] if label else [])


def lost(start, to_x, label, at):
    """A packet that nobody delivers: an arrow that is cut off."""
    way = 1 if to_x > start[0] else -1
    end = (start[0] + way * 80, start[1] + 13 * (at - 1) + 2)
    cross = [line(((end[0] - 5, end[1] + s * 5), (end[0] + 5, end[1] - s * 5)), "lost", 'stroke-width="2"') for s in (1, -1)]
    return [line((start, end), "lost"), *cross, text(end[0] + way * 10, end[1] + 4, label, "lost", "start" if way > 0 else "end", 11)]


def packets(rows, columns, height_of):
    """All packets, each as often as it is delivered."""
    drawn = []
    for row in rows:
        for at, to, what in row.sends:
            name = f"{row.event}.{at}"
            start = (columns[row.node], height_of[row])
            taken = [it for it in rows if it.words[0] == "deliver" and packet_of(it.words[1]) == name]
            if not taken:
                drawn += lost(start, columns[to], f"{name} {what}", at)
            for count, it in enumerate(taken):
                label, colour = (f"{name} {what}", "sent") if count == 0 else ("", "again")
                drawn += arrow(start, (columns[to], height_of[it]), colour, label, at)
    return drawn


def marks(row, columns, y):
    """The row's line of the script, and a dot where it acts; of a question also what was answered."""
    shown = row.line if len(row.line) <= 40 else row.line[:37] + "..."
    drawn = [text(MARGIN - 12, y + 4, str(row.event or ""), "said", "end"), text(MARGIN, y + 4, shown, "said" if not row.event else "sent")]
    if row.node in columns:
        drawn.append(f'<circle cx="{columns[row.node]}" cy="{y}" r="3.5" fill="{COLOURS["sent"]}"/>')
    if row.words[0] == "outside" and row.node in columns:
        x = columns[row.node]
        drawn += arrow((x + COLUMN * 0.45, y - 12), (x, y), "sent", "from outside", 1)
    is_told = row.words[0] in QUESTIONS[:3] or row.said.startswith("refused")
    if is_told and row.node in columns:
        said = re.sub(r"[a-z]+ 0 ?", "", row.said) if row.words[0] == "counts" else row.said
        told = f"{said} posted" if row.words[0] == "postings" else said
        drawn.append(text(columns[row.node] + 8, y + 4, told.strip() or "nothing", "again"))
    elif row.words[0] == "report":
        drawn.append(text(TEXT, y + 4, row.said, "again"))
    return drawn


def chart(script, expected):
    """The picture of a story."""
    rows = rows_of(script, expected)
    columns = columns_of(rows)
    shown = [it for it in rows if it.words[0] not in QUIET]
    height_of = {it: HEAD + ROW * (at + 1) for at, it in enumerate(shown)}
    width, height = TEXT + COLUMN * len(columns) + 20, HEAD + ROW * (len(shown) + 1)
    heads = "".join(
        f'<marker id="{it}" viewBox="0 0 10 10" refX="9" refY="5" markerWidth="8" markerHeight="8" orient="auto">'
        f'<path d="M0 1 L9 5 L0 9 z" fill="{COLOURS[it]}"/></marker>' for it in ("sent", "again"))
    drawn = [f'<svg xmlns="http://www.w3.org/2000/svg" viewBox="0 0 {width} {height}" width="{width}" height="{height}" '
             'font-family="sans-serif">', f"<defs>{heads}</defs>", f'<rect width="{width}" height="{height}" fill="#ffffff"/>']
    for name, x in columns.items():
        drawn += [text(x, 28, name, "sent", "middle", 14), line(((x, 38), (x, height - 10)), "grey")]
    drawn += packets(shown, columns, height_of)
    for row in shown:
        drawn += marks(row, columns, height_of[row])
    return "\n".join([*drawn, "</svg>", ""])


def drawn_of(path, printed=None):
    """The picture of a script, by its file and that of what it prints."""
    printed = printed or re.sub(r"script$", "expected", path)
    with open(path, encoding="utf-8") as script, open(printed, encoding="utf-8") as expected:
        return chart(script.read(), expected.read())


def main(words):
    if len(words) == 2:
        print(drawn_of(*words), end="")
    elif words:
        print("usage: chart.py [SCRIPT PRINTED]", file=sys.stderr)
        return 2
    else:
        for path in sorted(glob.glob(f"{TOP}/samples/*.script")):
            with open(re.sub(r"script$", "svg", path), "w", encoding="utf-8") as file:
                file.write(drawn_of(path))
    return 0


if __name__ == "__main__":
    sys.exit(main(sys.argv[1:]))
