#!/usr/bin/env python3
"""Runs the program of nodes and cores with 100 and 900 orders a station: measure.py NODES_BENCH. Prints, of the best of nine
runs, what a kind of ask takes on a core and through a node, and what a call and its settlement take."""
import re
import subprocess
import sys

RUNS = 9
ROW = re.compile(r"(.+): (\d+) and \d+ asks, (\d+) and (\d+) ns")
END = re.compile(r"(\d+) calls: (\d+) and (\d+) ns, settled true in (\d+) ns")


def once(program, orders):
    """Of each kind, and of all, how many there were and what they took: on cores, by nodes, and settled."""
    said = subprocess.run([program, str(orders)], stdout=subprocess.PIPE, text=True, check=True).stdout
    rows = {it[1]: [int(it[2]), int(it[3]), int(it[4])] for it in map(ROW.fullmatch, said.splitlines()) if it}
    return {**rows, "all": [int(it) for it in END.search(said).groups()]}


def main():
    for orders in (100, 900):
        runs = [once(sys.argv[1], orders) for _ in range(RUNS)]
        print(f"{orders} orders a station")
        for name, row in runs[0].items():
            best = [min(run[name][at] for run in runs) / row[0] for at in range(1, len(row))]
            print(f"{name:<24}{row[0]:>8}{best[0]:>10.0f} ns{best[1]:>10.0f} ns{best[1] / best[0]:>7.2f}", end="")
            print(f"{best[2]:>10.0f} ns to settle a call" if best[2:] else "")


main()
