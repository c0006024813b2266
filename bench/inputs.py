#!/usr/bin/env python3
"""Writes the benchmark's inputs: inputs.py FOLDER. The same call writes the same bytes everywhere."""
import os
import sys

LIMIT = 16_777_216  # the greatest input that `vanlab answer` takes


def isa(number):
    return (f"ISA*00*          *00*          *ZZ*ALPHA          *ZZ*BETA           "
            f"*250102*0930*U*00401*{number:09}*1*P*:~")


def interchange(number, sets):
    """One interchange with one functional group of purchase orders."""
    return (isa(number) + "GS*PO*ALPHA*BETA*20250102*0930*1*X*004010~" + "".join(sets)
            + f"GE*{len(sets)}*1~IEA*1*{number:09}~")


def order(number, lines, faults=0):
    """A purchase order with so many lines, and so many CTT segments that are in error."""
    body = [f"BEG*00*SA*PO-{number}**20250102~"]
    body += [f"PO1*{n}*{n * 7 % 90 + 1}*EA*{n * 13 % 900}.25**VP*{n * 7919 % 10**8:08}~" for n in range(1, lines + 1)]
    body += ["CTT*1:2~"] * faults
    return f"ST*850*{number:04}~" + "".join(body) + f"SE*{len(body) + 2}*{number:04}~"


def large(size):
    """Interchanges of about 1 MB, each with 400 orders."""
    sets = [order(n, 74) for n in range(1, 401)]
    return repeated(size, sets)


def small(size):
    """Interchanges of one order with one line."""
    return repeated(size, [order(1, 1)])


def noisy(size):
    """Interchanges of 100 orders, each with more notes than are written."""
    return repeated(size, [order(n, 5, faults=12) for n in range(1, 101)])


def repeated(size, sets):
    out, length, number = [], 0, 0
    while True:
        number += 1
        text = interchange(number, sets)
        if length + len(text) > size:
            return "".join(out).encode()
        out.append(text)
        length += len(text)


def main():
    folder = sys.argv[1]
    os.makedirs(folder, exist_ok=True)
    for name, make in (("large", large), ("small", small), ("noisy", noisy)):
        for megabytes in (1, 4, 16):
            # 16 MB is a little less than the program's limit; the smaller ones are parts of that size
            size = (LIMIT - 1024) * megabytes // 16
            with open(os.path.join(folder, f"{name}_{megabytes}.edi"), "wb") as file:
                file.write(make(size))


main()
