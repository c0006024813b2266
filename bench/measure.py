#!/usr/bin/env python3
"""Runs programs side by side over the inputs: measure.py FOLDER VANLAB. Prints the best of five runs of each."""
import os
import shutil
import subprocess
import sys
import time

HERE = os.path.dirname(os.path.abspath(__file__))
ANSWER = "answer --me ZZBETA --icn 1 --gcn 1 --date 20250102 --time 0931 PO850".split()
RUNS = 5


def once(command, path):
    """Seconds of processor time and MB of memory of one run."""
    source = os.open(path, os.O_RDONLY)
    sink = os.open(os.devnull, os.O_WRONLY)
    moves = [(os.POSIX_SPAWN_DUP2, source, 0), (os.POSIX_SPAWN_DUP2, sink, 1), (os.POSIX_SPAWN_DUP2, sink, 2)]
    child = os.posix_spawn(command[0], command, os.environ, file_actions=moves)
    _, status, usage = os.wait4(child, 0)
    os.close(source)
    os.close(sink)
    if os.waitstatus_to_exitcode(status) != 0:
        sys.exit(f"{command[0]} failed on {path}")
    return usage.ru_utime + usage.ru_stime, usage.ru_maxrss / 1024


def main():
    folder, vanlab = sys.argv[1], os.path.abspath(sys.argv[2])
    awk = shutil.which("mawk")
    perl = shutil.which("perl")
    if perl and subprocess.run([perl, "-MX12::Parser", "-e", "1"], stderr=subprocess.DEVNULL).returncode != 0:
        perl = None
    print(f"{'input':<12}{'MB':>7}  {'program':<12}{'s':>9}{'MB/s':>9}{'memory MB':>11}")
    growth, sizes = {}, {}
    for name in ("large", "small", "noisy"):
        for megabytes in (1, 4, 16):
            path = os.path.join(folder, f"{name}_{megabytes}.edi")
            size = sizes[(name, megabytes)] = os.path.getsize(path) / 1e6
            programs = [("vanlab", [vanlab] + ANSWER)]
            if awk:
                programs.append(("mawk", [awk, "-f", os.path.join(HERE, "answer.awk")]))
            if perl and megabytes == 1:
                # X12::Parser opens the file itself; at 16 MB it takes minutes
                programs.append(("X12::Parser", [perl, os.path.join(HERE, "parser.pl"), os.path.join(HERE, "850.cf"), path]))
            for program, command in programs:
                runs = [once(command, path) for _ in range(RUNS if program != "X12::Parser" else 1)]
                seconds, memory = min(r[0] for r in runs), max(r[1] for r in runs)
                growth[(name, program, megabytes)] = seconds
                print(f"{name:<12}{size:>7.2f}  {program:<12}{seconds:>9.3f}{size / max(seconds, 1e-4):>9.0f}{memory:>11.1f}", flush=True)
    for (name, program, megabytes), seconds in growth.items():
        if megabytes == 16:
            print(f"{name}: {sizes[(name, 16)] / sizes[(name, 1)]:.1f} times the bytes, {program} "
                  f"{seconds / max(growth[(name, program, 1)], 1e-4):.1f} times the time")


main()
