"""A terminal that a program writes to."""
import contextlib
import os
import subprocess


def on_terminal(words, stream, **how):
    """Runs a program whose `stdout` or `stderr` is a terminal: its status, what it writes to a pipe, and what to the terminal."""
    ours, theirs = os.openpty()
    running = subprocess.Popen(words, stdin=subprocess.DEVNULL, **{stream: theirs}, **how)
    os.close(theirs)
    said = b""
    with contextlib.suppress(OSError):  # the terminal's other end is closed
        while piece := os.read(ours, 65536):
            said += piece
    os.close(ours)
    return running.wait(timeout=120), running.stdout.read() if running.stdout else b"", said
