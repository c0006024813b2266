"""Libraries that are put in front of a program's calls: the .c files beside this one, built by the kit's clang."""
import os
import shutil
import subprocess

HERE = os.path.dirname(os.path.realpath(__file__))
CLANG = f"{os.path.dirname(os.path.realpath(shutil.which('rt') or '/'))}/../toolchain/bin/clang"


def library(name, room):
    """Builds a library in a folder; its path, or None where it can't be built."""
    words = [CLANG, "-O1", "-fPIC", "-shared", "-nostdlib", "-fuse-ld=lld", "-o", f"{room}/{name}.so", f"{HERE}/{name}.c"]
    try:
        built = subprocess.run(words, stdin=subprocess.DEVNULL, capture_output=True, check=False)
    except OSError:
        return None
    return f"{room}/{name}.so" if built.returncode == 0 else None
