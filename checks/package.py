#!/usr/bin/env python3
"""Help, manual pages and completion of van and vanlab say the same; and ./package installs, runs and leaves no trace.

usage: package.py [--root FOLDER] [VAN VANLAB]

Without a word the programs are those of crates/*/out. Each option of a help, each of its commands and what it says of them
stands in the manual page as `man` shows it, and no other option does; the completion offers each command and each option,
and no others.

With --root the package that is in out/ is installed into this folder, which holds a system as `debootstrap --variant=minbase`
makes it, and no kit: nobody runs a check and a mailbox there, and a purge leaves what was there before. That wants root.

The last line is 'N passed, M failed'.
"""
import glob
import os
import re
import shutil
import subprocess
import sys
import tempfile

sys.dont_write_bytecode = True
HERE = os.path.dirname(os.path.realpath(__file__))
TOP = os.path.dirname(HERE)
sys.path.insert(0, f"{HERE}/tools")
from manual import completion, manuals, pages_of, said
from tally import Tally

TALLY = Tally("package")
OPTION = re.compile(r"(?<![\w-])--?[A-Za-z][\w-]*")


def spaced(text):
    return re.sub(r"\s+", " ", text)


def shown(text, room):
    """A manual page as `man` shows it, on lines that are long enough for all; and what it warns of."""
    path = f"{room}/page.1"
    with open(path, "w", encoding="utf-8") as file:
        file.write(text)
    its = {**os.environ, "MANWIDTH": "1000", "MANROFFSEQ": "", "LC_ALL": "C.UTF-8"}
    ran = subprocess.run(["man", "--warnings", "-P", "cat", "-l", path], capture_output=True, text=True, env=its, check=False)
    return re.sub(".\b", "", ran.stdout), ran.stderr


def offers(script, *words):
    """What the completion offers for the last of these words."""
    program = words[0]
    quoted = " ".join(f"'{it}'" for it in words)
    line = f"COMP_WORDS=({quoted}); COMP_CWORD={len(words) - 1}; _{program}; printf '%s\\n' \"${{COMPREPLY[@]}}\""
    ran = subprocess.run(["bash", "-c", f"{script}\n{line}"], capture_output=True, text=True, check=False)
    return sorted(ran.stdout.split()) if not ran.stderr else ran.stderr


def are_alike(path, program, room):
    """Holds the help of a program, as it says it, against its manual pages and its completion."""
    pages = pages_of(path, program)
    texts, script, commands = manuals(pages), completion(pages), pages[0].commands()
    TALLY.want(f"{program}: a page for each command, {sorted(texts)}", len(texts) == len(commands) + 1)
    TALLY.want(f"{program}: the commands are offered", offers(script, program, "") == sorted([*commands, "help", *OPTION.findall(
        said(path, program, "--help").split("\nOptions:\n")[1])]))
    for page in pages:
        words = [page.command] if page.command else []
        help_text = said(path, program, *words, "--help")
        options = help_text.split("\nOptions:\n")[1].split("\n\n")[0]
        wanted = sorted({it for line in options.split("\n") for it in OPTION.findall(line.strip().split("  ")[0])})
        text, warned = shown(texts[f"{page.name}.1"], room)
        lines = text.split("\nOPTIONS\n")[1].split("\nEX")[0].split("\nNOTES")[0].split("\nSEE ALSO")[0].split("\n")
        has = {it for line in lines if re.match(r" {7}-", line) for it in OPTION.findall(re.split(r" {2,}|<", line.strip())[0])}
        TALLY.want(f"{page.name}: the options {wanted} in its page {sorted(has)}", sorted(has) == wanted and not warned)
        for line in help_text.split("\n"):
            says = re.match(r" {2,6}\S.*? {2,}(\S.*)$", line)
            TALLY.want(f"{page.name}: {line.strip()}", not says or spaced(says[1]) in spaced(text))
        if page.command:
            TALLY.want(f"{page.name}: its options are offered", offers(script, program, page.command, "-") == wanted)


def files_in(root):
    return sorted(f"{at}/{it}" for at, folders, names in os.walk(root) for it in [*folders, *names] if "/proc/" not in at)


def inside(root, command, user="root"):
    """What a command says and how it ends, in this root."""
    words = ["chroot", f"--userspec={user}", root, "/bin/sh", "-c", command]
    ran = subprocess.run(words, capture_output=True, text=True, check=False, env={"PATH": "/usr/sbin:/usr/bin:/sbin:/bin", "LC_ALL": "C"})
    return ran.returncode, ran.stdout + ran.stderr


def is_installed(root):
    """Installs the package into a root, uses it there as nobody, and removes it."""
    deb = max(glob.glob(f"{TOP}/out/mushegbo_*.deb"), key=os.path.getmtime)
    users = open(f"{root}/etc/passwd", encoding="utf-8").read()
    inside(root, "dpkg --configure -a")
    before = files_in(root)
    shutil.copy(deb, f"{root}/tmp/it.deb")
    status, told = inside(root, "dpkg -i /tmp/it.deb")
    os.remove(f"{root}/tmp/it.deb")
    TALLY.want(f"it is installed: {told}", status == 0 and os.path.isdir(f"{root}/var/lib/van"))
    shutil.copy(f"{TOP}/samples/rejected.edi", f"{root}/tmp/sample.edi")
    status, told = inside(root, "cd /tmp && van check --me ZZBETA PO850 sample.edi", "nobody")
    TALLY.want(f"nobody checks a file: {told}", status == 1 and told.startswith("interchange 1, 000000001, ZZ/ALPHA to ZZ/BETA: 1 of 1 sets rejected\n"))
    turns = "cd $(mktemp -d) && van init hub --me ZZHUB --is-hub && van enrol hub ZZALPHA && van status hub && rm -r hub && rmdir $PWD"
    wanted = "hub ZZ/HUB in hub\nZZ/ALPHA has mailbox 1: hub/ZZALPHA\nZZ/ALPHA mailbox 1: 0 waiting\n"
    TALLY.want("nobody makes a mailbox", inside(root, turns, "nobody") == (0, wanted))
    TALLY.want("the user of mailboxes makes one", inside(root, "van init /var/lib/van/hub --me ZZHUB --is-hub", "van:van")[0] == 0)
    status, told = inside(root, "dpkg -P mushegbo")
    TALLY.want(f"a purge keeps mailboxes and their user: {told}", status == 0 and os.path.exists(f"{root}/var/lib/van/hub/records.db"))
    shutil.rmtree(f"{root}/var/lib/van/hub")
    shutil.copy(deb, f"{root}/tmp/it.deb")
    status, told = inside(root, "dpkg -i /tmp/it.deb && dpkg -P mushegbo; e=$?; rm /tmp/it.deb /tmp/sample.edi; exit $e")
    TALLY.want(f"a purge: {told}", status == 0)
    # dpkg, useradd and userdel keep logs and copies of their own files
    of_dpkg = re.compile(r"/var/(log|lib/dpkg|cache)/|/etc/(passwd|group|shadow|gshadow|subuid|subgid|\.pwd\.lock)")
    left = [it for it in set(files_in(root)) ^ set(before) if not of_dpkg.search(it)]
    TALLY.want(f"a purge leaves no trace: {left}", not left and open(f"{root}/etc/passwd", encoding="utf-8").read() == users)


def main(words):
    root = None
    if words[:1] == ["--root"] and len(words) > 1:
        root, words = os.path.realpath(words[1]), words[2:]
    if len(words) not in (0, 2):
        print("usage: package.py [--root FOLDER] [VAN VANLAB]", file=sys.stderr)
        return 2
    van, vanlab = words or [f"{TOP}/crates/{it}/out/{it}" for it in ("van", "vanlab")]
    with tempfile.TemporaryDirectory(prefix="package-") as room:
        are_alike(os.path.abspath(van), "van", room)
        are_alike(os.path.abspath(vanlab), "vanlab", room)
    if root:
        is_installed(root)
    return TALLY.end()


if __name__ == "__main__":
    sys.exit(main(sys.argv[1:]))
