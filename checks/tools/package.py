"""Packs van and vanlab as they stand into a .deb and a .tar.gz in out/: ./package.

The programs are the proved ones where both are current, else the unproved ones, which are built first where they aren't:
then the version and the description say unproved. Manual pages and completion are made of what the programs say (manual.py).
"""
import gzip
import io
import os
import re
import shutil
import subprocess
import sys
import tarfile
import tempfile

sys.dont_write_bytecode = True
HERE = os.path.dirname(os.path.realpath(__file__))
TOP = os.path.dirname(os.path.dirname(HERE))
sys.path.insert(0, HERE)
import build
from manual import completion, manuals, pages_of
from prove import PROGRAMS, is_done, program_of, wanted

NAME = "mushegbo"
ABOUT = "checks, explains and answers X12 files, keeps mailboxes"
MORE = """ van checks, shows, explains and answers X12 files (version 004010: orders 850,
 acknowledgments TA1 and 997), and keeps a mailbox for each retailer and
 supplier in a folder. vanlab runs networks of mailboxes from scripts.
"""
PROVED = """ .
 Each function of these programs was proved to meet its contract before they
 were built.
"""
UNPROVED = """ .
 These programs are unproved: no function was proved before they were built.
"""
UNIT = """# A mailbox in /var/lib/van/%i that takes what came, and puts what goes on, every ten seconds:
#   runuser -u van -- van init /var/lib/van/alpha ..
#   systemctl enable --now van@alpha
[Unit]
Description=Mailbox %i
Documentation=man:van-run(1)

[Service]
ExecStart=/usr/bin/van run --watch 10 /var/lib/van/%i
User=van
Group=van
UMask=0077
Restart=on-failure
RestartSec=60
NoNewPrivileges=yes
CapabilityBoundingSet=
ProtectSystem=strict
ReadWritePaths=/var/lib/van
ProtectHome=yes
PrivateTmp=yes
PrivateDevices=yes
PrivateNetwork=yes
ProtectKernelTunables=yes
ProtectControlGroups=yes
RestrictAddressFamilies=AF_UNIX
MemoryDenyWriteExecute=yes

[Install]
WantedBy=multi-user.target
"""
# The user stays where mailboxes do: a removal keeps both, and a purge drops them where no mailbox is left.
POSTINST = """#!/bin/sh
set -e
if [ "$1" = configure ]; then
  if ! getent passwd van >/dev/null; then
    useradd --system --user-group --home-dir /var/lib/van --no-create-home --shell /usr/sbin/nologin van
  fi
  if ! [ -d /var/lib/van ]; then
    install -d -m 0700 -o van -g van /var/lib/van
  fi
  if [ -d /run/systemd/system ]; then
    systemctl daemon-reload
  fi
fi
"""
POSTRM = """#!/bin/sh
set -e
if [ "$1" = remove ] && [ -d /run/systemd/system ]; then
  systemctl daemon-reload
fi
if [ "$1" = purge ] && [ -d /var/lib/van ]; then
  if rmdir /var/lib/van 2>/dev/null; then
    userdel van
  else
    echo "mushegbo: /var/lib/van holds mailboxes: these and their user stay" >&2
  fi
fi
"""


class Unpacked(Exception):
    """Why there is no package; in a sentence."""


def programs():
    """Where each program is, and whether both are proved."""
    crates = {it.name: it for it in wanted()}
    if all(is_done(crates[it]) for it in PROGRAMS):
        return {it: program_of(crates[it]) for it in PROGRAMS}, True
    for it in PROGRAMS:
        if not build.is_current(f"{build.ROOM}/{it}"):
            wrong = build.said(it, it)
            if wrong:
                raise Unpacked(f"{it} can't be built: {wrong}")
    return {it: f"{build.ROOM}/{it}" for it in PROGRAMS}, False


def libc_of(paths):
    """The version of the C library that the programs want."""
    found = {(2, 0)}
    for path in paths:
        with open(path, "rb") as file:
            found |= {tuple(map(int, it)) for it in re.findall(rb"GLIBC_(\d+)\.(\d+)", file.read())}
    return ".".join(map(str, max(found)))


def licence():
    """The line of the first page that says which licence there is."""
    with open(f"{TOP}/README.md", encoding="utf-8") as file:
        line = re.search(r"^.*\blicence\b.*$", file.read(), re.M | re.I)
    if not line:
        raise Unpacked("README.md has no line that says which licence there is")
    return line[0]


def write(path, text, mode=0o644):
    os.makedirs(os.path.dirname(path), exist_ok=True)
    with open(path, "wb") as file:
        file.write(text.encode() if isinstance(text, str) else text)
    os.chmod(path, mode)


def packed(text):
    """What gzip makes of it, whenever it does."""
    out = io.BytesIO()
    with gzip.GzipFile(fileobj=out, mode="wb", compresslevel=9, mtime=0) as file:
        file.write(text.encode())
    return out.getvalue()


def stage(room, its, version):
    """All files of the package, below a folder."""
    for name, path in its.items():
        pages = pages_of(path, name)
        os.makedirs(f"{room}/usr/bin", exist_ok=True)
        shutil.copyfile(path, f"{room}/usr/bin/{name}")
        os.chmod(f"{room}/usr/bin/{name}", 0o755)
        if shutil.which("strip"):
            subprocess.run(["strip", "--strip-unneeded", f"{room}/usr/bin/{name}"], check=True)
        for page, text in manuals(pages).items():
            write(f"{room}/usr/share/man/man1/{page}.gz", packed(text))
        write(f"{room}/usr/share/bash-completion/completions/{name}", completion(pages))
    write(f"{room}/lib/systemd/system/van@.service", UNIT)
    write(f"{room}/usr/share/doc/{NAME}/copyright", f"{licence()}\n")
    log = f"{NAME} ({version}) unstable; urgency=medium\n\n  * See CHANGELOG.md of the sources.\n\n"
    log += f" -- {maintainer()}  Thu, 02 Jan 2025 09:30:00 +0000\n"
    write(f"{room}/usr/share/doc/{NAME}/changelog.gz", packed(log))


def maintainer():
    """Who makes the package: DEBFULLNAME and DEBEMAIL say so."""
    return f"{os.environ.get('DEBFULLNAME', 'Mushegbo')} <{os.environ.get('DEBEMAIL', 'mushegbo@example.org')}>"


def control(version, is_proved, its, room):
    """What the package says of itself."""
    sizes = [os.path.getsize(f"{at}/{name}") for at, _, names in os.walk(f"{room}/usr") for name in names]
    return f"""Package: {NAME}
Version: {version}
Architecture: {machine()}
Maintainer: {maintainer()}
Installed-Size: {sum(sizes) // 1024 + 1}
Depends: libc6 (>= {libc_of(its.values())}), passwd
Section: utils
Priority: optional
Description: {ABOUT}{'' if is_proved else ' (unproved)'}
{MORE}{PROVED if is_proved else UNPROVED}"""


def machine():
    return {"x86_64": "amd64", "aarch64": "arm64"}.get(os.uname().machine, os.uname().machine)


def make_deb(room, to, version, is_proved, its):
    write(f"{room}/DEBIAN/control", control(version, is_proved, its, room))
    write(f"{room}/DEBIAN/postinst", POSTINST, 0o755)
    write(f"{room}/DEBIAN/postrm", POSTRM, 0o755)
    for at, folders, _ in os.walk(room):
        for it in folders:
            os.chmod(f"{at}/{it}", 0o755)
    ran = subprocess.run(["dpkg-deb", "--root-owner-group", "--build", room, to], capture_output=True, text=True, check=False)
    if ran.returncode:
        raise Unpacked(ran.stderr.strip() or "dpkg-deb failed")


def of_root(it):
    it.uid = it.gid = it.mtime = 0
    it.uname = it.gname = "root"
    return it


def make_tar(room, to, front):
    """The same files, where a person unpacks them: bin, share, lib."""
    with tarfile.open(to, "w:gz") as tar:
        for part in sorted(os.listdir(f"{room}/usr")):
            tar.add(f"{room}/usr/{part}", f"{front}/{part}", filter=of_root)
        tar.add(f"{room}/lib", f"{front}/lib", filter=of_root)


def package():
    """Makes both, and says where they are."""
    if not shutil.which("dpkg-deb"):
        raise Unpacked("the command dpkg-deb isn't on the path")
    its, is_proved = programs()
    number = subprocess.run([its["van"], "--version"], capture_output=True, text=True, check=True).stdout.split()[1]
    version = number if is_proved else f"{number}~unproved"
    name = f"{NAME}_{version}_{machine()}"
    with tempfile.TemporaryDirectory(prefix="package-") as room:
        os.chmod(room, 0o755)
        stage(room, its, version)
        make_tar(room, f"{room}.tar.gz", name)
        make_deb(room, f"{room}.deb", version, is_proved, its)
        for it in ("tar.gz", "deb"):
            shutil.move(f"{room}.{it}", f"{TOP}/out/{name}.{it}")
            print(f"out/{name}.{it}")


def main(words):
    if words:
        print("usage: ./package", file=sys.stderr)
        return 2
    try:
        package()
    except (Unpacked, OSError) as why:
        print(f"package: {why}", file=sys.stderr)
        return 1
    return 0


if __name__ == "__main__":
    sys.exit(main(sys.argv[1:]))
