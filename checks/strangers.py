#!/usr/bin/env python3
"""Strangers at the folder: what other programs and other people's accounts write into a mailbox, and what they may read.

usage: strangers.py [PROGRAM] [--only WORD]

Two users of this machine: the hub's and its stations' account, and a partner's, which may write into his `in` and read his
`out`, as docs/mailbox.md says. Each row is a sentence: files that are replaced, half written or growing; names of any bytes,
and too long ones; links and pipes in a partner's folder; rights; a lost `handed`; an empty item; a mailbox that is linked
already; numbers of mailboxes; floods; records that are an older copy. Where a program can't be started as another user it says so, and the rows that want two users
count neither as passed nor as failed.

Prints a line for what is wrong, and last 'N passed, M failed'.
"""
import argparse
import os
import re
import shutil
import subprocess
import sys
import tempfile
import time

sys.dont_write_bytecode = True
HERE = os.path.dirname(os.path.realpath(__file__))
sys.path[:0] = [f"{HERE}/mailbox", f"{HERE}/tools"]
import places
from tally import Tally

TOP = os.path.dirname(HERE)
OWNER, PARTNER, SHARED = 65531, 65532, 65533  # two users without a name, and a group of both
OLD = "touch -d '5 minutes ago'"


def order(icn, number="PO-1", sender="ALPHA", receiver="BETA"):
    return places.order(sender, receiver, icn, number)


def may_be_another():
    """Whether a program can be started as another user."""
    try:
        return subprocess.run(["true"], user=OWNER, group=OWNER, extra_groups=[SHARED], check=False).returncode == 0
    except (OSError, subprocess.SubprocessError):
        return False


class Place(places.Place):
    """A hub and its stations alpha and beta, which the owner's account made; beta takes orders of alpha."""

    def __init__(self, program, room, name, others):
        self.others = others
        super().__init__(program, room, name)
        os.remove(self.path("van"))
        shutil.copyfile(program, self.path("van"))
        os.chmod(self.path("van"), 0o755)
        if others:
            os.chown(self.folder, OWNER, OWNER)
        status, out, err = places.network(self, umask="0")
        if status:
            raise SystemExit(f"strangers: status {status}, {out} {err}")

    def user(self, who):
        return {"user": who, "group": who, "extra_groups": [SHARED]} if self.others else {}

    def run(self, command, who=OWNER):
        return super().run(command, **self.user(who))

    def start(self, words):
        return super().start(words, **self.user(OWNER))

    def wants(self, command):
        status, out, err = self.run(command)
        if status:
            raise SystemExit(f"strangers: {command}: status {status}, {out} {err}")
        return out

    def write(self, name, text):
        """Writes a file as the owner's; in the place of one of this name, if there is one."""
        path = self.path(name)
        with open(f"{self.folder}/writing", "w", encoding="latin-1") as file:
            file.write(text)
        if self.others:
            os.chown(f"{self.folder}/writing", OWNER, OWNER)
        os.replace(f"{self.folder}/writing", path)

    def shared(self):
        """The rights of a partner's account, by the option that the page names."""
        self.wants(f"./van enrol hub ZZALPHA --group {SHARED}")


def waits_for(path, seconds=60):
    ends = time.monotonic() + seconds
    while not os.path.exists(path) and time.monotonic() < ends:
        time.sleep(0.001)
    return os.path.exists(path)


def replaced(place, folder, who, put):
    """A file of 40 interchanges is replaced under its name while a turn is at work; the next turn takes the new one."""
    place.write(f"{folder}/orders.edi", "".join(order(n) for n in range(1, 41)))
    turn = place.start(f"run {who}")
    begun = waits_for(place.path(put)) and turn.poll() is None
    place.write(f"{folder}/orders.edi", order(1000))
    turn.communicate()
    _, out, err = place.run(f"./van run {who}")
    return begun and ": 000001000 from" in out and not place.names(folder), f"at work: {begun}; {out} {err}"


def a_file_that_is_replaced_in_submit(place):
    return replaced(place, "alpha/submit", "alpha", "alpha/out/sent-000000003.edi")


def a_file_that_is_replaced_at_the_hub(place):
    return replaced(place, "hub/ZZALPHA/in", "hub", "hub/ZZALPHA/taking/in/orders.edi")


def a_file_that_is_half_written(place):
    text = order(1) + order(2, "PO-2") + order(3, "PO-3")
    told = []
    for front in (0, 50, len(order(1)) + 200, len(text) - 1):
        with open(place.path("alpha/submit/slow.edi"), "w", encoding="ascii") as file:
            file.write(text[:front])
            file.flush()
            told.append(place.run("./van run alpha"))
            file.write(text[front:])
        _, out, err = place.run("./van run alpha")
        if out.count("alpha/out/sent-") != 3 or place.names("alpha/refused") or any(it[1] for it in told):
            return False, f"{front} bytes: {told}, then {out} {err}"
    return True, ""


def a_file_that_ends_early_and_is_old(place):
    place.write("hub/ZZALPHA/in/early.edi", order(1)[:200])
    first = place.run("./van run hub")
    second = place.run(f"{OLD} hub/ZZALPHA/in/early.edi; ./van run hub")
    return not first[1] and second[1].startswith("hub/ZZALPHA/in/early.edi: 000000001 from"), f"{first} {second}"


def a_file_that_grows_while_it_is_taken(place):
    with open(place.path("alpha/submit/grows.edi"), "w", encoding="ascii") as file:
        file.write("".join(order(n) for n in range(1, 41)))
        file.flush()
        turn = place.start("run alpha")
        begun = waits_for(place.path("alpha/out/sent-000000003.edi")) and turn.poll() is None
        file.write(order(41))
        file.flush()
        turn.communicate()
    place.run("./van run alpha")
    return begun and os.path.exists(place.path("alpha/out/sent-000000041.edi")), f"at work: {begun}"


def names_of_files_that_are_not_there_yet(place):
    for name in (".a", "a~", "a.tmp", "a.part", "a.edi.filepart"):
        place.write(f"alpha/submit/{name}", order(1))
    _, out, err = place.run("./van run alpha; ls -A alpha/submit | wc -l")
    return (out, err) == ("5\n", ""), f"{out} {err}"


def an_item_that_is_empty(place):
    place.write("o.edi", order(1))
    place.wants(f"./van submit alpha o.edi && ./van run hub && : >beta/in/item-000000001.edi && {OLD} beta/in/item-000000001.edi")
    first = place.run("./van run beta; ls beta/out/")
    second = place.run("./van run hub; ./van run beta; ls beta/posted")
    return first[1] == "beta/in/item-000000001.edi: 0 bytes\n" and second[1].endswith("ZZALPHA-000000001-01-001.850\n"), f"{first} {second}"


def a_name_that_is_not_utf_8(place):
    for folder, who in (("alpha/submit", "alpha"), ("hub/ZZALPHA/in", "hub"), ("beta/posted", "beta")):
        name = os.fsencode(place.path(folder)) + b"/A\xfc.edi"
        with open(name, "wb"):
            pass
        place.write(f"{folder}/b.edi", order(1))
        status, out, err = place.run(f"./van run {who}")
        told = f"{folder}/A\\xFC.edi is passed over: its name isn't UTF-8, so rename it"
        if status or (folder != "beta/posted" and (told not in err or "b.edi: 000000001" not in out)):
            return False, f"{folder}: {status} {out} {err}"
    return True, ""


def a_refused_name_that_is_too_long(place):
    name = "a" * 255
    place.write(f"hub/ZZALPHA/in/{name}", "text")
    place.write("hub/ZZALPHA/in/b.edi", order(1))
    status, out, err = place.run("./van run hub")
    kept = place.names("hub/ZZALPHA/refused")
    is_so = status == 0 and not err and "b.edi: 000000001" in out and kept == [name[:230], f"{name[:230]}.why"]
    return is_so, f"{status} {out} {err} {kept}"


def names_of_which_a_thousand_are_kept(place):
    for n in range(1, 1001):
        place.write(f"hub/ZZALPHA/refused/a{'' if n == 1 else f'.{n}'}", f"other {n}")
    place.write("hub/ZZALPHA/in/a", "text")
    status, out, err = place.run("./van run hub; cat hub/ZZALPHA/refused/a.??????????")
    return status == 0 and out.endswith("\ntext") and len(place.names("hub/ZZALPHA/refused")) == 1002, f"{out[-300:]} {err}"


def a_reason_never_overwrites(place):
    place.write("hub/ZZALPHA/refused/x.why", "kept before")
    place.write("hub/ZZALPHA/in/x", "text")
    _, out, err = place.run("./van run hub >/dev/null; cat hub/ZZALPHA/refused/x.why; ls hub/ZZALPHA/refused")
    return out == "kept beforex.2\nx.2.why\nx.why\n", f"{out} {err}"


def a_folder_with_a_dot_in_posted(place):
    place.write("o.edi", order(1))
    place.wants("mkdir -p beta/posted/.folder && ./van submit alpha o.edi && ./van run hub")
    status, out, err = place.run("./van run beta")
    return status == 0 and "beta/posted/ZZALPHA-000000001-01-001.850" in out and ".folder" in err, f"{status} {out} {err}"


def a_lost_mark_hands_nothing_over(place):
    for n in (1, 2):
        place.write("o.edi", order(n, f"PO-{n}"))
        place.wants("./van submit alpha o.edi && ./van run hub && ./van run beta")
    place.wants("rm beta/handed beta/posted/*")
    told = "van: beta/handed: it isn't there, so say how many sets were handed over, by van run with --handed N\n"
    first = place.run("./van run beta; ls -d beta/posted/* beta/handed")
    fewer = place.run("./van run beta --handed 3")
    told_so = place.run("./van run beta --handed 1; ls beta/posted; cat beta/handed")
    again = place.run("./van run beta --handed 1")
    is_so = first[2].startswith(told) and not first[1] and fewer[0] == 1 and again[0] == 1
    return is_so and told_so[1].endswith("ZZALPHA-000000002-01-001.850\n1 2\n"), f"{first} {fewer} {told_so} {again}"


def a_name_that_is_refused_in_a_watch_loses_nothing(place):
    """A folder stands under the name of the second of three sets, while a watch goes on."""
    place.wants("mkdir -p beta/posted/ZZALPHA-000000002-01-001.850/in")
    watch = place.start("run beta --watch 1 --turns 30")
    for n in (1, 2, 3):
        place.write("o.edi", order(n, f"PO-{n}"))
        place.wants("./van submit alpha o.edi && ./van run hub")
        waits_for(place.path(f"hub/ZZBETA/in/sent-{n:09}.edi"))
        time.sleep(1.5)
    place.wants("rm -r beta/posted/ZZALPHA-000000002-01-001.850")
    found = all(waits_for(place.path(f"beta/posted/ZZALPHA-{n:09}-01-001.850"), 20) for n in (1, 2, 3))
    watch.kill()
    said = watch.communicate()
    return found, f"{place.names('beta/posted')} {said}"


def a_number_of_a_mailbox_is_never_given_twice(place):
    place.write("o.edi", order(1))
    place.wants("./van submit alpha o.edi && ./van run hub && ./van enrol hub ZZBETA --dismiss && rm -r hub/ZZBETA")
    status, out, err = place.run("./van enrol hub ZZGAMMA; cat hub/ZZGAMMA/node")
    return (status, out) == (0, "ZZ/GAMMA has mailbox 3: hub/ZZGAMMA\n3\n"), f"{status} {out} {err}"


def a_second_station_at_a_mailbox(place):
    second = place.run("./van init second --me ZZALPHA --hub ZZHUB --at hub; ls -A second")
    wrong = place.run("./van enrol hub ZZDELTA; ./van init delta --me ZZDELTA --hub ZZWRONG --at hub; ls delta")
    again = place.run("rm alpha/mailbox; ./van init alpha --me ZZALPHA --hub ZZHUB --at hub")
    is_so = "hub/ZZALPHA is linked to the station in " in second[2] and not second[1] and again[0] == 0
    return is_so and "hub is the hub ZZ/HUB, and not ZZ/WRONG" in wrong[2], f"{second} {wrong} {again}"


def a_second_station_of_one_name(place):
    """A station of alpha's name on another machine uses alpha's numbers: alpha hears of it by the answers."""
    for who, dated in (("alpha", "202501020930"), ("second", "202501020931")):
        place.wants(f"[ -d {who} ] || ./van init {who} --me ZZALPHA --hub ZZHUB; ./van submit {who} --to ZZBETA --order PO-1 --now {dated}")
    place.wants("for who in hub beta hub alpha; do ./van run $who; done; cp second/out/sent-* hub/ZZALPHA/in/; touch -d '5 minutes ago' hub/ZZALPHA/in/*")
    status, out, err = place.run("for who in hub beta hub alpha; do ./van run $who; done")
    told = "van: alpha: unexpected answers: 1, to no set that it submitted or against an earlier answer: another station may run under its name\n"
    return (status, err) == (0, told), f"{status} {out} {err}"


def a_folder_that_is_named_twice_is_reconciled_once(place):
    place.write("o.edi", order(1))
    place.wants("./van submit alpha o.edi")
    _, out, err = place.run("./van reconcile alpha beta ./alpha")
    return out.count("\n") == 1 and not err, f"{out} {err}"


def all_that_is_made_is_the_owners_alone(place):
    place.write("o.edi", order(1))
    place.write("hub/ZZALPHA/in/text", "text")
    place.wants("umask 0; ./van submit alpha o.edi; for who in hub beta hub alpha; do ./van run $who; done")
    found = place.wants("find hub alpha beta ! -type l -perm /077 ! -path '*/in/text'")
    return not found, found


def an_order_that_is_a_file(place):
    place.write("po.edi", order(1))
    status, out, err = place.run("./van submit alpha --to ZZBETA --order PO-7 po.edi; ./van status alpha")
    told = "van: --order: po.edi is a file, and no order's number: name files without --to and --order\n"
    return (out.count("\n"), err) == (1, told), f"{status} {out} {err}"


def an_order_that_cannot_be_put(place):
    """It is submitted, and told so; the next run puts it, without --resend; the run after that sends nothing again."""
    first = place.run("mv hub/ZZALPHA/in hub/ZZALPHA/away; ./van submit alpha --to ZZBETA --order PO-1; mv hub/ZZALPHA/away hub/ZZALPHA/in")
    second = place.run("./van run alpha; ls alpha/out/; rm alpha/out/*; ./van run alpha; ls alpha/out/")
    told = "van: alpha: 000000001 from ZZ/ALPHA to ZZ/BETA is submitted, and the next van run puts it\n"
    put = "alpha/out/sent-000000001.edi: 000000001 from ZZ/ALPHA to ZZ/BETA\nsent-000000001.edi\n"
    return first[2].endswith(told) and second == (0, put, ""), f"{first} {second}"


def a_flood_delays_others_by_one_turn(place):
    """10,000 files of nine bytes from alpha, and an order from beta: the first turn passes the order on."""
    place.write("o.edi", order(1, sender="BETA", receiver="ALPHA"))
    place.wants("cd hub/ZZALPHA/in; for n in {00001..10000}; do printf 123456789 >$n; done")
    place.wants("./van submit beta o.edi")
    status, out, err = place.run("./van run hub | grep -v '^hub/ZZALPHA/refused/'; ls hub/ZZALPHA/in hub/ZZALPHA/refused | wc -l")
    waits = "hub/ZZALPHA/in: 9000 more files wait for the next turn\n"
    is_so = waits in out and "hub/ZZALPHA/out/item-000000001.edi: 000000001 from ZZ/BETA" in out
    second = place.run("./van run hub | grep more; ls hub/ZZALPHA/in | wc -l")[1]
    return is_so and second == f"{waits.replace('9000', '8000')}8000\n", f"{status} {out[-600:]} {err[-300:]} {second}"


def a_group_that_is_not_there(place):
    told = [place.run(f"./van enrol hub ZZDELTA --group {words}; ls -d hub/ZZDELTA")
            for words in ("no-such-group", "1 --dismiss", "1 --hub ZZOTHER")]
    one = "van: --group: this machine has no group no-such-group\n"
    both = "van: --group goes with none of --dismiss, --at and --hub\n"
    return all(it[2].startswith(said) and not it[1] for it, said in zip(told, (one, both, both))), f"{told}"


def records_that_are_an_older_copy(place):
    """Each command refuses records that have less than the last turn counted, and changes nothing."""
    place.write("o.edi", order(1))
    place.wants("./van submit alpha o.edi && for who in hub beta hub alpha; do ./van run $who; done; mkdir old && cp -a alpha beta hub old")
    place.write("p.edi", order(2, "PO-2"))
    place.wants("./van submit alpha p.edi && for who in hub beta hub alpha; do ./van run $who; done")
    place.wants("for who in alpha beta hub; do cp -a old/$who/records.db* $who; done")
    for words in ("run alpha", "status alpha", "log alpha", "verify alpha", "submit alpha o.edi", "agree alpha ZZBETA PO850",
                  "postings beta", "run beta", "reconcile alpha beta", "run hub", "status hub", "enrol hub ZZGAMMA"):
        status, out, err = place.run(f"./van {words}")
        who = words.split()[1]
        if status != 1 or out or not err.startswith(f"van: {who}/counts: the records have less than was counted"):
            return False, f"{words}: {status} {out} {err}"
    return True, ""


def links_of_a_partner_are_not_followed(place):
    place.shared()
    secret = "ln -s ../../records.db hub/ZZALPHA/in/a; ln -s /proc/self/environ hub/ZZALPHA/in/b; mkfifo hub/ZZALPHA/in/c"
    made = place.run(secret, PARTNER)
    status, out, err = place.run("./van run hub; find hub/ZZALPHA/refused -type f")
    told = len(re.findall(r"^van: hub/ZZALPHA/in/[abc] is passed over: it is no file$", err, re.M))
    return (made[0], status, out, told) == (0, 0, "", 3), f"{made} {status} {out} {err}"


def nothing_is_written_through_a_link(place):
    place.write("o.edi", order(1, sender="ALPHA", receiver="BETA"))
    place.write("victim", "as it was")
    place.wants("ln -s ../../../victim hub/ZZBETA/out/.item-000000001.edi; ln -s ../../victim alpha/out/.sent-000000001.edi")
    _, out, err = place.run("./van submit alpha o.edi; ./van run hub; cat victim; ls hub/ZZBETA/out")
    return out.endswith("as it wasitem-000000001.edi\n"), f"{out} {err}"


def a_partner_reads_and_writes_his_own_alone(place):
    place.shared()
    place.write("o.edi", order(1, sender="BETA", receiver="ALPHA"))
    place.wants("./van submit beta o.edi && ./van run hub")
    reads = place.run("cat hub/ZZALPHA/out/item-000000001.edi", PARTNER)[1] == order(1, sender="BETA", receiver="ALPHA")
    place.write("s.edi", order(1))
    place.wants("chmod 644 s.edi")
    wrote = place.run("umask 007; cp s.edi hub/ZZALPHA/in/.s && mv hub/ZZALPHA/in/.s hub/ZZALPHA/in/s.edi", PARTNER)
    others = [place.run(f"cat {it}", PARTNER)[1] for it in ("hub/records.db", "hub/records.db-wal", "hub/ZZBETA/in/*", "alpha/*")]
    _, out, err = place.run("./van run hub")
    is_so = reads and wrote[0] == 0 and not any(others) and "hub/ZZALPHA/in/s.edi: 000000001" in out
    return is_so, f"{reads} {wrote} {[it[:40] for it in others]} {out} {err}"


def a_file_that_may_not_be_read(place):
    """It stays, and is told; once it may be read, the next turn takes it."""
    place.write("hub/ZZALPHA/in/x", order(1))
    first = place.run("chmod 0 hub/ZZALPHA/in/x; ./van run hub")
    second = place.run("chmod 600 hub/ZZALPHA/taking/in/x; ./van run hub")
    told = "van: hub/ZZALPHA/in/x is passed over: Permission denied (os error 13)\n"
    return first == (1, "", told) and second[1].startswith("hub/ZZALPHA/in/x: 000000001 from"), f"{first} {second}"


def a_file_that_can_not_be_removed(place):
    """An item's file that a carrier left: the turn isn't done, and says so; the next one removes it."""
    place.write("o.edi", order(1))
    place.wants("./van submit alpha o.edi && ./van run hub && ./van run beta && cp o.edi hub/ZZBETA/out/item-000000001.edi")
    first = place.run("chmod 500 hub/ZZBETA/out; ./van run hub")
    second = place.run("chmod 700 hub/ZZBETA/out; ./van run hub")
    told = "van: hub/ZZBETA/out/item-000000001.edi: it can't be removed: Permission denied (os error 13)\n"
    return (first[0], first[2], second[0]) == (1, told, 0) and not place.names("hub/ZZBETA/out"), f"{first} {second}"


# The rows that want two users; the others want one.
WITH_TWO = [links_of_a_partner_are_not_followed, a_partner_reads_and_writes_his_own_alone, a_file_that_may_not_be_read,
            a_file_that_can_not_be_removed]


def rows():
    """The functions that are rows: those of a place alone."""
    return [it for it in globals().values() if getattr(it, "__code__", None) and it.__code__.co_varnames[:1] == ("place",)
            and it.__code__.co_argcount == 1]


def main():
    reading = argparse.ArgumentParser()
    reading.add_argument("program", nargs="?", default=f"{TOP}/crates/van/out/van")
    reading.add_argument("--only", default="")
    asked = reading.parse_args()
    others, tally = may_be_another(), Tally("strangers")
    if not others:
        print(f"strangers: no program can be started as another user here, so {len(WITH_TWO)} rows weren't tried")
    with tempfile.TemporaryDirectory(prefix="strangers-") as room:
        os.chmod(room, 0o711)
        for row in rows():
            if asked.only in row.__name__ and (others or row not in WITH_TWO):
                is_so, said = row(Place(os.path.abspath(asked.program), room, row.__name__, others))
                tally.want(row.__name__.replace("_", " "), is_so, said)
    return tally.end()


if __name__ == "__main__":
    sys.exit(main())
