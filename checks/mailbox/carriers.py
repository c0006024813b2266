"""Carriers that bring files twice, lose some, or bring them round; and numbers far apart."""
import os
import re
import shutil

from places import ONE_HUB, THERE_AND_BACK, Place, are_taken_once, finish, network, order, take_posted, two_hubs


# The folders that a carrier moves files between: of two stations and their hub, and of two hubs.
OF_STATIONS = (("alpha/out", "hub/ZZALPHA/in"), ("beta/out", "hub/ZZBETA/in"), ("hub/ZZALPHA/out", "alpha/in"), ("hub/ZZBETA/out", "beta/in"))
OF_HUBS = (("hub1/ZZHUB2/out", "hub2/ZZHUB1/in"), ("hub2/ZZHUB1/out", "hub1/ZZHUB2/in"))


def with_six_orders(program, room, name, network_of):
    """A place whose folders nothing links, where alpha has submitted six orders."""
    place = Place(program, room, name)
    network_of(place, at=False)
    for n in range(6):
        place.run(f"./van submit alpha --to ZZBETA --order PO-{n}")
    return place


def try_twice(tally, program, room, draw):
    """Each file comes again, under another name and in another order."""
    place = with_six_orders(program, room, "twice", network)
    sent, taken = [], []

    def carry():
        take_posted(place, taken)
        for a, b in OF_STATIONS:
            for name in place.names(a):
                os.rename(place.path(f"{a}/{name}"), place.path(f"carried-{len(sent)}"))
                sent.append((f"carried-{len(sent)}", b, name))
        again = [(it, b, f"again-{k}-{name}") for k, (it, b, name) in enumerate(sent) if not name.startswith("taken")]
        came = [*sent, *again]
        draw.shuffle(came)
        for it, b, name in came:
            shutil.copyfile(place.path(it), place.path(f"{b}/.part"))
            os.rename(place.path(f"{b}/.part"), place.path(f"{b}/{name}"))

    turns = finish(place, carry=carry)
    tally.want("twice", turns < 12, "sets stay pending")
    tally.ended_well(place, "twice", 6)
    are_taken_once(tally, place, "twice", taken, 6)


def lost_by_thirds(tally, name, place, ways, nodes):
    """A carrier moves files, and loses each third one; what isn't answered is sent again."""
    count = 0

    def carry():
        nonlocal count
        for a, b in ways:
            for file in place.names(a):
                count += 1
                if count % 3 == 0:
                    os.remove(place.path(f"{a}/{file}"))
                else:
                    os.rename(place.path(f"{a}/{file}"), place.path(f"{b}/{file}"))

    turns = finish(place, nodes, carry)
    tally.want(name, 0 < turns < 12, f"{turns} rounds")
    tally.ended_well(place, name, 6)


def try_losses(tally, program, room):
    """Between stations and their hub."""
    lost_by_thirds(tally, "losses", with_six_orders(program, room, "losses", network), OF_STATIONS, ONE_HUB)


def try_hubs_losses(tally, program, room):
    """Between two hubs."""
    lost_by_thirds(tally, "hubs-losses", with_six_orders(program, room, "hubs-losses", two_hubs), OF_HUBS, THERE_AND_BACK)


def try_hubs_ring(tally, program, room):
    """Two hubs that have a party enrolled at each other decide once on what is for it; it goes round once where their folders
    are linked, and again and again where a carrier brings the word that it was taken sooner than it."""
    order_to_ring = "./van enrol hub1 ZZRING {}; ./van enrol hub2 ZZRING {}; ./van submit alpha --to ZZRING --order PO-1"
    for way, at in (("linked", ("--at hub2", "--at hub1")), ("carried", ("--hub ZZHUB2", "--hub ZZHUB1"))):
        place = Place(program, room, f"hubs-ring-{way}")
        two_hubs(place, at=way == "linked")
        place.run(order_to_ring.format(*at))

        def carry(fronts):
            for a, b in OF_HUBS:
                for name in place.names(a):
                    if name.startswith(fronts):
                        os.rename(place.path(f"{a}/{name}"), place.path(f"{b}/{name}"))

        rounds = []
        for _ in range(4):
            said = ""
            for fronts in ("taken-", ("item-", "sent-")):
                if way == "carried":
                    carry(fronts)
                said += place.run("./van run hub1; ./van run hub2")[1]
            rounds.append(len(re.findall(r"^hub1/ZZHUB2/in/item-", said, re.M)))
        tally.want("hubs-ring", rounds == ([1, 0, 0, 0] if way == "linked" else [0, 1, 0, 1]), f"{way}: {rounds}")
        for hub in ("hub1", "hub2"):
            found = place.run(f"./van log {hub}")[1]
            tally.want("hubs-ring", found.count("\n") == found.count("from ZZ/ALPHA, to ZZ/RING, item 1") == 1, f"{way}, {hub}: {found}")
        tally.row(place, "hubs-ring", "./van status alpha --overdue",
                  (0, "000000001 01 001 ZZ/RING 250102 0930 pending\n1 pending, 0 accepted, 0 noted, 0 rejected; 0 postings\n", ""))
        if way == "linked":
            # The party is enrolled where it is, and gets what is sent from now on.
            place.run("./van enrol hub2 ZZRING; ./van submit alpha --to ZZRING --order PO-2; ./van run hub1")
            tally.row(place, "hubs-ring", "./van run hub2; ls hub2/ZZRING/out",
                      (0, "hub2/ZZHUB1/in/item-000000002.edi: 000000002 from ZZ/ALPHA to ZZ/RING\n"
                       "hub2/ZZRING/out/item-000000002.edi: 000000002 from ZZ/ALPHA to ZZ/RING\nitem-000000002.edi\n", ""))


def try_far(tally, program, room):
    """Numbers far apart cost nothing: each command goes by what was submitted, and not by all numbers up to the last."""
    place = Place(program, room, "far")
    network(place)
    place.write("far.edi", order("ALPHA", "BETA", 2) + order("ALPHA", "BETA", 900000000, "PO-2"))
    place.run("./van submit alpha far.edi; for who in hub beta hub alpha; do ./van run $who; done")
    told = [f"{number:09} 01 001 ZZ/BETA 250102 0930 accepted\n" for number in (2, 900000000)]
    tally.row(place, "far", "./van status alpha", (0, "".join(told) + "0 pending, 2 accepted, 0 noted, 0 rejected; 0 postings\n", ""))
    marks = [f"ZZ/ALPHA           {number:09} 01 001 ZZ/BETA            accepted    1 ok\n" for number in (2, 900000000)]
    tally.row(place, "far", "./van reconcile alpha beta", (0, "".join(marks), ""))
    tally.row(place, "far", "./van verify alpha", (0, "sound: 2 submitted, 2 came, 0 postings\n", ""))
