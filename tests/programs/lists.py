"""`s3frame compare` on lists of packets."""
from common import NULL, PACKET, equal, put, refused, run, samples, well


def compared(sent, received, status, told=""):
    """The lines of a comparison behind the two counts, which are checked here."""
    put("sent", sent)
    put("received", received)
    lines = well("compare", "compare", "sent", "received", status=status, told=told).splitlines()
    equal("the counts come first", [line.split(",")[0] for line in lines[:2]],
          [f"SENT sent: {len(sent) // PACKET} packets", f"RECEIVED received: {len(received) // PACKET} packets"])
    return lines[2:]


def agree(front, end, *rest):
    return [f"agree from the front: {front} packets", f"agree from the end: {end} packets", *rest]


def differ(front, end, sent, received, *runs):
    return agree(front, end, "between them, packets counted from 0:", *runs, f"only in SENT {sent}, only in RECEIVED {received}")


def part(packets, first, last):
    return packets[first * PACKET:last * PACKET]


def runs():
    packets, others = samples(200), samples(50, 9)
    equal("equal lists", compared(packets, packets, 0), agree(200, 0, "the lists are equal"))
    equal("a loss", compared(packets, part(packets, 0, 23) + part(packets, 46, 200), 1),
          differ(23, 154, 23, 0, "only in SENT: 23 packets, 23 to 45; RECEIVED goes on at 23"))
    equal("a loss at the end", compared(packets, part(packets, 0, 190), 1),
          differ(190, 0, 10, 0, "only in SENT: 10 packets, 190 to 199; RECEIVED has ended"))
    equal("an insertion", compared(packets, part(packets, 0, 60) + others + part(packets, 60, 200), 1),
          differ(60, 140, 0, 50, "only in RECEIVED: 50 packets, 60 to 109; SENT goes on at 60"))
    changed = part(packets, 0, 10) + part(packets, 20, 100) + part(others, 0, 5) + part(packets, 110, 200)
    equal("losses and a change", compared(packets, changed, 1),
          differ(10, 90, 20, 5, "only in SENT: 10 packets, 10 to 19; RECEIVED goes on at 10",
                 "only in SENT: 10 packets, 100 to 109; RECEIVED goes on at 90",
                 "only in RECEIVED: 5 packets, 90 to 94; SENT goes on at 110"))
    equal("nothing received", compared(packets, b"", 1),
          differ(0, 0, 200, 0, "only in SENT: 200 packets, 0 to 199; RECEIVED has ended"))
    equal("null packets behind", compared(packets, packets + NULL * 3, 1),
          differ(200, 0, 0, 3, "only in RECEIVED: 3 packets, 200 to 202, null; SENT has ended"))
    equal("a null packet among others", compared(packets, part(others, 0, 1) + NULL + packets, 1),
          differ(0, 200, 0, 2, "only in RECEIVED: 2 packets, 0 to 1, 1 of them null; SENT goes on at 0"))
    packet = part(packets, 0, 1)
    equal("one of equal packets is lost", compared(packet * 5, packet * 4, 1),
          differ(4, 0, 1, 0, "only in SENT: 1 packet, 4; RECEIVED has ended"))


def cut_and_unsynced():
    packets = samples(20)
    for sent, received, name in [(packets + b"x" * 7, packets, "sent"), (packets, packets + b"x" * 7, "received")]:
        told = f"s3frame compare: {name}: ends inside a packet: 7 octets left over\n"
        equal(f"{name} is cut", compared(sent, received, 1, told), agree(20, 0, "the lists are equal"))
    put("sent", b"\0" + packets[1:])
    put("received", b"\0" + packets[1:])
    lines = well("packets without sync", "compare", "sent", "received").splitlines()
    equal("packets without sync are counted", lines[0], "SENT sent: 20 packets, 1 without 0x47 in front, compared as they are")
    equal("a list on standard input", run("compare", "-", "received", given=b"\0" + packets[1:])[0], 0)


def long_lists():
    """Lists that have nothing in common, and lists that were turned round, end all the same."""
    mixed = samples(20000)
    turned = b"".join(part(mixed, k, k + 1) for k in reversed(range(20000)))
    lines = compared(mixed, turned, 1)
    # Where the search is cut short it has not found the one packet that can be in both.
    cut = any("the search ended" in line for line in lines)
    equal("a turned list", lines[-1], "only in SENT {0}, only in RECEIVED {0}".format(20000 if cut else 19999))
    equal("nothing in common", compared(mixed, bytes(octet ^ 1 for octet in mixed), 1),
          differ(0, 0, 20000, 20000, "only in SENT: 20000 packets, 0 to 19999; RECEIVED goes on at 0",
                 "only in RECEIVED: 20000 packets, 0 to 19999; SENT has ended"))


def test():
    runs()
    cut_and_unsynced()
    long_lists()
    put("sent", samples(1))
    refused("a missing list", ["compare", "sent", "missing"], "^s3frame compare: missing: No such file")
    refused("one list", ["compare", "sent"], "^s3frame: (.|\n)*RECEIVED")
