"""TLV packets into frames and back: beside the second implementation, through files and pipes, with slots that are lost, and
from wrong packets and reports. What must come back is counted here, from document 02.
"""
import os
import random
import resource
import subprocess

from charts import cells, positions_drawn
from common import (COMMAND, FEW, FRAME, HEADER, MASK, REFERENCE, SETTINGS, START, WORKED, check, equal, got, json_lines, limit,
                    parity_bits, put, refused, run, samples, turn_parity, well)

CODE, MONITOR = ["code", "--tlv", *SETTINGS], ["monitor", "--tlv", *SETTINGS]
EMPTY = b"\x7f\xff\0\0"
NONE = 65535
SLOTS, DATA = 24, 1870  # of a frame of the plan FEW
FULL = "5 11 120\n"  # 120 slots of 5049 octets


def packet(kind, body):
    return bytes([0x7F, kind]) + len(body).to_bytes(2, "big") + body


def of_all_kinds(seed, count):
    """Packets of every type and of short and long bodies, null packets with and without a body among them."""
    numbers = random.Random(seed)
    packets = []
    for _ in range(count):
        octets = numbers.choice([0, 1, 3, 40, 700, 1500, 1866, 9000])
        kind = numbers.choice([1, 2, 3, 0xFE, 0xFF])
        packets.append(packet(kind, b"\xff" * octets if kind == 0xFF else numbers.randbytes(octets)))
    return packets


def placed(packets):
    """Each packet with the octets of the stream where it begins and ends."""
    end = 0
    for one in packets:
        begin, end = end, end + len(one)
        yield one, begin, end


def reports(packets, slots, octets):
    """The reports of slots that packets and then fillers are put into, as their file has them."""
    begins = [begin for _, begin, _ in placed(packets)]
    begins += range(sum(map(len, packets)), slots * octets, len(EMPTY))
    first = {}
    for begin in begins:
        first.setdefault(begin // octets, begin % octets)
    return b"".join(first.get(slot, NONE).to_bytes(2, "big") for slot in range(slots))


def there_is(begin, end, lost):
    """Whether octets of the stream touch no lost slot."""
    return lost.isdisjoint(range(begin // DATA, (end - 1) // DATA + 1))


def coming_back(packets, begin, end, lost):
    """The packets that end behind one place of the stream and not behind another, and come back."""
    return [one for one, first, last in placed(packets) if begin < last <= end and one != EMPTY and there_is(first, last, lost)]


def unfinished(packets, end, lost):
    """How many octets there are of a packet that goes on behind a place of the stream."""
    for one, first, last in placed(packets):
        if first < end < last and there_is(first, end, lost) and not EMPTY.startswith(one[:end - first]):
            return end - first
    return 0


def carried(packets, frame, lost):
    """What the line of a frame, counted from 0, says of packets."""
    begin, end = (SLOTS * DATA * number for number in (frame, frame + 1))
    back = coming_back(packets, begin, end, lost)
    gone = DATA * sum(slot // SLOTS == frame for slot in lost)
    return f"packets {len(back)} octets {sum(map(len, back))} lost {gone} unfinished {unfinished(packets, end, lost)}"


def as_ts(stream):
    """TS packets that carry a stream as data octets."""
    return b"".join(b"\x47" + stream[at:at + 187] for at in range(0, len(stream), 187))


def coded(plan, packets, slots, octets):
    """Codes packets, and compares frames and reports with those that the data octets make as the data of TS packets."""
    put("plan", plan)
    put("packets", b"".join(packets))
    line = well("code", *CODE, "packets", "-o", "frames")
    length = sum(map(len, packets))
    frames = -(-length // (slots * octets))
    stream = (b"".join(packets) + EMPTY * (slots * octets))[:frames * slots * octets]
    equal("code counts", line, f"frames {frames} packets {len(packets)} octets {length} fillers {len(stream) - length}\n")
    put("as_ts", as_ts(stream))
    subprocess.run([REFERENCE, "stream", "plan", MASK, START, "as_ts", "others"], check=True)
    equal("the frames are the second implementation's", got("frames"), got("others"))
    equal("the reports of the slots", got("frames.begins"), reports(packets, frames * slots, octets))
    return frames


def there_and_back(plan, slots, octets, packets):
    frames = coded(plan, packets, slots, octets)
    lines = well("monitor", *MONITOR, "frames", "-o", "back").splitlines()
    want = [one for one in packets if one != EMPTY]
    equal("the packets come back without empty ones", got("back"), b"".join(want))
    equal("a line for each frame and one for all", len(lines), frames + 1)
    equal("the line of all", lines[-1], f"frames {frames} accepted {frames * slots} dummy {frames * (120 - slots)} "
          f"parity 0 BCH 0 other_stuff 0 packets {len(want)} octets {sum(map(len, want))} lost 0 unfinished 0")


def with_lost_slots(packets, frames, lost):
    """Frames whose slots, counted through all of them, are lost here and there, each by a parity bit of its own."""
    octets, positions = bytearray(frames), {slot: 7001 * slot % parity_bits(1) for slot in lost}
    for slot, position in positions.items():
        turn_parity(octets, slot // SLOTS + 1, slot % SLOTS + 1, 1, position)
    put("damaged", bytes(octets))
    words = ["damaged", "--begins", "frames.begins", "-o", "back", "--json", "out.json", "--svg", "out.svg"]
    lines = well("monitor", *MONITOR, *words, status=int(bool(lost))).splitlines()
    count = len(frames) // FRAME
    equal("packets that touch no lost slot come back", got("back"), b"".join(coming_back(packets, -1, count * SLOTS * DATA, lost)))
    equal("the refused slots have lines", [line for line in lines if "refused" in line],
          [f"frame {slot // SLOTS + 1} slot {slot % SLOTS + 1} refused 8 parity lost {DATA} position {positions[slot]}"
           for slot in sorted(lost)])
    for frame in range(count):
        told = [line for line in lines if line.startswith(f"frame {frame + 1} accepted ")]
        gone = sum(slot // SLOTS == frame for slot in lost)
        equal("a frame's line", told, [f"frame {frame + 1} accepted {SLOTS - gone} dummy 96 parity {gone} BCH 0 other_stuff 0 "
                                       + carried(packets, frame, lost)])
    equal("the lines that JSON makes", json_lines("out.json"), lines)
    equal("cells of refused slots in the picture", cells()[1]["refused 8 parity"], len(lost))
    positions_drawn(FEW, lines)


def damage():
    """Slots lost at the ends of frames, inside a packet over several frames, and anywhere."""
    packets = of_all_kinds(3, 60) + [packet(1, bytes(65535))] + of_all_kinds(4, 60) + [packet(0xFE, b"\1" * 65535)]
    frames = coded(FEW, packets, SLOTS, DATA)
    octets, numbers = got("frames"), random.Random(5)
    for lost in [set(), {0}, {SLOTS - 1}, {SLOTS}, {SLOTS - 1, SLOTS}, set(range(SLOTS)), set(range(frames * SLOTS - 3)),
                 *(set(numbers.sample(range(frames * SLOTS), count)) for count in (1, 1, 2, 3, 5, 8, 13, 40))]:
        with_lost_slots(packets, octets, lost)
    # Frames from the middle of a stream on: those before them are lost to it, and its end is no end of a packet.
    begins = got("frames.begins")
    for first in range(frames):
        put("part", octets[FRAME * first:FRAME * (first + 2)])
        put("part.begins", begins[2 * SLOTS * first:2 * SLOTS * (first + 2)])
        lines = well("frames of the middle", *MONITOR, "part", "-o", "back").splitlines()
        end, lost = SLOTS * DATA * min(first + 2, frames), set(range(SLOTS * first))
        equal("packets of the middle", got("back"), b"".join(coming_back(packets, -1, end, lost)))
        equal("what the middle leaves", lines[-1].split(" ")[-1], str(unfinished(packets, end, lost)))


def wrong_heads():
    """Slots that are accepted and carry something else: from a wrong head or null packet on the rest of its slot is lost."""
    sound = [packet(1, bytes(500)) * 3, packet(2, bytes(96)) * 10, b"", packet(3, bytes(496))]
    rest = [b"\x47", packet(0xFF, b"\xff" * 865 + b"\0"), b"\x7f\0", b""]
    slots = [(one + other).ljust(DATA, b"\0") for one, other in zip(sound, rest)]
    put("as_ts", as_ts(b"".join(slots).ljust(SLOTS * DATA, b"\0")))
    well("code of something else", "code", *SETTINGS, "as_ts", "-o", "frames")
    put("frames.begins", b"\0\0" * len(slots) + b"\xff\xff" * (SLOTS - len(slots)))
    line = well("monitor of something else", *MONITOR, "frames", "-o", "back").splitlines()[-1]
    equal("packets before wrong heads come back", got("back"), b"".join(sound))
    equal("wrong heads are no refused slots", line[:38], "frames 1 accepted 24 dummy 96 parity 0")


def wrong_null():
    """A null packet over two frames with another octet inside: reading goes on behind its head's slot, in the frame before."""
    first, inside, behind = packet(2, bytes((SLOTS - 2) * DATA - 4)), packet(1, bytes(96)), packet(3, bytes(96))
    null = bytearray(packet(0xFF, b"\xff" * 5000))
    null[DATA + 100:DATA + 200] = inside
    stream = (first + null + behind).ljust(2 * SLOTS * DATA, b"\0")
    put("as_ts", as_ts(stream))
    well("code of a wrong null packet", "code", *SETTINGS, "as_ts", "-o", "frames")
    begins = {0: 0, SLOTS - 2: 0, SLOTS - 1: 100, SLOTS: len(null) - 2 * DATA}
    put("frames.begins", b"".join(begins.get(slot, NONE).to_bytes(2, "big") for slot in range(2 * SLOTS)))
    lines = well("monitor of a wrong null packet", *MONITOR, "frames", "-o", "back").splitlines()
    equal("what follows the head's slot comes back", got("back"), first + inside + behind)
    equal("the null packet goes on behind frame 1", lines[0].split(" ")[-1], str(2 * DATA))


def headers():
    packets, given = of_all_kinds(6, 50), samples(22)
    put("plan", FEW)
    put("packets", b"".join(packets))
    frames = -(-sum(map(len, packets)) // (SLOTS * DATA))
    put("headers", given[:HEADER * SLOTS * frames])
    well("code with headers", *CODE, "packets", "-o", "frames", "--headers", "headers")
    well("monitor with headers", *MONITOR, "frames", "-o", "back", "--headers", "out")
    equal("the headers come back", got("out"), got("headers"))
    equal("and so do the packets", got("back"), b"".join(one for one in packets if one != EMPTY))
    put("headers", given[:HEADER * SLOTS * frames - 1])
    refused("too few headers", [*CODE, "packets", "-o", "out", "--headers", "headers"],
            "^s3frame code: headers: ends before the header of the last data slot$", outputs=("out", "out.begins"))


def pipes():
    packets = of_all_kinds(7, 80)
    coded(FEW, packets, SLOTS, DATA)
    want = b"".join(one for one in packets if one != EMPTY)
    status, frames, told = run(*CODE, "--begins", "begins", given=got("packets"))
    equal("code in a pipe", (status, frames, got("begins")), (0, got("frames"), got("frames.begins")))
    check(f"code in a pipe: report: {told}", told.startswith("frames ") and told.count("\n") == 1)
    status, begins, _ = run(*CODE, "packets", "-o", "out", "--begins", "-")
    equal("reports in a pipe", (status, begins), (0, got("begins")))
    status, back, told = run(*MONITOR, "--begins", "begins", given=frames)
    equal("monitor in a pipe", (status, back, told.splitlines()[-1][:7]), (0, want, "frames "))
    equal("monitor with reports in a pipe", run(*MONITOR, "frames", "--begins", "-", given=begins)[:2], (0, want))
    os.mkfifo("fifo")
    code = [COMMAND, *CODE, "packets", "--begins", "fifo"]
    with subprocess.Popen(code, stdout=subprocess.PIPE, stderr=subprocess.DEVNULL) as source:
        both = subprocess.run([COMMAND, *MONITOR, "--begins", "fifo"], stdin=source.stdout, capture_output=True, timeout=60)
    equal("code into monitor, by two pipes", (both.returncode, both.stdout), (0, want))
    os.remove("fifo")


def long_stream():
    """Packets and frames of many more octets than the run may have as memory."""
    packets = packet(1, bytes(1496)) * 26000
    put("plan", FULL)
    memory = limit(resource.RLIMIT_AS, 24000000)
    line = well("a long stream", *CODE, "-o", "frames", given=packets, **memory)
    equal("a long stream: counts", line, "frames 65 packets 26000 octets 39000000 fillers 382200\n")
    well("a long stream of frames", *MONITOR, "frames", "-o", "back", **memory)
    equal("a long stream comes back", got("back"), packets)


def cut_packets():
    packets = of_all_kinds(8, 60)
    put("plan", FEW)
    put("packets", b"".join(packets))
    well("code", *CODE, "packets", "-o", "frames")
    for cut in (b"\x7f", b"\x7f\1\0", packet(1, b"abc")[:-1], packet(0xFF, b"\xff" * 9000)[:5000]):
        put("cut", got("packets") + cut)
        well("a cut packet", *CODE, "cut", "-o", "out", status=1,
             told=f"s3frame code: cut: ends inside a packet: {len(cut)} octets left over\n")
        equal("a cut packet: what came before is kept", (got("out"), got("out.begins")), (got("frames"), got("frames.begins")))
    for what, octets, line in [("no packets", b"", "has no packets"),
                               ("part of a packet", b"\x7f\1\0\5abcd", "has no whole packet: it ends after 8 octets")]:
        put("cut", octets)
        refused(what, [*CODE, "cut", "-o", "out"], f"^s3frame code: cut: {line}$", outputs=("out", "out.begins"))


def wrong_packets():
    """Each way in which a packet is wrong, alone and far behind others, and a cut one whose head is wrong."""
    before = of_all_kinds(9, 90)
    at = sum(map(len, before))
    put("plan", FEW)
    null = "is a null packet and holds another octet than 0xFF"
    for wrong, why in [(b"\x7e\1\0\1a", "has the head 7E 01 00 01, which is wrong"),
                       (b"\x7f\4\0\1a", "has the head 7F 04 00 01, which is wrong"),
                       (b"\x7f\xff\0\2\xff\xfe", null), (packet(0xFF, b"\0" + b"\xff" * 3000), null)]:
        for number, octet, octets in [(0, 0, wrong), (90, at, b"".join(before) + wrong + before[0]), (0, 0, wrong * 2 + EMPTY)]:
            put("bad", octets)
            refused(f"the packet {wrong[:6]}", [*CODE, "bad", "-o", "out"], f"^s3frame code: bad: refused 16 packet: packet {number}, "
                    f"counted from 0, at octet {octet}, {why}$", outputs=("out", "out.begins"))
    put("bad", b"".join(before) + b"\x7f\0\xff\xff" + bytes(100))
    refused("a cut packet with a wrong head", [*CODE, "bad", "-o", "out"], f"^s3frame code: bad: refused 16 packet: packet 90, "
            f"counted from 0, at octet {at}, has the head 7F 00 FF FF, which is wrong$", outputs=("out", "out.begins"))
    put("bad", samples(40))
    refused("TS packets", [*CODE, "bad", "-o", "out"], "^s3frame code: bad: refused 16 packet: packet 0, counted from 0, at octet 0, "
            "has the head 47 ", outputs=("out", "out.begins"))


def wrong_reports():
    put("plan", FEW)
    put("packets", b"".join(of_all_kinds(10, 90)))
    well("code", *CODE, "packets", "-o", "frames")
    begins = got("frames.begins")
    past = DATA.to_bytes(2, "big")
    for what, octets, frames, line in [
        ("no reports", b"", 0, "ends before the report of slot 1 of frame 1"),
        ("reports of one frame", begins[:2 * SLOTS], 1, "ends before the report of slot 1 of frame 2"),
        ("half a report", begins[:2 * SLOTS + 9], 1, "ends before the report of slot 5 of frame 2"),
        ("a report too many", begins + b"\0\0", 4, "goes on after the report of slot 24 of frame 4"),
        ("an octet too many", begins + b"\0", 4, "goes on after the report of slot 24 of frame 4"),
        ("a report past its slot", begins[:58] + past + begins[60:], 1,
         "the report of slot 6 of frame 2 is 1870, past its 1870 octets and not 65535"),
        ("65534", b"\xff\xfe" + begins[2:], 0,
         "the report of slot 1 of frame 1 is 65534, past its 1870 octets and not 65535"),
    ]:
        put("bad", octets)
        refused(what, [*MONITOR, "frames", "--begins", "bad", "-o", "out"], f"^s3frame monitor: bad: {line}$", told=frames)
    put("cut", got("frames")[:FRAME + 7])
    well("cut frames with all reports", *MONITOR, "cut", "--begins", "frames.begins", "-o", "out", status=1,
         told="s3frame monitor: cut: ends inside a frame: 7 octets left over\n")
    os.rename("frames.begins", "elsewhere")
    refused("missing reports", [*MONITOR, "frames", "-o", "out"], "^s3frame monitor: frames.begins: No such file")
    os.rename("elsewhere", "frames.begins")


def words_and_help():
    beside = ("out", "out.begins")
    no_name = "has no name for the reports of its slots: name their file with --begins$"
    refused("frames without a name", [*CODE, "packets"], f"^s3frame code: standard output: {no_name}")
    refused("frames without a name, by a dash", [*CODE, "packets", "-o", "-"], f"^s3frame code: standard output: {no_name}")
    refused("no name of frames that are read", [*MONITOR, "-o", "out"], f"^s3frame monitor: standard input: {no_name}",
            given=got("frames"))
    refused("reports without --tlv", ["code", *SETTINGS, "packets", "-o", "out", "--begins", "x"], "^s3frame: (.|\n)*--tlv")
    refused("reports over the frames", [*CODE, "packets", "-o", "out", "--begins", "out"],
            "^s3frame code: out: is the same file as out, and would be written over it")
    refused("reports over the packets", [*CODE, "packets", "-o", "out", "--begins", "packets"],
            "^s3frame code: packets: is the same file as packets, and would be written over it")
    refused("packets over the reports", [*MONITOR, "frames", "-o", "frames.begins"],
            "^s3frame monitor: frames.begins: is the same file as frames.begins, and would be written over it")
    refused("reports and frames on one pipe", [*CODE, "packets", "--begins", "-"],
            "^s3frame code: standard output: cannot take two outputs: name a file$")
    put("plan", WORKED)
    for words, outputs in (([*CODE, "packets", "-o", "out"], beside), ([*MONITOR, "frames", "-o", "out"], ("out",))):
        refused(f"two groups: {words[0]}", words, f"^s3frame {words[0]}: plan: has 2 groups, but TLV packets fill the data slots of "
                "one group$", outputs=outputs)
        page = well(f"help of {words[0]}", words[0], "--help")
        check(f"help of {words[0]}: packets and reports", all(part in page for part in ("\nTLV\n", "0x7F", ".begins", "65535")))


def test():
    there_and_back(FEW, SLOTS, DATA, of_all_kinds(1, 150))
    there_and_back(FEW, SLOTS, DATA, [EMPTY])
    for octets in (1, 2, 3):
        there_and_back(FEW, SLOTS, DATA, [packet(1, bytes(octets))])  # the last filler is cut
    there_and_back(FEW, SLOTS, DATA, [packet(1, bytes(SLOTS * DATA - 4))])
    there_and_back(FULL, 120, 5049, of_all_kinds(2, 600) + [packet(3, bytes(65535))] * 3)
    damage()
    wrong_heads()
    wrong_null()
    headers()
    pipes()
    long_stream()
    cut_packets()
    wrong_packets()
    wrong_reports()
    words_and_help()
