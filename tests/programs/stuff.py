"""Frames as generators of other makers send them, with right checks and other stuff bits than ones: every packet comes back,
and the report says which bits they were.
"""
import json
from collections import Counter

from charts import cells
from common import FEW, FRAME, SETTINGS, WORKED, check, equal, frames_of, got, json_lines, put, put_stuff, samples, well
from damage import REPORTS
from tlv import DATA, EMPTY, MONITOR, SLOTS, coded, of_all_kinds


def zeros(frames, places):
    """Frames with zeros for the stuff bits of all data slots, which have these numbers and rates."""
    octets = bytearray(frames)
    for frame in range(len(frames) // FRAME):
        for slot, rate in places:
            put_stuff(octets, frame + 1, slot, rate, 0)
    return bytes(octets)


def all_zeros():
    packets = samples(2 * 2146, 6)
    put("zeros", zeros(frames_of(WORKED, packets), [*((slot, 7) for slot in range(1, 93)), (116, 3), (117, 3)]))
    lines = well("zeros", "monitor", *SETTINGS, "zeros", "-o", "back", *REPORTS).splitlines()
    equal("zeros: the packets come back", got("back"), packets)
    frame = "accepted 94 dummy 26 parity 0 BCH 0 other_stuff 94 planned 2146 written 2146 lost 0 null 0"
    equal("zeros: a line more for each frame", lines, [
        "frame 1 stuff 0 slots 1-92,116-117", f"frame 1 {frame}", "frame 2 stuff 0 slots 1-92,116-117", f"frame 2 {frame}",
        "frames 2 accepted 188 dummy 52 parity 0 BCH 0 other_stuff 188 planned 4292 written 4292 lost 0 null 0"])
    equal("zeros: the lines that JSON makes", json_lines("out.json"), lines)
    equal("zeros: cells of the picture", cells()[1], Counter({"accepted, other stuff bits": 188, "dummy": 52}))


def each_number():
    """Every number that six bits make, in a slot of its own."""
    packets = samples(2146, 7)
    octets = bytearray(frames_of(WORKED, packets))
    for stuff in range(64):
        put_stuff(octets, 1, stuff + 1, 7, stuff)
    put("frames", bytes(octets))
    lines = well("each number", "monitor", *SETTINGS, "frames", "-o", "back", *REPORTS).splitlines()
    equal("each number: the packets come back", got("back"), packets)
    equal("each number: lines", lines[:-2], [f"frame 1 stuff {stuff} slots {stuff + 1}" for stuff in range(63)])
    check(f"each number: how many slots: {lines[-1]}", " accepted 94 dummy 26 parity 0 BCH 0 other_stuff 63 " in lines[-1])
    equal("each number in JSON", json.loads(got("out.json"))["frames"][0]["stuff"],
          [{"stuff": stuff, "slots": [stuff + 1]} for stuff in range(63)])


def tlv_zeros():
    packets = of_all_kinds(11, 60)
    frames = coded(FEW, packets, SLOTS, DATA)
    put("zeros", zeros(got("frames"), [(slot, 1) for slot in range(1, SLOTS + 1)]))
    lines = well("TLV and zeros", *MONITOR, "zeros", "--begins", "frames.begins", "-o", "back").splitlines()
    want = [one for one in packets if one != EMPTY]
    equal("TLV and zeros: the packets come back", got("back"), b"".join(want))
    equal("TLV and zeros: a line more for each frame", lines[:-1:2],
          [f"frame {frame + 1} stuff 0 slots 1-24" for frame in range(frames)])
    equal("TLV and zeros: the line of all", lines[-1], f"frames {frames} accepted {24 * frames} dummy {96 * frames} parity 0 BCH 0 "
          f"other_stuff {24 * frames} packets {len(want)} octets {sum(map(len, want))} lost 0 unfinished 0")


def test():
    all_zeros()
    each_number()
    tlv_zeros()
    page = well("help of monitor", "monitor", "--help")
    check("help of monitor: stuff bits", "other_stuff" in page and "`stuff`" in page)
