"""Slots that are refused, and those with other stuff bits, in the report, in JSON and in the picture."""
import json
import resource
from collections import Counter

from charts import cells, positions_drawn
from common import (FEW, FRAME, PACKET, SETTINGS, SLOT, WORKED, check, counts, equal, frames_of, got, json_lines, limit, put,
                    put_stuff, samples, turn_parity, well)

REPORTS = ["--json", "out.json", "--svg", "out.svg"]


def damaged(frames):
    """Frame 1: other stuff bits in slots 2 and 5 to 9, and in slot 2 a wrong parity bit too. Frame 2: slots 3 and 4 changed
    places, so that their parity is right and their BCH bits are not.
    """
    octets = bytearray(frames)
    for slot, stuff in ((2, 0), (5, 62), (6, 31), (7, 62), (8, 62), (9, 62)):
        put_stuff(octets, 1, slot, 7, stuff)
    turn_parity(octets, 1, 2, 7, 4711)
    third, fourth, fifth = (FRAME + k * SLOT for k in (2, 3, 4))
    octets[third:fourth], octets[fourth:fifth] = octets[fourth:fifth], octets[third:fourth]
    return bytes(octets)


def same_in_json(lines):
    """The document says what the lines say."""
    equal("the lines that JSON makes", json_lines("out.json"), lines)
    document = json.loads(got("out.json"))
    settings = {"plan": [{"modulation": 4, "rate": 7, "slots": 115}, {"modulation": 2, "rate": 3, "slots": 5}],
                "mask": 19088743, "start": 12246029, "left_over": 0}
    equal("plan and settings in JSON", {name: document[name] for name in settings}, settings)


def report():
    packets = samples(2 * 2146, 5)
    put("damaged", damaged(frames_of(WORKED, packets)))
    lines = well("monitor", "monitor", *SETTINGS, "damaged", "-o", "back", *REPORTS, status=1).splitlines()
    slot, in_frame = 23 * PACKET, 2146 * PACKET
    want = packets[:slot] + packets[2 * slot:in_frame + 2 * slot] + packets[in_frame + 4 * slot:]
    equal("the packets of accepted slots alone come back", got("back"), want)
    equal("the report", lines, [
        "frame 1 slot 2 refused 8 parity lost 23 position 4711", "frame 1 stuff 31 slots 6", "frame 1 stuff 62 slots 5,7-9",
        "frame 1 accepted 93 dummy 26 parity 1 BCH 0 other_stuff 5 planned 2146 written 2123 lost 23 null 0",
        "frame 2 slot 3 refused 9 BCH lost 23", "frame 2 slot 4 refused 9 BCH lost 23",
        "frame 2 accepted 92 dummy 26 parity 0 BCH 2 other_stuff 0 planned 2146 written 2100 lost 46 null 0",
        "frames 2 accepted 185 dummy 52 parity 1 BCH 2 other_stuff 5 planned 4292 written 4223 lost 69 null 0"])
    same_in_json(lines)
    texts, found = cells()
    equal("cells of the picture", found, Counter({"accepted": 180, "dummy": 52, "refused 8 parity": 1, "refused 9 BCH": 2,
                                                  "accepted, other stuff bits": 5}))
    check(f"the axes are named: {texts}", {"slot", "frame", "120", "1", "2"} <= set(texts))
    positions_drawn(WORKED, lines)


def wrong_settings():
    """Frames under another start: right parity and wrong BCH bits in every slot."""
    put("frames", frames_of(WORKED, samples(10)))
    words = ["--plan", "plan", "--mask", "0x1234567", "--start", "7", "frames", "-o", "back"]
    line = well("another start", "monitor", *words, status=1).splitlines()[-1]
    found = counts(line)
    equal("another start", [found[name] for name in ("accepted", "BCH", "written", "lost")], [0, 94, 0, 2146])
    equal("no packets", got("back"), b"")


def many_frames():
    """More frames than the picture has rows: two frames a row, and the worse answer of the two. They take more octets than
    the run may have as memory.
    """
    frames = bytearray(frames_of(FEW, samples(240) * 201))
    for frame, slot in ((1, 1), (4, 2), (201, 24)):
        frames[(frame - 1) * FRAME + slot * SLOT - 1] ^= 1
    put("frames", bytes(frames))
    memory = limit(resource.RLIMIT_AS, len(frames) // 4)
    lines = well("many frames", "monitor", *SETTINGS, "frames", "-o", "back", *REPORTS, status=1, **memory).splitlines()
    texts, found = cells()
    equal("cells of many frames", found, Counter({"accepted": 101 * 24 - 3, "dummy": 101 * 96, "refused 8 parity": 3}))
    check(f"the axis tells frames: {texts}", {"20", "100", "200"} <= set(texts) and "each row the worst of 2 frames" in texts[0])
    positions_drawn(FEW, lines)


def test():
    report()
    wrong_settings()
    many_frames()
