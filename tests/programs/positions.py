"""Where parity broke: the lowest failing position of a slot, in the report, in JSON and in the picture."""
import json
import random
import subprocess

from charts import STRETCH, charts, positions_drawn
from common import (EIGHT, FEW, FRAME, REFERENCE, ROWS, SETTINGS, SLOT, WORKED, check, equal, frames_of, got, json_lines,
                    parity_bits, put, rates, samples, turn, turn_parity, well)
from damage import REPORTS
from plans import PACKETS


def read(frames, status=1):
    """The lines of a report on frames, which JSON makes too and the picture shows."""
    put("frames", bytes(frames))
    lines = well("positions", "monitor", *SETTINGS, "frames", "-o", "back", *REPORTS, status=status).splitlines()
    equal("the lines that JSON makes", json_lines("out.json"), lines)
    positions_drawn(got("plan").decode(), lines)
    return lines


def told(plan, wanted):
    """The lines and the entries in JSON of refused slots, which are wanted by frame and slot with a position, or without one
    where BCH bits are wrong.
    """
    lines, entries = [], []
    for (frame, slot), position in sorted(wanted.items()):
        number, word = (9, "BCH") if position is None else (8, "parity")
        lost = PACKETS[rates(plan)[slot] - 1]
        lines.append(f"frame {frame} slot {slot} refused {number} {word} lost {lost}"
                     + ("" if position is None else f" position {position}"))
        entries.append({"slot": slot, "number": number, "word": word, "lost": lost, "position": position})
    return lines, entries


def refused(what, plan, frames, wanted):
    """Just the slots that are wanted are refused."""
    lines, entries = told(plan, wanted)
    equal(what, [line for line in read(frames) if " refused " in line], lines)
    equal(f"{what}, in JSON", [slot for frame in json.loads(got("out.json"))["frames"] for slot in frame["refused"]], entries)


def known():
    """Parity bits that are turned, one or several: the lowest counts. Frame 1: the first and the last of all in the slots at the
    ends of groups. Frame 2: only dummies. Frame 3: some here and there.
    """
    frames, numbers, places = bytearray(frames_of(EIGHT, samples(3 * 1772, 8))), random.Random(9), rates(EIGHT)
    turned = {}
    for slot, rate in places.items():
        if places.get(slot - 1) != rate:
            turned[1, slot] = [0]
        elif places.get(slot + 1) != rate:
            turned[1, slot] = [parity_bits(rate) - 1]
        if slot % 3 == 0:
            turned[3, slot] = numbers.sample(range(parity_bits(rate)), numbers.choice((1, 2, 3, 50)))
    turned[1, 5], turned[1, 6] = [STRETCH - 1, STRETCH], [STRETCH]
    for (frame, slot), positions in turned.items():
        for position in positions:
            turn_parity(frames, frame, slot, places[slot], position)
    for slot in set(range(1, 121)) - set(places):
        turn(frames, 2, slot, 44879)
    refused("known positions", EIGHT, frames, {place: min(positions) for place, positions in turned.items()})


def lowest(octets, rate):
    """The lowest position where a slot has other parity than the second implementation makes of the bits before it."""
    made = subprocess.run([REFERENCE, "parity", str(rate)], input=octets, capture_output=True, check=True).stdout
    other = int.from_bytes(octets, "big") ^ int.from_bytes(made, "big")
    return 8 * SLOT - other.bit_length() - 374 * ROWS[rate] if other else None


def other_bits():
    """Wrong bits before the parity, noise, and slots whose parity is right and whose BCH bits are not: other slots, and zeros."""
    frames, numbers = bytearray(frames_of(WORKED, samples(2146, 10))), random.Random(11)
    slots = [frames[first:first + SLOT] for first in range(0, FRAME, SLOT)]
    slots[16], slots[17], slots[19], slots[20], slots[22] = slots[17], slots[16], slots[20], slots[19], bytearray(SLOT)
    slots[24], slots[116] = bytearray(numbers.randbytes(SLOT)), bytearray(numbers.randbytes(SLOT))
    frames, end = bytearray().join(slots), 374 * ROWS[7]
    # The ends of header, data, BCH bits and stuff bits.
    for slot, bit in ((1, 0), (3, 176), (5, end - 199), (7, end - 7), (9, end - 6), (11, end - 1), (116, 374 * ROWS[3] - 1)):
        turn(frames, 1, slot, bit)
    turn_parity(frames, 1, 20, 7, 77)
    changed = [1, 3, 5, 7, 9, 11, 17, 18, 20, 21, 23, 25, 116, 117]
    wanted = {(1, slot): lowest(frames[SLOT * (slot - 1):SLOT * slot], rates(WORKED)[slot]) for slot in changed}
    equal("slots with right parity, and one whose parity bit is turned",
          [slot for _, slot in wanted if wanted[1, slot] is None] + [wanted[1, 20]], [17, 18, 21, 23, 77])
    refused("positions of other bits", WORKED, frames, wanted)


def none():
    """Neither sound frames nor those with wrong BCH bits alone have a position."""
    frames = frames_of(WORKED, samples(10))
    read(frames, status=0)
    read(frames[SLOT:2 * SLOT] + frames[:SLOT] + frames[2 * SLOT:])


def often():
    """Slots that fail in so many frames, at either end of a stretch: a cell is drawn once, and darker where it failed oftener."""
    one, counts = frames_of(FEW, samples(240)), (1, 2, 9, 10, 99, 100, 101)
    frames = bytearray(one * 101)
    for slot, count in enumerate(counts, 1):
        for frame in range(1, count + 1):
            turn_parity(frames, frame, slot, 1, STRETCH * 20 * slot + frame % 2 * (STRETCH - 1))
    turn_parity(frames, 101, 24, 1, parity_bits(1) - 1)
    lines = [line for line in read(frames) if " refused " in line]
    equal("a line for each slot that fails", len(lines), sum(counts) + 1)
    equal("a cell and a bar for each place", [len(boxes) for _, boxes in charts()[1:]], [5 + 8 + 96, 8])


def test():
    known()
    other_bits()
    none()
    often()
    page, parts = well("help of monitor", "monitor", "--help"), ("`position`", " position 4711`", f"stretch of {STRETCH} positions")
    check("help of monitor: positions", all(part in page for part in parts))
