"""The picture that `s3frame points` draws: a dot for each point that was sent, in its place and with its labels and symbols beside
it, for points of every size.
"""
import math
import random
import xml.etree.ElementTree as xml
from collections import Counter

from common import SLOT, check, equal, got, put, well
from points import NAMES, RING, alone, labels, put_points

SVG = "{http://www.w3.org/2000/svg}"


def picture():
    """The picture's texts and dots, each by its place; the middle, where both axes cross; and the colours of its legend."""
    drawing = xml.fromstring(got("out.svg"))
    texts = [(text.text.strip(), (float(text.get("x")), float(text.get("y"))), text.get("fill"))
             for text in drawing.iter(f"{SVG}text")]
    dots = [(float(dot.get("cx")), float(dot.get("cy"))) for dot in drawing.iter(f"{SVG}circle")]
    lines = [line.get("points").split() for line in drawing.iter(f"{SVG}polyline") if line.get("stroke") == "#B0B0B0"]
    level, upright = ([tuple(map(float, end.split(","))) for end in ends] for ends in lines)
    check(f"axes: {lines}", level[0][1] == level[1][1] and upright[0][0] == upright[1][0])
    keys = [{key.get("fill"), key.get("stroke")} for key in drawing.iter(f"{SVG}rect")]
    return texts, dots, (upright[0][0], level[0][1]), keys


def apart(one, other):
    return max(abs(a - b) for a, b in zip(one, other))


def sent(modulation, places, slots, symbol):
    """How many symbols had each point, by its place, whether they were even ones of BPSK, and the label."""
    counts = Counter()
    for first in range(0, len(slots), SLOT):
        for number, label in enumerate(labels(modulation, 5, slots[first:first + SLOT]), symbol):
            (i, q), even = places[label], modulation == 1 and number % 2 == 0
            counts[(-q, i) if even else (i, q), even, label] += 1
    return counts


def drawn(modulation, places, slots, symbol=1):
    """Draws slots, and looks for a dot for each point, all by one scale, which the widest tells; the texts of the picture, the
    legend's colours, and for each count of the account the place where its text is due.
    """
    put_points(places)
    put("slots", slots)
    well("a picture", *alone(modulation, 5, "--symbol", str(symbol), "slots", "-o", "out", "--svg", "out.svg"))
    counts = sent(modulation, places, slots, symbol)
    texts, dots, middle, keys = picture()
    what = f"the picture of {NAMES[modulation]}"
    equal(f"{what}: a dot for each point", len(dots), len({(place, even) for place, even, _ in counts}))
    largest = max(abs(value) for place, _, _ in counts for value in place)
    scale = max(apart(dot, middle) for dot in dots) / (largest or 1)
    due = {key: (middle[0] + scale * key[0][0], middle[1] - scale * key[0][1]) for key in counts}
    check(f"{what}: the dots are in their places", all(any(apart(dot, place) < 2 for dot in dots) for place in due.values()))
    title = f"{NAMES[modulation]} 2/3: slots {len(slots) // SLOT}, symbols {8 * len(slots) // modulation}"
    equal(f"{what}: its title", texts[0][0], title)
    return texts, keys, [(f"{key[2]:0{modulation}b} ×{count}", due[key], key[1]) for key, count in counts.items()]


def beside(what, texts, wanted):
    """Each text is there once, beside its dot; its colours."""
    colours = {False: set(), True: set()}
    for text, place, even in wanted:
        found = [(at, colour) for words, at, colour in texts if words == text and apart(at, place) < 20]
        check(f"{what}: {text!r} beside its dot at {place}: {found}", len(found) == 1)
        colours[even].update(colour for _, colour in found)
    return colours


def pictures():
    """All modulations, on points that no two directions have alike; odd and even symbols of BPSK by colour, as the legend says."""
    slots = random.Random(7).randbytes(2 * SLOT)
    spiral = [((.3 + .1 * k) * math.cos(k), (.2 + .05 * k) * math.sin(k)) for k in range(32)]
    for modulation, symbol in ((1, 1), (1, 2), (2, 2), (3, 1), (4, 1), (5, 1)):
        texts, keys, wanted = drawn(modulation, spiral[:2 ** modulation], slots, symbol)
        colours = beside(NAMES[modulation], texts, wanted)
        legend = [words for words, _, _ in texts[1:] if "symbols" in words]
        if modulation == 1:
            odd, even = colours[False], colours[True]
            check(f"two colours, which the legend has: {colours} {keys}",
                  len(odd) == len(even) == 1 and odd != even and odd <= keys[1] and even <= keys[2])
            equal("the legend", legend[:2], ["odd symbols", "even symbols, turned by 90 degrees"])
        else:
            equal(f"{NAMES[modulation]}: one colour", (len(colours[False]), len(legend), len(keys)), (1, 1, 1))


def sizes():
    """Points of every size, such as are not used, and labels with one point."""
    slots = random.Random(8).randbytes(SLOT)
    for size, unit in ((1e-30, ", in units of 1e-30"), (1e30, ", in units of 1e30"), (1, ""), (1e-3, ""), (9999, "")):
        texts, _, wanted = drawn(3, [(size * i, size * q) for i, q in RING], slots)
        beside(f"points of size {size}", texts, wanted)
        words = [words for words, _, _ in texts]
        check(f"the axes' names at size {size}: {words}", {f"I{unit}", f"Q{unit}", "0"} <= set(words))
    for size in (0, .5, 3e38):
        words = [words for words, _, _ in drawn(5, [(size, -size)] * 32, slots)[0]]
        check(f"all labels with one point of size {size}: {words}", {"00000-11111", "×8976"} <= set(words))
    words = [words for words, _, _ in drawn(1, [(0, 0)] * 2, slots)[0]]
    equal("odd and even symbols with one point", (words.count("0-1"), words.count("×22440")), (2, 2))
    drawn(2, RING[:4], bytes(SLOT))


def test():
    pictures()
    sizes()
