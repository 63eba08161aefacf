"""The picture that `s3frame monitor` draws: its charts, read back by the numbers at their axes."""
import re
import xml.etree.ElementTree as xml
from collections import Counter

from common import check, equal, got, parity_bits, rates

SVG = "{http://www.w3.org/2000/svg}"
HEADINGS = ("Slots of frames ", "Lowest failing parity positions in all frames: ", "How many slots failed first ")
STRETCH = 187  # positions of a cell or bar
LOWEST = 3  # pixels of a bar


def charts():
    """Texts and boxes of each chart, its heading first: those behind the ground, down to the next heading."""
    drawing = xml.fromstring(got("out.svg"))
    texts = [(text.text.strip(), float(text.get("x")), float(text.get("y")), text.get("text-anchor"))
             for text in drawing.iter(f"{SVG}text")]
    boxes = [(*(float(box.get(name)) for name in ("x", "y", "width", "height")), box.get("fill"))
             for box in drawing.iter(f"{SVG}rect")][1:]
    tops = [y for words, _, y, _ in texts if words.startswith(HEADINGS)]
    return [([text for text in texts if top <= text[2] < end], [box for box in boxes if top <= box[1] < end])
            for top, end in zip(tops, [*tops[1:], float("inf")])]


def legend(texts, boxes):
    """What the colours of a chart's first five boxes mean."""
    return {box[4]: text[0] for box, text in zip(boxes[:5], texts[1:6])}


def cells():
    """The texts of the chart of frames, and how many cells it has of each name in its legend."""
    texts, boxes = charts()[0]
    names = legend(texts, boxes)
    return [text[0] for text in texts], Counter(names.get(box[4], box[4]) for box in boxes[5:])


def axis(texts, anchor, place):
    """The number that a pixel stands for, told by the two labels of an axis that are farthest apart."""
    labels = sorted((int(text[0]), text[place]) for text in texts if text[0].isdigit() and text[3] == anchor)
    (low, first), (high, last) = labels[0], labels[-1]
    return lambda pixel: low + (pixel - first) * (high - low) / (last - first)


def across(texts, box):
    """The stretches where a box begins and ends."""
    position = axis(texts, "middle", 1)
    return tuple(round(position(pixel) / STRETCH) for pixel in (box[0], box[0] + box[2]))


def down(texts, box):
    """The first and the last slot that a box covers."""
    slot = axis(texts, "end", 2)
    return round(slot(box[1]) + .5), round(slot(box[1] + box[3]) - .5)


def shade(count):
    names = {1: "failed once", 2: "2 to 9 times", 10: "10 to 99 times", 100: "100 times or more"}
    return names[max(least for least in names if least <= count)]


def cells_of_positions(plan, failed, texts, boxes):
    """Slots against positions: a cell where one failed or more, darker for more, and grey where a slot has none."""
    stretches = {slot: parity_bits(rate) // STRETCH for slot, rate in rates(plan).items()}
    longest = max(stretches.values())
    wanted = [((slot, slot), (stretch, stretch + 1), shade(count)) for (slot, stretch), count in failed.items()]
    wanted += [((slot, slot), (stretches.get(slot, 0), longest), "no such position") for slot in range(1, 121)
               if stretches.get(slot) != longest]
    names = legend(texts, boxes)
    found = [(down(texts, box), across(texts, box), names.get(box[4], box[4])) for box in boxes[5:]]
    equal("cells of positions", sorted(found), sorted(wanted))
    check(f"the axes of positions are named: {texts}", {"slot", "parity position"} <= {text[0] for text in texts})


def bars_of_positions(failed, texts, bars):
    """How many slots failed first in each stretch."""
    sums = Counter()
    for (_, stretch), count in failed.items():
        sums[stretch] += count
    equal("the stretches of bars", sorted(across(texts, bar) for bar in bars), [(first, first + 1) for first in sorted(sums)])
    slots = axis(texts, "end", 2)
    pixel = abs(slots(1) - slots(0))
    for bar in bars:
        count, bottom = sums[across(texts, bar)[0]], slots(bar[1] + bar[3])
        check(f"a bar stands on 0 and counts {count} slots: {bar}",
              abs(bar[3] - max(count / pixel, LOWEST)) < 2 and abs(bottom) < 2 * pixel)
    check(f"the axes of bars are named: {texts}", {"slots", "parity position"} <= {text[0] for text in texts})


def positions_drawn(plan, lines):
    """The charts of positions show what the lines of a report say."""
    refused = re.compile(r"frame \d+ slot (\d+) refused 8 parity lost \d+ position (\d+)")
    told = [tuple(map(int, found.groups())) for found in map(refused.fullmatch, lines) if found]
    failed = Counter((slot, position // STRETCH) for slot, position in told)
    parts = charts()
    heading = HEADINGS[1] + (f"{len(told)} slot{'s' * (len(told) > 1)}; each cell {STRETCH} positions" if told else "none")
    equal("the heading of positions", parts[1][0][0][0], heading)
    if not told:
        equal("no charts of positions where none fails", (len(parts), len(parts[1][0]), parts[1][1]), (2, 1, []))
        return
    cells_of_positions(plan, failed, *parts[1])
    bars_of_positions(failed, *parts[2])
    equal("the heading of bars", parts[2][0][0][0], f"{HEADINGS[2]}in each stretch of {STRETCH} positions")
    ends = [[axis(texts, "middle", 1)(pixel) for pixel in (100, 1000)] for texts, _ in parts[1:]]
    check(f"both charts have one axis of positions: {ends}", ends[0] == ends[1])
