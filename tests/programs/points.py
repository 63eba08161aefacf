"""`s3frame points` beside an account of signal points that is written here, from documents 01, 02 and 002: all modulations, in
slots and in frames, through files and pipes; inputs that are cut; every error; and the example that comes with the project.
"""
import math
import os
import random
import resource
import shutil
import struct
import subprocess

from common import (COMMAND, EIGHT, FEW, FRAME, ROOT, SETTINGS, SLOT, WORKED, check, equal, frames_of, got, limit, put, refused,
                    run, samples, well)

NAMES = {1: "π/2-shift BPSK", 2: "QPSK", 3: "8PSK", 4: "16APSK", 5: "32APSK"}
SIGN, INFINITY = 1 << 31, 0x7F800000
BOTH = ["--in-phase", "i", "--quadrature", "q"]
RING = [(1, 0), (.75, .75), (0, 1), (-.75, .75), (-1, 0), (-.75, -.75), (0, -1), (.75, -.75)]


def labels(modulation, rate, slot):
    """The labels of a slot: bits in order, or written down the columns and read by rows, by some rates from right to left."""
    bits = f"{int.from_bytes(slot, 'big'):0{8 * SLOT}b}"
    count = len(bits) // modulation
    if modulation <= 2:
        return [int(bits[modulation * k:modulation * (k + 1)], 2) for k in range(count)]
    columns = [bits[count * k:count * (k + 1)] for k in range(modulation)]
    if rate <= 2 or (modulation, rate) == (5, 7):
        columns.reverse()
    return [int("".join(row), 2) for row in zip(*columns)]


def points(modulation, rate, slot, lists, symbol=1):
    """The points of a slot, as octets, of lists of floats that are given by their bits: the sign of one that is turned is the
    first bit turned round, and no other bit changes.
    """
    made = []
    for number, label in enumerate(labels(modulation, rate, slot), symbol):
        i, q = lists[0][label], lists[1][label]
        made += (q ^ SIGN, i) if modulation == 1 and number % 2 == 0 else (i, q)
    return struct.pack(f"<{len(made)}I", *made)


def float_of(bits):
    return struct.unpack("<f", struct.pack("<I", bits))[0]


def bits_of(number):
    return struct.unpack("<I", struct.pack("<f", number))[0]


def random_lists(numbers, modulation):
    """Finite floats of all kinds, by their bits, for each label: zeros, the smallest, the largest, and any."""
    def one():
        bits = numbers.choice([0, 1, 0x7FFFFF, 0x800000, INFINITY - 1, *(numbers.randrange(INFINITY) for _ in range(5))])
        return bits | numbers.getrandbits(1) << 31

    return [[one() for _ in range(2 ** modulation)] for _ in range(2)]


def put_lists(lists):
    """The files of two lists, each number by digits that lead back to it."""
    for name, numbers in zip("iq", lists):
        put(name, "".join(f"{float_of(bits)!r}\n" for bits in numbers))


def put_points(places):
    put_lists([[bits_of(place[k]) for place in places] for k in (0, 1)])


def alone(modulation, rate, *more):
    return ["points", "--modulation", str(modulation), "--rate", str(rate), *BOTH, *more]


def slots_alone():
    """Slots end to end, of all modulations, at rates that are read either way."""
    numbers = random.Random(1)
    for modulation in NAMES:
        for rate in (1, 2, 3, 7, 11):
            lists, slots = random_lists(numbers, modulation), [numbers.randbytes(SLOT) for _ in range(3)]
            put_lists(lists)
            put("slots", b"".join(slots))
            line = well("slots", *alone(modulation, rate, "slots", "-o", "out"))
            what = f"{NAMES[modulation]} at rate {rate}"
            equal(f"{what}: the line", line, f"slots 3 points {3 * 8 * SLOT // modulation}\n")
            equal(f"{what}: the points", got("out"), b"".join(points(modulation, rate, slot, lists) for slot in slots))


def first_symbols():
    """The number of the first symbol counts for BPSK, where each slot begins as the first does, and for no other."""
    numbers = random.Random(2)
    slots = [numbers.randbytes(SLOT) for _ in range(2)]
    put("slots", b"".join(slots))
    for modulation, symbol in [*((1, symbol) for symbol in (1, 2, 3, 44880, 2 ** 32 - 2, 2 ** 32 - 1)), (2, 0), (5, 2)]:
        lists = random_lists(numbers, modulation)
        put_lists(lists)
        well("a first symbol", *alone(modulation, 5, "--symbol", str(symbol), "slots", "-o", "out"))
        equal(f"{NAMES[modulation]} from symbol {symbol} on", got("out"),
              b"".join(points(modulation, 5, slot, lists, symbol) for slot in slots))
    lists = [[0x3F19999A, 0x80000000], [0x3F4CCCCD, 0]]
    put_lists(lists)
    put("slots", b"\x40" + bytes(SLOT - 1))
    well("by hand", *alone(1, 5, "slots", "-o", "out"))
    equal("label 0 as symbol 1, label 1 as symbol 2, label 0 as symbols 3 and 4, by hand", got("out")[:32],
          struct.pack("<8f", .6, .8, -0.0, -0.0, .6, .8, -.8, .6))


def data_slots(plan):
    """For each group of a plan its modulation, its rate, and its data slots, from 0."""
    groups, first = [], 0
    for modulation, rate, count in (map(int, line.split(" ")) for line in plan.splitlines()):
        groups.append((modulation, rate, range(first, first + count * modulation // 5)))
        first += count
    return groups


def in_frames(plan, frames, named):
    """The points of each group of frames, named by its number or, where it is alone, not at all."""
    put("plan", plan)
    put("frames", frames)
    numbers, count = random.Random(3), len(frames) // FRAME
    for group, (modulation, rate, slots) in enumerate(data_slots(plan), 1):
        lists = random_lists(numbers, modulation)
        put_lists(lists)
        words = ["points", "--plan", "plan", *(["--group", str(group)] if named else []), *BOTH, "frames", "-o", "out"]
        line = well("frames", *words)
        equal(f"group {group} of {plan!r}: the line", line,
              f"frames {count} slots {count * len(slots)} points {count * len(slots) * 8 * SLOT // modulation}\n")
        firsts = [FRAME * frame + SLOT * slot for frame in range(count) for slot in slots]
        equal(f"group {group} of {plan!r}: the points", got("out"),
              b"".join(points(modulation, rate, frames[first:first + SLOT], lists) for first in firsts))


def pipes():
    """`-` or nothing is standard input or output, and the report goes to standard error then."""
    numbers = random.Random(4)
    slots, lists = numbers.randbytes(2 * SLOT), random_lists(numbers, 3)
    made = b"".join(points(3, 6, slots[k * SLOT:(k + 1) * SLOT], lists) for k in (0, 1))
    put_lists(lists)
    put("slots", slots)
    told = "slots 2 points 29920\n"
    equal("points in a pipe", run(*alone(3, 6), given=slots), (0, made, told))
    equal("points with -", run(*alone(3, 6, "-", "-o", "-"), given=slots), (0, made, told))
    equal("points of a file", run(*alone(3, 6, "slots")), (0, made, told))
    status, picture, error = run(*alone(3, 6, "slots", "-o", "out", "--svg", "-"))
    equal("a picture on standard output", (status, picture[:4], error, got("out")), (0, b"<svg", told, made))
    words = ["points", "--modulation", "3", "--rate", "6", "--in-phase", "-", "--quadrature", "q", "slots"]
    equal("coordinates on standard input", run(*words, given=got("i")), (0, made, told))
    put("plan", "3 6 120\n")
    put("packets", samples(1))
    equal("points into a device", run(*alone(3, 6, "slots", "-o", "/dev/null"))[:2], (0, told.encode()))
    with subprocess.Popen([COMMAND, "code", *SETTINGS, "packets"], stdout=subprocess.PIPE, stderr=subprocess.DEVNULL) as code:
        both = subprocess.run([COMMAND, "points", "--plan", "plan", *BOTH], stdin=code.stdout, capture_output=True)
    frames = frames_of("3 6 120\n", got("packets"))
    wanted = b"".join(points(3, 6, frames[first:first + SLOT], lists) for first in range(0, 72 * SLOT, SLOT))
    equal("code into points", (both.returncode, both.stdout), (0, wanted))


def at_once():
    """The points of a slot are there before the next slot is."""
    slot = random.Random(10).randbytes(SLOT)
    lists = random_lists(random.Random(10), 5)
    put_lists(lists)
    with subprocess.Popen([COMMAND, *alone(5, 7)], stdin=subprocess.PIPE, stdout=subprocess.PIPE, stderr=subprocess.PIPE) as making:
        for _ in range(2):
            making.stdin.write(slot)
            making.stdin.flush()
            equal("points at once", making.stdout.read(8 * 8976), points(5, 7, slot, lists))
        making.stdin.close()
        equal("nothing behind them", (making.stdout.read(), making.stderr.read()), (b"", b"slots 2 points 17952\n"))


def cut():
    """What comes before a slot or a frame that is cut is kept."""
    octets = random.Random(5).randbytes(2 * FRAME)
    put_points(RING)
    put("plan", "3 6 120\n")
    for unit, length, words in (("slot", SLOT, alone(3, 6)), ("frame", FRAME, ["points", "--plan", "plan", *BOTH])):
        whole = run(*words, given=octets[:length])
        for left in (1, length - 1):
            put("cut", octets[:length + left])
            line = well(f"a cut {unit}", *words, "cut", "-o", "out", status=1,
                        told=f"s3frame points: cut: ends inside a {unit}: {left} octets left over\n")
            equal(f"a cut {unit}: what came before is kept", (0, got("out"), line), whole)
        outputs = {"outputs": ("out", "out.svg")}
        put("cut", octets[:length - 1])
        refused(f"part of a {unit}", [*words, "cut", "-o", "out", "--svg", "out.svg"],
                f"^s3frame points: cut: has no whole {unit}: it ends after {length - 1} octets$", **outputs)
        refused(f"no {unit}", [*words, "-o", "out", "--svg", "out.svg"],
                f"^s3frame points: standard input: has no {unit}s$", **outputs)


def texts():
    """What does not count in a text, and the float that is nearest to a number."""
    put("slots", b"\x1b" + bytes(SLOT - 1))  # the labels 0, 1, 2, 3
    put("i", b"# in-phase \xe9\n\n1\r\n \t-0 \n#2\n  # 3\n\n1e-46\n1.0000000596046447753906250001")
    put("q", "+.5\n5.\n1E+2\n0.1\n")
    well("texts", *alone(2, 5, "slots", "-o", "out"))
    equal("the points of texts", got("out")[:32],
          struct.pack("<8I", 0x3F800000, 0x3F000000, 0x80000000, 0x40A00000, 0, 0x42C80000, 0x3F800001, 0x3DCCCCCD))
    for what, text, why in [("words", "1\n#\none\n1\n1\n", "line 3: no number"), ("two numbers", "1\n1 1\n1\n", "line 2: no number"),
                            ("other digits", "１\n1\n1\n1\n", "line 1: no number"), ("octets", b"1\n\xff\n", "line 2: no number"),
                            ("too many octets", "1\n" * 4 + "\n" * 65529, "the text has more than 65536 octets")]:
        put("wrong", text)
        for option, words in [("--in-phase", ["wrong", "--quadrature", "q"]), ("--quadrature", ["wrong", "--in-phase", "i"])]:
            refused(f"{what} in {option}", ["points", "--modulation", "2", "--rate", "5", option, *words, "slots", "-o", "out"],
                    f"^s3frame points: wrong: {why}$")
    put("i", "1\n" * 4 + "\n" * 65528)
    well("the longest text", *alone(2, 5, "slots", "-o", "out"))


def wrong_lengths():
    put("slots", bytes(SLOT))
    for modulation, name in NAMES.items():
        right, outputs = 2 ** modulation, {"outputs": ("out", "out.svg")}
        for counts, wrong, count in [((right - 1, right), "i", right - 1), ((right, right + 1), "q", right + 1), ((0, 0), "i", 0)]:
            for list_name, numbers in zip("iq", counts):
                put(list_name, "1\n" * numbers)
            refused(f"{count} coordinates of {name}", alone(modulation, 5, "slots", "-o", "out", "--svg", "out.svg"),
                    f"^s3frame points: {wrong}: refused 4 length: {name} has {right} labels, and this has {count} numbers$", **outputs)
    put_points([(1, 1), (-1, -1)])
    refused("symbol 0", alone(1, 5, "--symbol", "0x0", "slots", "-o", "out"),
            "^s3frame points: symbol 0x0: refused 4 length: π/2-shift BPSK counts symbols from 1$")
    put("plan", FEW)
    refused("symbol 0 in frames", ["points", "--plan", "plan", *BOTH, "--symbol", "0", "slots", "-o", "out"],
            "^s3frame points: symbol 0: refused 4 length: ")


def unusable():
    """Infinite coordinates and such as are no numbers: refused where a slot uses them, by the first label that does, and only
    there.
    """
    finite, three = bytes(SLOT), b"\0\0\x03" + bytes(SLOT - 3)  # QPSK labels 0; a label 3 among them
    for text, why in (("inf", "infinite"), ("-inf", "infinite"), ("1e39", "infinite"), ("nan", "not a number")):
        for name, other in ("iq", "qi"):
            put(name, f"# a comment\n1\n1\n{text}\n\n{text}\n")
            put(other, "1\n" * 4)
            put("slots", finite * 2)
            equal(f"{text} that is not used", run(*alone(2, 5, "slots"))[:2], (0, struct.pack("<2f", 1, 1) * 2 * 22440))
            put("slots", finite * 2 + three)
            refused(f"{text} that is used", alone(2, 5, "slots", "-o", "out"),
                    rf"^s3frame points: {name}: refused 18 coordinate: line 6, of label 3 \(11\), is {why}, and slot 3 uses it$")
    put("i", "1\n1\ninf\nnan\n")
    put("q", "1\nnan\n1\n1\n")
    put("slots", b"\0\x27" + finite)  # labels 0 0 0 0 0 2 1 3
    refused("three that are used", alone(2, 5, "slots", "-o", "out"),
            r"^s3frame points: i: refused 18 coordinate: line 3, of label 2 \(10\), is infinite, and slot 1 uses it$")
    put("plan", WORKED)
    words = ["points", "--plan", "plan", "--group", "2", *BOTH, "frames", "-o", "out"]
    ones = b"\xff" * SLOT
    frame = ones * 115 + finite * 2 + ones * 3
    put("frames", frame * 2)
    equal("frames that use them in another group and in dummies", run(*words)[0], 0)
    put("frames", frame + ones * 115 + finite + b"\x10" + frame[116 * SLOT + 1:])
    refused("frames that use them", words,
            r"^s3frame points: q: refused 18 coordinate: line 2, of label 1 \(01\), is not a number, and slot 117 of frame 2 uses it$")


def wrong_places():
    """Modulations and rates that there are not, refused plans, and groups that a plan has not."""
    put_points(RING)
    put("slots", bytes(SLOT))
    for modulation, rate, wrong in [(0, 6, "modulation 0: refused 1 plan: modulations are numbered 1 to 5"),
                                    (6, 6, "modulation 6: "), (257, 0, "modulation 257: "), (3, 0, "rate 0: refused 1 plan: "),
                                    (3, 12, "rate 12: refused 1 plan: rates are numbered 1 to 11")]:
        refused(f"modulation {modulation} and rate {rate}", alone(modulation, rate, "slots", "-o", "out"), f"^s3frame points: {wrong}")
    for plan, group, wrong in [
        ("4 7 115\n", None, "refused 15 total: "), ("2 3 5\n4 7 115\n", "1", "refused 14 order: "), ("", None, "refused 1 plan: "),
        (WORKED, None, "has 2 groups, but points belong to one: name it with --group$"),
        (WORKED, "0", "has no group 0: groups are counted from 1, and the last is 2$"), (WORKED, "3", "has no group 3: "),
        (FEW, "2", "has no group 2: groups are counted from 1, and the last is 1$"), (EIGHT, "4294967295", "has no group 4294967295: "),
    ]:
        put("plan", plan)
        refused(f"group {group} of {plan!r}", ["points", "--plan", "plan", *(["--group", group] if group else []), *BOTH, "slots",
                                               "-o", "out"], f"^s3frame points: plan: {wrong}")


def many_slots():
    """More slots than the run may have octets as memory."""
    put_points([(k, -k) for k in range(32)])
    put("slots", random.Random(9).randbytes(SLOT) * 6000)
    memory = limit(resource.RLIMIT_AS, 6000 * SLOT)
    line = well("many slots", *alone(5, 7, "slots", "-o", "/dev/null", "--svg", "out.svg"), **memory)
    equal("many slots: the line", line, "slots 6000 points 53856000\n")


def example():
    """The help's example, word for word, on the files that come with the project."""
    page = well("help of points", "points", "--help")
    for part in (*BOTH[::2], "--symbol", "--modulation", "--rate", "--plan", "--group", "--svg", "5,610", "673,200", "32-bit floats",
                 "low octet", "label 0 first", "18 coordinate"):
        check(f"help of points: {part}", part in page)
    put("sent.ts", samples(10))
    shutil.copytree(f"{ROOT}/examples", "examples")
    path = {**os.environ, "PATH": f"{os.path.dirname(COMMAND)}:{os.environ['PATH']}"}
    done = subprocess.run(["sh", "-eu", "-c", page[page.index("EXAMPLE\n") + 8:]], capture_output=True, text=True, env=path)
    equal("the example of the help", (done.returncode, done.stdout.splitlines()[-1:], done.stderr),
          (0, ["frames 1 slots 72 points 1077120"], ""))
    lists = []
    for name in ("in-phase", "quadrature"):
        lines = got(f"examples/points/8psk-{name}.txt").decode().splitlines()
        check(f"{name}: it says that it is an example", lines[0].startswith("# An example, not the Ministry's arrangement"))
        lists.append([bits_of(float(line)) for line in lines if not line.startswith("#")])
    ring = [[bits_of(turn(math.pi / 4 * label)) for label in range(8)] for turn in (math.cos, math.sin)]
    near = max(abs(float_of(a) - float_of(b)) for ours, theirs in zip(lists, ring) for a, b in zip(ours, theirs))
    check(f"the example is a ring, label k at 45 k degrees: {near}", near < 1e-7 and [len(each) for each in lists] == [8, 8])
    frame = got("frames")
    equal("the points of the example", got("points.cf32"),
          b"".join(points(3, 6, frame[first:first + SLOT], lists) for first in range(0, 72 * SLOT, SLOT)))
    equal("the example's picture", got("points.svg")[:4], b"<svg")


def test():
    slots_alone()
    first_symbols()
    in_frames(EIGHT, random.Random(6).randbytes(FRAME), True)
    in_frames(FEW, frames_of(FEW, samples(300)), False)
    in_frames(WORKED, frames_of(WORKED, samples(100)), True)
    pipes()
    at_once()
    cut()
    texts()
    wrong_lengths()
    unusable()
    wrong_places()
    many_slots()
    example()
