"""What the tests of the command share: counted checks, sample plans and packets, files, and runs."""
import json
import os
import re
import resource
import signal
import subprocess

ROOT = os.path.dirname(os.path.dirname(os.path.dirname(os.path.abspath(__file__))))
COMMAND = f"{ROOT}/target/command/release/s3frame"
REFERENCE = f"{ROOT}/target/reference/release/reference"
PLAN_LIST = f"{ROOT}/crates/plan_list/out/plan_list"
SLOT, FRAME, PACKET, HEADER = 5610, 673200, 188, 22
NULL = bytes([0x47, 0x1F, 0xFF, 0x10]) + b"\xff" * 184
MASK, START = "19088743", "12246029"
SETTINGS = ["--plan", "plan", "--mask", MASK, "--start", START]
WORKED = "4 7 115\n2 3 5\n"  # 92 slots of 23 packets and 2 of 15
EIGHT = "5 11 20\n5 7 10\n4 7 30\n3 5 20\n3 1 15\n2 3 10\n1 9 10\n1 1 5\n"
FEW = "1 1 120\n"  # 24 slots of 10 packets
ROWS = dict(enumerate((41, 49, 61, 73, 81, 89, 93, 97, 101, 105, 109), 1))  # of 374 bits before the parity, by rate
passed = failed = 0


def check(what, holds):
    global passed, failed
    if holds:
        passed += 1
    else:
        failed += 1
        print(f"programs: FAILED: {what}")


def equal(what, found, wanted):
    """A check that shows what it found; long octets are not worth showing."""
    check(what if isinstance(found, bytes) else f"{what}: {found!r}, not {wanted!r}", found == wanted)


def samples(count, seed=1):
    return subprocess.run([f"{ROOT}/tools/sample-packets", str(count), str(seed)], capture_output=True, check=True).stdout


def put(name, octets):
    with open(name, "wb") as file:
        file.write(octets if isinstance(octets, bytes) else octets.encode())


def got(name):
    with open(name, "rb") as file:
        return file.read()


def limit(kind, octets):
    """For a run that may have no more octets of something, as memory."""
    return {"preexec_fn": lambda: resource.setrlimit(kind, (octets, octets))}


def under(number, action):
    """A run under some action for a signal, whatever the tests run under: one that is begun in the background ignores SIGINT.
    Nothing acts on SIGKILL but the system."""
    return {} if number == signal.SIGKILL else {"preexec_fn": lambda: signal.signal(number, action)}


def run(*words, given=b"", **more):
    """Runs the command: its status, the octets on standard output, the text on standard error."""
    result = subprocess.run([COMMAND, *words], input=given, capture_output=True, **more)
    return result.returncode, result.stdout, result.stderr.decode()


def well(what, *words, status=0, told="", **more):
    """A run with this status that says just this on standard error; the text on standard output."""
    found, out, error = run(*words, **more)
    equal(f"{what}: status", found, status)
    equal(f"{what}: standard error", error, told)
    return out.decode()


def refused(what, words, line, given=b"", outputs=("out",), told=0):
    """A run that ends with status 2 and a line that fits, and has told of so many frames before: outputs that were there
    before stay, and nothing else is left.
    """
    for name in outputs:
        put(name, "earlier")
    before = sorted(os.listdir("."))
    status, out, error = run(*words, given=given)
    equal(f"{what}: status", status, 2)
    check(f"{what}: a line that says so, not: {error}", re.search(line, error, re.MULTILINE) is not None)
    equal(f"{what}: standard output", [line[:6] for line in out.decode().splitlines()], ["frame "] * told)
    equal(f"{what}: names that are left", sorted(os.listdir(".")), before)
    check(f"{what}: an earlier output stays", all(got(name) == b"earlier" for name in outputs))


def frames_of(plan, packets):
    """The frames of packets, by the command."""
    put("plan", plan)
    status, frames, _ = run("code", *SETTINGS, given=packets)
    equal("code of packets: status", status, 0)
    return frames


def rates(plan):
    """The rate of each data slot of a plan."""
    found, first = {}, 1
    for modulation, rate, slots in (map(int, line.split(" ")) for line in plan.splitlines()):
        found.update((slot, rate) for slot in range(first, first + slots * modulation // 5))
        first += slots
    return found


def parity_bits(rate):
    return 374 * (120 - ROWS[rate])


def turn(frames, frame, slot, bit):
    """Turns a bit of a coded slot."""
    frames[FRAME * (frame - 1) + SLOT * (slot - 1) + bit // 8] ^= 128 >> bit % 8


def turn_parity(frames, frame, slot, rate, position):
    """Turns a parity bit of a coded slot."""
    turn(frames, frame, slot, 374 * ROWS[rate] + position)


def put_stuff(frames, frame, slot, rate, stuff):
    """Puts other stuff bits, as a number, in place of the six ones of a coded slot, and makes its parity anew. They are the
    first bits of an octet, at the end of the last row; one that is turned as sent is turned below the dispersal too.
    """
    first = FRAME * (frame - 1) + SLOT * (slot - 1)
    octets = frames[first:first + SLOT]
    octets[374 * ROWS[rate] // 8] ^= (63 ^ stuff) << 2
    made = subprocess.run([REFERENCE, "parity", str(rate)], input=octets, capture_output=True, check=True)
    frames[first:first + SLOT] = made.stdout


def counts(line):
    """A report line's names and numbers."""
    words = line.split(" ")
    return dict(zip(words[::2], map(int, words[1::2])))


def joined(slots):
    """Slots as a line has them: those that follow each other as a run."""
    runs = []
    for slot in slots:
        if runs and runs[-1][-1] + 1 == slot:
            runs[-1][1:] = [slot]
        else:
            runs.append([slot])
    return ",".join("-".join(map(str, run)) for run in runs)


def json_lines(name):
    """The lines of a report, made of its document."""
    document = json.loads(got(name))
    told = []
    for frame in document["frames"]:
        slots, stuff = frame.pop("refused"), frame.pop("stuff")
        told += [f"frame {frame['frame']} slot {slot['slot']} refused {slot['number']} {slot['word']} lost {slot['lost']}"
                 + ("" if slot["position"] is None else f" position {slot['position']}") for slot in slots]
        told += [f"frame {frame['frame']} stuff {bits['stuff']} slots {joined(bits['slots'])}" for bits in stuff]
        told.append(" ".join(f"{name} {value}" for name, value in frame.items()))
    return told + [" ".join(f"{name} {value}" for name, value in document["total"].items())]
