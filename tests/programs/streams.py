"""Packets into frames and back: beside the second implementation, through files and pipes, and streams that are cut."""
import json
import os
import stat
import subprocess

from common import (COMMAND, EIGHT, FEW, FRAME, HEADER, MASK, NULL, PACKET, REFERENCE, SETTINGS, SLOT, START, WORKED, check,
                    counts, equal, frames_of, got, put, refused, run, samples, well)


def coded(plan, packets, headers=None):
    """Codes packets, and compares the frames with the second implementation's; the frames, and the last line."""
    put("plan", plan)
    put("packets", packets)
    words, more = [], []
    if headers is not None:
        put("headers", headers)
        words, more = ["--headers", "headers"], ["headers"]
    line = well("code", "code", *SETTINGS, *words, "packets", "-o", "frames")
    subprocess.run([REFERENCE, "stream", "plan", MASK, START, "packets", "others", *more], check=True)
    equal("the frames are the second implementation's", got("frames"), got("others"))
    return got("frames"), line


def there_and_back(plan, data_slots, in_frame, packets):
    count = len(packets) // PACKET
    frames, line = coded(plan, packets)
    number = -(-count // in_frame)
    nulls = number * in_frame - count
    equal("code counts", line, f"frames {number} packets {count} null {nulls}\n")
    equal("whole frames", len(frames), FRAME * number)
    lines = well("monitor", "monitor", *SETTINGS, "frames", "-o", "back").splitlines()
    equal("the packets come back, null packets behind them", got("back"), packets + NULL * nulls)
    equal("a line for each frame and one for all", len(lines), number + 1)
    frame = {"accepted": data_slots, "dummy": 120 - data_slots, "parity": 0, "BCH": 0, "other_stuff": 0,
             "planned": in_frame, "written": in_frame, "lost": 0}
    for k, text in enumerate(lines[:-1]):
        wanted = {"frame": k + 1, **frame, "null": nulls if k == number - 1 else 0}
        equal("a frame's line", counts(text), wanted)
    equal("the line of all", counts(lines[-1]), {"frames": number, **{name: number * value for name, value in frame.items()},
                                                 "null": nulls})


def with_headers():
    headers = samples(22)[:2 * HEADER * 94]
    packets = samples(2147)
    frames, _ = coded(WORKED, packets, headers)
    check("headers are in the frames", frames != frames_of(WORKED, packets))
    well("monitor with headers", "monitor", *SETTINGS, "frames", "-o", "back", "--headers", "out")
    equal("the headers come back", got("out"), headers)
    put("damaged", frames[:2 * SLOT - 1] + bytes([frames[2 * SLOT - 1] ^ 1]) + frames[2 * SLOT:])
    well("monitor of a damaged slot", "monitor", *SETTINGS, "damaged", "-o", "back", "--headers", "out", status=1)
    equal("the headers of accepted slots alone", got("out"), headers[:HEADER] + headers[2 * HEADER:])


def wrong_headers():
    put("packets", samples(40))
    for what, octets, line in [("too few headers", bytes(HEADER * 94 - 1), "ends before the header of the last data slot"),
                               ("too many headers", bytes(HEADER * 94 + 1), "goes on after the header of the last data slot")]:
        put("bad", octets)
        refused(what, ["code", *SETTINGS, "--headers", "bad", "packets", "-o", "out"], f"^s3frame code: bad: {line}$")


def pipes():
    """`-` or nothing is standard input or output, and the report goes to standard error then."""
    packets = samples(2147, 4)
    put("plan", WORKED)
    put("packets", packets)
    status, frames, told = run("code", *SETTINGS, given=packets)
    equal("code in a pipe", (status, told), (0, "frames 2 packets 2147 null 2145\n"))
    equal("code with -", run("code", *SETTINGS, "-", "-o", "-", given=packets), (0, frames, told))
    equal("code of a file", run("code", *SETTINGS, "packets"), (0, frames, told))
    status, back, told = run("monitor", *SETTINGS, given=frames)
    equal("monitor in a pipe: status", status, 0)
    equal("monitor in a pipe: packets", back, packets + NULL * 2145)
    equal("monitor in a pipe: report", (told.count("\n"), told.splitlines()[-1][:9]), (3, "frames 2 "))
    with subprocess.Popen([COMMAND, "code", *SETTINGS, "packets"], stdout=subprocess.PIPE, stderr=subprocess.DEVNULL) as code:
        both = subprocess.run([COMMAND, "monitor", *SETTINGS], stdin=code.stdout, capture_output=True)
    equal("code into monitor", (both.returncode, both.stdout), (0, back))
    put("frames", frames)
    status, document, told = run("monitor", *SETTINGS, "frames", "-o", "back", "--json", "-")
    equal("JSON on standard output, the report on standard error",
          (status, json.loads(document)["total"]["frames"], told.count("\n")), (0, 2, 3))
    equal("packets into a device", run("monitor", *SETTINGS, "frames", "-o", "/dev/null")[0], 0)
    check("a device stays one", stat.S_ISCHR(os.stat("/dev/null").st_mode))


def cut_packets():
    packets = samples(2150)
    whole = frames_of(WORKED, packets)
    for what, octets, left, wanted in [("a cut packet", packets + NULL[:100], 100, whole),
                                       ("a cut packet behind a whole frame", packets[:2146 * PACKET + 7], 7, whole[:FRAME])]:
        put("cut", octets)
        well(what, "code", *SETTINGS, "cut", "-o", "out", status=1,
             told=f"s3frame code: cut: ends inside a packet: {left} octets left over\n")
        equal(f"{what}: what came before is kept", got("out"), wanted)
    put("cut", packets[:187])
    refused("part of a packet", ["code", *SETTINGS, "cut", "-o", "out"],
            "^s3frame code: cut: has no whole packet: it ends after 187 octets$")
    refused("no packets", ["code", *SETTINGS, "-o", "out"], "^s3frame code: standard input: has no packets$")
    for number, at in ((2000, 376000), (2149, 404012)):
        put("cut", packets[:at] + b"\0" + packets[at + 1:])
        refused("a packet without sync", ["code", *SETTINGS, "cut", "-o", "out"],
                f"^s3frame code: cut: refused 7 sync: packet {number}, counted from 0, at octet {at}, does not begin 0x47$")


def cut_frames():
    packets = samples(2 * 2146)
    frames = frames_of(WORKED, packets)
    for left in (1, SLOT, FRAME - 1):
        put("cut", frames[:FRAME + left])
        lines = well("a cut frame", "monitor", *SETTINGS, "cut", "-o", "out", "--json", "out.json", status=1,
                     told=f"s3frame monitor: cut: ends inside a frame: {left} octets left over\n")
        equal("a cut frame: what came before is kept", got("out"), packets[:2146 * PACKET])
        equal("a cut frame: its lines", (lines.count("\n"), counts(lines.splitlines()[-1])["frames"]), (2, 1))
        equal("a cut frame in JSON", json.loads(got("out.json"))["left_over"], left)
    put("cut", frames[:SLOT])
    outputs = ("out", "out.json", "out.svg")
    words = ["-o", "out", "--json", "out.json", "--svg", "out.svg"]
    refused("part of a frame", ["monitor", *SETTINGS, "cut", *words],
            "^s3frame monitor: cut: has no whole frame: it ends after 5610 octets$", outputs=outputs)
    refused("no frames", ["monitor", *SETTINGS, *words], "^s3frame monitor: standard input: has no frames$", outputs=outputs)


def test():
    there_and_back(WORKED, 94, 2146, samples(5000))
    there_and_back(EIGHT, 82, 1772, samples(1772, 2))
    there_and_back(FEW, 24, 240, samples(1, 3))
    with_headers()
    wrong_headers()
    pipes()
    cut_packets()
    cut_frames()
