"""Wrong words, settings and files, outputs over inputs, terminals and signals: what is said, and that nothing is left."""
import os
import pty
import re
import resource
import signal
import stat
import subprocess

from common import (COMMAND, MASK, PACKET, SETTINGS, SLOT, START, WORKED, check, equal, frames_of, got, limit, put, refused, run,
                    samples, under, well)

POINTS = ["points", "--in-phase", "i", "--quadrature", "q"]
ALONE = [*POINTS, "--modulation", "2", "--rate", "3"]


def settings(job, given):
    """A wrong plan, mask or start; `given` is an input that the job would take."""
    def with_settings(plan, mask, start):
        return [job, "--plan", plan, "--mask", mask, "--start", start, given, "-o", "out"]

    for what, plan, why in [("a plan of 116 slots", "4 7 111\n2 3 5\n", "13 value: "), ("a plan of 115 slots", "4 7 115\n", "15 total: "),
                            ("groups that rise", "2 3 5\n4 7 115\n", "14 order: "), ("no plan", "", "1 plan: there are no lines"),
                            ("a long plan", WORKED * 20, "1 plan: the text has more than 128 octets")]:
        put("wrong", plan)
        refused(what, with_settings("wrong", MASK, START), f"^s3frame {job}: wrong: refused {why}")
    refused("a missing plan", with_settings("missing", MASK, START), f"^s3frame {job}: missing: No such file")
    refused("a plan that is a folder", with_settings(".", MASK, START), rf"^s3frame {job}: \.: Is a directory")
    for what, mask, start in [("a mask that is no number", "12a", START), ("a mask of 33 bits", "4294967296", START),
                              ("a start that is no number", MASK, "0x"), ("a start below 0", MASK, "+1")]:
        refused(what, with_settings("plan", mask, start), "^s3frame: .*no number of at most 32 bits")
    for what, mask, start in [("a mask without the top weight", "0x1", "5"), ("a mask too wide", "0x2000000", START),
                              ("a start of 0", MASK, "0"), ("a start too wide", MASK, "33554432")]:
        refused(what, with_settings("plan", mask, start), f"^s3frame {job}: mask {mask} and start {start}: refused 6 register: ")


def words_and_files(job, given):
    good = [job, *SETTINGS, given]
    refused("a missing input", [job, *SETTINGS, "missing", "-o", "out"], f"^s3frame {job}: missing: No such file")
    refused("an input that is a folder", [job, *SETTINGS, ".", "-o", "out"], rf"^s3frame {job}: \.: Is a directory")
    refused("a folder that is missing", [*good, "-o", "none/out"], f"^s3frame {job}: none/out: No such file")
    refused("an output that is a folder", [*good, "-o", "."], rf"^s3frame {job}: \.: Is a directory")
    refused("an unknown word", [*good, "-o", "out", "--unknown"], "^s3frame: .*--unknown")
    refused("too many words", [*good, "more", "-o", "out"], "^s3frame: .*more")
    refused("no mask", [job, "--plan", "plan", "--start", "1", given, "-o", "out"],
            f"^s3frame {job}: settings: name either --plan, --mask and --start, or --settings and --block$")
    refused("missing headers", [*good, "-o", "out", "--headers", "none/headers"], f"^s3frame {job}: none/headers: No such file")


def of_points():
    """Wrong words and missing files of points; what their files hold is tested elsewhere."""
    alone, framed = ["--modulation", "2", "--rate", "3"], ["--plan", "plan", "--group", "2"]
    for words in ([], alone[:2], alone[2:], framed[2:], alone + framed, alone + framed[:2], alone + framed[2:], alone[:2] + framed,
                  alone[2:] + framed[:2]):
        refused(f"points with {words}", [*POINTS, *words, "slots", "-o", "out"],
                "^s3frame points: slots: name either --modulation and --rate, or --plan and, of several groups, --group$")
    for option in ("--modulation", "--rate", "--group", "--symbol"):
        for word in ("two", "1.5", "4294967296"):
            refused(f"{option} {word}", [*POINTS, option, word, "slots", "-o", "out"], "^s3frame: .*no number of at most 32 bits")
    refused("no coordinates", ["points", *alone, "slots", "-o", "out"], "^s3frame: (.|\n)*--in-phase <FILE>\n *--quadrature <FILE>")
    refused("quadrature alone", ["points", *POINTS[3:], *alone, "slots", "-o", "out"], "^s3frame: (.|\n)*--in-phase <FILE>")
    for what, words, name, line in [
        ("a missing input", [*ALONE, "missing", "-o", "out"], "missing", "No such file"),
        ("a missing plan", [*POINTS, "--plan", "missing", "frames", "-o", "out"], "missing", "No such file"),
        ("missing coordinates", ["points", *alone, "--in-phase", "i", "--quadrature", "missing", "slots", "-o", "out"], "missing",
         "No such file"),
        ("coordinates that are a folder", ["points", *alone, "--in-phase", ".", "--quadrature", "q", "slots", "-o", "out"], r"\.",
         "Is a directory"),
        ("a folder that is missing", [*ALONE, "slots", "-o", "none/out"], "none/out", "No such file"),
        ("a picture in no folder", [*ALONE, "slots", "-o", "out", "--svg", "none/svg"], "none/svg", "No such file"),
    ]:
        refused(f"points: {what}", words, f"^s3frame points: {name}: {line}")


def over_files():
    """No output may be an input, by whatever name, or another output."""
    os.symlink("packets", "link")
    os.link("packets", "hard")
    code, monitor = ["code", *SETTINGS, "packets", "-o"], ["monitor", *SETTINGS, "frames", "-o"]
    for what, words, name, other in [
        ("frames over their packets", [*code, "packets"], "packets", "packets"),
        ("frames over their packets by a path", [*code, "./packets"], "./packets", "packets"),
        ("frames over their packets by a link", [*code, "link"], "link", "packets"),
        ("frames over their packets by a hard link", [*code, "hard"], "hard", "packets"),
        ("frames over the plan", [*code, "plan"], "plan", "plan"),
        ("frames over headers", [*code, "frames", "--headers", "frames"], "frames", "frames"),
        ("a picture over the plan", ["plan", "plan", "--svg", "plan"], "plan", "plan"),
        ("packets over their frames", [*monitor, "frames"], "frames", "frames"),
        ("two outputs that are there", [*monitor, "out", "--json", "./out"], "./out", "out"),
        ("two outputs that are not there", [*monitor, "new", "--svg", "./new"], "./new", "new"),
        ("points over their slots", [*ALONE, "slots", "-o", "slots"], "slots", "slots"),
        ("points over coordinates", [*ALONE, "slots", "-o", "./i"], "./i", "i"),
        ("points over the plan", [*POINTS, "--plan", "plan", "--group", "2", "frames", "-o", "plan"], "plan", "plan"),
        ("a picture over coordinates", [*ALONE, "slots", "-o", "out", "--svg", "q"], "q", "q"),
        ("a picture over points", [*ALONE, "slots", "-o", "out", "--svg", "./out"], "./out", "out"),
    ]:
        refused(what, words, f"^s3frame {words[0]}: {name}: is the same file as {other}, and would be written over it$")
    os.remove("link")
    os.remove("hard")


def over_streams():
    """The same for standard input and standard output, each of which is taken once."""
    refused("two outputs on standard output", ["monitor", *SETTINGS, "frames", "--json", "-"],
            "^s3frame monitor: standard output: cannot take two outputs")
    refused("points and a picture on standard output", [*ALONE, "slots", "--svg", "-"],
            "^s3frame points: standard output: cannot take two outputs")
    for words in (["compare", "-", "-"], ["points", *ALONE[3:], "--in-phase", "-", "-o", "out"]):
        refused("standard input twice", words, f"^s3frame {words[0]}: standard input: cannot be read twice")
    packets = got("packets")
    for name, words in (("standard output", []), ("packets", ["-o", "packets"])):
        with open("packets", "rb") as given, open("packets", "ab") as out:
            result = subprocess.run([COMMAND, "code", *SETTINGS, *words], stdin=given, stdout=out, stderr=subprocess.PIPE, text=True)
        check(f"frames over standard input, as {name}: {result.stderr}", result.returncode == 2
              and result.stderr.startswith(f"s3frame code: {name}: is the same file as standard input"))
    equal("the packets are as they were", got("packets"), packets)


def full_devices():
    """A device that takes nothing: status 2, for what is written and for the report."""
    for words in (["code", *SETTINGS, "packets", "-o", "/dev/full"], [*ALONE, "slots", "-o", "/dev/full"],
                  ["monitor", *SETTINGS, "frames", "-o", "out", "--json", "/dev/full"]):
        status, _, told = run(*words)
        check(f"a full device: {told}", status == 2 and f"s3frame {words[0]}: /dev/full: No space left" in told)
    with open("/dev/full", "wb") as full:
        result = subprocess.run([COMMAND, "plan", "plan"], stdout=full, stderr=subprocess.PIPE, text=True)
    check(f"a full standard output: {result.stderr}", result.returncode == 2 and "standard output: No space left" in result.stderr)


def names_and_permissions():
    """A finished file has the permissions of any new file; a link to an output stays a link."""
    before = os.umask(0o027)
    well("code under a umask", "code", *SETTINGS, "packets", "-o", "fresh")
    os.umask(before)
    equal("permissions", stat.S_IMODE(os.stat("fresh").st_mode), 0o640)
    os.symlink("fresh", "link")
    put("fresh", "earlier")
    well("code through a link", "code", *SETTINGS, "packets", "-o", "link")
    check("the link stays, and its file is made", os.path.islink("link") and got("fresh") == got("frames"))
    os.remove("link")
    os.remove("fresh")


def terminals():
    """Octets do not go to a terminal, or come from one."""
    ours, theirs = pty.openpty()
    for job, given in ((["code", *SETTINGS], "packets"), (["monitor", *SETTINGS], "frames"), (ALONE, "slots")):
        for words, streams, line in [
            ([given], {"stdout": theirs}, "standard output: is a terminal: name a file with -o"),
            ([], {"stdin": theirs, "stdout": subprocess.PIPE}, "standard input: is a terminal: name a file"),
        ]:
            result = subprocess.run([COMMAND, *job, *words], stderr=subprocess.PIPE, text=True, timeout=60, **streams)
            check(f"{job[0]} at a terminal: {result.stderr}",
                  result.returncode == 2 and result.stderr.startswith(f"s3frame {job[0]}: {line}"))
    os.close(theirs)
    os.close(ours)


def reading(number, action):
    """A monitor that has read one frame and waits for more, under some action for a signal."""
    words = [COMMAND, "monitor", *SETTINGS, "-o", "out", "--json", "out.json", "--svg", "out.svg"]
    monitor = subprocess.Popen(words, stdin=subprocess.PIPE, stdout=subprocess.PIPE, **under(number, action))
    monitor.stdin.write(got("frames"))
    monitor.stdin.flush()
    equal("the first frame is read", monitor.stdout.readline()[:17], b"frame 1 accepted ")
    return monitor


def interrupted(number):
    """A signal while the input is open: the run ends by it, and leaves only what was there before."""
    outputs = ["out", "out.json", "out.svg"]
    for name in outputs:
        put(name, "earlier")
    before = sorted(os.listdir("."))
    with reading(number, signal.SIG_DFL) as monitor:
        equal("three files are in the making", len(os.listdir(".")), len(before) + 3)
        monitor.send_signal(number)
        equal("the run ends by the signal", monitor.wait(60), -number)
    equal("an interrupted run leaves nothing", sorted(os.listdir(".")), before)
    check("earlier outputs stay", all(got(name) == b"earlier" for name in outputs))


def not_interrupted():
    """A signal that the caller ignores, as nohup does, ends nothing."""
    with reading(signal.SIGHUP, signal.SIG_IGN) as monitor:
        monitor.send_signal(signal.SIGHUP)
        monitor.stdin.close()
        equal("an ignored signal", monitor.wait(60), 0)
    equal("the packets are there", got("out")[:40 * PACKET], got("packets"))


def limited():
    """A file that grows past its limit is a failure as any other."""
    put("out", "earlier")
    before = sorted(os.listdir("."))
    status, _, told = run("code", *SETTINGS, "packets", "-o", "out", **limit(resource.RLIMIT_FSIZE, 10000))
    equal("a file too long", (status, told[:33]), (2, "s3frame code: out: File too large"))
    check("nothing is left of it", sorted(os.listdir(".")) == before and got("out") == b"earlier")


def closed_pipe():
    """A frame is longer than a pipe holds, so that its writer sees the other end close."""
    words = [COMMAND, "code", *SETTINGS, "packets"]
    with subprocess.Popen(words, stdout=subprocess.PIPE, stderr=subprocess.PIPE, text=True) as code:
        code.stdout.close()
        told = code.stderr.read()
    check(f"a pipe that closes: {told}", code.returncode == 2 and told.startswith("s3frame code: standard output: Broken pipe"))


def help_pages():
    version = well("the version", "--version")
    check(f"the version: {version}", re.fullmatch(r"s3frame \d+\.\d+\.\d+\n", version))
    for words in ([], ["plan"], ["code"], ["monitor"], ["compare"], ["points"], ["settings"],
                  ["settings", "list"], ["settings", "show"], ["settings", "set"]):
        page = well(f"help of {words}", *words, "--help")
        check(f"help of {words}: use, status and an example",
              all(part in page for part in ("Usage: s3frame", "EXIT STATUS", "EXAMPLE")))
    refused("no words", [], "Usage: s3frame")


def test():
    packets = samples(40)
    put("frames", frames_of(WORKED, packets))
    put("packets", packets)
    put("slots", got("frames")[-5 * SLOT:-3 * SLOT])
    for name in "iq":
        put(name, "1\n-1\n" * 2)
    for job, given in (("code", "packets"), ("monitor", "frames")):
        settings(job, given)
        words_and_files(job, given)
    of_points()
    over_files()
    over_streams()
    full_devices()
    names_and_permissions()
    terminals()
    for number in (signal.SIGTERM, signal.SIGINT, signal.SIGHUP):
        interrupted(number)
    not_interrupted()
    limited()
    closed_pipe()
    help_pages()
