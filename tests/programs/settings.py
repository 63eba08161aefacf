"""`s3frame settings`, and settings of a card for code and monitor: beside blocks that are made here, from document 02; wrong
blocks, cards and words; runs at once; and runs that fail or are cut off while they replace a card.
"""
import fcntl
import json
import os
import random
import resource
import shutil
import signal
import stat
import subprocess
import time

from common import (COMMAND, EIGHT, FEW, MASK, SETTINGS, START, WORKED, check, equal, got, limit, put, refused, run, samples,
                    under, well)
from plans import random_plan

BLOCK, MOST = 512, 64
REGISTERS = (int(MASK), int(START), 0x4001, 0x7FFF)
OTHERS = (*REGISTERS[:3], 1)
NAMES = ("mask", "start", "tmcc-mask", "tmcc-start")
WORDS = {1: "plan", 6: "register", 13: "value", 14: "order", 15: "total", 17: "block"}
KEPT = ["--settings", "card", "--block", "1"]
NOBODY = 65534


def summed(octets):
    """A block with its sum behind it."""
    return octets + (sum(octets) % 65536).to_bytes(2, "big")


def octets_of(plan):
    return bytes(map(int, plan.split()))


def block(groups, registers=REGISTERS, mark=b"S3PL", edition=1, count=None):
    """The block of groups, given as octets."""
    head = mark + bytes([edition, len(groups) // 3 if count is None else count]) + groups.ljust(24, b"\0")
    return summed((head + b"".join(number.to_bytes(4, "big") for number in registers)).ljust(BLOCK - 2, b"\0"))


def options(registers=REGISTERS):
    """The words of registers, as `show` writes them."""
    return [word for name, number in zip(NAMES, registers) for word in (f"--{name}", hex(number))]


def set_words(card, number, plan="plan", registers=REGISTERS):
    return ["settings", "set", card, str(number), "--plan", plan, *options(registers)]


def line(number, plan, registers=REGISTERS):
    """The line of an accepted block."""
    numbers = " ".join(f"{name} {number:#x}" for name, number in zip(NAMES, registers))
    return f"block {number} {numbers} plan {', '.join(plan.splitlines())}\n"


def random_registers(numbers):
    return tuple(value for width in (25, 15)
                 for value in (numbers.randrange(1 << width - 1, 1 << width), numbers.randrange(1, 1 << width)))


def set_and_show():
    """Settings into a card, each over what stood there; what is shown of one sets the same block."""
    numbers = random.Random(4)
    octets = numbers.randbytes(5 * BLOCK)
    put("card", octets)
    put("other", bytes(BLOCK))
    for turn, plan in enumerate([WORKED, EIGHT, FEW] + [random_plan(numbers) for _ in range(20)]):
        number, registers = turn % 5, random_registers(numbers)
        put("plan", plan)
        told = well("set", *set_words("card", number, registers=registers))
        equal("set tells the block", told, line(number, plan, registers))
        octets = octets[:BLOCK * number] + block(octets_of(plan), registers) + octets[BLOCK * (number + 1):]
        equal("the block, and the others as they were", got("card"), octets)
        shown = well("show", "settings", "show", "card", str(number))
        equal("show", shown, " ".join(options(registers)) + "\n" + plan)
        equal("show with a plan's file", well("show", "settings", "show", "card", str(number), "--plan", "back"),
              shown[:-len(plan)])
        well("set what was shown", "settings", "set", "other", "0", "--plan", "back", *shown.splitlines()[0].split())
        equal("what was shown sets the same block", got("other"), block(octets_of(plan), registers))


def listed():
    card = block(octets_of(WORKED)) + bytes(BLOCK) + block(octets_of(FEW)) + block(b"\1\1\x78", mark=b"S3pl")
    put("card", card)
    told = (line(0, WORKED) + "block 1 empty\n" + line(2, FEW) + "block 3 refused 17 block\n"
            + "blocks 4 accepted 2 empty 1 refused 1\n")
    equal("a list", well("a list", "settings", "list", "card", status=1), told)
    equal("a card on standard input", run("settings", "list", "-", given=card), (1, told.encode(), ""))
    equal("a block of standard input", run("settings", "show", "-", "2", given=card)[:2],
          (0, f"{' '.join(options())}\n{FEW}".encode()))
    equal("a plan on standard output", run("settings", "show", "card", "0", "--plan", "-"),
          (0, WORKED.encode(), f"{' '.join(options())}\n"))
    for blocks in (0, 1, MOST):
        put("card", bytes(BLOCK * blocks))
        lines = "".join(f"block {number} empty\n" for number in range(blocks))
        equal(f"a new card of {blocks}", well("a new card", "settings", "list", "card"),
              f"{lines}blocks {blocks} accepted 0 empty {blocks} refused 0\n")
    put("plan", WORKED)
    equal("the last block of all", well("set", *set_words("card", 63)), line(63, WORKED))
    equal("its octets", got("card"), bytes(BLOCK * 63) + block(octets_of(WORKED)))


def of_frames():
    """Code and monitor with a block are as with its plan and register in words."""
    for plan, more, given in ((WORKED, [], samples(2150)), (FEW, ["--tlv"], (b"\x7f\1\5\xdc" + bytes(1500)) * 40)):
        put("plan", plan)
        put("card", bytes(BLOCK) + block(octets_of(plan)))
        put("packets", given)
        outputs = ["frames", "back", "json", "svg"] + ["frames.begins"] * len(more)
        made = []
        for setting in (SETTINGS, KEPT):
            told = well("code", "code", *more, *setting, "packets", "-o", "frames")
            told += well("monitor", "monitor", *more, *setting, "frames", "-o", "back", "--json", "json", "--svg", "svg")
            made.append([told, *map(got, outputs)])
            for name in outputs:
                os.remove(name)
        check(f"frames of a setting that is kept, as of one that is said {more}", made[0] == made[1])
        equal("the packets come back", made[1][2][:len(given)], given)
        document = json.loads(made[1][3])
        equal("the document has the setting", (document["mask"], document["start"], len(document["plan"])),
              (*REGISTERS[:2], len(plan.splitlines())))
    put("card", bytes(BLOCK) + block(octets_of(WORKED)))
    for job in ("code", "monitor"):
        put("in", b"")
        refused(f"two groups: {job}", [job, "--tlv", *KEPT, "in", "-o", "out", "--begins", "in"],
                f"^s3frame {job}: card: block 1: has 2 groups, but TLV packets fill the data slots of one group$")


def refused_blocks():
    """Each rule that a block can break, and the first of several."""
    good = octets_of(WORKED)
    whole = block(good)
    slots, tmcc = REGISTERS[:2], REGISTERS[2:]
    for what, octets, number in [
        ("a wrong mark", block(good, mark=b"S3PM"), 17), ("edition 0", block(good, edition=0), 17),
        ("edition 2", block(good, edition=2), 17), ("a wrong sum", whole[:-1] + bytes([whole[-1] ^ 1]), 17),
        ("a sum low octet first", whole[:-2] + whole[:-3:-1], 17),
        ("a filler", summed(whole[:46] + b"\1" + whole[47:-2]), 17), ("the last filler", summed(whole[:-3] + b"\1"), 17),
        ("an unused group", block(good + b"\0\0\1", count=2), 17), ("ones", b"\xff" * BLOCK, 17),
        ("no groups", block(b""), 1), ("nine groups", block(octets_of(EIGHT), count=9), 1),
        ("a rate of 12", block(b"\4\x0c\x78"), 13), ("groups that rise", block(octets_of("2 3 5\n4 7 115\n")), 14),
        ("115 slots", block(octets_of("4 7 115\n")), 15), ("a mask of 24 bits", block(good, (1 << 23, 1, *tmcc)), 6),
        ("a start of 0", block(good, (slots[0], 0, *tmcc)), 6), ("a TMCC mask of 16 bits", block(good, (*slots, 1 << 15, 1)), 6),
        ("a TMCC start of 16 bits", block(good, (*slots, tmcc[0], 1 << 15)), 6),
        ("a plan and a start", block(b"\4\x0c\x78", (slots[0], 0, *tmcc)), 13),
        ("a mark and a plan", block(b"\4\x0c\x78", mark=b"s3pl"), 17),
    ]:
        put("card", whole + octets)
        refusal = f"refused {number} {WORDS[number]}"
        equal(f"{what}: listed", well(what, "settings", "list", "card", status=1),
              line(0, WORKED) + f"block 1 {refusal}\nblocks 2 accepted 1 empty 0 refused 1\n")
        refused(f"{what}: shown", ["settings", "show", "card", "1", "--plan", "out"],
                f"^s3frame settings show: card: block 1: {refusal}: ")
        for job in ("code", "monitor"):
            refused(f"{what}: {job}", [job, *KEPT, "card", "-o", "out"], f"^s3frame {job}: card: block 1: {refusal}: ")
        well(f"{what}: replaced", *set_words("card", 1))
        equal(f"{what}: replaced", got("card"), whole * 2)


def wrong_numbers():
    for blocks, number, why in [(0, 0, "the card has no blocks"), (1, 1, "the card has 1 block, number 0"),
                                (3, 3, "the card has 3 blocks, 0 to 2"), (MOST, 4294967295, "the card has 64 blocks, 0 to 63"),
                                (2, 1, "it is empty: all its octets are zeros")]:
        card = bytes(BLOCK * blocks)
        put("card", card)
        fault = f"card: block {number}: refused 17 block: {why}$"
        refused(f"show {number} of {blocks}", ["settings", "show", "card", str(number)], f"^s3frame settings show: {fault}")
        words = ["code", "--settings", "card", "--block", str(number), "card", "-o", "out"]
        refused(f"code with {number} of {blocks}", words, f"^s3frame code: {fault}")
        if number >= blocks:
            refused(f"set {number} of {blocks}", set_words("card", number), f"^s3frame settings set: {fault}")
        equal("the card is as it was", got("card"), card)


def wrong_cards():
    jobs = (["settings", "list", "card"], ["settings", "show", "card", "0"], set_words("card", 0),
            ["code", "--settings", "card", "--block", "0", "plan", "-o", "out"])
    for length in (1, BLOCK - 1, BLOCK + 1, BLOCK * MOST + 1, BLOCK * (MOST + 1), 10**9):
        with open("card", "wb") as card:
            card.truncate(length)
        for words in jobs:
            refused(f"a card of {length} octets", words,
                    f": card: refused 4 length: a card is 0 to 64 blocks of 512 octets, and this has {length} octets$")
    os.remove("card")
    for words in jobs:
        refused("a missing card", words, ": card: No such file")
    os.mkdir("card")
    for words in jobs:
        refused("a card that is a folder", words, ": card: Is a directory")
    os.rmdir("card")
    refused("a stream without end", ["settings", "list", "/dev/zero"],
            "^s3frame settings list: /dev/zero: refused 4 length: .* has more than 32768 octets$")
    refused("a pipe of 700 octets", ["settings", "list", "-"],
            "^s3frame settings list: standard input: refused 4 length: .* has 700 octets$", given=bytes(700))


def wrong_words():
    put("card", bytes(2 * BLOCK))
    either = "settings: name either --plan, --mask and --start, or --settings and --block$"
    for job in ("code", "monitor"):
        for words in ([], KEPT[:2], KEPT[2:], [*SETTINGS, *KEPT], [*SETTINGS, *KEPT[2:]], [*KEPT, "--mask", MASK], SETTINGS[:4]):
            refused(f"{job} with {words}", [job, *words, "card", "-o", "out"], f"^s3frame {job}: {either}")
        refused(f"{job} with a wrong number", [job, *KEPT[:3], "one", "card"], "^s3frame: .*no number")
    good = set_words("card", 0)
    for at in range(4, len(good), 2):
        refused(f"set without {good[at]}", good[:at] + good[at + 2:], f"^s3frame: (.|\n)*{good[at]} ")
    for what, registers, why in [("mask", (1, *REGISTERS[1:]), "mask 0x1 and start 0xbadc0d: refused 6 register: "),
                                 ("TMCC start", (*REGISTERS[:3], 0), "tmcc-mask 0x4001 and tmcc-start 0x0: refused 6 register: ")]:
        refused(f"set with a wrong {what}", set_words("card", 0, registers=registers), f"^s3frame settings set: {why}")
    put("wrong", "4 7 115\n")
    for words, why in [(set_words("card", 0, "wrong"), "wrong: refused 15 total: "),
                       (set_words("card", 0, "none"), "none: No such file"),
                       (set_words("-", 0), "standard input: cannot be replaced: name a file$"),
                       (set_words("/dev/null", 0), "/dev/null: is a device or a pipe, which cannot be replaced$"),
                       (set_words("card", 0, "./card"), "./card: refused 1 plan: "),
                       (set_words("plan", 0), "plan: is the same file as plan, and would be written over it$")]:
        refused(f"{words[:6]}", words, f"^s3frame settings set: {why}")
    refused("no job", ["settings"], "Usage: s3frame settings")
    refused("an unknown job", ["settings", "move", "card"], "^s3frame: .*move")
    equal("the card is as it was", got("card"), bytes(2 * BLOCK))
    put("card", block(octets_of(WORKED)))
    refused("a plan over a card with settings", ["settings", "show", "card", "0", "--plan", "card"],
            "^s3frame settings show: card: is the same file as card, and would be written over it$")
    refused("frames over their card", ["code", "--settings", "card", "--block", "0", "plan", "-o", "card"],
            "^s3frame code: card: is the same file as card, and would be written over it$")


def links_and_permissions():
    """A card that is replaced keeps its permissions, and a link to it stays one."""
    put("card", bytes(BLOCK))
    os.symlink("card", "link")
    for mode in (0o600, 0o660, 0o666):
        os.chmod("card", mode)
        before = os.stat("card").st_ino
        well("set through a link", *set_words("link", 0))
        equal("permissions", stat.S_IMODE(os.stat("card").st_mode), mode)
        check("the card is another file, and the link stays", os.stat("card").st_ino != before and os.path.islink("link"))
        equal("its octets", got("card"), block(octets_of(WORKED)))
    os.remove("link")


def someone(groups=()):
    """A run by someone who is not root, of these groups too."""
    return {"user": NOBODY, "group": NOBODY, "extra_groups": groups} if os.geteuid() == 0 else {}


def not_permitted():
    """Permissions of the card and of its folder, for someone to whom they apply: not for root."""
    shutil.copy(COMMAND, "s3frame")
    if os.geteuid() == 0:
        os.chown(".", NOBODY, NOBODY)
        os.chown("card", NOBODY, NOBODY)
    for what, of_folder, of_card in (("a card that is protected", 0o755, 0o444), ("a folder that is protected", 0o555, 0o644)):
        os.chmod("card", of_card)
        os.chmod(".", of_folder)
        before = got("card"), sorted(os.listdir("."))
        words = ["./s3frame", *set_words("card", 0, registers=OTHERS)]
        result = subprocess.run(words, capture_output=True, text=True, **someone())
        os.chmod(".", 0o755)
        equal(f"{what}: status and line", (result.returncode, result.stderr[:46]),
              (2, "s3frame settings set: card: Permission denied "))
        check(f"{what}: nothing has changed", (got("card"), sorted(os.listdir("."))) == before)
    os.remove("s3frame")


def owners():
    """Root keeps the owner of a card that is replaced, someone else its group where he is in it. Only root can try this."""
    if os.geteuid() != 0:
        return
    shutil.copy(COMMAND, "s3frame")
    os.chown(".", NOBODY, NOBODY)
    for owner, group, who, kept in ((NOBODY, 12345, {}, (NOBODY, 12345)), (0, 12345, someone([12345]), (NOBODY, 12345)),
                                    (0, 0, someone(), (NOBODY, NOBODY))):
        os.chown("card", owner, group)
        os.chmod("card", 0o666)
        subprocess.run(["./s3frame", *set_words("card", 0)], stdout=subprocess.DEVNULL, check=True, **who)
        left = os.stat("card")
        equal(f"owner of a card of {owner} and {group}", (left.st_uid, left.st_gid, stat.S_IMODE(left.st_mode)), (*kept, 0o666))
    os.remove("s3frame")


def failing():
    """A file that may not grow to the card's length, as on a full disk."""
    card = block(octets_of(WORKED)) * MOST
    put("card", card)
    before = sorted(os.listdir("."))
    status, out, told = run(*set_words("card", 1, registers=OTHERS), **limit(resource.RLIMIT_FSIZE, 10000))
    equal("a card that cannot be written", (status, out, told[:42]), (2, b"", "s3frame settings set: card: File too large"))
    check("the old card stays, and nothing else", got("card") == card and sorted(os.listdir(".")) == before)


def at_once():
    """Runs that each replace another block of one card, all at once: none undoes another's work."""
    put("card", bytes(BLOCK * 24))
    runs = [subprocess.Popen([COMMAND, *set_words("card", number)], stdout=subprocess.DEVNULL) for number in range(24)]
    equal("runs at once", [setting.wait(60) for setting in runs], [0] * 24)
    equal("runs at once: every block is replaced", got("card"), block(octets_of(WORKED)) * 24)


def has_open(pid, path):
    """Whether a process has a file open."""
    for number in os.listdir(f"/proc/{pid}/fd"):
        try:
            if os.readlink(f"/proc/{pid}/fd/{number}") == os.path.abspath(path):
                return True
        except FileNotFoundError:  # closed meanwhile
            pass
    return False


def replaced_meanwhile():
    """A run that waits for another goes on with the card that the other leaves."""
    put("card", bytes(2 * BLOCK))
    other = block(octets_of(FEW)) + bytes(BLOCK)
    put("new", other)
    with open("card", "rb") as held:
        fcntl.flock(held, fcntl.LOCK_EX)
        with subprocess.Popen([COMMAND, *set_words("card", 1)], stdout=subprocess.DEVNULL) as setting:
            end = time.monotonic() + 60
            while not has_open(setting.pid, "card") and time.monotonic() < end:
                time.sleep(0.01)
            check("the run has opened the card, and has not replaced it", got("card") == bytes(2 * BLOCK))
            os.rename("new", "card")
            fcntl.flock(held, fcntl.LOCK_UN)
            equal("a run that waited", setting.wait(60), 0)
    equal("it replaced a block of the new card", got("card"), other[:BLOCK] + block(octets_of(WORKED)))


def waiting(number):
    """A run that ends by a signal while it waits for its plan."""
    os.mkfifo("fifo")
    card = got("card")
    before = sorted(os.listdir("."))
    with subprocess.Popen([COMMAND, *set_words("card", 1, "fifo")], **under(number, signal.SIG_DFL)) as setting:
        with open("fifo", "wb") as plan:  # open once the run has opened it
            plan.write(b"4 7 115\n")
            plan.flush()
            setting.send_signal(number)
            equal("the run ends by the signal", setting.wait(60), -number)
    check("the old card stays, and nothing else", got("card") == card and sorted(os.listdir(".")) == before)
    os.remove("fifo")


def cut_off(call, number):
    """A run that gets a signal in a call of the system, between a whole new file and the card's replacement."""
    put("cut.c", f"int raise(int), pause(void);\nint {call}(void) {{ raise({int(number)}); for (;;) pause(); }}\n")
    subprocess.run(["cc", "-shared", "-fPIC", "cut.c", "-o", "cut.so"], check=True)
    card = got("card")
    before = sorted(os.listdir("."))
    more = {"env": {**os.environ, "LD_PRELOAD": os.path.abspath("cut.so")}, "timeout": 60, **under(number, signal.SIG_DFL)}
    status = run(*set_words("card", 1, registers=OTHERS), **more)[0]
    equal(f"cut off in {call}: the run ends by the signal", status, -number)
    equal(f"cut off in {call}: the old card stays", got("card"), card)
    left = [name for name in sorted(os.listdir(".")) if name not in before]
    # What is killed cannot clear up.
    equal(f"cut off in {call}: what is left", len(left), int(number == signal.SIGKILL))
    for folder in left:
        equal("the other file was whole", got(f"{folder}/card"),
              card[:BLOCK] + block(octets_of(WORKED), OTHERS) + card[2 * BLOCK:])
        shutil.rmtree(folder)
    well("the next run", *set_words("card", 1))
    equal("the next run replaces the block", got("card"), card)


def test():
    set_and_show()
    listed()
    of_frames()
    put("plan", WORKED)
    refused_blocks()
    wrong_numbers()
    wrong_cards()
    wrong_words()
    links_and_permissions()
    not_permitted()
    owners()
    at_once()
    replaced_meanwhile()
    failing()
    for number in (signal.SIGTERM, signal.SIGINT, signal.SIGKILL):
        waiting(number)
    for call, number in (("fsync", signal.SIGTERM), ("fsync", signal.SIGKILL), ("rename", signal.SIGKILL)):
        cut_off(call, number)
