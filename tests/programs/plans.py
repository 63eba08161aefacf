"""`s3frame plan` beside the proved program plan-list, and its picture."""
import random
import subprocess
import xml.etree.ElementTree as xml

from common import EIGHT, FEW, PLAN_LIST, WORKED, check, equal, got, put, refused, run, well

PACKETS = [10, 12, 15, 18, 20, 22, 23, 24, 25, 26, 27]
WORDS = {"1": "plan", "13": "value", "14": "order", "15": "total"}
SVG = "{http://www.w3.org/2000/svg}"


def random_plan(numbers):
    """A plan that keeps the rules."""
    kinds = [(modulation, rate) for modulation in range(1, 6) for rate in range(1, 12)]
    groups = sorted(numbers.sample(kinds, numbers.randint(1, 8)), reverse=True)
    cuts = sorted(numbers.sample(range(1, 24), len(groups) - 1))
    slots = [5 * (after - before) for before, after in zip([0] + cuts, cuts + [24])]
    return "".join(f"{modulation} {rate} {count}\n" for (modulation, rate), count in zip(groups, slots))


def damaged_text(numbers, text):
    """A text with an octet taken out, put in or changed."""
    at = numbers.randrange(len(text))
    return text[:at] + numbers.choice(["", *"0123459 \n\r-x"]) + text[at + numbers.randint(0, 1):]


def carried(listed):
    """How many packets the data runs of a list carry."""
    runs = [line.split(" ") for line in listed.splitlines()[1:-1]]
    return sum((int(last) - int(first) + 1) * PACKETS[int(rate) - 1] for first, last, _, rate, kind in runs if kind == "data")


def beside_plan_list(text):
    """Compares one text's answers; its number."""
    put("plan", text)
    listed = subprocess.run([PLAN_LIST], input=text.encode(), capture_output=True, check=True).stdout.decode()
    status, out, error = run("plan", "plan")
    if not listed.startswith("refused "):
        equal(f"the list of {text!r}", (status, out.decode(), error), (0, f"{listed}packets {carried(listed)}\n", ""))
        return "0"
    number = listed[len("refused "):-1]
    refusal = error.startswith(f"s3frame plan: plan: refused {number} {WORDS[number]}: ") and error.count("\n") == 1
    check(f"{text!r} is refused {number}: {error}", (status, out) == (2, b"") and refusal)
    return number


def lists():
    numbers = random.Random(1)
    for text, number in [
        (WORKED, "0"), (EIGHT, "0"), (FEW, "0"), ("", "1"), ("\n", "1"), (WORKED * 20, "1"), ("1 1 10\n" * 9, "1"),
        ("4 7 115\n2 3 5", "1"), ("4 7 115\n2 3 05\n", "1"), ("5 11 120\n\n", "1"), ("1 1 1000\n", "1"), ("0 0 0\n", "13"),
        ("4 7 116\n2 3 4\n", "13"), ("2 3 5\n4 7 115\n", "14"), ("4 7 115\n", "15"),
        # wrong in two ways, ..
        ("4 12 0115\n", "1"), ("2 3 4\n4 7 116\n", "13"), ("4 12 115\n", "13"), ("2 3 5\n4 7 110\n", "14"),
        # .. and numbers above an octet's
        ("5 11 375\n", "15"), ("5 11 376\n", "13"), ("5 11 999\n", "13"), ("256 1 120\n", "13"), ("1 261 120\n", "13"),
        ("1 1 60\n2 1 300\n", "14"),
    ]:
        equal(f"the number of {text!r}", beside_plan_list(text), number)
    good = [random_plan(numbers) for _ in range(60)]
    answers = [beside_plan_list(text) for text in good + [damaged_text(numbers, text) for text in good for _ in range(5)]]
    check(f"every answer was compared: {answers}", {"0", *WORDS} == set(answers) and answers.count("0") >= 60)
    equal("a plan on standard input", run("plan", "-", given=WORKED.encode())[1], run("plan", "plan_of_01")[1])


def wrong_lines():
    for text, line in [("4 7 115\n2 3  5\n", "1 plan: line 2: not three numbers"), ("4 7\n2 3 5\n", "1 plan: line 1: not three"),
                       ("4 7 115\n2 3 5", "1 plan: line 2: no line feed"), (WORKED * 20, "1 plan: .* more than 128 octets"),
                       ("", "1 plan: there are no lines"), ("1 1 10\n" * 9, "1 plan: there are more than 8 lines"),
                       ("5 1 60\n4 7 55\n2 12 5\n", r"13 value: .*unknown.* \(line 3\)$"),
                       ("5 1 60\n2 3 5\n4 7 55\n", r"14 order: .*do not fall.* \(lines 2 and 3\)$"),
                       ("4 7 115\n2 3 10\n", "15 total: .*do not add to 120$")]:
        put("wrong", text)
        refused(f"the plan {text[:20]!r}", ["plan", "wrong", "--svg", "out"], f"^s3frame plan: wrong: refused {line}")
    refused("a missing plan", ["plan", "missing", "--svg", "out"], "^s3frame plan: missing: No such file")
    refused("a plan that is a folder", ["plan", ".", "--svg", "out"], r"^s3frame plan: \.: Is a directory")
    refused("no plan", ["plan"], "^s3frame: .*required")


def picture():
    well("plan with a picture", "plan", "plan_of_01", "--svg", "out.svg")
    picture = xml.fromstring(got("out.svg"))
    cells = [cell.get("fill") for cell in picture.iter(f"{SVG}rect")]
    # The ground, a filled square for each data slot and a hollow one for each dummy, and a legend of both for both groups.
    hollow = cells.count("none")
    equal("cells of the plan's picture", (len(cells) - hollow, hollow), (1 + 94 + 2, 26 + 2))
    texts = [text.text.strip() for text in picture.iter(f"{SVG}text")]
    for wanted in ("slot", "1: 16APSK 7/9, data slots 1 to 92, 23 packets each", "2: dummy slots 118 to 120"):
        check(f"the plan's picture says {wanted!r}: {texts}", wanted in texts)
    status, out, error = run("plan", "plan_of_01", "--svg", "-")
    equal("a picture on standard output", (status, out, error.splitlines()[-1]), (0, got("out.svg"), "packets 2146"))


def test():
    put("plan_of_01", WORKED)
    lists()
    wrong_lines()
    picture()
