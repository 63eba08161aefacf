#!/usr/bin/env python3
"""Takes the eleven parity tables from their prints, compares the prints, and writes them where they are used.

Usage, at the root of a checkout:
    tools/parity_tables.py MAIN SECOND THIRD                compare the prints and say what was found
    tools/parity_tables.py MAIN SECOND THIRD --write        the same, then write the crate `published`'s data
    tools/parity_tables.py MAIN SECOND THIRD --reference    the same, then write the reference's tables

MAIN is document 002 as text (its appendix tables 1 to 11), SECOND document 001, which prints them again, THIRD
document 004, which prints the head of the table of rate 7. The crate's files are crates/published/specs/Printed.antt
and crates/published/src/data.rt, the reference's tests/reference/tables.txt. docs/TABLES.md tells what the comparison
found.
"""
import collections
import re
import sys

ROWS = [41, 49, 61, 73, 81, 89, 93, 97, 101, 105, 109]
RATES = ["1/3", "2/5", "1/2", "3/5", "2/3", "3/4", "7/9", "4/5", "5/6", "7/8", "9/10"]
TITLE = re.compile(r"^\s*付表\s*(\d+)\s*符号化率")


def numbers(line):
    """The numbers of a line that holds nothing else, or None."""
    plain = re.sub(r"</?u>", "", line).strip()
    return [int(word) for word in plain.split()] if re.fullmatch(r"[\d\s]+", plain) else None


def tables(path):
    """The rows of tables 1 to 11, each with its line number: a title begins or goes on with a table."""
    found, current = {}, None
    with open(path, encoding="utf8") as text:
        for at, line in enumerate(text, 1):
            title = TITLE.match(line)
            row = numbers(line)
            if title:
                current = int(title.group(1))
                found.setdefault(current, [])
            elif current and row:
                found[current].append((at, row))
            elif current and line.strip():
                current = None
    return [found[k + 1] for k in range(11)]


def underlined(path):
    """The rows that the third print underlines, its changes: the head of the table of rate 7."""
    with open(path, encoding="utf8") as text:
        rows = [(at, numbers(line)) for at, line in enumerate(text, 1) if line.startswith("<u>")]
    return [(at, row) for at, row in rows if row]


def repeated(rows):
    """The first and the last place of a run of rows that repeats the run just before it, or None."""
    plain = [row for _, row in rows]
    for length in range(len(plain) // 2, 0, -1):
        for start in range(len(plain) - 2 * length + 1):
            if plain[start : start + length] == plain[start + length : start + 2 * length]:
                return start + length, start + 2 * length
    return None


def settled(rate, rows):
    """The table of a rate: the rows printed, without a run that is printed twice."""
    again = repeated(rows)
    if again:
        first, last = again
        lines = f"lines {rows[first][0]} to {rows[last - 1][0]}"
        print(f"  rate {rate}: rows {first + 1} to {last} as printed ({lines}) repeat the {last - first} before them")
        rows = rows[:first] + rows[last:]
    return [row for _, row in rows]


def cycles(table, step, size):
    """How many pairs of addresses of two bits reach the same two positions, or two neighbouring positions of one bit."""
    seen, count = collections.Counter(), 0
    for row in table:
        for a in row:
            for b in row:
                if a != b:
                    seen[(a % step, b % step, (a - b) % size)] += 1
                    count += (a - b) % size == 1
    return count + sum(n - 1 for n in seen.values())


def examine(rate, table):
    """Fails unless the table has the form and its residues modulo q are even; says what else is odd in it."""
    count = ROWS[rate - 1]
    step = 120 - count
    size = 374 * step
    assert len(table) == count, f"rate {rate}: {len(table)} rows"
    for row in table:
        assert 1 <= len(row) <= 16 and len(set(row)) == len(row) and max(row) < size, f"rate {rate}: {row}"
    residues = collections.Counter(a % step for row in table for a in row)
    assert set(residues) == set(range(step)) and len(set(residues.values())) == 1, f"rate {rate}: residues"
    unsorted = [n + 1 for n, row in enumerate(table) if row != sorted(row)]
    total = sum(len(row) for row in table)
    print(
        f"  rate {rate} ({RATES[rate - 1]}): {count} rows, {total} addresses, each residue modulo {step} {total // step} times,"
        f" {cycles(table, step, size)} short cycles, {len(unsorted)} rows not in rising order"
    )


def specification(all_tables):
    lines = [
        "-- The tables of document 002, appendix tables 1 to 11: a list of addresses for each row, as printed.",
        "-- Written by tools/parity_tables.py; docs/TABLES.md tells how each was settled.",
        "use mathlib.Core.List.{List, [], _∷_}",
        "use Prim.Native.Nat.{ℕ}",
    ]
    for k, table in enumerate(all_tables, 1):
        lines += ["", f"-- appendix table {k}, rate {RATES[k - 1]}", f"unfoldable pub rate{k} : List (List ℕ)", f"rate{k} ="]
        lines += ["    (" + " ∷ ".join(map(str, row)) + " ∷ []) ∷" for row in table[:-1]]
        lines += ["    (" + " ∷ ".join(map(str, table[-1])) + " ∷ []) ∷ []"]
    return "\n".join(lines) + "\n"


def code(all_tables):
    flat = [[number for row in table for number in [len(row)] + row] for table in all_tables]
    starts = [sum(len(table) for table in flat[:k]) for k in range(12)]
    return (
        "// Written by tools/parity_tables.py; docs/TABLES.md tells how each table was settled.\n"
        + array("Where each table starts among all, and where the last ends.", "STARTS", "usize", starts)
        + "\n"
        + array("The eleven tables end to end, each row's count and then its addresses.", "TABLES", "u16", sum(flat, []))
    )


def reference(all_tables):
    """A title for each rate, then a line for each row."""
    lines = []
    for k, table in enumerate(all_tables, 1):
        lines += [f"rate {k} ({RATES[k - 1]})"] + [" ".join(map(str, row)) for row in table]
    return "\n".join(lines) + "\n"


def write(path, text):
    with open(path, "w", encoding="utf8") as out:
        out.write(text)


def array(comment, name, kind, values):
    lines = [f"// {comment}", f"pub const {name}: [{kind}; {len(values)}] = ["]
    return "\n".join(lines + [f"    {value}," for value in values] + ["];"]) + "\n"


def main(arguments):
    main_path, second_path, third_path = [word for word in arguments if not word.startswith("--")]
    first, second = tables(main_path), tables(second_path)
    print("The two whole prints, row by row:")
    for rate in range(1, 12):
        one, other = ([row for _, row in prints[rate - 1]] for prints in (first, second))
        differing = [n + 1 for n, pair in enumerate(zip(one, other)) if pair[0] != pair[1]]
        if differing or len(one) != len(other):
            sys.exit(f"  rate {rate}: the prints differ, rows {differing}, {len(one)} and {len(other)} rows")
    print("  no number differs")
    print("Rows printed twice:")
    all_tables = [settled(rate, first[rate - 1]) for rate in range(1, 12)]
    print("The third print of rate 7:")
    head = [row for _, row in underlined(third_path)]
    same = sum(a == b for a, b in zip(head, all_tables[6]))
    print(f"  {len(head)} rows, of which {same} are the first {same} of the table")
    print("The tables:")
    for rate, table in enumerate(all_tables, 1):
        examine(rate, table)
    if "--write" in arguments:
        write("crates/published/specs/Printed.antt", specification(all_tables))
        write("crates/published/src/data.rt", code(all_tables))
    if "--reference" in arguments:
        write("tests/reference/tables.txt", reference(all_tables))


main(sys.argv[1:])
