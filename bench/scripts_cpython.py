"""The scripts of bench/scripts in CPython, with a dict: the yardstick.

    scripts_cpython.py JOB OUTPUT FILE..

It gives the same output and the same report. A cell that is only carried along stays the field that it is, and only keys are
read as values.
"""
import csv
import sys

LOW, HIGH = -(2**127), 2**127 - 1
WORDS = {"": None, "True": True, "False": False}


def value(field):
    if field in WORDS:
        return WORDS[field]
    try:
        number = int(field)
    except ValueError:
        return field
    return number if LOW <= number <= HIGH and str(number) == field else field


def table_of(name):
    """The header and the records of a file."""
    with open(name, newline="", encoding="utf-8-sig") as file:
        records = csv.reader(file)
        return next(records), list(records)


def join(left, right, keep):
    """The columns of the left, and those of the right without its key."""
    places = {}
    for row in right[1]:
        places.setdefault(value(row[0]), []).append(row)
    rows = []
    for row in left[1]:
        found = places.get(value(row[0]), ())
        for other in found:
            rows.append(row + other[1:])
        if keep and not found:
            rows.append(row + [""] * (len(right[0]) - 1))
    return left[0] + right[0][1:], rows


def unique(table):
    firsts = {}
    for row in table[1]:
        firsts.setdefault(tuple(map(value, row)), row)
    return table[0], list(firsts.values())


JOBS = {
    "join": lambda left, right: join(left, right, False),
    "leftJoin": lambda left, right: join(left, right, True),
    "unique": unique,
}


def main(job, target, *names):
    header, rows = JOBS[job](*map(table_of, names))
    with open(target, "w", newline="") as out:
        writer = csv.writer(out, lineterminator="\n")
        writer.writerow(header)
        writer.writerows(rows)
    with open(target + ".exceptions.csv", "w", newline="") as report:
        report.write("operator,kind,class,row\n")
    print(f"rows {len(rows)} exceptions 0")


main(*sys.argv[1:])
