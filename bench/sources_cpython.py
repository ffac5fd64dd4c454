"""A source, its rows and the bytes of its rows in CPython, by `csv`: the yardstick of bench/sources.

    sources_cpython.py JOB FILE MORE

It does the job of crates/source_bench and prints the same line. `source` is no more than `csv.reader` gives: a list of
records, with no test of their lengths. `cells` reads each field by the cell rule, one row after the other; `write` hands
all rows to `csv.writer`, which prints None as nothing and all else by `str`.
"""
import csv
import io
import re
import sys

ROWS, BYTES = 7, 97
MASK = 2**64 - 1
LEAST, MOST = -(2**127), 2**127 - 1
NUMERAL = re.compile("0|-?[1-9][0-9]*", re.ASCII).fullmatch
WORDS = {"": None, "True": True, "False": False}


def value_of(field):
    """The value of a field, by the cell rule."""
    if field in WORDS:
        return WORDS[field]
    if NUMERAL(field):
        number = int(field)
        if LEAST <= number <= MOST:
            return number
    return field


def source(text):
    """The names of the columns and the records behind them."""
    reader = csv.reader(io.StringIO(text, newline=""))
    return next(reader), list(reader)


def cells(records):
    """How many cells all rows have, each row made for itself and let go."""
    count = 0
    for record in records:
        count += len([value_of(field) for field in record])
    return count


def written(names, rows):
    """The header and the lines of all rows."""
    output = io.StringIO(newline="")
    writer = csv.writer(output, lineterminator="\n")
    writer.writerow(names)
    writer.writerows(rows)
    return output.getvalue()


def sum_of(items):
    """A sum which hangs on the order."""
    total = 0
    for item in items:
        total = total * 31 + item & MASK
    return total


def weight(value):
    if isinstance(value, bool):
        return 2 if value else 3
    if isinstance(value, int):
        return value if 0 <= value <= MASK else 1
    return 4 if value is None else len(value)


def main(job, name, more):
    with open(name, encoding="utf-8", newline="") as file:
        text = file.read()
    names, records = source(text)
    if job == "source":
        for _ in range(more):
            # What was made before goes first, so that the collector does not go over it again.
            records = None
            names, records = source(text)
        count = len(records)
        items = (len(field.encode()) for record in records[::ROWS] for field in record)
    elif job == "cells":
        for _ in range(1 + more):
            count = cells(records)
        items = (weight(value_of(field)) for record in records[::ROWS] for field in record)
    else:
        rows = [[value_of(field) for field in record] for record in records]
        for _ in range(1 + more):
            output = written(names, rows)
        output = output.encode()
        count, items = len(output), output[::BYTES]
    print(job, count, sum_of(items))


main(sys.argv[1], sys.argv[2], int(sys.argv[3]))
