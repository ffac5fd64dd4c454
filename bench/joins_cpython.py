"""A join and the first of equal rows in CPython, by a dict: the yardstick of bench/joins.

    joins_cpython.py JOB STRIDE ROUNDS FILE..

It does the job of crates/join_bench on the same files and prints the same line. Its rows are tuples, and it keeps no
account of where a row comes from, as the product does.
"""
import csv
import re
import sys

FACTOR, OTHER, LIMIT = 1_000_003, -1, 1 << 127
INTEGER = re.compile("0|-?[1-9][0-9]*")
WORDS = {"": None, "True": True, "False": False}


def cell(field):
    if field in WORDS:
        return WORDS[field]
    if INTEGER.fullmatch(field) and -LIMIT <= int(field) < LIMIT:
        return int(field)
    return field


def rows_of(name):
    with open(name, encoding="utf-8", newline="") as file:
        records = csv.reader(file)
        next(records)
        return [tuple(map(cell, record)) for record in records]


def join(left, right):
    """The pairs with equal first cells, by left row and then by right row."""
    places = {}
    for row in right:
        places.setdefault(row[0], []).append(row)
    pairs = []
    for row in left:
        for other in places.get(row[0], ()):
            pairs.append(row + other[1:])
    return pairs


def unique(rows):
    """The first of equal rows."""
    return list(dict.fromkeys(rows))


def parts(value):
    """What a cell gives to the sum."""
    if isinstance(value, str):
        return value.encode()
    return [OTHER if value is None else int(value)]


def sum_of(rows):
    total = 0
    for row in rows:
        for value in row:
            for part in parts(value):
                total = (total * FACTOR + part + LIMIT) % (2 * LIMIT) - LIMIT
    return total


JOBS = {"join": join, "unique": unique}


def main(job, stride, rounds, *names):
    files = [rows_of(name) for name in names]
    answer = files[0]
    for _ in range(int(rounds)):
        answer = None
        answer = JOBS[job](*files)
    print(job, len(answer), sum_of(answer[:: int(stride)]))


main(*sys.argv[1:])
