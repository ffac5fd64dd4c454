"""A function on rows in CPython: the yardstick of bench/functions.

    functions_cpython.py JOB SCRIPT FILE ROUNDS

It does the job of crates/function_bench on the same files and prints the same line. Its rows are dictionaries, and the
function is what CPython makes of the same text.
"""
import csv
import re
import sys

LAST_BITS = 2**32
LIMIT = 2**127
INTEGER = re.compile("0|-?[1-9][0-9]*")
WORDS = {"": None, "True": True, "False": False}

# Every function is timed in this one loop.
ROUND = """
def sum_of(function, rows, answer, raised):
    total = 0
    for row in rows:
        try:
            {call}
        except Exception as e:
            name = type(e).__name__
            raised[name] = raised.get(name, 0) + 1
        else:
            total += {worth}
    return total
"""
CALLS = {"each": "answer = function(row)", "first": "pass"}
# What is summed of an answer of each kind. A function gives answers of one kind.
WORTHS = {int: "abs(answer) % LAST_BITS", bool: "answer", str: "len(answer)", list: "len(answer)"}


class Rows:
    """What a script names `rows`: it keeps the lambda that its operator is given."""

    function = None

    def map(self, function):
        self.function = function


def function_of(name):
    """The function that a script ends with: a lambda that an operator is given, or a def."""
    rows = Rows()
    made = {"rows": rows}
    with open(name, encoding="utf-8") as file:
        exec(file.read(), made)
    return rows.function or list(made.values())[-1]


def cell(field):
    if field in WORDS:
        return WORDS[field]
    if INTEGER.fullmatch(field) and -LIMIT <= int(field) < LIMIT:
        return int(field)
    return field


def rows_of(name):
    with open(name, encoding="utf-8", newline="") as file:
        records = csv.reader(file)
        names = next(records)
        return [dict(zip(names, map(cell, record))) for record in records]


def main(job, script, name, rounds):
    function, rows = function_of(script), rows_of(name)
    answer = function(rows[0])
    made = {"LAST_BITS": LAST_BITS}
    exec(ROUND.format(call=CALLS[job], worth=WORTHS[type(answer)]), made)
    raised = {}
    total = sum(made["sum_of"](function, rows, answer, raised) for _ in range(int(rounds)))
    print(job, total % 2**64, *(f"{name}:{times}" for name, times in raised.items()))


main(*sys.argv[1:])
