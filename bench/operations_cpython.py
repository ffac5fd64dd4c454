"""One operation on values in CPython: the yardstick of bench/operations.

    operations_cpython.py OPERATION FILE ROUNDS

It does the job of crates/op_bench on the same file and prints the same line.
"""
import sys

LAST_BITS = 2**32
AT = -3
ITEMS = 8

# Every operation is timed in this one loop.
ROUND = """
def sum_of(values):
    total = 0
    a = values[0]
    for b in values[1:]:
        total += {}
        a = b
    return total
"""

# Each word with what is summed, and what the lines are read as.
OPERATIONS = {
    "numbers": ("abs(a) % LAST_BITS", int),
    "number_pairs": ("True", int),
    "add": ("abs(a + b) % LAST_BITS", int),
    "multiply": ("abs(a * b) % LAST_BITS", int),
    "floor_div": ("abs(a // b) % LAST_BITS", int),
    "less": ("a < b", int),
    "equal": ("a == b", int),
    "texts": ("len(a)", str),
    "text_pairs": ("True", str),
    "join": ("len(a + b)", str),
    "in": ("b in a", str),
    "char_at": ("len(a[AT])", str),
    "lists": ("abs(AT) % LAST_BITS", list),
    "item_at": ("abs(a[AT]) % LAST_BITS", list),
    "split": ('len(a.split(" "))', str),
    "replace": ('len(a.replace(" ", "--"))', str),
    "find": ('abs(a.find("no"))', str),
    "numerals": ("len(a[0])", lambda line: [line]),
    "int": ("abs(int(a[0])) % LAST_BITS", lambda line: [line]),
    "singles": ("abs(a[0]) % LAST_BITS", lambda line: [int(line)]),
    "str": ("len(str(a[0]))", lambda line: [int(line)]),
}


def read(name, kind):
    with open(name, encoding="utf-8", newline="") as file:
        lines = file.read().split("\n")
    if kind is list:
        return [list(range(number, number + ITEMS)) for number in range(len(lines))]
    return [kind(line) for line in lines]


def main(word, name, rounds):
    summed, kind = OPERATIONS[word]
    made = {"LAST_BITS": LAST_BITS, "AT": AT}
    exec(ROUND.format(summed), made)
    values = read(name, kind)
    print(word, sum(made["sum_of"](values) for _ in range(int(rounds))) % 2**64)


main(*sys.argv[1:])
