"""One text method in CPython over the lines of a file: the yardstick of bench/texts.

    texts_cpython.py METHOD FILE ROUNDS

It does the job of crates/text_bench and prints the same line. Where a method of the product answers nothing, since the
text has letters past U+00FF, both sides add the length of the text.
"""
import sys


def pairs(cells):
    """Each cell behind the one before it, and the first behind itself."""
    return zip(cells[:1] + cells, cells)


def none(cells):
    return 0


def len_(cells):
    return sum(map(len, cells))


def char_at(cells):
    return sum([ord(cell[5]) for cell in cells if len(cell) > 5])


def slice_(cells):
    total = 0
    for cell in cells:
        start = len(cell) // 4
        total += len(cell[start : start + 16])
    return total


def equal(cells):
    return sum([a == b for a, b in pairs(cells)])


def less(cells):
    return sum([a < b for a, b in pairs(cells)])


def find(cells):
    return sum([cell.find(",") + 1 for cell in cells])


def rfind(cells):
    return sum([cell.rfind(",") + 1 for cell in cells])


def count(cells):
    return sum([cell.count(",") for cell in cells])


def replace(cells):
    return sum([len(cell.replace(",", ";;")) for cell in cells])


def split_on(cells):
    return sum([len(cell.split(",")) for cell in cells])


def split_blank(cells):
    return sum([len(cell.split()) for cell in cells])


def strip(cells):
    return sum([len(cell.strip()) for cell in cells])


def strip_of(cells):
    return sum([len(cell.strip(" ,")) for cell in cells])


def lower(cells):
    return sum([len(cell.lower()) for cell in cells])


def upper(cells):
    return sum([len(cell.upper()) for cell in cells])


def is_digit(cells):
    return sum([cell.isdigit() for cell in cells])


def concat(cells):
    return sum([len(a + b) for a, b in pairs(cells)])


def repeat(cells):
    return sum([len(cell * 3) for cell in cells])


def join(cells):
    parts = ["a", "bc", "", "def", "g"]
    return sum([len(cell.join(parts)) for cell in cells])


def zfill(cells):
    return sum([len(cell.zfill(100)) for cell in cells])


METHODS = {
    "none": none,
    "len": len_,
    "char_at": char_at,
    "slice": slice_,
    "equal": equal,
    "less": less,
    "find": find,
    "rfind": rfind,
    "count": count,
    "replace": replace,
    "split_on": split_on,
    "split_blank": split_blank,
    "strip": strip,
    "strip_of": strip_of,
    "lower": lower,
    "upper": upper,
    "is_digit": is_digit,
    "concat": concat,
    "repeat": repeat,
    "join": join,
    "zfill": zfill,
}


def main():
    word, name, rounds = sys.argv[1:]
    with open(name, encoding="utf-8", newline="") as file:
        cells = file.read().split("\n")
    method = METHODS[word]
    total = 0
    for _ in range(int(rounds)):
        total += method(cells)
    print(word, total % 2**64)


main()
