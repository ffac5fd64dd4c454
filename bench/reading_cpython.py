"""The statements of a script by CPython's own reader: the yardstick of bench/reading.

    reading_cpython.py FILE MORE

It reads the file once and MORE times more by `ast.parse`, and prints how many statements it has, or `none` where CPython
does not read it.
"""
import ast
import sys


def main():
    name, more = sys.argv[1], int(sys.argv[2])
    with open(name, encoding="utf-8", newline="") as file:
        text = file.read()
    try:
        for _ in range(more + 1):
            tree = ast.parse(text)
    except (SyntaxError, RecursionError, MemoryError):
        print("none")
    else:
        print(len(tree.body))


main()
