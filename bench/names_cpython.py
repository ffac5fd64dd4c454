"""The local variables of a function by CPython's own compiler: the yardstick of bench/names.

    names_cpython.py FILE MORE

It reads the file's tree by `ast.parse`, compiles it once and MORE times more, and prints how many local variables its
first function has.
"""
import ast
import sys


def main():
    name, more = sys.argv[1], int(sys.argv[2])
    with open(name, encoding="utf-8", newline="") as file:
        tree = ast.parse(file.read())
    for _ in range(more + 1):
        code = compile(tree, name, "exec")
    print(code.co_consts[0].co_nlocals)


main()
