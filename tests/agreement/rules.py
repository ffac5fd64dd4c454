"""The rules of the language that are not Python's, around CPython's own operations.

`checked` rewrites the tree of a function so that each operation which has a rule in docs/LANGUAGE.md is a call of a function
below. That function does CPython's operation and looks at the rule alone: where the rule applies, it raises `SetAside` with
the class that the document names. Where none applies, a checked function does what the plain one does.
"""
import ast
import unicodedata

LEAST, GREATEST = -(2**127), 2**127 - 1
MOST_WEIGHT, MOST_DEPTH, MOST_ITEMS = 1_048_576, 16, 1_048_576
# What a test takes no longer than: turns of one evaluation, and items that are weighed for one script.
MOST_TURNS, MOST_WEIGHED = 20_000, 2_500_000
SEQUENCES = (str, tuple, list)
CONTAINERS = (tuple, list, dict)


class SetAside(Exception):
    """A rule of the language gives the class `word` where Python would go on."""

    def __init__(self, rule, word="ProfileError"):
        super().__init__(rule)
        self.rule = rule
        self.word = word


class TooLong(Exception):
    """The functions take too long to be worth a test."""


# ---- the limits


def fitting(value):
    """A result, where it is no integer past 128 bits."""
    if type(value) is int and not LEAST <= value <= GREATEST:
        raise SetAside("128 bits", "OverflowError")
    return value


def weight(value):
    if isinstance(value, str):
        return len(value)
    if isinstance(value, CONTAINERS):
        RUN.weigh(len(value))
    if isinstance(value, dict):
        return len(value) + sum(map(weight, value)) + sum(map(weight, value.values()))
    if isinstance(value, CONTAINERS):
        return len(value) + sum(map(weight, value))
    return 0


def depth(value):
    if isinstance(value, dict):
        return 1 + max(map(depth, [*value, *value.values()]), default=0)
    if isinstance(value, CONTAINERS):
        return 1 + max(map(depth, value), default=0)
    return 0


def room(size):
    """Asked before a value is made, so that CPython never makes one that is far too large."""
    if size > MOST_WEIGHT:
        raise SetAside("weight")


def made(value):
    room(weight(value))
    if depth(value) > MOST_DEPTH:
        raise SetAside("depth")
    return value


# ---- operators


def add(a, b):
    if type(a) is type(b) and isinstance(a, SEQUENCES):
        room(weight(a) + weight(b))
    return fitting(a + b)


def subtract(a, b):
    return fitting(a - b)


def multiply(a, b):
    for sequence, factor in ((a, b), (b, a)):
        if isinstance(sequence, SEQUENCES) and isinstance(factor, int) and 0 < factor < 2**63:
            room(weight(sequence) * factor)
    return fitting(a * b)


def divide(a, b):
    return fitting(a // b)


def remainder(a, b):
    if isinstance(a, str):
        raise SetAside("% of a text")
    return fitting(a % b)


def negative(a):
    return fitting(-a)


def slice_of(value, start, stop):
    if isinstance(value, dict):
        raise SetAside("slice of a dictionary")
    return value[start:stop]


def in_place(operation):
    """`n = n + e` for `n += e`, which the language has for all but lists."""

    def change(old, value):
        if isinstance(old, list):
            raise SetAside("op= of a list")
        return operation(old, value)

    return change


# ---- built-in functions and walks


def is_odd_in_int(character):
    return "\x1c" <= character <= "\x1f" or (character > "\x7f" and unicodedata.category(character) == "Nd")


def int_of(value):
    if isinstance(value, str) and any(map(is_odd_in_int, value)):
        raise SetAside("characters that int leaves out")
    return fitting(int(value))


def str_of(value):
    if isinstance(value, CONTAINERS):
        raise SetAside("str of a container")
    return str(value)


def abs_of(value):
    return fitting(abs(value))


def sum_of(value):
    total = 0
    for item in value if isinstance(value, SEQUENCES + (dict,)) else ():
        if not isinstance(item, int):
            break
        total = fitting(total + item)
    return sum(value)


def list_of(value):
    return made(list(value))


def tuple_of(value):
    return made(tuple(value))


def range_of(*bounds):
    items = range(*bounds)
    try:
        count = len(items)
    except OverflowError:
        count = MOST_ITEMS + 1
    if count > MOST_ITEMS:
        raise SetAside("items of a range")
    return items


def pairs(walk):
    """A walk of tuples, each of which is a value."""

    def walked(*values):
        return [made(pair) for pair in walk(*values)]

    return walked


# ---- methods


def cased(own, text):
    if any(character > "\xff" for character in text):
        raise SetAside("case of characters above U+00FF")
    return made(own())


def is_digit(own, text):
    ascii_part = [character for character in text if character < "\x80"]
    if len(ascii_part) < len(text) and all(character in "0123456789" for character in ascii_part):
        raise SetAside("isdigit of characters above ASCII")
    return own()


def replaced(own, text, old, new):
    if isinstance(old, str) and isinstance(new, str):
        room(len(text) + text.count(old) * (len(new) - len(old)))
    return own(old, new)


def joined(own, text, items):
    parts = list(items) if isinstance(items, SEQUENCES + (dict,)) else []
    if all(isinstance(part, str) for part in parts):
        room(sum(map(len, parts)) + len(text) * max(len(parts) - 1, 0))
    return own(items)


def filled(own, text, width):
    if isinstance(width, int) and len(text) < width < 2**63:
        room(width)
    return own(width)


def split(own, _text, *separator):
    return made(own(*separator))


def walked_items(own, _value):
    return [made(pair) for pair in own()]


METHOD_RULES = {
    "lower": cased,
    "upper": cased,
    "isdigit": is_digit,
    "replace": replaced,
    "join": joined,
    "zfill": filled,
    "split": split,
    "items": walked_items,
}


def method(value, name):
    """The method, or CPython's AttributeError; it comes ahead of the arguments."""
    own = getattr(value, name)
    rule = METHOD_RULES.get(name)
    return own if rule is None else lambda *arguments: rule(own, value, *arguments)


# ---- turns and comprehensions


class Run:
    """What one evaluation counts: its turns, and the lists that comprehensions are making."""

    def __init__(self):
        self.begin_script()
        self.begin()

    def begin_script(self):
        self.weighed = 0

    def begin(self):
        self.left = MOST_TURNS
        self.open = []

    def weigh(self, count):
        self.weighed += count
        if self.weighed > MOST_WEIGHED:
            raise TooLong

    def turns(self, items):
        for item in items:
            self.left -= 1
            if self.left < 0:
                raise TooLong
            yield item

    def begin_list(self):
        self.open.append([0, 0])

    def item(self, value):
        """An item of the innermost list, which may take it past the limits."""
        limits = self.open[-1]
        limits[0] += 1 + weight(value)
        limits[1] = max(limits[1], 1 + depth(value))
        room(limits[0])
        if limits[1] > MOST_DEPTH:
            raise SetAside("depth")
        return value

    def end_list(self):
        self.open.pop()


# ---- the rewriting

BINARY = {ast.Add: add, ast.Sub: subtract, ast.Mult: multiply, ast.FloorDiv: divide, ast.Mod: remainder}
RUN = Run()


def words_of_rules():
    """The globals of a checked function: its own built-in functions, and the names that the rewriting puts in."""
    words = {"int": int_of, "str": str_of, "abs": abs_of, "sum": sum_of, "list": list_of, "tuple": tuple_of}
    words |= {"range": range_of, "enumerate": pairs(enumerate), "zip": pairs(zip)}
    for node, operation in BINARY.items():
        words["__" + node.__name__] = operation
        words["__in_place_" + node.__name__] = in_place(operation)
    words |= {"__negative": negative, "__slice": slice_of, "__made": made, "__method": method}
    return words | {"__turns": RUN.turns, "__begin": RUN.begin_list, "__item": RUN.item, "__end": RUN.end_list}


def called(name, *arguments):
    return ast.Call(ast.Name(name, ast.Load()), list(arguments), [])


class Rewriting(ast.NodeTransformer):
    """Puts a call in place of each operation that has a rule."""

    def visit_BinOp(self, node):
        self.generic_visit(node)
        return called("__" + type(node.op).__name__, node.left, node.right)

    def visit_AugAssign(self, node):
        self.generic_visit(node)
        old = ast.Name(node.target.id, ast.Load())
        return ast.Assign([node.target], called("__in_place_" + type(node.op).__name__, old, node.value))

    def visit_UnaryOp(self, node):
        self.generic_visit(node)
        return called("__negative", node.operand) if isinstance(node.op, ast.USub) else node

    def visit_Subscript(self, node):
        self.generic_visit(node)
        if not isinstance(node.slice, ast.Slice):
            return node
        bounds = [bound or ast.Constant(None) for bound in (node.slice.lower, node.slice.upper)]
        return called("__slice", node.value, *bounds)

    def display(self, node):
        self.generic_visit(node)
        is_value = isinstance(getattr(node, "ctx", ast.Load()), ast.Load)
        return called("__made", node) if is_value else node

    visit_Tuple = visit_List = visit_Dict = display

    def visit_ListComp(self, node):
        self.generic_visit(node)
        node.elt = called("__item", node.elt)
        node.generators[0].iter = called("__turns", node.generators[0].iter)
        steps = ast.Tuple([called("__begin"), node, called("__end")], ast.Load())
        return ast.Subscript(steps, ast.Constant(1), ast.Load())

    def visit_For(self, node):
        self.generic_visit(node)
        node.iter = called("__turns", node.iter)
        return node

    def visit_Call(self, node):
        self.generic_visit(node)
        if isinstance(node.func, ast.Attribute):
            node.func = called("__method", node.func.value, ast.Constant(node.func.attr))
        return node


def checked(tree):
    return ast.fix_missing_locations(Rewriting().visit(tree))
