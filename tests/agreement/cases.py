"""Random cases: a script with one function in the middle, and the records that it takes."""
import random

from cells import COLUMNS, file_text, records
from forms import KINDS, LIMITS, RULED, lines
from functions import ACCUMULATORS, function, helper, limit_function, result_kind, ruled_function
from pipelines import Operator, Script
from printing import Plainly, Printer

HANDLED = ["TypeError", "ValueError", "IndexError", "KeyError", "LookupError", "ArithmeticError", "AttributeError", "Exception"]

# Shows a value as a text that tells its kind and all its parts, where no dictionary is in it: there `*` is a TypeError.
SHOWN = ["def shown_0(v):\n    return \"''\"\n"] + [
    f"""def shown_{level}(v):
    if v is None: return "None"
    none = v * 0
    if none == 0: return str(v)
    if none == "": return str(len(v)) + "'" + v + "'"
    text = "(" if none == () else "["
    for part in v: text += shown_{level - 1}(part) + ","
    return text + "]"
"""
    for level in range(1, 6)
]
SHOWN_DICTIONARIES = """def shown_pairs(v):
    text = "{"
    for key, value in v.items():
        text += shown_4(key) + ":" + shown_4(value) + ","
    return text + "}"

def shown_outer(v):
    text = "{"
    for key, value in v.items():
        text += shown_4(key) + ":" + shown_pairs(value) + ","
    return text + "}"

def shown_list(v):
    text = "(" if v * 0 == () else "["
    for part in v: text += shown_pairs(part)
    return text + "]"
"""
SHOWING = [("TypeError", "shown_pairs"), ("TypeError", "shown_outer"), ("AttributeError", "shown_list")]


class Case:
    """What a script is made from, so that it can be made again, smaller."""

    def __init__(self, shape, function_tree, helpers=(), handlers=(), is_shown=True):
        self.shape = shape
        self.function = function_tree
        self.helpers = list(helpers)
        self.handlers = list(handlers)
        self.is_shown = is_shown
        self.column = "t"
        self.first = "0"
        self.names = ["id", *COLUMNS]
        self.records = []

    def but(self, **changes):
        """The case with other fields."""
        made = Case.__new__(Case)
        made.__dict__ = self.__dict__ | changes
        return made

    def trees(self):
        return [*self.helpers, self.function, *(tree for _, tree in self.handlers)]

    def script(self, source=Plainly()):
        """The script, written with the liberties that the source takes."""
        printer = Printer(source)
        defs = [printer.function(tree) for tree in self.helpers]
        text = printer.function(self.function)
        if text.startswith("def "):
            defs.append(text)
            text = "f"
        handlers = [(word, printer.function(tree)) for word, tree in self.handlers]
        result = self.column if self.shape == "mapColumn" else "r"
        names = {"map": ["q", "r"], "filter": []}.get(self.shape, [result])
        operators = [Operator(self.shape, text, names, handlers, self.first)]
        if self.is_shown:
            defs += [*SHOWN, SHOWN_DICTIONARIES]
            operators.append(Operator("mapColumn", "shown_5", [result], SHOWING))
        if self.shape not in ("aggregate", "map"):
            operators.append(Operator("selectColumns", "", ["id", *(names or ["i"])]))
        return Script(defs, operators)

    def file(self, source=Plainly()):
        return file_text(self.names, self.records, source)


def params_of(shape, source, column):
    """The parameters of a shape's function with their kinds, and which of them is a row."""
    row = source.choice(["x", "row", "_"])
    if shape == "mapColumn":
        own = {"int": "int", "text": "text", "numeral": "digits", "bool": "bool", "any": source.choice(KINDS)}[COLUMNS[column]]
        return {source.choice(["x", "v", "cell"]): own}, None
    return ({"acc": "any", row: "row"} if shape == "aggregate" else {row: "row"}), row


def handlers_of(source, known, params, row, kind):
    made = []
    while source.random() < 0.1:
        tree = None
        while tree is None or hasattr(tree, "name"):
            tree = function(source, known, params, row, kind)
        made.append((source.choice(HANDLED), tree))
    return made


def plain_case(source):
    """A case of a random function."""
    known, helpers = [], []
    for _ in range(source.choice([0, 0, 1, 2, 3])):
        name, tree = helper(source, known)
        known.append(name)
        helpers.append(tree)
    shape = source.choice(["withColumn"] * 6 + ["mapColumn"] * 3 + ["map", "filter", "aggregate"])
    column = source.choice(list(COLUMNS))
    params, row = params_of(shape, source, column)
    kind = result_kind(source)
    first = "0"
    if shape == "aggregate":
        kind = source.choice(list(ACCUMULATORS))
        params["acc"] = kind
        first = source.choice(ACCUMULATORS[kind])
    if shape == "map":
        kind = f"pair[int,{kind}]"
    tree = function(source, known, params, row, kind)
    handlers = handlers_of(source, known, params, row, kind)
    is_shown = shape != "filter" and source.random() < 0.8
    return Case(shape, tree, helpers, handlers, is_shown).but(column=column, first=first)


def limit_case(source, form):
    """A case of a function near a limit of values."""
    return Case("mapColumn", limit_function(source, form)).but(column=source.choice(["t", "i", "b"]))


def case(seed, number, count):
    """One of the cases of a seed, with at most so many records. The first ones meet the limits and the rules in turn."""
    source = random.Random(f"{seed}.{number}")
    ruled = [form for forms in RULED.values() for form in lines(forms)]
    chosen = number if number < len(LIMITS) + len(ruled) else source.randrange(2000)
    if chosen < len(LIMITS):
        # Its values are large.
        made, count = limit_case(source, LIMITS[chosen]), min(count, 2)
    elif chosen < len(LIMITS) + len(ruled):
        made = Case("withColumn", ruled_function(source, ruled[chosen - len(LIMITS)]))
    else:
        made = plain_case(source)
    made.records = records(source, count)
    made.seed = f"{seed}.{number}"
    return made, source
