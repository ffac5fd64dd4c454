"""Scripts around a function, what Python makes of their rows, and what the program wrote."""
import csv
import os
import subprocess

from cells import value_of
from evaluation import Functions, Raised, catches, printed
from printing import literal

csv.field_size_limit(2**30)
DROPPED = ("dropped",)


class Operator:
    """An operator behind the source: its word, its function, the names that it takes, and its handlers."""

    def __init__(self, word, function, names=(), handlers=(), first=None):
        self.word = word
        self.function = function
        self.names = list(names)
        self.handlers = list(handlers)
        self.first = first

    def text(self):
        names = [literal(name) for name in self.names]
        arguments = {
            "withColumn": lambda: [names[0], self.function],
            "mapColumn": lambda: [names[0], self.function],
            "map": lambda: [self.function, "[" + ", ".join(names) + "]"],
            "filter": lambda: [self.function],
            "aggregate": lambda: [self.function, self.first, names[0]],
            "selectColumns": lambda: ["[" + ", ".join(names) + "]"],
        }[self.word]()
        handlers = "".join(f"\n    .resolve({word}, {function})" for word, function in self.handlers)
        return f"\n    .{self.word}({', '.join(arguments)}){handlers}"


class Script:
    """Defs, as texts, and a chain of operators from `in.csv` to `out.csv`."""

    def __init__(self, defs, operators):
        self.defs = defs
        self.operators = operators

    def text(self):
        chain = "".join(operator.text() for operator in self.operators)
        return "\n".join(self.defs) + f'\n(csv("in.csv"){chain}\n    .tocsv("out.csv"))\n'


# ---- by Python


class Row:
    """A row on its way: its cells by name, and the first rule that gave one of its answers."""

    def __init__(self, cells):
        self.cells = cells
        self.rule = None


class Python:
    """Takes rows through a script; an outcome is the printed cells, an entry of the report, or that the row was dropped."""

    def __init__(self, script):
        self.script = script
        self.functions = Functions(script.defs)

    def evaluate(self, row, operator, arguments):
        """The value of an operator's function, or of the first handler that gives one."""
        answer = None
        for word, text in [("", operator.function), *operator.handlers]:
            if answer is None or catches(word, answer.word):
                value, rule = self.functions.call(text, arguments)
                row.rule = row.rule or rule
                answer = tuple_of_names(operator, value)
                if not isinstance(answer, Raised):
                    return answer
        return answer

    def through(self, row, operators, first):
        """The outcome of a row that the operators are given, the first of which has this number."""
        for number, operator in enumerate(operators, first):
            if operator.word == "selectColumns":
                row.cells = {name: row.cells[name] for name in operator.names}
                continue
            is_column = operator.word == "mapColumn"
            value = self.evaluate(row, operator, [row.cells[operator.names[0]] if is_column else row.cells])
            if isinstance(value, Raised):
                return entry(number, operator.word, value.word)
            if operator.word == "map":
                row.cells = dict(zip(operator.names, value))
            elif operator.word != "filter":
                row.cells = row.cells | {operator.names[0]: value}
            elif not value:
                return DROPPED
        cells = [printed(value) for value in row.cells.values()]
        return entry(first + len(operators), "tocsv", "TypeError") if None in cells else ("row", *cells)

    def fold(self, operator, rows):
        """The outcomes of the rows that an aggregate takes, and its last accumulator."""
        total, outcomes = eval(operator.first), []
        for row in rows:
            value = self.evaluate(row, operator, [total, row.cells])
            is_raised = isinstance(value, Raised)
            outcomes.append(entry(2, "aggregate", value.word) if is_raised else DROPPED)
            total = total if is_raised else value
        return outcomes, total

    def outcomes(self, names, records):
        """For each record its outcome and its rule; behind them, of an aggregate, those of its one row."""
        rows = [Row(dict(zip(names, map(value_of, record)))) for record in records]
        first, *others = self.script.operators
        if first.word != "aggregate":
            return [(self.through(row, self.script.operators, 2), row.rule) for row in rows]
        outcomes, total = self.fold(first, rows)
        last = Row({first.names[0]: total})
        outcome = self.through(last, others, 3)
        return [(found, row.rule) for found, row in zip(outcomes, rows)] + [(outcome, last.rule)]


def tuple_of_names(operator, value):
    """A value of `map` has to be a tuple with an item for each name."""
    is_wrong = operator.word == "map" and not isinstance(value, Raised)
    if is_wrong and (not isinstance(value, tuple) or len(value) != len(operator.names)):
        return Raised("TypeError")
    return value


def entry(number, word, class_word):
    return "raised", str(number), word, class_word


# ---- by the program


class Refused(Exception):
    """The program ended with another status than 0."""


def run_program(program, folder, script, file):
    """Runs the program on a script and a file; gives the records of its output and of its report, and the line that it said."""
    for name, text in (("s.txs", script), ("in.csv", file)):
        with open(os.path.join(folder, name), "w", encoding="utf-8", newline="") as out:
            out.write(text)
    done = subprocess.run([program, "run", "s.txs"], cwd=folder, capture_output=True, timeout=120, check=False)
    if done.returncode != 0:
        raise Refused(f"status {done.returncode}: {done.stderr.decode(errors='replace').strip()}")
    return read(folder, "out.csv"), read(folder, "out.csv.exceptions.csv"), done.stdout.decode()


def read(folder, name):
    with open(os.path.join(folder, name), encoding="utf-8", newline="") as text:
        return list(csv.reader(text))[1:]


def outcomes_of(output, report, count, shape):
    """The outcome of each record, as `Python.outcomes` has it. Behind a filter a row is known by its number in front."""
    found = [DROPPED] * (count + (shape == "aggregate"))
    for number, word, class_word, row in report:
        found[count if row.endswith(":0") else int(row[2:]) - 1] = entry(number, word, class_word)
    left = [place for place, outcome in enumerate(found) if outcome == DROPPED]
    if shape == "aggregate":
        left = left[-1:]
    places = [int(cells[0]) - 1 for cells in output] if shape == "filter" else left
    for place, cells in zip(places, output):
        found[place] = ("row", *cells)
    return found
