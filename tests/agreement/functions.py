"""Random functions of the language, as text that Python's `ast` reads; `printing` writes them without needless brackets."""
import ast
from cells import COLUMNS, EDGES, LETTERS, NUMERALS, ODD, WORDS
from forms import ANY, CONTAINERS, KEYS, KINDS, LIMITS, ORDERED, RULED, SCALARS, filled, forms_of, lines, parts, with_parts
from printing import literal

NAMES = ["a", "b", "c", "k", "n", "v", "w", "acc", "item", "count", "_t", "Name2"]
OPERATIONS = {"int": ["+=", "+=", "-=", "*=", "//=", "%="], "text": ["+=", "+=", "*="], "tuple": ["+=", "*="]}
ACCUMULATORS = {"int": ["0", "1", "(0, 0)"], "text": ['""', '"-"', "None"], "tuple[int]": ["()", "(1, 2)"]}
ACCUMULATORS["list[int]"] = ["[]", "[0, 1]"]
# Steps that put an expression deeper, each by two levels at most.
DEEPER = ["({e}) + {n}", "({e}) - {n}", "-({e})", "+({e})", "({e}) if {n} else 0", "({e}, {n})[0]", "[{n}, ({e})][-1]"]
DEEPER += ["({e}) or {n}", "({e}) and {n}", "abs({e})", "int({e})", "({e}) * {n} % 1000003", "max({n}, ({e}))"]


class Function:
    """A function that is given: its name, the kinds of its parameters, and the kind of its value."""

    def __init__(self, name, params, kind):
        self.name = name
        self.params = params
        self.kind = kind


class Maker:
    """Makes one function. `row` is the name of a row's parameter, `known` are the earlier defs."""

    def __init__(self, source, known, params, row=None):
        self.source = source
        self.known = known
        self.names = dict(params)
        self.row = row
        self.late = []
        self.wild = source.choice([0, 0, 0, 0.02])

    def chance(self, rate):
        return self.source.random() < rate

    def pick(self, items):
        return self.source.choice(items)

    # ---- expressions

    def expression(self, kind, depth):
        """The text of an expression that mostly gives a value of this kind."""
        special = getattr(self, "hole_" + kind, None)
        if special:
            return special()
        if self.chance(self.wild):
            kind = self.pick(KINDS)
        there = self.there(kind)
        if there and self.chance(0.35 if depth > 0 else 0.75):
            return self.pick(there)
        return self.literal(kind) if depth <= 0 else self.form(kind, depth - 1)

    def there(self, kind):
        """What has this kind and needs no making: names, and cells of the row."""
        found = [name for name, own in self.names.items() if own == kind]
        if self.row:
            fits = "numeral" if kind == "digits" or (kind == "text" and self.chance(0.1)) else kind
            found += [f"{self.row}[{literal(name)}]" for name, own in COLUMNS.items() if own == fits]
            if self.chance(0.02):
                found.append(f'{self.row}["m"]')
        return found

    def form(self, kind, depth):
        makers = [known for known in self.known if known.kind == kind]
        if makers and self.chance(0.3):
            known = self.pick(makers)
            return f"{known.name}({', '.join(self.expression(own, depth) for own in known.params)})"
        is_value = kind.split("[")[0] not in ("index", "bound", "small", "char", "part", "digits")
        form = self.pick(lines(ANY) if is_value and self.chance(0.2) else forms_of(kind))
        if kind in RULED and self.chance(0.01):
            form = self.pick(lines(RULED[kind]))
        if form == "{comprehension}":
            return self.comprehension(parts(kind)[0], depth)
        if form == "{{{A}: {B}}}" and self.chance(0.01):
            form = "{{[]: {B}}}"
        kinds = self.kinds_in(kind)
        if form in lines(ANY):
            kinds["K"] = kind
        return filled(with_parts(form, kinds), lambda hole: self.expression(hole, depth))

    def kinds_in(self, kind):
        """What the letters of a form of this kind stand for."""
        kinds = dict(zip("AB", parts(kind))) | {"K": (parts(kind) or [kind])[0], "Q": self.pick(KEYS)}
        return kinds | {"E": self.pick(KINDS), "O": self.pick(ORDERED), "L": self.literal(self.pick(KEYS))}

    def comprehension(self, kind, depth):
        """`[e for t in i if c]`; its variables are its own."""
        walk, target, kinds = self.walk(depth)
        kept = dict(self.names)
        self.names |= kinds
        element = self.expression(kind, depth)
        test = f" if ({self.expression('bool', depth)})" if self.chance(0.5) else ""
        self.names = kept
        return f"[({element}) for {target} in {walk}{test}]"

    def walk(self, depth):
        """What is gone through, its target, and the kinds of the target's names."""
        one, two = self.source.sample(self.targets(), 2)
        a, b = self.pick(KINDS), self.pick(KINDS)
        key = self.pick(KEYS)
        made = {
            "range": lambda: (f"range({self.bounds(depth)})", {one: "int"}),
            "enumerate": lambda: (f"enumerate({self.expression(f'list[{a}]', depth)})", {one: "int", two: a}),
            "zip": lambda: (
                f"zip({self.expression(f'tuple[{a}]', depth)}, {self.expression('text', depth)})",
                {one: a, two: "text"},
            ),
            "items": lambda: (f"({self.expression(f'dict[{key},{b}]', depth)}).items()", {one: key, two: b}),
            "keys": lambda: (f"({self.expression(f'dict[{key},{b}]', depth)}).keys()", {one: key}),
            "values": lambda: (f"({self.expression(f'dict[{key},{b}]', depth)}).values()", {one: b}),
            "list": lambda: (f"({self.expression(f'list[{a}]', depth)})", {one: a}),
            "pairs": lambda: (f"({self.expression(f'list[pair[{a},{b}]]', depth)})", {one: a, two: b}),
            "text": lambda: (f"({self.expression('text', depth)})", {one: "text"}),
            "dict": lambda: (f"({self.expression(f'dict[{key},{b}]', depth)})", {one: key}),
            "whole": lambda: (f"enumerate({self.expression('text', depth)})", {one: "pair[int,text]"}),
        }
        walk, kinds = self.pick(list(made.values()))()
        return walk, ", ".join(kinds), kinds

    def bounds(self, depth):
        first, step = self.hole_place(), self.pick(["1", "2", "-1", "3", "-2", "0" if self.chance(0.2) else "1"])
        last = self.pick([f"({self.expression('int', depth)}) % 7", f"len({self.expression('text', depth)})", "3", "5"])
        if self.chance(0.03):
            last = self.expression("int", 0)
        return self.pick([last, last, f"{first}, {last}", f"{first}, {last}, {step}", f"{last}, {first}, {step}"])

    def targets(self):
        return [name for name in NAMES if name != self.row]

    def deep(self, steps):
        """An expression of many levels."""
        made = self.expression("int", 0)
        for _ in range(steps):
            made = self.pick(DEEPER).format(e=made, n=self.hole_place().replace("-", ""))
        return made

    # ---- leaves

    def literal(self, kind):
        head, inner = kind.split("[")[0], parts(kind)
        if head in ("list", "tuple"):
            items = [self.literal(inner[0]) for _ in range(self.length())]
            comma = "," if head == "tuple" and len(items) == 1 else ""
            return ("[{}]" if head == "list" else "({})").format(", ".join(items) + comma)
        if head == "pair":
            return f"({self.literal(inner[0])}, {self.literal(inner[1])})"
        if head == "dict":
            pairs = [f"{self.literal(inner[0])}: {self.literal(inner[1])}" for _ in range(self.length())]
            return "{" + ", ".join(pairs) + "}"
        leaf = {"int": self.hole_whole, "text": self.hole_text_literal, "none": lambda: "None"}
        leaf |= {"bool": lambda: self.pick(["True", "False"]), "digits": self.hole_numeral, "char": self.hole_letter}
        leaf["index"] = lambda: self.pick(["0", "0", "0", "-1", "-1", self.hole_place()])
        return leaf.get(head, self.hole_letter if head == "part" else self.hole_place)()

    def length(self):
        """How many items a literal container has."""
        return 0 if self.chance(0.07) else self.pick([1, 2, 2, 3, 3])

    def hole_whole(self):
        if self.chance(0.95):
            return str(self.source.randrange(13))
        return str(min(self.pick(EDGES) + self.source.randint(-1, 1), 2**127 - 1))

    def hole_edge(self):
        return str(self.pick([2**127 - 1, 2**127 - 1, 2**127 - 2, 2**126, 2**126 - 1, 2**64]))

    def hole_odd(self):
        return literal(self.pick(["Ω", "日本", "١٢", "²", "7²", "x²", "1١", "\x1c7", "a\x1f", "\u2003x\u2003", "Ÿ", "ÿß"]))

    def hole_place(self):
        return str(self.source.choice([0, 0, 1, 1, 2, 3, -1, -2, -3, 7]))

    def hole_text_literal(self):
        return literal(self.pick(ODD[:4] if self.chance(0.06) else WORDS))

    def hole_letter(self):
        return literal(self.pick(LETTERS) if self.chance(0.9) else self.pick(["", "ab", "a b", ", "]))

    def hole_numeral(self):
        return literal(str(self.source.randrange(200)) if self.chance(0.7) else self.pick(NUMERALS))

    # ---- statements

    def target(self, kind):
        """A name to be assigned; one that is there mostly keeps its kind."""
        fresh = [name for name in self.targets() if name not in self.names]
        same = [name for name, own in self.names.items() if own == kind]
        if same and self.chance(0.4) or not fresh:
            return self.pick(same or self.targets())
        return self.pick(self.targets() if self.chance(0.1) else fresh)

    def block(self, count, depth, in_loop):
        made = []
        for _ in range(count):
            made += self.statement(depth, in_loop)
        return made or ["pass"]

    def statement(self, depth, in_loop):
        kinds = [self.assign, self.assign, self.assign, self.unpack, self.change, self.change, self.small]
        kinds += [self.branches, self.loop, self.loop] if depth > 0 else []
        made = self.pick(kinds)(depth)
        if in_loop and self.chance(0.2):
            made += [f"if {self.expression('bool', 1)}:", "    " + self.pick(["break", "continue", self.ending()])]
        return made

    def ending(self):
        return "return" if self.chance(0.05) else "return " + self.expression(self.kind, 1)

    def assign(self, _depth):
        kind = self.pick(KINDS)
        value = self.expression(kind, 2)
        name = self.target(kind)
        self.names[name] = kind
        return [f"{name} = {value}"]

    def unpack(self, _depth):
        count = self.pick([1, 2, 2, 3])
        if count == 2 and self.chance(0.6):
            kinds = [self.pick(KINDS), self.pick(KINDS)]
            value = self.expression(f"pair[{kinds[0]},{kinds[1]}]", 2)
        else:
            kinds = [self.pick(SCALARS)] * count
            items = ", ".join(self.expression(kinds[0], 1) for _ in range(count + self.chance(0.04)))
            value = f"{items}," if self.chance(0.5) else f"[{items}]"
        names = self.source.sample(self.targets(), count)
        self.names |= dict(zip(names, kinds))
        return [", ".join(names) + ("," if count == 1 else "") + " = " + value]

    def change(self, depth):
        """An augmented assignment."""
        heads = {name: own.split("[")[0] for name, own in self.names.items()}
        found = [name for name, head in heads.items() if head in OPERATIONS or (head == "list" and self.chance(0.02))]
        if not found:
            return self.assign(depth)
        name = self.pick(found)
        operation = self.pick(OPERATIONS.get(heads[name], ["+=", "*="]))
        kind = self.names[name]
        value = self.hole_place() if operation == "*=" else self.expression("int" if self.chance(0.01) else kind, 1)
        return [f"{name} {operation} {value}"]

    def small(self, _depth):
        if self.chance(0.1):
            name = self.pick(self.targets())
            self.late += [name]
            value = f"[{name} for {self.pick(self.targets())} in (1,)]" if self.chance(0.3) else name
            return [value if self.chance(0.5) else f"if {self.expression('bool', 1)}: {value}"]
        return [self.pick(["pass", self.expression(self.pick(KINDS), 2)])]

    def within(self, made):
        return ["    " + line for line in made]

    def forget(self, kept):
        """Behind a suite that may not have been run, its names mostly count as having no value."""
        if self.chance(0.8):
            self.names = {name: self.names.get(name, own) for name, own in kept.items()}

    def branches(self, depth):
        made = [f"if {self.expression('bool', 2)}:"]
        kept = dict(self.names)
        made += self.within(self.block(self.pick([1, 1, 2]), depth - 1, False))
        if self.chance(0.3):
            made += [f"elif {self.expression('bool', 1)}:", *self.within(self.block(1, depth - 1, False))]
        if self.chance(0.5):
            last = [self.ending()] if self.chance(0.2) else self.block(1, depth - 1, False)
            made += ["else:", *self.within(last)]
        self.forget(kept)
        return made

    def loop(self, depth):
        walk, target, kinds = self.walk(2)
        kept = dict(self.names)
        self.names |= kinds
        made = [f"for {target} in {walk}:", *self.within(self.block(self.pick([1, 1, 2, 3]), depth - 1, True))]
        self.forget(kept)
        return made

    # ---- whole functions

    def definition(self, name, params, kind):
        """The text of a def."""
        self.kind = kind
        made = self.block(self.source.randrange(6), 2, False)
        made += [f"return {self.expression(kind, 3)}"] if self.chance(0.95) else []
        made += [f"{late} = 0" for late in self.late]
        return "\n".join([f"def {name}({', '.join(params)}):", *self.within(made or ["pass"])])


def result_kind(source):
    return source.choice(SCALARS if source.random() < 0.5 else CONTAINERS)


def helper(source, known):
    """An earlier def, with its tree."""
    kinds = [source.choice(KINDS) for _ in range(source.randrange(4))]
    params = dict(zip(source.sample(NAMES, len(kinds)), kinds))
    made = Function(f"helper_{len(known)}", list(params.values()), result_kind(source))
    text = Maker(source, known, params).definition(made.name, list(params), made.kind)
    return made, ast.parse(text).body[0]


def limit_function(source, form):
    """A def of one text, near a limit; its holes have numbers to choose from."""
    return ast.parse(filled(form, lambda hole: source.choice(hole.split()))).body[0]


def ruled_function(source, form):
    """A lambda of a row, of a form that meets a rule of the language's own."""
    maker = Maker(source, [], {}, "x")
    text = filled(with_parts(form, maker.kinds_in("text")), lambda hole: maker.expression(hole, 1))
    return ast.parse(f"lambda x: {text}", mode="eval").body


def function(source, known, params, row, kind):
    """A def named `f`, or a lambda. `params` are all parameters with their kinds; `row` is the one that is a row."""
    maker = Maker(source, known, {name: own for name, own in params.items() if name != row}, row)
    if source.random() < 0.35:
        is_deep = kind == "int" and source.random() < 0.2
        body = maker.deep(source.randrange(10, 22)) if is_deep else maker.expression(kind, 4)
        return ast.parse(f"lambda {', '.join(params)}: {body}", mode="eval").body
    return ast.parse(maker.definition("f", list(params), kind)).body[0]
