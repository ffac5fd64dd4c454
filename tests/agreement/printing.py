"""Writes the tree of a function, one of Python's `ast`, in the language of docs/LANGUAGE.md.

It differs from `ast.unparse` in what the language lacks (escapes, tuples without brackets in an index), and in its liberties,
which a random source takes: brackets that change nothing, suites on one line, commas at the end, `elif` or a nested `if`.
"""
import ast

TEST, OR, AND, NOT, COMPARE, SUM, TERM, UNARY, POSTFIX, ATOM = range(10)
BINARY = {
    ast.Add: ("+", SUM),
    ast.Sub: ("-", SUM),
    ast.Mult: ("*", TERM),
    ast.FloorDiv: ("//", TERM),
    ast.Mod: ("%", TERM),
}
COMPARISONS = {
    ast.Eq: "==",
    ast.NotEq: "!=",
    ast.Lt: "<",
    ast.LtE: "<=",
    ast.Gt: ">",
    ast.GtE: ">=",
    ast.In: "in",
    ast.NotIn: "not in",
    ast.Is: "is",
    ast.IsNot: "is not",
}
ESCAPES = {"\\": "\\\\", "\n": "\\n", "\t": "\\t", "\r": "\\r"}
SIMPLE = (ast.Pass, ast.Break, ast.Continue, ast.Return, ast.Assign, ast.AugAssign, ast.Expr)


def literal(text, quote='"'):
    marks = ESCAPES | {quote: "\\" + quote}
    return quote + "".join(marks.get(character, character) for character in text) + quote


class Plainly:
    """The source of no liberties."""

    def random(self):
        return 1.0


class Printer:
    def __init__(self, source=Plainly()):
        self.source = source

    def takes(self, chance):
        return self.source.random() < chance

    # ---- expressions

    def at(self, level, node):
        """An expression where one of this level may stand."""
        text, own = self.expression(node)
        is_plain = own < level or (not isinstance(node, ast.Name) and self.takes(0.02))
        return f"({text})" if is_plain else text

    def test(self, node):
        return self.at(TEST, node)

    def tests(self, nodes):
        comma = "," if nodes and self.takes(0.05) else ""
        return ", ".join(map(self.test, nodes)) + comma

    def expression(self, node):
        """The text of an expression, and its level."""
        return getattr(self, "write_" + type(node).__name__.lower())(node)

    def write_name(self, node):
        return node.id, ATOM

    def write_constant(self, node):
        value = node.value
        if isinstance(value, str):
            return literal(value, "'" if self.takes(0.3) else '"'), ATOM
        if type(value) is int and self.takes(0.05):
            return f"{value:_}", ATOM
        return str(value), ATOM

    def write_ifexp(self, node):
        body, test = self.at(OR, node.body), self.at(OR, node.test)
        return f"{body} if {test} else {self.test(node.orelse)}", TEST

    def write_boolop(self, node):
        word, level = (" and ", AND) if isinstance(node.op, ast.And) else (" or ", OR)
        return word.join(self.at(level + 1, value) for value in node.values), level

    def write_unaryop(self, node):
        if isinstance(node.op, ast.Not):
            return "not " + self.at(NOT, node.operand), NOT
        return ("-" if isinstance(node.op, ast.USub) else "+") + self.at(UNARY, node.operand), UNARY

    def write_compare(self, node):
        text = self.at(SUM, node.left)
        for operator, right in zip(node.ops, node.comparators):
            is_none = isinstance(operator, (ast.Is, ast.IsNot))
            text += f" {COMPARISONS[type(operator)]} {'None' if is_none else self.at(SUM, right)}"
        return text, COMPARE

    def write_binop(self, node):
        mark, level = BINARY[type(node.op)]
        return f"{self.at(level, node.left)} {mark} {self.at(level + 1, node.right)}", level

    def write_call(self, node):
        if isinstance(node.func, ast.Name):
            return f"{node.func.id}({self.tests(node.args)})", ATOM
        return f"{self.receiver(node.func.value)}.{node.func.attr}({self.tests(node.args)})", POSTFIX

    def receiver(self, node):
        text = self.at(POSTFIX, node)
        return f"({text})" if text[0].isdigit() else text

    def write_subscript(self, node):
        return f"{self.at(POSTFIX, node.value)}[{self.place(node.slice)}]", POSTFIX

    def place(self, node):
        if isinstance(node, ast.Slice):
            return ":".join(self.test(bound) if bound else "" for bound in (node.lower, node.upper))
        is_column = isinstance(node, ast.Constant) and isinstance(node.value, str)
        return literal(node.value) if is_column else self.test(node)

    def write_tuple(self, node):
        if len(node.elts) == 1:
            return f"({self.test(node.elts[0])},)", ATOM
        return f"({self.tests(node.elts)})", ATOM

    def write_list(self, node):
        return f"[{self.tests(node.elts)}]", ATOM

    def write_dict(self, node):
        pairs = [f"{self.test(key)}: {self.test(value)}" for key, value in zip(node.keys, node.values)]
        comma = "," if pairs and self.takes(0.05) else ""
        return "{" + ", ".join(pairs) + comma + "}", ATOM

    def write_listcomp(self, node):
        [part] = node.generators
        tail = "".join(" if " + self.at(OR, test) for test in part.ifs)
        return f"[{self.test(node.elt)} for {self.target(part.target)} in {self.iterable(part.iter, OR)}{tail}]", ATOM

    def iterable(self, node, level):
        """What is gone through; no bracket stands round a walk."""
        return self.expression(node)[0] if isinstance(node, ast.Call) else self.at(level, node)

    def target(self, node):
        if isinstance(node, ast.Name):
            return node.id
        names = ", ".join(name.id for name in node.elts) + ("," if len(node.elts) == 1 else "")
        return f"({names})" if self.takes(0.3) else names

    # ---- statements

    def suite(self, head, body, indent):
        """The lines of a head with its suite."""
        if len(body) == 1 and isinstance(body[0], SIMPLE) and self.takes(0.25):
            return [f"{indent}{head} {self.simple(body[0])}"]
        lines = [indent + head]
        for statement in body:
            lines += self.statement(statement, indent + "    ")
        return lines

    def statement(self, node, indent):
        if isinstance(node, ast.If):
            return self.branches(node, indent)
        if isinstance(node, ast.For):
            head = f"for {self.target(node.target)} in {self.iterable(node.iter, TEST)}:"
            return self.suite(head, node.body, indent)
        comment = "  # so it goes" if self.takes(0.02) else ""
        return [indent + self.simple(node) + comment]

    def branches(self, node, indent, word="if"):
        lines = self.suite(f"{word} {self.test(node.test)}:", node.body, indent)
        if len(node.orelse) == 1 and isinstance(node.orelse[0], ast.If) and not self.takes(0.2):
            return lines + self.branches(node.orelse[0], indent, "elif")
        return lines + (self.suite("else:", node.orelse, indent) if node.orelse else [])

    def simple(self, node):
        if isinstance(node, ast.Return):
            return "return " + self.bare(node.value) if node.value else "return"
        if isinstance(node, ast.Assign):
            return f"{self.target(node.targets[0])} = {self.bare(node.value)}"
        if isinstance(node, ast.AugAssign):
            return f"{node.target.id} {BINARY[type(node.op)][0]}= {self.test(node.value)}"
        if isinstance(node, ast.Expr):
            return self.test(node.value)
        return type(node).__name__.lower()

    def bare(self, node):
        """What may be a tuple without brackets."""
        if isinstance(node, ast.Tuple) and node.elts and self.takes(0.3):
            return ", ".join(map(self.test, node.elts)) + ("," if len(node.elts) == 1 else "")
        return self.test(node)

    # ---- functions

    def function(self, node):
        """The text of a def or a lambda."""
        params = ", ".join(param.arg for param in node.args.args)
        if isinstance(node, ast.Lambda):
            return f"lambda {params}: {self.test(node.body)}"
        return "\n".join(self.suite(f"def {node.name}({params}):", node.body, "")) + "\n"
