"""Makes a case smaller while a difference stays."""
import ast
import copy
import time

SECONDS = 120
SIMPLE = [ast.Constant(None), ast.Constant(0), ast.Constant(1), ast.Constant(""), ast.Constant("a"), ast.List([], ast.Load())]


def spots(tree):
    """Each place of a tree that holds an expression or a list of statements: how to read it, and how to write it."""
    for node in ast.walk(tree):
        for name, value in ast.iter_fields(node):
            if isinstance(value, ast.expr) and not isinstance(getattr(value, "ctx", None), ast.Store):
                yield node, name, None, value
            elif isinstance(value, list):
                for place, item in enumerate(value):
                    if isinstance(item, (ast.expr, ast.stmt)):
                        yield node, name, place, item


def put(node, name, place, made):
    """Puts an expression, or some statements, in a spot."""
    if place is None:
        setattr(node, name, made)
    elif isinstance(made, list):
        getattr(node, name)[place : place + 1] = made
    else:
        getattr(node, name)[place] = made


def below(item):
    """The expressions right below one, which may stand in its place."""
    return [child for child in ast.iter_child_nodes(item) if isinstance(child, ast.expr) and not isinstance(child, ast.Slice)]


def substitutes(node, name, item):
    """What may stand for an expression or a statement."""
    if isinstance(item, ast.stmt):
        bodies = [body for body in (getattr(item, "body", []), getattr(item, "orelse", [])) if body]
        return [[]] * (len(getattr(node, name)) > 1) + bodies + [ast.Pass()] * (not isinstance(item, ast.Pass))
    is_operand_of_is = name == "comparators" and isinstance(node.ops[-1], (ast.Is, ast.IsNot))
    if isinstance(item, ast.Slice) or name == "func" or is_operand_of_is:
        return []
    if isinstance(item, ast.Constant):
        is_long = isinstance(item.value, str) and len(item.value) > 1
        return [ast.Constant(item.value[:1])] if is_long else []
    return below(item) + [other for other in SIMPLE if type(other) is not type(item) or item.elts]


def smaller_trees(tree):
    """Trees with one change."""
    count = len(list(spots(tree)))
    for number in range(count):
        node, name, _, item = list(spots(tree))[number]
        for choice in range(len(substitutes(node, name, item))):
            made = copy.deepcopy(tree)
            node, name, place, item = list(spots(made))[number]
            put(node, name, place, copy.deepcopy(substitutes(node, name, item)[choice]))
            yield made
        if name in ("elts", "values", "args", "keys") and isinstance(getattr(node, name), list):
            yield without(tree, number)


def without(tree, number):
    """The tree without one item of a list of expressions; of a dictionary, without the pair."""
    made = copy.deepcopy(tree)
    node, name, place, _ = list(spots(made))[number]
    del getattr(node, name)[place]
    if isinstance(node, ast.Dict):
        del getattr(node, "keys" if name == "values" else "values")[place]
    return made


def smaller_cases(case):
    """Cases that are smaller by one step, the largest steps first."""
    count = len(case.records)
    for size in sorted({1, count // 2} - {0, count}):
        for start in range(0, count, size):
            yield case.but(records=case.records[start : start + size])
    for place in range(1, len(case.names)):
        names = case.names[:place] + case.names[place + 1 :]
        yield case.but(names=names, records=[row[:place] + row[place + 1 :] for row in case.records])
    for field in ("helpers", "handlers"):
        for place in range(len(getattr(case, field))):
            yield case.but(**{field: getattr(case, field)[:place] + getattr(case, field)[place + 1 :]})
    if case.is_shown:
        yield case.but(is_shown=False)
    for tree in smaller_trees(case.function):
        yield case.but(function=tree)
    for place, helper in enumerate(case.helpers):
        for tree in smaller_trees(helper):
            yield case.but(helpers=case.helpers[:place] + [tree] + case.helpers[place + 1 :])
    for row, record in enumerate(case.records):
        for place, cell in enumerate(record[1:], 1):
            for made in ["", "1", cell[:1], cell[: len(cell) // 2], cell[1:]]:
                if len(made) < len(cell):
                    changed = record[:place] + [made] + record[place + 1 :]
                    yield case.but(records=case.records[:row] + [changed] + case.records[row + 1 :])


def smallest(case, differs):
    """A case that no step makes smaller, or what the time allows."""
    ends = time.monotonic() + SECONDS
    is_smaller = True
    while is_smaller:
        is_smaller = False
        for made in smaller_cases(case):
            if time.monotonic() > ends:
                return case
            if differs(made):
                case, is_smaller = made, True
                break
    return case
