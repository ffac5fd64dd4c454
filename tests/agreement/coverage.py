"""Which forms of the language a function has, and which a whole run must have met."""
import ast

METHODS = "lower upper strip lstrip rstrip split replace find rfind index count startswith endswith".split()
METHODS += "join zfill isdigit get".split()
BUILTINS = "len int str bool abs min max sum any all ord list tuple".split()
VIEWS = ["items", "keys", "values"]
OPERATORS = "Add Sub Mult FloorDiv Mod USub UAdd Not And Or Eq NotEq Lt LtE Gt GtE In NotIn Is IsNot".split()
STATEMENTS = "Assign If For Break Continue Return Pass Expr".split()

REQUIRED = {f".{name}()" for name in METHODS + VIEWS} | {f"{name}()" for name in BUILTINS} | set(OPERATORS) | set(STATEMENTS)
REQUIRED |= {"range of 1", "range of 2", "range of 3", "enumerate of 1", "zip of 2", "get of 1", "get of 2", "split of 0"}
REQUIRED |= {"split of 1", "strip of 0", "strip of 1", "min of 1", "min of 2", "max of 1", "max of 2", "max of 3"}
REQUIRED |= {"[:]", "[i:]", "[:j]", "[i:j]", "[i]", 'x["c"]', "chain", "IfExp", "call of a def", "lambda", "def"}
REQUIRED |= {"Tuple", "List", "Dict", "empty Tuple", "empty List", "empty Dict", "None", "True", "False", "a text", "an integer"}
REQUIRED |= {"ListComp", "ListComp with a condition", "ListComp in a ListComp", "ListComp with names"}
REQUIRED |= {"Add=", "Sub=", "Mult=", "FloorDiv=", "Mod=", "Assign of names", "elif", "else", "For with names", "For in a For"}
REQUIRED |= {"Return in a For", "Return of nothing", "no Return at the end"}

RULES = {"128 bits", "weight", "depth", "items of a range", "op= of a list", "% of a text", "slice of a dictionary"}
RULES |= {"str of a container", "characters that int leaves out", "case of characters above U+00FF"}
RULES |= {"isdigit of characters above ASCII", "no value for a name in a comprehension"}


def inside(node, kind):
    """The nodes of a kind below a node."""
    return [found for found in ast.walk(node) if found is not node and isinstance(found, kind)]


def form_of_slice(node):
    return f"[{'i' * bool(node.lower)}:{'j' * bool(node.upper)}]"


def call_forms(node, known):
    if isinstance(node.func, ast.Attribute):
        return {f".{node.func.attr}()", f"{node.func.attr} of {len(node.args)}"}
    name = "call of a def" if node.func.id in known else node.func.id + "()"
    return {name, f"{node.func.id} of {len(node.args)}"}


def loop_forms(node):
    found = {"For with names"} if isinstance(node.target, ast.Tuple) else set()
    found |= {"For in a For"} if inside(node, ast.For) else set()
    return found | ({"Return in a For"} if inside(node, ast.Return) else set())


def comprehension_forms(node):
    [part] = node.generators
    found = {"ListComp with a condition"} if part.ifs else set()
    found |= {"ListComp with names"} if isinstance(part.target, ast.Tuple) else set()
    return found | ({"ListComp in a ListComp"} if inside(node, ast.ListComp) else set())


def branch_forms(node):
    if not node.orelse:
        return set()
    return {"elif"} if isinstance(node.orelse[0], ast.If) else {"else"}


def constant_forms(node):
    if node.value is None or isinstance(node.value, bool):
        return {str(node.value)}
    return {"a text" if isinstance(node.value, str) else "an integer"}


def definition_forms(node):
    return {"def"} if isinstance(node.body[-1], ast.Return) else {"def", "no Return at the end"}


def subscript_forms(node):
    if isinstance(node.slice, ast.Slice):
        return {form_of_slice(node.slice)}
    is_column = isinstance(node.value, ast.Name) and isinstance(node.slice, ast.Constant) and isinstance(node.slice.value, str)
    return {'x["c"]'} if is_column else {"[i]"}


def display_forms(node):
    name = type(node).__name__
    return set() if getattr(node, "elts", getattr(node, "keys", None)) else {"empty " + name}


def forms_of(node, known):
    """The forms of one node."""
    more = {
        ast.Call: lambda: call_forms(node, known),
        ast.For: lambda: loop_forms(node),
        ast.ListComp: lambda: comprehension_forms(node),
        ast.If: lambda: branch_forms(node),
        ast.Constant: lambda: constant_forms(node),
        ast.FunctionDef: lambda: definition_forms(node),
        ast.Subscript: lambda: subscript_forms(node),
        ast.Tuple: lambda: display_forms(node),
        ast.List: lambda: display_forms(node),
        ast.Dict: lambda: display_forms(node),
        ast.Lambda: lambda: {"lambda"},
        ast.AugAssign: lambda: {type(node.op).__name__ + "="},
        ast.Return: lambda: set() if node.value else {"Return of nothing"},
        ast.Compare: lambda: {"chain"} if len(node.ops) > 1 else set(),
        ast.Assign: lambda: {"Assign of names"} if isinstance(node.targets[0], ast.Tuple) else set(),
    }
    return {type(node).__name__} | more.get(type(node), set)()


def forms(trees):
    """The forms that the functions have."""
    known = {tree.name for tree in trees if isinstance(tree, ast.FunctionDef)}
    return {form for tree in trees for node in ast.walk(tree) for form in forms_of(node, known)}
