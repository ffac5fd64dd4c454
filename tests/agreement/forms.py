"""The forms of expressions, by the kind of their value.

A kind is a word, or a word with the kinds of parts, as `list[int]`, `pair[text,bool]` or `dict[int,list[text]]`; a `pair` is a
tuple of two, a `tuple` one of any length. A hole in braces wants an expression of its kind. K, A and B are the kinds of the
parts of the kind that is made; E is any kind, Q that of a key, O one that has an order, L a literal, chosen once a form.
"""
import re

SCALARS = ["int", "int", "text", "text", "bool", "none"]
KEYS = ["int", "text", "bool", "pair[int,text]"]
ORDERED = ["int", "text", "bool", "list[int]", "pair[int,text]", "tuple[text]"]
CONTAINERS = ["list[int]", "list[text]", "list[pair[int,text]]", "list[list[int]]", "tuple[int]", "tuple[bool]"]
CONTAINERS += ["pair[int,text]", "pair[list[text],bool]", "dict[text,int]", "dict[int,text]", "dict[int,list[int]]"]
KINDS = SCALARS * 3 + CONTAINERS

# Forms of a value of any kind K.
ANY = """
    {K} if {bool} else {K}
    {list[K]}[{index}]
    {tuple[K]}[{index}]
    {pair[K,E]}[0]
    {pair[E,K]}[-1]
    {dict[Q,K]}[{Q}]
    {{L: {K}, {Q}: {K}}}[L]
    {{{Q}: {K}, L: {K}}}.get(L)
    {dict[Q,K]}.get({Q}, {K})
    {K} or {K}
    {K} and {K}
    {K} if {K} is not None else {K}
"""
# Forms of a text, a tuple or a list of the kind S.
SEQUENCE = """
    {S} + {S}
    {S} + {S}
    {S} * {small}
    {small} * {S}
    {S}[{bound}:{bound}]
    {S}[:{bound}]
    {S}[{bound}:]
    {S}[:]
"""
FORMS = {
    "int": """
        {int} + {int}
        {int} + {int}
        {int} - {int}
        {int} - {int}
        {int} * {small}
        {int} * {int}
        {int} // {int}
        {int} % {int}
        -{int}
        +{int}
        abs({int})
        len({text})
        len({list[E]})
        len({tuple[E]})
        len({dict[Q,E]})
        int({digits})
        int({digits})
        int({bool})
        int({int})
        min({int}, {int})
        max({int}, {int}, {int})
        min({list[int]})
        max({tuple[int]})
        sum({list[int]})
        sum({tuple[bool]})
        sum({dict[int,E]})
        ord({char})
        {text}.find({part})
        {text}.rfind({part})
        {text}.index({part})
        {text}.count({part})
        {list[E]}.count({E})
        {list[E]}.index({E})
        {tuple[E]}.count({E})
        {tuple[E]}.index({E})
        {bool} + {bool}
    """,
    "bool": """
        {E} == {E}
        {E} == {E}
        {E} != {E}
        {O} < {O}
        {O} <= {O}
        {O} > {O}
        {O} >= {O}
        {E} in {list[E]}
        {E} not in {tuple[E]}
        {part} in {text}
        {part} not in {text}
        {Q} in {dict[Q,E]}
        {E} is None
        {E} is not None
        not {E}
        {O} < {O} <= {O}
        {E} == {E} != {E}
        {O} > {O} in {list[O]}
        bool({E})
        any({list[E]})
        all({tuple[E]})
        any({text})
        all({dict[Q,E]})
        {text}.startswith({part})
        {text}.endswith({part})
        {text}.startswith({tuple[text]})
        {text}.endswith({tuple[text]})
        {numeral}.isdigit()
        {text}.isdigit()
        {bool} and {bool}
        {bool} or {bool} and {bool}
        {int} == {bool}
        {bool} < {int}
        {tuple[O]} == {list[O]}
        {text} != {E}
    """,
    "text": """
        {text}.lower()
        {text}.upper()
        {text}.strip()
        {text}.strip({part})
        {text}.lstrip()
        {text}.lstrip({part})
        {text}.rstrip()
        {text}.rstrip({part})
        {text}.strip(None)
        {text}.replace({part}, {part})
        {text}.replace({part}, {text})
        str({int}).zfill({small})
        {text}.zfill({int} % 9)
        {part}.join({list[text]})
        {part}.join({tuple[text]})
        {part}.join({text})
        {part}.join({dict[text,E]})
        str({int})
        str({bool})
        str({text})
        str({none})
        {text}[{index}]
        {text}[{index}]
        min({list[text]})
        max({text}, {text})
        max({text})
    """,
    "none": """
        None
        {dict[Q,E]}.get({Q})
    """,
    "list": """
        [{K}, {K}]
        [{K}, {K}, {K}]
        [{K}]
        list({tuple[K]})
        list({dict[K,E]})
        {comprehension}
        {comprehension}
        {comprehension}
    """,
    "tuple": """
        ({K}, {K})
        ({K}, {K}, {K})
        ({K},)
        ()
        tuple({list[K]})
        tuple({dict[K,E]})
    """,
    "pair": "({A}, {B})",
    "dict": """
        {{{A}: {B}}}
        {{{A}: {B}, {A}: {B}}}
        {{{A}: {B}, {A}: {B}, {A}: {B}}}
        {{1: {B}, True: {B}, {A}: {B}}}
        {{}}
    """,
    # Kinds of holes alone: what is mostly a good index, factor or part.
    "index": """
        0
        0
        0
        -1
        -1
        {place}
        {int} % 2
        {int}
        len({text}) - 1
    """,
    "bound": """
        {place}
        {place}
        {int}
        None
        len({text})
        {bool}
    """,
    "small": """
        {place}
        {int} % 4
        {bool}
        len({text}) % 5
    """,
    "char": """
        {text}[{index}]
        {text}[{place}]
        {letter}
    """,
    "part": """
        {letter}
        {letter}
        {text}
    """,
    "digits": """
        {numeral}
        {numeral}
        str({int})
        {text}
        str({int}) + {letter}
    """,
}
OF_LISTS = {"list[text]": ["{text}.split()", "{text}.split({part})", "list({text})"], "tuple[text]": ["tuple({text})"]}

# Forms that mostly meet a rule of the language's own.
RULED = {
    "int": """
        int({odd})
        len({dict[Q,E]}[{bound}:{bound}])
        {edge} + {edge}
        -{edge} - {edge}
        {edge} * {int}
        -(-{edge} - 1)
        abs(-{edge} - 1)
        (-{edge} - 1) // -1
        (-{edge} - 1) % -1
        sum([{edge}, {int}, -{edge}])
        int(str({edge}) + {numeral})
    """,
    "bool": "{odd}.isdigit()",
    "text": """
        str({list[E]})
        str({dict[Q,E]})
        {text} % {E}
        {odd}.lower()
        {odd}.upper()
        ({text} + {odd}).upper()
    """,
}
# Functions that come near the limits of values, or past them. Each takes one text.
LIMITS = [
    'def f(t):\n    return len("ab" * {524287 524288 524289})',
    "def f(t):\n    return len([0] * {1048575 1048576 1048577})",
    "def f(t):\n    return len((t, t) * {100000 524288})",
    "def f(t):\n    return len((t + 'ab') * {262144 400000 -1})",
    "def f(t):\n    v = t\n    for k in range({14 15 16 17 18}):\n        v = (v,)\n    return len(v)",
    "def f(t):\n    v = []\n    for k in range({13 14 15 16}):\n        v = {{k: [v]}} if k % 2 else [k, v]\n    return len(v)",
    "def f(t):\n    v = t\n    for k in range({13 14 15 16 17}):\n        v = [v for w in (1,)]\n    return len(v)",
    "def f(t):\n    v = 'x' + t\n    for k in range({17 18 19 20 21}):\n        v += v\n    return len(v)",
    "def f(t):\n    for k in range({1048576 1048577}):\n        if k == 2:\n            return k",
    "def f(t):\n    for k in range(0, -{1048576 1048577} * 3, -3):\n        break\n    return t",
    "def f(t):\n    for k in range(int(t), int(t) * {2 9223372036854775807}, 1000000):\n        break\n    return k",
    "def f(t):\n    return len(t.zfill({1048576 1048577 9223372036854775808 -9223372036854775809}))",
    'def f(t):\n    return len(("a" * 1000 + t).join(["b"] * {1000 1048 1049}))',
    'def f(t):\n    return len(("a" * 1000).replace("a", "b" * {1000 1048 1049} + t))',
    'def f(t):\n    return len(list("a" * {52428 524288 524289}))',
    'def f(t):\n    return len(("a " * {26214 349525 349526}).split())',
    'def f(t):\n    return [("ab" * 1000, w) for w in "a" * {500 523 524}][-1][1] + t',
    'def f(t):\n    v = {{1: "a" * {1048574 1048575}}}\n    return len(v) if t else v[1][5:7]',
    'def f(t):\n    for k, v in enumerate(("a" * {1048573 1048574},)):\n        return k',
    'def f(t):\n    return t * {4611686018427387904 9223372036854775808 -9223372036854775809}',
]


def parts(kind):
    """The kinds of the parts of a kind."""
    found, level, start = [], 0, kind.find("[") + 1
    if start == 0:
        return []
    for place in range(start, len(kind)):
        if (kind[place] == "," and level == 0) or place == len(kind) - 1:
            found.append(kind[start:place])
            start = place + 1
        level += {"[": 1, "]": -1}.get(kind[place], 0)
    return found


def lines(text):
    return [line.strip() for line in text.strip().splitlines()]


def forms_of(kind):
    """The forms of a kind of its own; those of any kind are `ANY`."""
    head = kind.split("[")[0]
    found = lines(FORMS[head]) + OF_LISTS.get(kind, [])
    if head in ("text", "tuple", "list"):
        found += [form.replace("{S}", "{" + kind + "}") for form in lines(SEQUENCE)]
    return found


def with_parts(form, kinds):
    """The form, with kinds in place of the letters that stand for them."""
    form = re.sub(r"\bL\b", lambda _: kinds["L"], form)
    return re.sub(r"(?<=[\[{,])[KABEQO](?=[\]},])", lambda met: kinds[met.group()], form)


def filled(form, fill):
    """The form with a text in brackets in each hole; `fill` gives it for a kind."""

    def put(met):
        mark = met.group()
        return mark[0] if mark in ("{{", "}}") else f"({fill(met.group(1))})"

    return re.sub(r"\{\{|\}\}|\{([^{}]*)\}", put, form)
