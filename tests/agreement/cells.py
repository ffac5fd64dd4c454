"""Random cells, the fields that they stand in, and the cell rule of docs/PIPELINES.md."""
import re

LEAST, GREATEST = -(2**127), 2**127 - 1
INTEGER = re.compile(r"0|-?[1-9][0-9]*")
# Powers of two near which widths end.
EDGES = [2**31, 2**63, 2**64, 2**126, 2**127]
WORDS = ["abc", "Ab", "b", "aba", "x y", " lead", "trail ", "a,b", "a b  c", "A", "Zz", "aa", "None", "-", "a-b-c", "Hello World"]
WORDS += ["'q'", '"']
NUMERALS = ["12", "-5", "+7", "007", "-0", "1_000", " 42 ", "3.5", "1e3", "0x1f", "--1", "1__0", "\t8\n", "", "12a"]
NUMERALS += ["9" * 40, "1" * 39]
ODD = ["ß", "Ÿ", "ÿ", "µ", "é", "É", "Ω", "日本", "\u2003x\u2003", "١٢", "²", "\x1c7", "\x85a\x85", "\xa09", "😀b", "a\nb"]
ODD += ["a\r\nb", "\t", "\\", "true"]
LETTERS = "aabbcABC  01,.-_'\"\né"
COLUMNS = {"i": "int", "j": "int", "s": "text", "t": "text", "d": "numeral", "b": "bool", "m": "any", "a b": "int"}


def whole(source):
    """An integer: mostly small, and else near an end of some width."""
    if source.random() < 0.85:
        return source.randint(-12, 40)
    near = source.choice(EDGES) + source.randint(-2, 2)
    return max(LEAST, min(GREATEST, source.choice([near, -near, near // 3, source.randrange(10**12)])))


def words(source):
    """A text."""
    roll = source.random()
    if roll < 0.5:
        return source.choice(WORDS)
    if roll < 0.58:
        return source.choice(ODD)
    return "".join(source.choice(LETTERS) for _ in range(source.randrange(1, 9)))


def numeral(source):
    return str(whole(source)) if source.random() < 0.6 else source.choice(NUMERALS)


def any_cell(source):
    kind = source.choice(["int", "text", "numeral", "bool", "none"])
    return "" if kind == "none" else cell(source, kind, 0)


def cell(source, kind, noise):
    """The text of a cell of a column; of another kind than the column's at the rate of the noise."""
    if kind == "any" or source.random() < noise:
        return any_cell(source)
    if kind == "int":
        return str(whole(source))
    if kind == "bool":
        return source.choice(["True", "False"])
    return (words if kind == "text" else numeral)(source)


def records(source, count):
    """Records of texts: their number, and a cell for each column."""
    noise = source.choice([0, 0, 0.02, 0.1])
    return [[str(number), *(cell(source, kind, noise) for kind in COLUMNS.values())] for number in range(1, count + 1)]


def value_of(text):
    """The cell rule."""
    if text == "":
        return None
    if text in ("True", "False"):
        return text == "True"
    if INTEGER.fullmatch(text) and LEAST <= int(text) <= GREATEST:
        return int(text)
    return text


def field(text, is_quoted):
    """A field of a file; quotes stand where they must, and where asked for."""
    if is_quoted or any(character in ',"\r\n' for character in text):
        return '"' + text.replace('"', '""') + '"'
    return text


def file_text(names, rows, source):
    lines = [",".join(field(name, False) for name in names)]
    lines += [",".join(field(text, source.random() < 0.05) for text in row) for row in rows]
    return "\n".join(lines) + "\n"
