"""What Python gives of a function: CPython runs it as it is written, and once more with the rules of the language."""
import ast
import functools
import warnings

from rules import RUN, SetAside, checked, words_of_rules

warnings.simplefilter("ignore", SyntaxWarning)
RAISED = (AttributeError, IndexError, KeyError, TypeError, UnboundLocalError, ValueError, ZeroDivisionError, OverflowError)
FREE_NAME = "no value for a name in a comprehension"
PARENTS = {"OverflowError": "ArithmeticError", "ZeroDivisionError": "ArithmeticError", "IndexError": "LookupError"}
PARENTS |= {"KeyError": "LookupError", "UnboundLocalError": "NameError"}


class Raised(Exception):
    """An answer that is a class."""

    def __init__(self, word):
        super().__init__(word)
        self.word = word


def catches(word, raised):
    return word in ("Exception", raised, PARENTS.get(raised))


def same(a, b):
    """Whether two values are of one kind and equal, down to their parts; `True` is not `1` here."""
    return repr(a) == repr(b)


def class_of(error):
    """The class of an error, and the rule that gives it. CPython 3.11 runs a comprehension as a function of its own."""
    if isinstance(error, SetAside):
        return error.word, error.rule
    if type(error) is NameError:
        return "UnboundLocalError", FREE_NAME
    if isinstance(error, RAISED):
        return type(error).__name__, None
    raise error


@functools.lru_cache(maxsize=100)
def codes(text, mode):
    """The code of a function as it is written, and of the checked one."""
    tree = ast.parse(text, mode=mode)
    return compile(text, "<function>", mode), compile(checked(tree), "<function>", mode)


class Functions:
    """The functions of a script, plain and checked, by the texts that the script has of them."""

    def __init__(self, defs):
        RUN.begin_script()
        self.plain, self.checked = {}, words_of_rules()
        for text in defs:
            plain, checked_code = codes(text, "exec")
            exec(plain, self.plain)
            exec(checked_code, self.checked)
        self.pairs = {}

    def pair(self, text):
        """The plain and the checked function of a def's name or of a lambda."""
        if text not in self.pairs:
            plain, checked_code = codes(text, "eval")
            self.pairs[text] = eval(plain, self.plain), eval(checked_code, self.checked)
        return self.pairs[text]

    def call(self, text, arguments):
        """The value or the class, and the rule that gave it, or none: then it is what plain CPython gives."""
        plain, checked_function = self.pair(text)
        RUN.begin()
        answer, rule = answer_of(checked_function, arguments)
        if rule is None and not same(answer, answer_of(plain, arguments)[0]):
            raise AssertionError(f"a rule changes an answer that it should leave alone: {text} of {arguments}")
        return answer, rule


def answer_of(function, arguments):
    try:
        return function(*arguments), None
    except Exception as error:
        word, rule = class_of(error)
        return Raised(word), rule


def printed(value):
    """The text of a cell; a container has none."""
    if isinstance(value, (tuple, list, dict)):
        return None
    return "" if value is None else str(value)
