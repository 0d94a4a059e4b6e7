"""The words of the kit's library that the definitions use, each with the number of its arguments. What they mean is trusted."""

from .values import Built, dropped, integer, integer_of, plain, taken

NONE = Built("None")


def some(value):
    return Built("Some", (value,))


def prefix_length(test, items):
    """How many pass the test from the front on."""
    count = 0
    for item in items:
        if not test(item):
            break
        count += 1
    return count


def truncated(left, right):
    """The quotient of integers, towards zero."""
    quotient = abs(left) // abs(right)
    return quotient if (left < 0) == (right < 0) else -quotient


def folded(step, start, items):
    """A list folded from the left."""
    for item in items:
        start = step(start)(item)
    return start


def digits(number):
    """The decimal digits of a number, or of an integer with its minus."""
    return tuple(str(number).encode())


def at_or(items, at, default):
    """The item at a place, or a default."""
    return items[at] if at < len(items) else default


def digit_value(letter):
    """What a digit of base 36 counts."""
    return int(chr(letter), 36)


def digits_value(base, letters):
    """The number that digits write."""
    return folded(lambda a: lambda letter: a * base + digit_value(letter), 0, letters)


CONSTANTS = {"zero": 0, "true": True, "false": False, "[]": ()}
CONSTRUCTORS = {"Some", "Ok", "Err", "pos", "negsuc", "None", "tt", "refl"}
OPERATORS = {
    "∷": lambda head, rest: (head,) + rest, "++": lambda left, right: left + right,
    "+": lambda left, right: left + right, "-": lambda left, right: max(0, left - right),
    "*": lambda left, right: left * right, "/": lambda left, right: left // right if right else 0,
    "%": lambda left, right: left % right if right else left, "^": lambda left, right: left ** right,
    "==": lambda left, right: left == right,
    "+ℤ": lambda left, right: integer(integer_of(left) + integer_of(right)),
    "-ℤ": lambda left, right: integer(integer_of(left) - integer_of(right)),
    "*ℤ": lambda left, right: integer(integer_of(left) * integer_of(right)),
}
FUNCTIONS = {
    "suc": (1, lambda n: n + 1), "pred": (1, lambda n: max(0, n - 1)), "not": (1, lambda b: not b), "length": (1, len),
    "min": (2, min), "max": (2, max), "nat_le": (2, lambda a, b: a <= b), "nat_lt": (2, lambda a, b: a < b),
    "nat_eq": (2, lambda a, b: a == b), "ltb": (2, lambda a, b: a < b), "eqb": (2, lambda a, b: a == b),
    "cond": (3, lambda c, a, b: a if c else b), "map": (2, lambda f, xs: tuple([f(x) for x in xs])),
    "take": (2, lambda n, xs: taken(xs, n)), "drop": (2, lambda n, xs: dropped(xs, n)), "replicate": (2, lambda n, x: (x,) * n),
    "reverse": (1, lambda xs: plain(xs)[::-1]), "fold": (3, folded),
    "flat_map": (2, lambda f, xs: tuple([one for x in xs for one in f(x)])),
    "slice_get": (2, lambda xs, i: some(xs[i]) if i < len(xs) else NONE), "slice_index_or": (3, at_or),
    "slice_index": (2, lambda xs, i: at_or(xs, i, 0)),
    "slice_set": (3, lambda xs, i, x: taken(xs, i) + (x,) + plain(dropped(xs, i + 1)) if i < len(xs) else xs),
    "list_all": (2, lambda p, xs: all(p(x) for x in xs)), "list_any": (2, lambda p, xs: any(p(x) for x in xs)),
    "filter": (2, lambda p, xs: tuple([x for x in xs if p(x)])),
    "filter_map": (2, lambda f, xs: tuple([o.given[0] for o in map(f, xs) if o.tag == "Some"])),
    "take_while": (2, lambda p, xs: taken(xs, prefix_length(p, xs))), "prefix_len": (2, prefix_length),
    "position_or_len": (2, lambda p, xs: prefix_length(lambda x: not p(x), xs)),
    "count_by": (2, lambda p, xs: sum(1 for x in xs if p(x))),
    "bytes_eq": (2, lambda a, b: plain(a) == plain(b)), "codes": (1, lambda text: text),
    "decimal": (1, digits), "signed_decimal": (1, lambda i: digits(integer_of(i))),
    "is_ascii_digit": (1, lambda c: 48 <= c <= 57), "is_ascii_alphabetic": (1, lambda c: 65 <= c <= 90 or 97 <= c <= 122),
    "without_leading_plus": (1, lambda text: dropped(text, 1) if text[:1] == (43,) else text),
    "digit_value": (1, digit_value), "digits_value": (2, digits_value),
    "range_with_len": (2, lambda a, n: tuple(range(a, a + n))), "zip": (2, lambda a, b: tuple(zip(a, b))),
    "neg_ℤ": (1, lambda i: integer(-integer_of(i))), "int_lt": (2, lambda a, b: integer_of(a) < integer_of(b)),
    "int_le": (2, lambda a, b: integer_of(a) <= integer_of(b)),
    "int_div": (2, lambda a, b: integer(truncated(integer_of(a), integer_of(b)))),
    "int_rem": (2, lambda a, b: integer(integer_of(a) - integer_of(b) * truncated(integer_of(a), integer_of(b)))),
    "option_map": (2, lambda f, o: some(f(o.given[0])) if o.tag == "Some" else NONE),
    "option_and_then": (2, lambda f, o: f(o.given[0]) if o.tag == "Some" else NONE),
    "option_to_list": (1, lambda o: o.given), "unwrap_or": (2, lambda o, d: o.given[0] if o.tag == "Some" else d),
    "is_some": (1, lambda o: o.tag == "Some"), "result_ok": (1, lambda r: some(r.given[0]) if r.tag == "Ok" else NONE),
    "last_or": (2, lambda o, xs: some(plain(xs)[-1]) if len(xs) else o), "sum": (1, sum),
    "sum_by": (2, lambda f, xs: sum(f(x) for x in xs)),
    "before_first": (2, lambda p, xs: taken(xs, prefix_length(lambda x: not p(x), xs))),
}
for _operator, _meaning in OPERATORS.items():
    FUNCTIONS[f"◌{_operator}◌"] = (2, _meaning)
TYPES = ("Unit", "⊥", "⊤", "¬", "Type", "ℕ", "ℤ", "Bool", "List", "Option", "Result")
FUNCTIONS["◌&&◌"] = (2, lambda a, b: a and b)
FUNCTIONS["◌||◌"] = (2, lambda a, b: a or b)
# How a word is called in the functions of Python.
WORDS = {word: f"w{number}" for number, word in enumerate(FUNCTIONS)}
