"""Writes the deepest lawful programs: 64 functions that call each other in a chain, each with a body of depth 64 in which one form nests,
and the final expression likewise. Where the text of a form is long, it nests less deep, so that the program keeps within 65,536 bytes.

Under a name `A_then_B` the form A nests around the form B. Each level of A adds steps to the plan before what stands in it does, so a
program may have only some of them before its network is too big, and then no deeper part of it would be translated; the levels of B add
none. Under a name with `_of_value` the first function holds the deepest value besides, which is copied. Under a name with `_of_input` the
program gives an input of the deepest type, and its input text stands behind it.

    dev deepest                 the names of the forms
    dev deepest FORM            the program of that form, and its input text if it has one
    dev deepest --answer FORM   what it prints: 0, true or 1, or its input, or `refused 9` where its network has more nodes than
                                a graph may have; then it was parsed, checked and translated to that point
"""

import resource

from common import Tally, asked, built, run

FUNCTIONS = 64
DEPTH = 64
LONGEST_TEXT = 65_536
MOST_STEPS = 4_096

# For each form: what the functions give, what stands before and behind what nests, for how many
# levels of depth that is, and what stands before and behind the whole body, for how many levels.
FORMS = {
    "group": ("int", ("(", ")", 1), ("", "", 0)),
    "binary_left": ("int", ("", "+x", 1), ("", "", 0)),
    "binary_right": ("int", ("0+(", ")", 2), ("", "", 0)),
    "prefix": ("int", ("-", "", 1), ("", "", 0)),
    "index": ("int", ("tab({0})!(", ")", 2), ("", "", 0)),
    "append": ("int", ("", "++{0}", 1), ("the({0:y in ", "|false}++{0})", 3)),
    "pair_first": ("int", ("(", ",x)", 1), ("length({", "})", 2)),
    "pair_second": ("int", ("(x,", ")", 1), ("length({", "})", 2)),
    "let_value": ("int", ("let y=", " in y", 1), ("", "", 0)),
    "let_body": ("int", ("let y=x in ", "", 1), ("", "", 0)),
    "if_condition": ("bool", ("if ", " then x else x", 1), ("", "", 0)),
    "if_branch": ("bool", ("if x then ", " else x", 1), ("", "", 0)),
    "literal": ("int", ("{", "}", 1), ("length(", ")", 1)),
    "filter_item": ("int", ("{", "|true}", 1), ("length(", ")", 1)),
    "filter_condition": ("bool", ("the({true|", "})", 2), ("", "", 0)),
    "each_body": ("int", ("{", ":y in{0}}", 1), ("length(", ")", 1)),
    "each_source": ("int", ("{0:y in ", "}", 1), ("length(", ")", 1)),
    "where_body": ("int", ("{", ":y in{0}|true}", 1), ("length(", ")", 1)),
    "where_condition": ("bool", ("the({true:y in{0}|", "})", 2), ("", "", 0)),
    "where_source": ("int", ("{0:y in ", "|true}", 1), ("length(", ")", 1)),
    "built_in": ("int", ("seq(tab(", "))", 2), ("length(", ")", 1)),
    "call": ("int", ("a(", ")", 1), ("", "", 0)),
}

# The forms whose innermost part is a sequence, and not a number.
OF_SEQUENCES = ("append", "each_source", "where_source", "built_in")

# The forms that are taken around another: how many steps a level of each adds before what stands in it does.
STEPS_BEFORE = {"literal": 3, "filter_item": 3, "where_body": 8}
THEN = "_then_"
# Those of them that take the most stack, as LLVM and as Rattle's own compiler builds them.
MIXED = (
    "literal_then_where_source",
    "literal_then_each_source",
    "literal_then_append",
    "filter_item_then_where_source",
    "where_body_then_where_source",
    "where_body_then_each_source",
)

# Of the forms that add no steps before what stands in them, those that take the most stack.
WITH_VALUE = ("each_source", "where_source")
VALUE = "_of_value"

# What stands before and behind each part of the deepest type, and of its value.
OF_INPUT = {
    "sequences_of_input": (("{", "}"), ("{", "}")),
    "vectors_of_input": (("[", "]"), ("[", "]")),
    "pairs_of_input": (("(", ",int)"), ("(", ",8)")),
}

# What a program of a form with a network that is not too big prints.
VALUES = dict.fromkeys(["group", "binary_left", "binary_right", "prefix", "let_value", "let_body", "call"], "0")
VALUES |= {"pair_first": "1", "pair_second": "1"}
TOO_BIG = "refused 9"
# How many KB of stack are to suffice for what a compiler builds.
BOUNDS = {"llvm": 4096, "rattle": 6144}
# Between these the least stack is looked for, to so many KB.
LEAST, MOST, STEP = 64, 65_536, 16


def names():
    """The names of all functions, none of which is a reserved word."""
    every = "abcdefghijklmnopqrstuvwxyzABCDEFGHIJKLMNOPQRSTUVWXYZ"
    return (list(every) + ["a" + letter for letter in every])[:FUNCTIONS]


def nested(form, inner, inner_depth, room, depth, most):
    """This form around this, at most so often, to at most this depth and in at most `room` bytes; and its depth."""
    _, (before, behind, levels), (first, last, outer) = FORMS[form]
    if form in OF_SEQUENCES:
        inner, inner_depth = "{" + inner + "}", inner_depth + 1
    # A sequence that is written beside the innermost part is two levels deep itself.
    inner_depth = max(inner_depth, 2)
    many = (room - len(first + inner + last)) // len(before + behind)
    many = min(most, (depth - inner_depth - outer) // levels, many)
    whole = first + before * many + inner + behind * many + last
    return whole, inner_depth + many * levels + outer


def body(form, inner, inner_depth, room, depth=DEPTH):
    """A body of this depth around this, in at most `room` bytes."""
    outer, then, form = form.rpartition(THEN)
    if not then:
        return nested(form, inner, inner_depth, room, depth, depth)[0]
    # Each call has an argument, which is a step too.
    most = (MOST_STEPS // (FUNCTIONS + 1) - 1) // STEPS_BEFORE[outer]
    _, (before, behind, levels), (first, last, around) = FORMS[outer]
    room, depth = room - len(before + behind) * most - len(first + last), depth - levels * most - around
    inner, inner_depth = nested(form, inner, inner_depth, room, depth, depth)
    return nested(outer, inner, inner_depth, LONGEST_TEXT, DEPTH, most)[0]


def deepest_value():
    """An expression of depth 64 that copies a value of 126 pairs in each other, of which each part adds no step. Its own value is 1."""
    text, name = "", "x"
    for larger, many in zip("pqr", (58, 58, 10)):
        text += f"let {larger}={'(' * many}{name}{',x)' * many} in "
        name = larger
    return text + "length({r})"


def around(text, sides):
    """This text in 63 brackets, as many as a type and a value of it may have."""
    before, behind = sides
    return before * (DEPTH - 1) + text + behind * (DEPTH - 1)


def program(named):
    if named in OF_INPUT:
        of_type, of_value = OF_INPUT[named]
        return f"input x : {around('int', of_type)}; x\n---\nx = {around('7', of_value)}\n"
    form = named.removesuffix(VALUE)
    outer, then, _ = form.partition(THEN)
    kind = FORMS[outer][0]
    start = "0" if kind == "int" else "true"
    # A name that went into each level would add steps to it.
    argument = start if then else "x"
    all_names = names()
    first = "x" if form == "call" else deepest_value() if named != form else ""
    lines = [f"function a(x:{kind}):{kind}={first};"] if first else []
    chain = all_names[1:] if first else all_names
    room = LONGEST_TEXT // (len(chain) + 1) - len(f"function aa(x:{kind}):{kind}=;\n")
    inner, depth = (argument, 1) if form == named else (f"a({argument})", 2)
    for name in chain:
        lines.append(f"function {name}(x:{kind}):{kind}={body(form, inner, depth, room)};")
        inner, depth = f"{name}({argument})", 2
    last = body(form, f"{chain[-1]}({argument})", 2, room, DEPTH - 1)
    lines.append(f"let x={start} in {last}")
    return "\n".join(lines) + "\n"


def names_of_forms():
    return [*FORMS, *MIXED, *(form + VALUE for form in WITH_VALUE), *OF_INPUT]


def answer(named):
    return around("7", OF_INPUT[named][1]) if named in OF_INPUT else VALUES.get(named, TOO_BIG)


def main():
    wish = asked(__doc__, "FORM", "?", answer=False)
    if not wish.rest:
        print(*names_of_forms(), sep="\n")
    else:
        print(f"{answer(wish.rest)}\n" if wish.answer else program(wish.rest), end="")


def fits(snesl, form, kilobytes):
    """Whether the program prints the answer of a form within so much stack; the status of a refusal is 1."""
    limits = {resource.RLIMIT_STACK: kilobytes * 1024, resource.RLIMIT_CORE: 0}
    limit = lambda: [resource.setrlimit(kind, (size, size)) for kind, size in limits.items()]
    ran = run([snesl, "--drive", "serial"], program(form).encode(), preexec_fn=limit)
    return ran.printed == f"{answer(form)}\n".encode() and ran.status in (0, 1)


def least(snesl, form):
    low, high = LEAST, MOST
    while high - low > STEP:
        middle = (low + high) // 2
        low, high = (low, middle) if fits(snesl, form, middle) else (middle, high)
    return high


def stack():
    """Runs the deepest lawful programs and input texts (`deepest`) within half of the 8 MB of stack that a thread has by default, in the
    program as LLVM builds it, and within 6 MB as Rattle's own compiler does: that one keeps no function apart whose attribute asks for it,
    so a step of the translation takes more. With --measure it prints the least stack, in KB, that the program of each form runs with."""
    measure, tally = asked(stack.__doc__, measure=False).measure, Tally("stack")
    programs = built("snesl")
    for form in names_of_forms():
        for compiler, bound in BOUNDS.items():
            snesl = programs[compiler]["snesl"]
            if measure:
                print(f"{compiler:<6} {form:<34} {answer(form):<9.9} {least(snesl, form):6d} KB", flush=True)
            else:
                tally.that(fits(snesl, form, bound), f"{form}, built by {compiler}, does not print {answer(form)} within {bound} KB")
    return 0 if measure else tally.end()
