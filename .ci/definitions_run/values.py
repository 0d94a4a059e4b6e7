"""Values: numbers and truth values of Python, tuples for lists and pairs, dictionaries for records, and `Built`."""


class Built:
    """A constructor with its arguments. Its tag is the constructor's name with that of its module."""

    __slots__ = ("tag", "given", "hashed")

    def __init__(self, tag, given=()):
        self.tag, self.given, self.hashed = tag, given, None

    def __call__(self, argument):
        return Built(self.tag, self.given + (argument,))

    def __eq__(self, other):
        return isinstance(other, Built) and self.tag == other.tag and self.given == other.given

    def __hash__(self):
        if self.hashed is None:
            self.hashed = hash((self.tag, tuple(key_of(one) for one in self.given)))
        return self.hashed

    def __repr__(self):
        return "(" + " ".join([self.name, *map(repr, self.given)]) + ")"

    @property
    def name(self):
        return self.tag.rsplit(".", 1)[-1] if isinstance(self.tag, str) else self.tag[-1]


def key_of(value):
    """A value as a key: records and lists too. A function is its own key."""
    if isinstance(value, dict):
        return tuple((name, key_of(one)) for name, one in sorted(value.items()))
    if isinstance(value, (tuple, Rest)):
        return tuple([key_of(one) for one in value])
    return value


class Claim:
    """A claim of two parts, by its operator. The parts of `×`, `⊎`, `→` and `↔` are computed when they are asked for."""

    __slots__ = ("operator", "left", "right")

    def __init__(self, operator, left, right):
        self.operator, self.left, self.right = operator, left, right


class Opaque:
    """A type, of which nothing is computed: whatever it is given to, it stays a type."""

    def __call__(self, _):
        return self

    def __repr__(self):
        return "TYPE"


TYPE = Opaque()
LONG = 200


class Rest:
    """The rest of a long list, which shares its items. Short lists are tuples."""

    __slots__ = ("items", "start")

    def __init__(self, items, start):
        self.items, self.start = items, start

    def __len__(self):
        return len(self.items) - self.start

    def __iter__(self):
        items = self.items
        for at in range(self.start, len(items)):
            yield items[at]

    def __getitem__(self, at):
        if isinstance(at, slice):
            start, stop, step = at.indices(len(self))
            return self.items[self.start + start:self.start + stop:step]
        if at < 0:
            raise IndexError(at)
        return self.items[self.start + at]

    def __add__(self, other):
        return plain(self) + plain(other)

    def __radd__(self, other):
        return plain(other) + plain(self)

    def __eq__(self, other):
        return plain(self) == plain(other)

    def __hash__(self):
        return hash(plain(self))


def plain(items):
    """A list as a tuple."""
    return items.items[items.start:] if type(items) is Rest else tuple(items)


def dropped(items, count):
    if type(items) is Rest:
        start = min(items.start + count, len(items.items))
        return Rest(items.items, start) if len(items.items) - start > LONG else items.items[start:]
    if len(items) - count > LONG:
        return Rest(items, count)
    return items[count:]


def taken(items, count):
    if type(items) is Rest:
        return items.items[items.start:items.start + count]
    return items[:count]


def parted(items):
    """A list as items and the place where it begins among them."""
    return (items.items, items.start) if type(items) is Rest else (items, 0)


def waiting(function, count, given=()):
    """A function of so many arguments, some of which are given, as one that takes the others one by one."""
    if count - len(given) == 1:
        return lambda last: function(*given, last)
    return lambda argument: waiting(function, count, given + (argument,))


def shared(compute):
    """A value that is computed where it is first asked for, and then kept."""
    kept = []

    def value():
        if not kept:
            kept.append(compute())
        return kept[0]

    return value


def integer_of(built):
    """The integer of `pos n` or `negsuc n`."""
    return built.given[0] if built.tag == "pos" else -built.given[0] - 1


def integer(number):
    """An integer as `pos n` or `negsuc n`."""
    return Built("pos", (number,)) if number >= 0 else Built("negsuc", (-number - 1,))
