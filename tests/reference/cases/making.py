"""How cases are made. A case is (numbers, strings, due): due is the refusal number that the maker expects, or None where it expects none in
particular. The reference must agree with it."""
from itertools import combinations


def flipped(data, bit):
    """One bit of the data changed; bit 0 is the lowest of the first byte."""
    changed = bytearray(data)
    changed[bit // 8] ^= 1 << bit % 8
    return bytes(changed)


def changed(data, at, new):
    return data[:at] + new + data[at + len(new):]


def date_number(six):
    """A date as one number of a case."""
    return int.from_bytes(bytes(six), "little")


def pattern(length, start=0xA1):
    """Bytes that are not all the same, so that a shift or an overwritten byte shows."""
    return bytes((start + 7 * i) % 256 for i in range(length))


def with_faults(build, good, faults, order):
    """A good plan, each fault by itself, and for each two numbers a pair of faults, which must give the number that comes first in the order.

    A plan is a dictionary; a fault is (number, changes of the plan). Two faults that change the same thing make no pair.
    """
    yield *build(good), 0
    for number, change in faults:
        yield *build({**good, **change}), number
    paired = set()
    for (number, change), (other, another) in combinations(faults, 2):
        pair = frozenset((number, other))
        if len(pair) == 2 and pair not in paired and not change.keys() & another.keys():
            paired.add(pair)
            yield *build({**good, **change, **another}), min(pair, key=order.index)
