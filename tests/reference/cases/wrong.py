"""Cases that cannot be answered, with the line that says so; each is followed by one that can."""
from cases.making import pattern
from encoding import case_bytes

# The numbers and byte strings that the acts beside an unknown one would take.
NUMBERS = [1, 4, 1, 1, 0, 0, 0]
STRINGS = [pattern(8), pattern(20)]
GOOD = (2, [], [b"123456789"])

# A line has 4,096 bytes, its line feed too: "0 10 " and an output of 2,045 bytes fill it.
WRITTEN = [1, 1, 0]


def wrong(acts):
    """(The case's bytes, its line or None where the case is answered, and then the act, numbers and strings)."""
    for act in range(256):
        if act not in acts and (act < 101 or act in (127, 128, 255)):
            yield case_bytes(act, NUMBERS, STRINGS), f"unknown act {act}\n", None
            yield case_bytes(*GOOD), None, GOOD
    for length in (2045, 2046, 3000, 65535):
        case = (12, WRITTEN, [b"", pattern(length)])
        yield case_bytes(*case), None if length == 2045 else "line too long\n", case
        yield case_bytes(*GOOD), None, GOOD
    yield case_bytes(*GOOD)[:-1], "case cut short\n", None
