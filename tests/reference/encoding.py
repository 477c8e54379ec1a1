"""A case as bytes and an answer as a line, by CASES.md."""
import struct

# An answer's line, its line feed too.
LONGEST_LINE = 4096
# A slot of a table of turns: address, due.
SLOT = struct.Struct("<I?")
# A call of a course: its act, slot and address; and its answer: number, slot and address.
CALL = struct.Struct("<BQI")
# A group that a request asks for: file, record, length.
ASKED = struct.Struct("<HHH")


def le(number, width):
    return number.to_bytes(width, "little")


def case_bytes(act, numbers, strings):
    first, second = (list(strings) + [b"", b""])[:2]
    head = bytes([act, len(numbers)]) + le(len(first), 2) + le(len(second), 2)
    return head + b"".join(le(number, 8) for number in numbers) + first + second


def answer_line(words):
    """The last word is a byte string."""
    if not isinstance(words[-1], bytes):
        words = words + [b""]
    *numbers, last = words
    return " ".join([str(number) for number in numbers] + [last.hex().upper() or "-"]) + "\n"


def table_bytes(table):
    """The slots of a table of turns; its last asked slot is a number of the case."""
    addresses, due, _ = table
    return b"".join(SLOT.pack(*slot) for slot in zip(addresses, due))


def table_from(data, last):
    addresses, due = zip(*SLOT.iter_unpack(data))
    return addresses, due, last
