"""Cases for ADI file records (acts 90 to 97), and requests for the cases of others."""
from itertools import combinations, product

from adi import two
from cases.making import changed, flipped, pattern
from cases.modbus import room
from encoding import ASKED

WIDEST = 2 ** 64 - 1
# places that would be good in fewer bits, and those that are past any group
FAR = [257, 2 ** 16 + 1, 2 ** 32, 2 ** 32 + 1, 2 ** 63, 2 ** 63 + 1, WIDEST - 1, WIDEST]
# other than 14 (hexadecimal): 14 in decimal, an error's, and each bit changed
FUNCTIONS = [0, 0x0E, 0x13, 0xFF, *[0x14 ^ 1 << bit for bit in range(8)]]
TYPES = [0, 5, 255, *[6 ^ 1 << bit for bit in range(8)]]
# the public standard's example, whose reply has lengths that count the type; and 003's request for a descriptor
PUBLIC_REQUEST = bytes.fromhex("14 0E 06 0004 0001 0002 06 0003 0009 0002")
PUBLIC_REPLY = bytes.fromhex("14 0C 05 06 0DFE 0020 05 06 33CD 0040")
DESCRIPTOR_REQUEST = bytes.fromhex("14 07 06 0001 0000 0008")
NO_DATA = bytes.fromhex("14 02 00 06")


# Faults are (number, changes of a plan or of a group), in the order in which they are judged.

def at_once(faults):
    """(number, changes): each fault, and each two that change different things, of which the first one's number is due."""
    yield from faults
    for (number, change), (_, another) in combinations(faults, 2):
        if not change.keys() & another.keys():
            yield number, {**change, **another}


def judged(build, good, faults):
    """A plan without a fault, and with one and two."""
    yield *build(good), 0
    for number, changes in at_once(faults):
        yield *build({**good, **changes}), number


def in_groups(faults):
    """(the changes of each group, due): the first group at fault decides, whatever its fault is. Two groups with one and two faults each; three,
    and the most that a request has, with one fault in one group and one in a later group."""
    for (number, change), (other, another) in product([(0, {}), *at_once(faults)], repeat=2):
        yield [change, another], number or other
    for count, place, later in ((3, 1, 3), (3, 2, 3), (35, 1, 35), (35, 34, 35)):
        for (number, change), (other, another) in product([(0, {}), *faults], repeat=2):
            yield changed_at(changed_at([{}] * count, place, change), later, another), number or other


def changed_at(changes, place, change):
    """The changes of each group, with those of one place, counted from 1."""
    return [*changes[:place - 1], change, *changes[place:]]


def pdu(groups, function=0x14, more=0):
    """With a byte count that tells so much more than there is."""
    after = b"".join(groups)
    return bytes([function, (len(after) + more) % 256]) + after


def counted(some):
    """With the byte count made right, where there is one."""
    return changed(some, 1, bytes([len(some[2:]) % 256])) if len(some) > 1 else some


def altered(rng, good):
    """A byte changed, cut, or extended; half of them with the byte count made right."""
    at = rng.randrange(len(good))
    some = rng.choice((changed(good, at, rng.randbytes(1)), good[:at], good + rng.randbytes(rng.randint(1, 8)),
                       good[:at] + good[at + 1:], good[:at] + rng.randbytes(1) + good[at:]))
    return rng.choice((some, counted(some)))


def cut_and_extended(good):
    for length in range(len(good)):
        yield good[:length]
        yield counted(good[:length])
    for more in range(1, 9):
        yield good + good[2:2 + more]
        yield counted(good + good[2:2 + more])
        yield good + bytes(more)


# byte counts beside those of no, one and two groups, and beside 245; one that is 7 but for its highest bit
COUNTS = [*range(17), 21, 27, 28, 29, 35, 128, 135, *range(237, 256)]


def cut_to_count(body):
    """(bytes, number of bytes after the byte count): with a byte count that is right, but for what eight bits do not hold."""
    for length in [*COUNTS, 259, 260, 263, 266, 490]:
        yield pdu([body[:length]]), length


# Requests

def asking(place, change):
    """The fields of a group. Each place has its own; of the first no two bytes are the same."""
    return {"kind": 6, "file": 0x0104 * place, "record": 241 * place, "length": 0x0205 * place, **change}


def asked(group):
    return bytes([group["kind"]]) + two(group["file"]) + two(group["record"]) + two(group["length"])


def asked_groups(changes):
    return [asked(asking(place, change)) for place, change in enumerate(changes, 1)]


def good_request(count):
    return pdu(asked_groups([{}] * count))


ASKED_FAULTS = [(82, {"file": 0}), (82, {"record": 10_000}), (83, {"length": 0})]
GROUP_FAULTS = [(81, {"kind": 0}), (81, {"kind": 7}), *ASKED_FAULTS]
REQUEST_FAULTS = [
    (10, {"function": 0x94}),
    (10, {"function": 0x0E}),
    (80, {"more": 1}),
    (80, {"more": -1}),
    (80, {"more": 7}),
    (80, {"after": b"\x06"}),
    (80, {"received": 1}),
    (80, {"received": 8}),
    *GROUP_FAULTS,
]
FILES = [0, 1, 2, 255, 256, 257, 0x7FFF, 0x8000, 65_535]
# 9999 is 270F and 10000 is 2710: beside them those with the bytes turned round, and with one byte alone
RECORDS = [0, 1, 255, 256, 0x270E, 9999, 10_000, 10_001, 0x0F27, 0x1027, 0x2700, 0x2800, 0x26FF, 0x7FFF, 0x8000, 65_535]
LENGTHS = [0, 1, 2, 127, 128, 255, 256, 0x7FFF, 0x8000, 65_535]


# changes of a group: each field by itself, and the edges of all three together
FIELDS = [{key: value} for key, values in (("file", FILES), ("record", RECORDS), ("length", LENGTHS)) for value in values]
EDGES = [{"file": file, "record": record, "length": length}
         for file, record, length in product((0, 1, 65_535), (0, 9999, 10_000, 65_535), (0, 1, 65_535))]
# with the place of the group that is changed
CHANGED = [*product(FIELDS, (1, 2)), *product(EDGES, [2])]


def due_of(group):
    return 82 if group["file"] == 0 or group["record"] > 9999 else 83 if group["length"] == 0 else 0


def request(plan):
    return [], [(pdu([asked(plan)], plan["function"], plan["more"]) + plan["after"])[:plan["received"]]]


def read_request(rng):
    yield from judged(request, {**asking(1, {}), "function": 0x14, "more": 0, "after": b"", "received": None}, REQUEST_FAULTS)
    for changes, due in in_groups(GROUP_FAULTS):
        yield [], [pdu(asked_groups(changes))], due
    for change, place in CHANGED:
        yield [], [pdu(asked_groups(changed_at([{}, {}], place, change)))], due_of(asking(place, change))
    for kind in TYPES:
        yield [], [pdu(asked_groups([{}, {"kind": kind}]))], 81
    yield from request_counts()
    yield [], [b""], 10
    for function in range(256):
        yield [], [pdu(asked_groups([{}]), function)], 0 if function == 0x14 else 10
    for function in (0x14, *FUNCTIONS):
        for after in (b"", b"\x00", b"\x07"):
            yield [], [bytes([function]) + after], 80 if function == 0x14 else 10
    good = good_request(1)
    for bit in range(8 * len(good)):
        yield [], [flipped(good, bit)], {0: 10, 1: 80, 2: 81}.get(bit // 8)
    for some in cut_and_extended(good_request(2)):
        yield [], [some], None
    for some in (PUBLIC_REQUEST, DESCRIPTOR_REQUEST):
        yield [], [some], 0
    # what means no data in a reply, and other replies
    for some in (NO_DATA, bytes.fromhex("14 02 06 00"), bytes.fromhex("14 FF FF 06"), PUBLIC_REPLY, good_reply(1), good_reply(2)):
        yield [], [some], 80
    yield [], [good_reply(6)], 81
    for count in (1, 2, 3, 35):
        for _ in range(25):
            yield [], [altered(rng, good_request(count))], None


def request_counts():
    for some, length in cut_to_count(b"".join(asked_groups([{}] * 70))):
        yield [], [some], 0 if length in range(7, 246, 7) else 80
    one = good_request(1)
    for count in COUNTS:
        yield [], [changed(one, 1, bytes([count]))], 0 if count == 7 else 80
    for count in (1, 2, 34, 35, 36):
        groups = asked_groups([{}] * count)
        for more in (-7, -1, 1, 7):
            yield [], [pdu(groups, more=more)], 80
        for some in (pdu(groups)[:-1], pdu(groups) + b"\x06", pdu(groups)[:-7], pdu(groups) + groups[0]):
            yield [], [some], 80
            # 80 before what is wrong in a group
            yield [], [changed(some, 2, b"\x07")], 80


def at(places, some):
    for place in places:
        yield [place], [some], 0


# no function, no byte count, no group; and what is no request or reply at all
NO_PDU = [b"", b"\x14", b"\x14\x00", b"\xFF" * 9, bytes(20)]


def asked_at(rng):
    for count in (1, 2, 3, 35, 36, 100):
        yield from at([0, 1, 2, count // 2, count - 1, count, count + 1, count + 2, *FAR], good_request(count))
    yield from at(range(1, 36), good_request(35))
    for some in (*NO_PDU, good_request(2)[:-1], good_request(1) + b"\x06"):
        yield from at((0, 1, 2, 3, *FAR[2:]), some)
    # places that, by seven, are at the beginning again in 64 bits
    for turn in range(1, 7):
        place = -(-turn * 2 ** 64 // 7)
        yield from at((place - 1, place, place + 1), good_request(3))
    # nothing is judged
    for change in (*FIELDS, *({"kind": kind} for kind in TYPES)):
        yield from at([2], pdu(asked_groups([{}, change])))
    for function, more in product((0x14, 0x94), (-14, -1, 1, 7)):
        yield from at((1, 2, 3), pdu(asked_groups([{}, {}]), function, more))
    three = good_request(3)
    for length in range(len(three)):
        yield from at((1, 2, 3), three[:length])
    for length in range(1, 8):
        yield from at([4], three + pattern(length))
    for some in (PUBLIC_REQUEST, DESCRIPTOR_REQUEST, PUBLIC_REPLY, NO_DATA):
        yield from at((0, 1, 2, 3), some)
    for _ in range(30):
        yield from at([rng.randrange(1, 6)], rng.randbytes(rng.randrange(40)))
        yield from at([rng.randrange(1, 5)], altered(rng, three))


def write_request(rng):
    def build(groups, more=0, after=b""):
        given = b"".join(ASKED.pack(group["file"], group["record"], group["length"]) for group in groups)
        return [], [given + after, room(2 + 7 * len(groups) + more)]

    def good(count):
        return [asking(place, {}) for place in range(1, count + 1)]

    def of(plan):
        return build([plan] * plan["count"], plan["more"])
    faults = [(80, {"count": 36}), (80, {"count": 40}), *ASKED_FAULTS, (16, {"more": -1}), (16, {"more": -1000})]
    for count in (1, 35):
        yield from judged(of, {**asking(1, {}), "count": count, "more": 0}, faults)
    for changes, due in in_groups(ASKED_FAULTS):
        groups = [asking(place, change) for place, change in enumerate(changes, 1)]
        yield *build(groups, 3), due
        if len(groups) < 4:
            yield *build(groups, -1), due or 16
    for change, place in CHANGED:
        group = asking(place, change)
        yield *build(changed_at(good(2), place, group)), due_of(group)
    for count in (0, 1, 2, 3, 17, 34, 35, 36, 37, 40):
        for more in (-1000, -1, 0, 1, 8):
            yield *build(good(count), more), 80 if not 1 <= count <= 35 else 16 if more < 0 else 0
    for more in range(-16, 3):
        yield *build(good(2), more), 16 if more < 0 else 0
    # a last part group
    for count, length in product((0, 1, 34, 35), range(1, 6)):
        yield *build(good(count), 7, pattern(length)), 80 if count == 0 else 0
    for _ in range(30):
        groups = [asking(1, {"file": rng.randint(1, 65_535), "record": rng.randrange(10_000), "length": rng.randint(1, 65_535)}) for _ in range(rng.randint(1, 6))]
        yield *build(groups, rng.randrange(4)), 0
        yield [], [rng.randbytes(rng.randrange(6, 30)), room(40)], None


# Replies

def brought(place, change):
    """A group of so many register bytes, or as many as are given, with a length that tells so or otherwise."""
    group = {"kind": 6, "registers": 4, **change}
    registers = group.get("bytes", pattern(group["registers"], 0xA1 + 13 * place))
    return bytes([group.get("length", len(registers)), group["kind"]]) + registers


def brought_groups(changes):
    return [brought(place, change) for place, change in enumerate(changes, 1)]


def good_reply(*registers):
    """Of groups with so many registers each."""
    return pdu(brought_groups([{"registers": 2 * count} for count in registers]))


BROUGHT_FAULTS = [(81, {"kind": 0}), (81, {"kind": 7}), (83, {"registers": 0}), (83, {"registers": 1}), (83, {"registers": 3})]
REPLY_FAULTS = [
    (10, {"function": 0x94}),
    (10, {"function": 0x0E}),
    (80, {"more": 1}),
    (80, {"more": -1}),
    (80, {"after": bytes(2)}),
    (80, {"received": 1}),
    (80, {"received": 5}),
    (81, {"kind": 0}),
    (81, {"kind": 7}),
    *[(83, {"length": length}) for length in (0, 1, 3, 5, 6, 254, 255)],
]
# of both length bytes of a reply that means no data
EITHER_LENGTH = [0, 1, 2, 4, 6, 20, 127, 128, 245, 246, 255]


def reply(plan):
    return [], [(pdu([brought(1, {key: plan[key] for key in ("kind", "length")})], plan["function"], plan["more"]) + plan["after"])[:plan["received"]]]


def read_reply(rng):
    yield from judged(reply, {"kind": 6, "length": 4, "function": 0x14, "more": 0, "after": b"", "received": None}, REPLY_FAULTS)
    for changes, due in in_groups(BROUGHT_FAULTS):
        yield [], [pdu(brought_groups(changes))], due
    for kind in TYPES:
        yield [], [pdu(brought_groups([{}, {"kind": kind}]))], 81
    yield from no_data()
    yield from reply_counts()
    yield from reply_lengths()
    yield [], [b""], 10
    for function in range(256):
        yield [], [pdu(brought_groups([{}]), function)], 0 if function == 0x14 else 10
    for function in (0x14, *FUNCTIONS):
        for after in (b"", b"\x00", b"\x03\x00\x06\x00"):
            yield [], [bytes([function]) + after], 80 if function == 0x14 else 10
    good = good_reply(2, 1)
    for bit in range(8 * len(good)):
        yield [], [flipped(good, bit)], {0: 10, 1: 80, 2: None, 3: 81, 8: None, 9: 81}.get(bit // 8, 0)
    for some in cut_and_extended(good):
        yield [], [some], None
    # the public standard's lengths count the type
    yield [], [PUBLIC_REPLY], 83
    for registers in (1, 2, 60, 121):
        yield [], [pdu(brought_groups([{"registers": 2 * registers, "length": 2 * registers + 1}]))], 83
    for some in (DESCRIPTOR_REQUEST, PUBLIC_REQUEST):
        yield [], [some], 81
    for registers in ((1,), (8,), (2, 1), (1, 3, 2), (60, 60), (1,) * 61):
        for _ in range(20):
            yield [], [altered(rng, good_reply(*registers))], None


def no_data():
    """Four bytes, of which only the function and the type are judged; and three and five."""
    for count, length in product(EITHER_LENGTH, repeat=2):
        yield [], [bytes([0x14, count, length, 6])], 0
    for count, length in ((2, 0), (255, 255)):
        for kind in TYPES:
            yield [], [bytes([0x14, count, length, kind])], 81
        for function in FUNCTIONS:
            yield [], [bytes([function, count, length, 6])], 10
            yield [], [bytes([function, count, length, 7])], 10
    for count, some in product((0, 1, 2, 3, 4, 255), ("06", "00", "00 06 00", "00 06 06", "01 06 A1", "02 06 A1", "03 06 A1", "06 06 06")):
        yield [], [bytes([0x14, count]) + bytes.fromhex(some)], 80


def reply_counts():
    # groups of one register that are cut anywhere: a group's end, its length alone, its length and type, a byte too few
    for some, length in cut_to_count(b"".join(brought_groups([{"registers": 2}] * 130))):
        due = 0 if length == 2 else 80 if not 4 <= length <= 245 else {0: 0, 1: 81, 2: 83, 3: 83}[length % 4]
        yield [], [some], due
    # one group of all bytes
    for length in [*range(3, 12), *range(240, 256)]:
        yield [], [pdu(brought_groups([{"registers": length - 2}]))], 80 if not 4 <= length <= 245 else 83 if length % 2 else 0
    one = good_reply(2)
    for count in COUNTS:
        yield [], [changed(one, 1, bytes([count]))], 0 if count == 6 else 80
    # as many groups as there can be: 244 bytes; with a byte more it is 245; without registers there are 122
    yield [], [good_reply(*[1] * 61)], 0
    yield [], [good_reply(*[1] * 62)], 80
    yield [], [good_reply(*[1] * 59, 3)], 0
    yield [], [good_reply(*[1] * 60, 2)], 80
    yield [], [pdu(brought_groups([{"registers": 2}] * 60 + [{"registers": 3}]))], 83
    for count in (2, 121, 122, 123):
        for more in (b"", b"\x00"):
            yield [], [pdu([b"\x00\x06"] * count + [more])], 83 if 2 * count + len(more) <= 245 else 80
    for registers in ((121,), (60, 60), (119, 1), (1, 119), (40, 39, 39)):
        yield [], [good_reply(*registers)], 0
        yield [], [good_reply(*registers) + b"\x00"], 80
        yield [], [counted(good_reply(*registers) + b"\x00")], 81
        yield [], [counted(good_reply(*registers)[:-1])], 83


def reply_lengths():
    # a length of a group with four bytes, of which two would be another group of type 0
    for length in COUNTS:
        yield [], [pdu(brought_groups([{"bytes": b"\x11\x22\x33\x00", "length": length}]))], {2: 81, 4: 0}.get(length, 83)
    # lengths on both sides of the zero bytes that are left, in the first group and in a second; what a group leaves is a group at fault
    for before, left, length in product(([], [{}]), range(6), (*range(7), 254, 255)):
        if before or left > 1:
            groups = brought_groups([*before, {"bytes": bytes(left), "length": length}])
            yield [], [pdu(groups)], 83 if length % 2 or length == 0 or length > left else 0 if length == left else 81
    # one byte is left over, the length of a group without a type
    for count, byte in product((1, 2, 60), (0, 1, 2, 6, 254, 255)):
        yield [], [pdu([*brought_groups([{"registers": 2}] * count), bytes([byte])])], 81
    # within the bytes left if length and type were not there, or were counted again
    for length in (2, 4, 6, 8, 10):
        yield [], [pdu(brought_groups([{}, {"registers": 6, "length": length}]))], 0 if length == 6 else 83 if length > 6 else 81


def registers_at(rng):
    for registers in ((1,), (121,), (3, 1), (2, 1, 4), (60, 60), (1,) * 61):
        last = len(registers)
        yield from at([0, 1, 2, last // 2, last - 1, last, last + 1, last + 2, *FAR], good_reply(*registers))
    yield from at(range(1, 62), good_reply(*[1] * 61))
    for some in (*NO_PDU, good_reply(2, 1)[:-1], good_reply(2) + b"\x02"):
        yield from at((0, 1, 2, 3, *FAR[2:]), some)
    # nothing is judged
    for function, more in product((0x14, 0x94), (-4, -1, 1, 7)):
        yield from at((1, 2, 3), pdu(brought_groups([{}, {"registers": 6}]), function, more))
    for kind in TYPES:
        yield from at((1, 2), pdu(brought_groups([{"kind": kind}, {"kind": kind}])))
    # lengths that are odd or 0, and those that leave bytes over or tell too many
    for lengths in product((0, 1, 4), repeat=3):
        yield from at((1, 2, 3, 4), pdu(brought_groups([{"registers": length} for length in lengths])))
    for length in (*range(9), 127, 128, 254, 255):
        for before in ([], [{}]):
            yield from at((1, 2, 3), pdu(brought_groups([*before, {"bytes": b"\x02\x06\x33\x44\x01\x66", "length": length}])))
    three = good_reply(2, 1, 3)
    for length in range(len(three)):
        yield from at((1, 2, 3), three[:length])
    for length in (1, 2, 3, 5):
        yield from at((3, 4, 5), three + pattern(length, 2))
    for some in (PUBLIC_REPLY, PUBLIC_REQUEST, DESCRIPTOR_REQUEST, NO_DATA, b"\x14\xFF\xFF\x06", b"\x14\x02\x00\x06\x00"):
        yield from at((0, 1, 2, 3), some)
    # longer than any reply
    yield from at((61, 62, 99, 100, 101), pdu(brought_groups([{"registers": 2}] * 100)))
    yield from at((299, 300, 301, 302, 303, *FAR), pdu([bytes(2) * 300, b"\x02\x06\x11\x22", b"\x03"]))
    yield from at((1, 2, 3, 4), pdu(brought_groups([{"registers": 255}, {"registers": 254}, {"registers": 100, "length": 255}])))
    for _ in range(30):
        yield from at([rng.randrange(1, 5)], bytes(rng.choice((0, 1, 2, 3, 6, 9)) for _ in range(rng.randrange(24))))
        yield from at([rng.randrange(1, 5)], altered(rng, three))


# lengths of groups in bytes, and the number that is due where all else is right
WRITTEN_LENGTHS = [
    ([], 80), ([0], 80), ([1], 80), ([2], 0), ([3], 83), ([4], 0), ([241], 83), ([242], 0), ([243], 83), ([244], 80), ([245], 80), ([254], 80), ([255], 80),
    ([2, 238], 0), ([238, 2], 0), ([238, 4], 80), ([120, 120], 0), ([119, 121], 83), ([120, 121], 83), ([122, 120], 80), ([254, 2], 80), ([255, 255], 80),
    # 61 groups are the most that have registers
    ([2] * 61, 0), ([2] * 60 + [3], 83), ([3] + [2] * 60, 83), ([2] * 60 + [4], 80), ([2] * 62, 80), ([4] + [2] * 59, 0),
    # 122 that have none; more, whose byte count would be good in eight bits
    ([0] * 121, 83), ([0] * 122, 83), ([0] * 121 + [1], 83), ([0] * 123, 80), ([0] * 128, 80), ([0] * 130, 80), ([0] * 250, 80),
]


def write_reply(rng):
    def build(lengths, registers=0, more=0):
        """With so many register bytes more than the lengths tell, and so much room more than needed."""
        return [len(lengths)], [bytes(lengths) + pattern(max(0, sum(lengths) + registers)), room(2 + sum(lengths) + 2 * len(lengths) + more)]

    def due_with(lengths, registers, more):
        """Of a byte count that is good."""
        return 80 if registers else 83 if any(length in (0, 1, 3, 5) for length in lengths) else 16 if more < 0 else 0
    for lengths, due in WRITTEN_LENGTHS:
        for more in (-1000, -1, 0, 3):
            yield *build(lengths, 0, more), due or (16 if more < 0 else 0)
        for registers in (-1, 1):
            if sum(lengths) + registers >= 0:
                yield *build(lengths, registers), 80
    # two and three groups of few bytes; as a second group one of 0 or 1 is 83
    for lengths in (*product(range(6), repeat=2), *product(range(4), repeat=3)):
        yield *build(lengths), due_with(lengths, 0, 0)
    for lengths, registers, more in product(product(range(4), repeat=2), (-1, 0, 1), (-1, 2)):
        if sum(lengths) + registers >= 0:
            yield *build(lengths, registers, more), due_with(lengths, registers, more)
    # registers of the first group alone, none, and as many more as eight bits do not hold
    for registers in (-4, -6, 256):
        yield *build([2, 4], registers), 80
    for more in range(-12, 3):
        yield *build([2, 4], more=more), 16 if more < 0 else 0
    # a byte count of 65,540, which is 4 in sixteen bits
    yield *build([217] * 140 + [216] * 160, more=-65_500), 80
    for _ in range(30):
        lengths = [2 * rng.randint(1, 18) for _ in range(rng.randint(1, 6))]
        yield *build(lengths, more=rng.randrange(4)), 0
        yield *build([*lengths, rng.choice((0, 1, 3, 17))], more=rng.randrange(-1, 2)), 83


def write_no_data(rng):
    for length in (0, 1, 2, 3, 4, 5, 6, 8, 20):
        for count, of_group in ((2, 0), (0xA5, 0x5A)):
            yield [count, of_group], [b"", room(length)], 16 if length < 4 else 0
    for count, of_group in product((0, 2, 6, 20, 128, 255), repeat=2):
        yield [count, of_group], [b"", room(5)], 0


# The descriptor

# no two bytes are the same but those of the type and the contents type, of which only few numbers are good
WORDS = {"length": 0x1112, "type": 1, "records": 0x1314, "record length": 0x1516, "contents": 2, "next": 0x1718, "low": 0x191A, "high": 0x1B1C}
DESCRIPTOR_FAULTS = [
    *[(84, {"received": length}) for length in (0, 4, 14, 15)],
    *[(84, {"type": kind}) for kind in (0, 2, 256, 257, 65_535)],
    *[(84, {"contents": contents}) for contents in (4, 5, 256, 259, 65_535)],
]


def descriptor(plan):
    """Of 16 bytes and more, the first so many."""
    return [], [(b"".join(two(plan[word]) for word in WORDS) + pattern(16))[:plan["received"]]]


def read_descriptor(rng):
    good = {**WORDS, "received": 16}
    yield from judged(descriptor, good, DESCRIPTOR_FAULTS)
    for received in range(33):
        yield *descriptor({**good, "received": received}), 84 if received < 16 else 0
    for contents, received in product(range(4), (15, 16, 17)):
        yield *descriptor({**good, "contents": contents, "received": received}), 84 if received < 16 else 0
    for word in ("length", "records", "record length", "next", "low", "high"):
        for value in (0, 1, 255, 256, 65_535):
            yield *descriptor({**good, word: value}), 0
    for low, high in product((0, 1, 256, 0x8000, 0xFFFF), repeat=2):
        yield *descriptor({**good, "low": low, "high": high}), 0
    for word in (0, 0xFFFF):
        yield *descriptor({**dict.fromkeys(WORDS, word), "type": 1, "contents": 3, "received": 16}), 0
    plain = descriptor({**good, "contents": 0})[1][0]
    for bit in range(8 * len(plain)):
        # of the contents type the two lowest bits may be set
        yield [], [flipped(plain, bit)], 84 if bit // 8 in (2, 3, 8) or bit // 8 == 9 and bit % 8 > 1 else 0
    for _ in range(30):
        words = {word: rng.randrange(65_536) for word in WORDS}
        yield *descriptor({**words, "type": 1, "contents": rng.randrange(4), "received": rng.randint(16, 32)}), 0
        yield [], [changed(plain, rng.randrange(16), rng.randbytes(2))], None


CASES = {90: read_request, 91: asked_at, 92: write_request, 93: read_reply, 94: registers_at, 95: write_reply, 96: write_no_data, 97: read_descriptor}
