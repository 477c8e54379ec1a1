"""Cases for datagrams (acts 71 to 74, 80), and datagrams for the cases of others."""
from cases.making import changed, flipped, pattern, with_faults
from crc import crc32
from datagram import datagram_bytes
from printed import DATAGRAMS

WIDEST = 2 ** 64 - 1


def some_datagram(rng, length):
    """A datagram of a length, 18 or more."""
    options = rng.randint(0, length - 18)
    return datagram_bytes(rng.randrange(256), rng.randbytes(options), rng.randbytes(length - 18 - options))


def nested(rng, length, more):
    """A datagram whose first bytes, so many, are one too."""
    kind, options, data = rng.randrange(256), rng.randbytes(rng.randint(0, length - 18)), rng.randbytes(length)
    inner = datagram_bytes(kind, options, data[:length - 18 - len(options)])
    whole = datagram_bytes(kind, options, inner[6 + len(options):] + rng.randbytes(more))
    assert whole[:length] == inner
    return whole


def crc32_anew(made):
    return made[:-4] + crc32(made[:-12]).to_bytes(4, "little")


def file(plan):
    """The bytes of a plan: lengths that tell so much more than there is, the CRC-32 made after them but for the bits that `crc32` flips in it; and
    of all that the first `length` bytes."""
    front = (bytes([plan["type"], plan["compression"]]) + ((plan["options"] + plan["more options"]) % 2 ** 32).to_bytes(4, "little")
             + pattern(plan["options"]) + pattern(plan["data"], 0x51))
    made = front + ((plan["data"] + plan["more data"]) % 2 ** 64).to_bytes(8, "little") + (crc32(front) ^ plan["crc32"]).to_bytes(4, "little")
    return made[:plan["length"]]


PLAN = {"type": 0x87, "compression": 0, "options": 3, "data": 5, "more options": 0, "more data": 0, "crc32": 0, "length": None}
LENGTH = 26
FILE_FAULTS = [
    (37, {"more data": 1}),
    (37, {"more data": -1}),
    (37, {"more data": 2 ** 32}),
    (37, {"more data": 2 ** 63}),
    (37, {"more options": 1}),
    (37, {"more options": -1}),
    (37, {"more options": 2 ** 31}),
    (37, {"length": 17}),
    (37, {"length": LENGTH - 1}),
    (38, {"crc32": 0x00000001}),
    (38, {"crc32": 0x80000000}),
    (39, {"compression": 1}),
    (39, {"compression": 0x80}),
]
FILE_ORDER = [37, 38, 39]
# lengths whose sum is the number of bytes modulo 2^64 or 2^32
WRAPS = [
    {"options": 0, "more options": 10, "more data": -10},
    {"more options": 6, "more data": -6},
    {"more options": 2 ** 32 - 4, "more data": 4 - 2 ** 32},
    {"options": 0, "more options": -5, "more data": 5},
    {"more options": -4, "more data": 4},
]
# lengths that tell another cut, which the CRC-32 covers
CUTS = [{"more options": n, "more data": -n} for n in (1, -1, 5, -3)]


def edge_files(rng):
    """(bytes, due)."""
    yield from with_faults(lambda plan: (file(plan),), PLAN, FILE_FAULTS, FILE_ORDER)
    yield from ((file({**PLAN, **change}), 37) for change in WRAPS)
    for change in CUTS:
        made = file({**PLAN, **change})
        yield made, 0
        yield changed(made, len(made) - 4, file(PLAN)[-4:]), 38
    for options, data in ((0, 0), (0, 1), (1, 0), (0, 5), (5, 0)):
        made = file({**PLAN, "options": options, "data": data})
        yield made, 0
        yield made[:-1], 37
        yield made[1:], 37
        yield made + b"\x00", 37
        yield crc32_anew(flipped(made, 9)), 39
        yield flipped(made, 9), 38
    # the CRC-32 over the data length too, most significant byte first, without the turn at last, and from 0
    good = file(PLAN)
    yield good[:-4] + crc32(good[:-4]).to_bytes(4, "little"), 38
    yield good[:-4] + good[:-5:-1], 38
    yield good[:-4] + (crc32(good[:-12]) ^ 0xFFFFFFFF).to_bytes(4, "little"), 38
    yield good[:-4] + crc32(good[:-12], start=0xFFFFFFFF).to_bytes(4, "little"), 38
    for number, one in enumerate(DATAGRAMS):
        yield one, 0
        yield flipped(one, rng.randrange(8, 16)), 38
        yield flipped(one, 8 * (len(one) - 12) + rng.randrange(64)), 37
        yield flipped(one, 8 * (len(one) - 4) + rng.randrange(32)), 38
        yield one[:-1], 37
        yield one + DATAGRAMS[number - 1], 37


def in_lengths(one, at):
    """Whether a datagram's byte at a place is of one of its two lengths."""
    return at in range(2, 6) or at in range(len(one) - 12, len(one) - 4)


def each_byte():
    """(bytes, due): a bit of each byte changed, and that with the CRC-32 made anew."""
    good = file(PLAN)
    for at in range(LENGTH):
        one = flipped(good, 8 * at + 3 * at % 8)
        yield one, 37 if in_lengths(one, at) else 38
        yield crc32_anew(one), 37 if in_lengths(one, at) else 39 if at == 1 else 0


def datagram_fault(rng):
    """Each edge in one stretch and in two; and some of each number cut at every place."""
    for one, due in edge_files(rng):
        place = rng.randrange(len(one) + 1)
        yield [], [one[:place], one[place:]], due
    for change, due in (({}, 0), ({"options": 0, "data": 0}, 0), ({"more data": 1}, 37), (WRAPS[0], 37), ({"crc32": 1}, 38), ({"compression": 1}, 39)):
        one = file({**PLAN, **change})
        for place in range(len(one) + 1):
            yield [], [one[:place], one[place:]], due
    for length in (0, 1, 2, 16, 17):
        for place in sorted({0, length // 2, length}):
            yield [], [file(PLAN)[:place], file(PLAN)[place:length]], 37
    for number, seams in enumerate(([], [], [68], [68, 136, 204])):
        one = DATAGRAMS[number]
        for place in [0, len(one)] + seams + [rng.randrange(len(one)) for _ in range(3)]:
            yield [], [one[:place], one[place:]], 0
    for length in (255, 256, 1000, 4096):
        one = some_datagram(rng, length)
        place = rng.randrange(length)
        yield [], [one[:place], one[place:]], 0
        broken = flipped(one, 8 * rng.randrange(6, length - 12) + rng.randrange(8))
        yield [], [broken[:place], broken[place:]], 38


def read_datagram(rng):
    for one, due in edge_files(rng):
        yield [], [one], due
    for one, due in each_byte():
        yield [], [one], due
    for length in range(LENGTH):
        yield [], [file(PLAN)[:length]], 37
    for kind in (0, 1, 0x07, 0x0C, 0x7F, 0x80, 0x8C, 0xFF):
        yield [], [file({**PLAN, "type": kind})], 0
    for compression in (1, 2, 4, 8, 16, 32, 64, 128, 255):
        yield [], [file({**PLAN, "compression": compression})], 39
    for options, data in ((255, 0), (256, 1), (257, 255), (0, 1000), (1000, 0), (2000, 256)):
        yield [], [file({**PLAN, "options": options, "data": data})], 0
    for _ in range(10):
        yield [], [some_datagram(rng, rng.randint(18, 60))], 0


def read_data(rng):
    yield from with_faults(lambda plan: ([], [file(plan)]), PLAN, FILE_FAULTS, FILE_ORDER)
    for one in DATAGRAMS:
        yield [], [one], 0
        bit = rng.randrange(8 * len(one))
        yield [], [flipped(one, bit)], 37 if in_lengths(one, bit // 8) else 38
    for change in WRAPS:
        yield [], [file({**PLAN, **change})], 37
    for change in CUTS:
        yield [], [file({**PLAN, **change})], 0
    for options, data in ((0, 0), (0, 1), (1, 0), (0, 5), (5, 0), (255, 256), (256, 257), (3, 1000), (1000, 3), (0, 2000)):
        yield [], [file({**PLAN, "options": options, "data": data})], 0
    for _ in range(10):
        yield [], [some_datagram(rng, rng.randint(18, 60))], 0


def write_datagram(rng):
    def build(plan):
        return ([plan["type"], plan["options"]],
                [pattern(plan["options"] + plan["data"]), pattern(max(0, 18 + plan["options"] + plan["data"] + plan["more"]), 0x31)])
    good = {"type": 0x87, "options": 3, "data": 5, "more": 0}
    yield from with_faults(build, good, [(16, {"more": -1}), (16, {"more": -1000})], [16])
    for more in range(-LENGTH, 4):
        yield *build({**good, "more": more}), 16 if more < 0 else 0
    for kind in (0, 1, 0x07, 0x7F, 0x80, 0xFF):
        yield *build({**good, "type": kind}), 0
    for options, data in ((0, 0), (0, 1), (1, 0), (0, 8), (8, 0), (255, 256), (256, 255), (1000, 0), (0, 1000), (1000, 1000)):
        for more in (-1, 0, 3):
            yield *build({**good, "options": options, "data": data, "more": more}), 16 if more < 0 else 0
    # the printed ones, from what stands in them
    for one in DATAGRAMS:
        options = int.from_bytes(one[2:6], "little")
        yield [one[0], options], [one[6:-12], bytes(len(one))], 0
    for _ in range(10):
        yield *build({"type": rng.randrange(256), "options": rng.randrange(20), "data": rng.randrange(20), "more": rng.randrange(4)}), 0


def put_ends(rng):
    """Outputs that have room for all, for some and for nothing, and places within, at and far beyond their ends."""
    good = [0x87, 3, 14, 5]
    for room in range(30):
        yield good, [b"", pattern(room, 0x31)], 0
    for front in (0, 1, 5, 6, 7, 17, 18, 19, 25, 26, 27, 29, 30, 31, 2 ** 32, 2 ** 32 + 14, 2 ** 63, WIDEST - 12, WIDEST - 8, WIDEST - 7, WIDEST - 3, WIDEST - 1, WIDEST):
        yield [0x87, 3, front, 5], [b"", pattern(30, 0x31)], 0
    for room in (0, 1, 5):
        for front in (0, 2, room, room + 1, WIDEST):
            yield [0x07, 19, front, WIDEST], [b"", pattern(room, 0x31)], 0
    for kind in (0, 1, 0x80, 0xFF):
        yield [kind, *good[1:]], [b"", pattern(30, 0x31)], 0
    for options in (0, 1, 255, 256, 65535, 65536, 2 ** 24, 2 ** 31, 2 ** 32 - 1, 0x04030201):
        yield [0x87, options, 14, 5], [b"", pattern(30, 0x31)], 0
    for data in (0, 1, 255, 256, 65536, 2 ** 24, 2 ** 32 - 1, 2 ** 32, 2 ** 40, 2 ** 48, 2 ** 56, 2 ** 63, WIDEST, 0x0807060504030201):
        yield [0x87, 3, 14, data], [b"", pattern(30, 0x31)], 0


CASES = {71: datagram_fault, 72: read_datagram, 73: read_data, 74: write_datagram, 80: put_ends}
