"""Cases for the checksums, dates, readings and digits (acts 1 to 9, 61 to 63, 70)."""
from itertools import product

from cases.making import flipped, pattern
from crc import crc16, crc32, low_byte_first
from dates import RANGES, days
from lrc import lrc
from modbus import rtu_bytes
from printed import DATAGRAMS
from pulsar_frame import frame_bytes

WIDEST = 2 ** 64 - 1
MESSAGES = [b"", b"\x00", b"\xFF", b"123456789", bytes(16), b"\xFF" * 16, bytes(range(256))]


def checksum_from(rng):
    for start in (0x0000, 0x0001, 0x8000, 0xA001, 0xFFFE, 0xFFFF):
        for message in MESSAGES:
            yield [start], [message], 0
    for bit in range(16):
        yield [1 << bit], [b"\x5A"], 0
    for length in (1, 2, 3, 5, 8, 13, 21, 34):
        message = rng.randbytes(length)
        for cut in (0, length // 2, length):
            yield [crc16(message[:cut])], [message[cut:]], 0
    for _ in range(20):
        yield [rng.randrange(65536)], [rng.randbytes(rng.randrange(24))], 0


def checksum(rng):
    for message in MESSAGES:
        yield [], [message], 0
    for byte in range(256):
        yield [], [bytes([byte])], 0
    for length in (4095, 4096, 4097, 65535):
        yield [], [pattern(length)], 0
    for _ in range(20):
        message = rng.randbytes(rng.randrange(24))
        yield [], [message], 0
        yield [], [message + low_byte_first(crc16(message))], 0


def stretches(rng):
    """A message in two buffers: cut at every place, at its ends too; the longer ones there and in the middle."""
    for start in (0xFFFF, 0x0000):
        for length in range(21):
            message = rng.randbytes(length)
            for cut in range(length + 1):
                yield [start], [message[:cut], message[cut:]], 0
        for length in (255, 256, 1000, 4096):
            message = pattern(length)
            for cut in (0, 1, length // 2, length - 2, length - 1, length):
                yield [start], [message[:cut], message[cut:]], 0
    # a Pulsar-M frame and an RTU line, whose CRC is within one buffer or cut itself; and with one bit changed
    for whole in (frame_bytes(12_345_678, 6, 0xA55A, pattern(4)), rtu_bytes(17, 3, pattern(4))):
        for cut in range(len(whole) + 1):
            yield [0xFFFF], [whole[:cut], whole[cut:]], 0
            broken = flipped(whole, rng.randrange(8 * len(whole)))
            yield [0xFFFF], [broken[:cut], broken[cut:]], 0


def crc32_stretches(rng):
    """A message in two buffers: cut at every place, at its ends too; from other starts; long ones; and the printed datagrams where they are cut."""
    for message in (b"", b"\x00", b"\xFF", b"123456789", rng.randbytes(12)):
        for cut in range(len(message) + 1):
            yield [0], [message[:cut], message[cut:]], 0
    for start in [1 << bit for bit in range(32)] + [0xEDB88320, 0xFFFFFFFE, 0xFFFFFFFF, crc32(b"1234")]:
        yield [start], [b"56", b"789"], 0
    for byte in range(0, 256, 15):
        yield [0], [bytes([byte]), b""], 0
    for length in (255, 256, 1000, 4096):
        message = pattern(length)
        for cut in (0, 1, length // 2, length):
            yield [0], [message[:cut], message[cut:]], 0
    for one in DATAGRAMS:
        for cut in (0, min(68, len(one) - 12), len(one) - 12):
            yield [0], [one[:cut], one[cut:-12]], 0


def sum_byte(rng):
    edges = (0, 1, 127, 128, 254, 255)
    for before, byte in product(edges, edges):
        yield [before, byte], [], 0
    for _ in range(20):
        yield [rng.randrange(256), rng.randrange(256)], [], 0


def sum_stretches(rng):
    """A message in two buffers: cut at every place, at its ends too; and long ones. With its LRC an ASCII line's message has the sum 0."""
    message = bytes([0x11, 0x03, 0x00, 0x6B, 0x00, 0x03])
    for start in (0, 1, 255):
        for whole in (message, message + bytes([lrc(message)]), rng.randbytes(5)):
            for cut in range(len(whole) + 1):
                yield [start], [whole[:cut], whole[cut:]], 0
    for start in (0, 255):
        for length in (254, 255, 256, 257, 4096):
            yield [start], [b"\xFF" * length, b"\x01"], 0
            yield [start], [b"\x80", pattern(length)], 0


def of_a_byte(rng):
    for byte in range(256):
        yield [byte], [], 0


GOOD_DATE = bytes([23, 2, 28, 12, 30, 30])


def edge_dates():
    """A good date with one field at each edge and beyond."""
    for at, (_, lowest, highest) in enumerate(RANGES):
        for field in sorted({0, lowest, highest, highest + 1, 127, 128, 255}):
            yield GOOD_DATE[:at] + bytes([field]) + GOOD_DATE[at + 1:]
    for rest in (bytes([23, 2, 30]), bytes([23, 2, 31]), bytes([99, 12, 31])):
        yield rest + bytes([23, 59, 59])
    yield b"\xFF" * 6
    for at in range(6):
        yield b"\xFF" * at + b"\x0C" + b"\xFF" * (5 - at)
    yield bytes(6)
    yield bytes([0, 1, 1, 0, 0, 0])


LAST_DAYS = {
    23: (31, 28, 31, 30, 31, 30, 31, 31, 30, 31, 30, 31),
    24: (31, 29, 31, 30, 31, 30, 31, 31, 30, 31, 30, 31),
}


def month_ends():
    """(date, whether it is one): the last day of each month and the day after it, in a leap year and not; 29 February at both ends of the century,
    and of the year byte 100."""
    for year, last_days in LAST_DAYS.items():
        for month, last in enumerate(last_days, 1):
            yield bytes([year, month, last, 23, 59, 59]), True
            yield bytes([year, month, last + 1, 0, 0, 0]), False
    for year, is_leap in ((0, True), (1, False), (96, True), (99, False), (100, False)):
        yield bytes([year, 2, 29, 12, 30, 30]), is_leap


def random_date(rng):
    year, month, day, *time = (rng.randint(lowest, highest) for _, lowest, highest in RANGES)
    return bytes([year, month, min(day, days(year, month)), *time])


def dates(rng):
    for date in edge_dates():
        yield [], [date], 0
    for date, _ in month_ends():
        yield [], [date], 0
    for _ in range(30):
        yield [], [random_date(rng)], 0
    for _ in range(20):
        date = bytearray(random_date(rng))
        date[rng.randrange(6)] = rng.randrange(256)
        yield [], [bytes(date)], 0


# Bits that a comparison of floats would mistake: NaNs, the infinities, both zeros, all bits set, all but one.
VALUES_4 = [bytes.fromhex(value) for value in (
    "FFFFFFFF", "FFFFFF7F", "0000C07F", "0100807F", "0000C0FF", "0000807F", "00000000", "00000080", "FEFFFFFF", "78563412")]
VALUES_8 = [bytes.fromhex(value) for value in (
    "FFFFFFFFFFFFFFFF", "FFFFFFFFFFFFFF7F", "000000000000F87F", "010000000000F07F", "000000000000F8FF", "000000000000F07F",
    "0000000000000000", "0000000000000080", "FEFFFFFFFFFFFFFF", "FFFFFFFF00000000", "00000000FFFFFFFF", "EFCDAB8967452301")]
WIDTHS = [0, 1, 2, 3, 5, 6, 7, 9, 12, 16, 255, 2 ** 32 + 4, 2 ** 63 + 8, WIDEST]


def value_at(rng):
    values = b"".join(VALUES_4[:4])
    for kind in range(4):
        width = 8 if kind % 2 else 4
        count = len(values) // width
        for place in (0, 1, 2, count - 1, count, count + 1, 2 ** 32 + 1, 2 ** 61 + 1, 2 ** 62 + 1, 2 ** 63 + 1, WIDEST):
            yield [width, kind, place], [values], 0 if 1 <= place <= count else 11
        yield [12 - width, kind, 1], [values], 11
        yield [width, kind, 1], [b""], 11
        for length in (1, width - 1, width, width + 1, 15, 17):
            yield [width, kind, 1], [values[:length] + b"\x01" * (length - 16)], 0 if length == width else 11
        for bad in WIDTHS:
            yield [bad, kind, 1], [values], 1
        yield [5, kind, 0], [values[:7]], 1
        for value in VALUES_8 if kind % 2 else VALUES_4:
            yield [width, kind, 2], [values[:width] + value + b"\xFF" * width], 0


def read_value(rng):
    for kind in range(4):
        width = 8 if kind % 2 else 4
        for length in range(18):
            yield [kind], [b"\xFF" * length], 0 if length == width else 11
            yield [kind], [bytes(range(1, length + 1))], 0 if length == width else 11
        for value in VALUES_8 if kind % 2 else VALUES_4:
            yield [kind], [value], 0


def first_absent(rng):
    for width in WIDTHS:
        yield [width], [b"\xFF" * 8], 1
        yield [width], [b""], 1
    for width in (4, 8):
        absent, present = b"\xFF" * width, b"\xFF" * (width - 1) + b"\xFE"
        yield [width], [b""], 0
        for length in (1, width - 1, width + 1, 2 * width - 1, 2 * width + 1):
            yield [width], [b"\xFF" * length], 11
        for count in (1, 2, 3, 7):
            yield [width], [present * count], 0
            for place in range(count):
                yield [width], [present * place + absent + present * (count - place - 1)], 0
        yield [width], [absent * 3], 0
        # a run of FF over two places is no hit
        for cut in range(width):
            yield [width], [bytes(cut + 1) + absent + bytes(width - cut - 1) if cut < width - 1 else bytes(width) + absent], 0
        for at in range(width):
            value = bytearray(absent)
            value[at] ^= 1 << rng.randrange(8)
            yield [width], [bytes(value)], 0
            yield [width], [bytes(value) + absent], 0
        for value in VALUES_4 + VALUES_8:
            if len(value) == width:
                yield [width], [value + absent], 0


def channel_of(rng):
    masks = [0, 1, 2, 3, 5, 0x80000000, 0x80000001, 0x7FFFFFFF, 0xFFFFFFFF, 0xAAAAAAAA, 0x00010000]
    masks += [rng.randrange(2 ** 32) for _ in range(6)]
    for mask in masks:
        count = bin(mask).count("1")
        for place in sorted({0, 1, 2, 3, count, count + 1, 32, 33, WIDEST}):
            yield [mask, place], [], 0


def is_same(rng):
    """Each value beside itself, beside itself with one bit changed, beside the same bits in each other kind, beside each other value."""
    for kind in range(4):
        width = 8 if kind % 2 else 4
        values = [int.from_bytes(value, "little") for value in (VALUES_8 if kind % 2 else VALUES_4)]
        for bits in values:
            yield [kind, bits, kind, bits], [], 0
            for bit in (0, 8 * width - 1, rng.randrange(8 * width)):
                yield [kind, bits, kind, bits ^ 1 << bit], [], 0
            for other in range(4):
                if other % 2 or bits < 2 ** 32:
                    yield [kind, bits, other, bits], [], 0
            yield [kind, bits, kind, rng.choice(values)], [], 0


CASES = {1: checksum_from, 2: checksum, 3: dates, 4: value_at, 5: read_value, 6: first_absent, 7: channel_of, 8: is_same, 9: stretches,
         61: sum_byte, 62: sum_stretches, 63: of_a_byte, 70: crc32_stretches}
