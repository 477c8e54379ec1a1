"""02, W-203, and 001, 2.3.2: type 1, compression flag 1, options length 4, options, data, data length 8, CRC-32 4; numbers least significant first.

The CRC-32 covers all before the data length, which stands between the data and the CRC-32.
"""
from crc import crc32
from refusals import first, read, written

SHORTEST = 18
LONGEST_OPTIONS = 4_294_967_295


def number(some):
    return int.from_bytes(some, "little")


def type_field(datagram):
    return datagram[0]


def compression_field(datagram):
    return datagram[1]


def options_length_field(datagram):
    return number(datagram[2:6])


def data_length_field(datagram):
    return number(datagram[-12:-4])


def crc32_field(datagram):
    return number(datagram[-4:])


def covered(datagram):
    return datagram[:-12]


def options(datagram):
    return covered(datagram)[6:6 + options_length_field(datagram)]


def data(datagram):
    return covered(datagram)[6 + options_length_field(datagram):]


def bad_lengths(datagram):
    return SHORTEST + options_length_field(datagram) + data_length_field(datagram) != len(datagram)


def datagram_rules(datagram):
    return [
        (37, lambda: len(datagram) < SHORTEST or bad_lengths(datagram)),
        (38, lambda: crc32_field(datagram) != crc32(covered(datagram))),
        (39, lambda: compression_field(datagram) != 0),
    ]


def datagram_fault(held, part):
    return first(datagram_rules(held + part))


def read_datagram(datagram):
    """type, length of the options, length of the data, options."""
    return read(datagram_rules(datagram), lambda: (type_field(datagram), len(options(datagram)), len(data(datagram)), options(datagram)))


def read_data(datagram):
    """type, data."""
    return read(datagram_rules(datagram), lambda: (type_field(datagram), data(datagram)))


def opening(kind, length):
    """What stands before options of a length."""
    return bytes([kind, 0]) + length.to_bytes(4, "little")


def closing(front, length):
    """What stands after the bytes that the CRC-32 covers, with data of a length."""
    return length.to_bytes(8, "little") + crc32(front).to_bytes(4, "little")


def datagram_bytes(kind, of_options, of_data):
    front = opening(kind, len(of_options)) + of_options + of_data
    return front + closing(front, len(of_data))


def write_datagram(kind, of_options, of_data, output):
    return written([
        (37, lambda: len(of_options) > LONGEST_OPTIONS),
        (16, lambda: len(output) < SHORTEST + len(of_options) + len(of_data)),
    ], lambda: datagram_bytes(kind, of_options, of_data), output)


def stored(output, at, some):
    """Bytes over the output from a place on, as far as there is room."""
    return (output[:at] + some)[:len(output)] + output[at + len(some):]


def put_ends(kind, of_options, front, of_data, output):
    """The opening at the front, and then the closing after so many bytes, or after all where there are fewer."""
    output = stored(output, 0, opening(kind, of_options))
    return stored(output, front, closing(output[:front], of_data))
