"""01, Modbus envelopes. RTU: address, function, data 0 to 252, CRC (low byte first).
TCP: transaction 2, protocol 2 (zero), length 2, unit 1, function 1, data 0 to 252; numbers most significant first.
ASCII (W-201): a colon, address, function, data 0 to 252 and LRC in two characters a byte, carriage return, line feed."""
from crc import crc16, low_byte_first
from digits import DIGITS, characters, message_of
from lrc import lrc
from refusals import read, written

LONGEST_DATA = 252


def number(two):
    return int.from_bytes(two, "big")


def read_rtu(received):
    """address, function, data."""
    return read([
        (40, lambda: len(received) < 4),
        (41, lambda: len(received) > 256),
        (44, lambda: received[-2:] != low_byte_first(crc16(received[:-2]))),
    ], lambda: (received[0], received[1], received[2:-2]))


def rtu_bytes(address, function, data):
    before = bytes([address, function]) + data
    return before + low_byte_first(crc16(before))


def write_rtu(address, function, data, output):
    return written([
        (17, lambda: len(data) > LONGEST_DATA),
        (16, lambda: len(output) < 4 + len(data)),
    ], lambda: rtu_bytes(address, function, data), output)


def read_tcp(received):
    """transaction, unit, function, data."""
    return read([
        (40, lambda: len(received) < 8),
        (41, lambda: len(received) > 260),
        (42, lambda: number(received[2:4]) != 0),
        (43, lambda: number(received[4:6]) != len(received[6:])),
    ], lambda: (number(received[0:2]), received[6], received[7], received[8:]))


def tcp_bytes(transaction, unit, function, data):
    after = bytes([unit, function]) + data
    return transaction.to_bytes(2, "big") + bytes(2) + len(after).to_bytes(2, "big") + after


def write_tcp(transaction, unit, function, data, output):
    return written([
        (17, lambda: len(data) > LONGEST_DATA),
        (16, lambda: len(output) < 8 + len(data)),
    ], lambda: tcp_bytes(transaction, unit, function, data), output)


def read_ascii(received, output):
    """(number, (address, function, length of the data) or None, the whole output afterwards), which has the data at its front."""
    inside = received[1:-2]
    refusal, message = read([
        (60, lambda: len(received) < 9),
        (61, lambda: len(received) > 513),
        (62, lambda: received[:1] != b":" or received[-2:] != b"\r\n"),
        (63, lambda: len(inside) % 2 == 1 or not all(character in DIGITS for character in inside)),
        (64, lambda: message_of(inside)[-1] != lrc(message_of(inside)[:-1])),
        (16, lambda: len(output) < len(message_of(inside)[2:-1])),
    ], lambda: message_of(inside))
    if refusal:
        return refusal, None, output
    data = message[2:-1]
    return 0, (message[0], message[1], len(data)), data + output[len(data):]


def ascii_bytes(address, function, data):
    before = bytes([address, function]) + data
    return b":" + characters(before + bytes([lrc(before)])) + b"\r\n"


def write_ascii(address, function, data, output):
    return written([
        (17, lambda: len(data) > LONGEST_DATA),
        (16, lambda: len(output) < 9 + 2 * len(data)),
    ], lambda: ascii_bytes(address, function, data), output)
