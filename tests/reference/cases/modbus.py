"""Cases for Modbus envelopes (acts 30 to 35)."""
from itertools import product

from cases.making import changed, flipped, pattern, with_faults
from crc import crc16, low_byte_first
from digits import DIGITS, characters
from lrc import lrc
from modbus import ascii_bytes, rtu_bytes, tcp_bytes
from printed import ASCII_LINES, MODBUS_LINES, MODBUS_PACKETS


def rtu(plan):
    before = bytes([plan["address"], plan["function"]]) + pattern(plan["data"])
    line = before + low_byte_first(crc16(before) ^ plan["crc"]) + plan["after"]
    return [], [line if plan["received"] is None else line[:plan["received"]]]


GOOD_RTU = {"address": 17, "function": 3, "data": 4, "crc": 0, "after": b"", "received": None}
RTU_FAULTS = [
    (40, {"received": 3}),
    (40, {"received": 0}),
    (41, {"data": 253}),
    (44, {"crc": 0x0001}),
    (44, {"crc": 0x8000}),
    (44, {"after": b"\x01"}),
]


def read_rtu(rng):
    yield from with_faults(rtu, GOOD_RTU, RTU_FAULTS, [40, 41, 44])
    for line in MODBUS_LINES:
        yield [], [line], 0
    for address in (0, 1, 247, 248, 255):
        for function in (0, 1, 0x45, 0x80, 0xC5, 255):
            yield *rtu({**GOOD_RTU, "address": address, "function": function}), 0
    for data in (0, 1, 2, 251, 252, 253, 254):
        yield *rtu({**GOOD_RTU, "data": data}), 41 if data > 252 else 0
        yield *rtu({**GOOD_RTU, "data": data, "crc": 1}), 41 if data > 252 else 44
    line = rtu_bytes(17, 3, pattern(2))
    for length in range(len(line)):
        yield [], [line[:length]], 40 if length < 4 else 44
    for bit in range(8 * len(line)):
        yield [], [flipped(line, bit)], 44
    for bit in range(8 * (len(line) - 2)):
        before = flipped(line, bit)[:-2]
        yield [], [before + low_byte_first(crc16(before))], 0
    yield [], [line[:-2] + line[:-3:-1]], 44
    # a zero after a whole line: the sum over all of it is 0 still, so the last two bytes are right for the longer line
    yield [], [line + b"\x00"], 0
    yield [], [b"\xFF\xFF"], 40
    for length in (4, 5, 256, 257):
        yield [], [rng.randbytes(length)], 41 if length > 256 else 44


def tcp(plan):
    after = bytes([plan["unit"], plan["function"]]) + pattern(plan["data"])
    length = len(after) + plan["length"]
    packet = plan["transaction"].to_bytes(2, "big") + plan["protocol"].to_bytes(2, "big") + length.to_bytes(2, "big") + after
    return [], [packet if plan["received"] is None else packet[:plan["received"]]]


GOOD_TCP = {"transaction": 0x1234, "protocol": 0, "length": 0, "unit": 255, "function": 0x45, "data": 4, "received": None}
TCP_FAULTS = [
    (40, {"received": 7}),
    (40, {"received": 0}),
    (41, {"data": 253}),
    (42, {"protocol": 1}),
    (42, {"protocol": 0x0100}),
    (43, {"length": 1}),
    (43, {"length": -1}),
    (43, {"length": 256}),
]


def read_tcp(rng):
    yield from with_faults(tcp, GOOD_TCP, TCP_FAULTS, [40, 41, 42, 43])
    for packet in MODBUS_PACKETS:
        yield [], [packet], 0
    for transaction in (0, 1, 0x00FF, 0x0100, 0xFFFF):
        yield *tcp({**GOOD_TCP, "transaction": transaction}), 0
    for unit in (0, 1, 247, 248, 255):
        for function in (0, 0x80, 255):
            yield *tcp({**GOOD_TCP, "unit": unit, "function": function}), 0
    for data in (0, 1, 2, 251, 252, 253, 254):
        yield *tcp({**GOOD_TCP, "data": data}), 41 if data > 252 else 0
        yield *tcp({**GOOD_TCP, "data": data, "protocol": 1}), 41 if data > 252 else 42
    packet = tcp_bytes(1, 2, 3, pattern(2))
    for length in range(len(packet)):
        yield [], [packet[:length]], 40 if length < 8 else 43
    for bit in range(8 * len(packet)):
        byte = bit // 8
        yield [], [flipped(packet, bit)], 42 if byte in (2, 3) else 43 if byte in (4, 5) else 0
    for beyond in (1, 2, 250):
        yield [], [packet + bytes(beyond)], 43
    yield [], [changed(packet, 4, b"\x00\x00")], 43
    # the length as the whole packet, and with its bytes turned round
    yield [], [changed(packet, 4, b"\x00\x0A")], 43
    yield [], [changed(packet, 4, b"\x04\x00")], 43


def write_rtu(rng):
    def build(plan):
        return [plan["address"], plan["function"]], [pattern(plan["data"]), pattern(max(0, 4 + plan["data"] + plan["more"]), 0x31)]
    good = {"address": 17, "function": 3, "data": 4, "more": 0}
    yield from with_faults(build, good, [(17, {"data": 253}), (17, {"data": 300}), (16, {"more": -1}), (16, {"more": -1000})], [17, 16])
    for address in (0, 1, 247, 248, 255):
        for function in (0, 1, 0x80, 255):
            yield *build({**good, "address": address, "function": function}), 0
    for data in (0, 1, 2, 251, 252):
        for more in (-1, 0, 1, 5):
            yield *build({**good, "data": data, "more": more}), 16 if more < 0 else 0
    for more in range(-8, 3):
        yield *build({**good, "more": more}), 16 if more < 0 else 0
    for _ in range(20):
        yield *build({"address": rng.randrange(256), "function": rng.randrange(256), "data": rng.randrange(30), "more": rng.randrange(4)}), 0


def write_tcp(rng):
    def build(plan):
        return ([plan["transaction"], plan["unit"], plan["function"]],
                [pattern(plan["data"]), pattern(max(0, 8 + plan["data"] + plan["more"]), 0x31)])
    good = {"transaction": 0x1234, "unit": 255, "function": 0x45, "data": 4, "more": 0}
    yield from with_faults(build, good, [(17, {"data": 253}), (17, {"data": 300}), (16, {"more": -1}), (16, {"more": -1000})], [17, 16])
    for transaction in (0, 1, 0x00FF, 0x0100, 0xFFFF):
        yield *build({**good, "transaction": transaction}), 0
    for unit in (0, 1, 247, 248, 255):
        for function in (0, 1, 0x80, 255):
            yield *build({**good, "unit": unit, "function": function}), 0
    for data in (0, 1, 2, 251, 252):
        for more in (-1, 0, 1, 5):
            yield *build({**good, "data": data, "more": more}), 16 if more < 0 else 0
    for more in range(-12, 3):
        yield *build({**good, "more": more}), 16 if more < 0 else 0
    for _ in range(20):
        yield *build({"transaction": rng.randrange(65536), "unit": rng.randrange(256), "function": rng.randrange(256),
                      "data": rng.randrange(30), "more": rng.randrange(4)}), 0


def room(length):
    """An output that shows which of its bytes are written."""
    return pattern(max(0, length), 0x31)


def ascii_line(plan):
    message = (bytes([plan["address"], plan["function"]]) + pattern(plan["data"]))[:plan["kept"]]
    inside = changed(characters(message + bytes([lrc(message) ^ plan["lrc"]])), plan["place"], plan["character"]) + plan["odd"]
    return [], [plan["colon"] + inside + plan["end"], room(plan["data"] + plan["more"])]


# kept: how many bytes before the LRC there are; place: where the character is put inside; odd: a character more; more: room beyond the data
GOOD_ASCII = {"address": 17, "function": 3, "data": 4, "kept": None, "lrc": 0, "place": 0, "character": b"", "odd": b"",
              "colon": b":", "end": b"\r\n", "more": 0}
ASCII_MARKS = [{"colon": b";"}, {"end": b"\n\n"}, {"end": b"\r\r"}]
ASCII_WRONG = [{"place": 0, "character": b"G"}, {"place": 1, "character": b"a"}, {"odd": b"0"}]


def ascii_pairs():
    """Each fault of the marks and each wrong character or count, beside one another and beside the other numbers."""
    for marks, wrong in product(ASCII_MARKS, ASCII_WRONG):
        faults = [(60, {"kept": 1}), (61, {"data": 253}), (62, marks), (63, wrong), (64, {"lrc": 1}), (16, {"more": -1})]
        yield from with_faults(ascii_line, GOOD_ASCII, faults, [60, 61, 62, 63, 64, 16])


def of_length(length, digit=b"0"):
    """A line of so many characters, 5 or more, that is right but for its length and an odd count; and the length of its data."""
    count, odd = divmod(length - 3, 2)
    message = pattern(count - 1)
    return b":" + characters(message + bytes([lrc(message)])) + digit * odd + b"\r\n", max(0, count - 3)


def each_byte():
    """256 messages, of which each byte is once the address, the function, the first byte of the data and the LRC."""
    for byte in range(256):
        message = bytes([byte, (byte + 85) % 256, (byte + 170) % 256])
        yield message[0], message[1], message[2:] + bytes([(-sum(message) - 3 * byte) % 256])


# Address, function and data as 003 has them: 27, its example of a byte; registers read (03, 04) and written (06, 10), a reply, an error, a record of a
# file (14); the address that every device answers, 240, and the one that none may have beside RTU, 58, the colon's number.
ADI = [(1, 0x03, bytes.fromhex("001B0002")), (1, 0x03, bytes.fromhex("0417050000")), (1, 0x83, b"\x02"), (240, 0x04, bytes.fromhex("00000001")),
       (58, 0x04, bytes.fromhex("00000001")), (1, 0x06, bytes.fromhex("0010001B")), (1, 0x10, bytes.fromhex("00100001021705")),
       (1, 0x14, bytes.fromhex("0706000100000008"))]


def messages():
    """What is written and then read."""
    yield from ADI
    for address, function in product((0, 1, 247, 248, 255), (0, 1, 0x80, 255)):
        yield address, function, pattern(4)
    for length in (0, 1, 2, 251, 252):
        yield 17, 3, pattern(length)
    for first in (0, 128):
        yield 17, 3, bytes(range(first, first + 128))
    # an LRC of 0, of 1 and of 255; the smallest sum and the largest
    for data in (b"\xEC", b"\xEB", b"\xED"):
        yield 17, 3, data
    for byte in (0, 255):
        yield byte, byte, bytes([byte]) * 252
    yield 0, 0, b""


def ascii_marks(line):
    """A good line with its marks changed, and with its marks inside."""
    for colon in (b"9", b";", b"\x1A", b"\xBA", b"\x00", b"\xFF", b"\r", b"\n"):
        yield changed(line, 0, colon), 62
    for end in (b"\n\r", b"\r\r", b"\n\n", b"\x0C\n", b"\x0E\n", b"\x8D\n", b"\r\x09", b"\r\x0B", b"\r\x8A", b"\x00\n", b"\r\x00", b":\n", b"\r:", b"00"):
        yield changed(line, len(line) - 2, end), 62
    for cut in (line[1:], line[:-1], line[:-2], line[:-2] + b"\n", line[1:-2]):
        yield cut, 62
    for beyond in (b"\x00", b"\r", b"\n", b"0", b"00", b":", b"\n\r", line[:-1]):
        yield line + beyond, 62
    for before in (b"\x00", b"\r", b"\n", b"0", b"00", b"\r\n", line[1:]):
        yield before + line, 62
    # the first and the last two characters are the marks, and others stand inside
    for inside in (line + b"\r\n", b":" + line, line + line, b":" + line + b"\r\n", line[:-2] + b"\r\r\n", line[:-2] + b"\n\r\n"):
        yield inside, 63
    for mark in (b":", b"\r", b"\n", b"\r\n"):
        for at in range(1, len(line) - 1 - len(mark)):
            yield changed(line, at, mark), 63


def read_ascii(rng):
    yield from ascii_pairs()
    for line in ASCII_LINES:
        yield [], [line, room(5)], 0
    for address, function, data in messages():
        yield [], [ascii_bytes(address, function, data), room(len(data) + 2)], 0
    for address, function, data in each_byte():
        yield [], [ascii_bytes(address, function, data), room(3)], 0
    for length in range(5):
        yield [], [b":\r\n:0"[:length], room(2)], 60
    for length in [*range(5, 14), *range(510, 517), 521, 1025]:
        line, data = of_length(length)
        yield [], [line, room(data)], 60 if length < 9 else 61 if length > 513 else 63 if length % 2 == 0 else 0
        if length % 2 == 0:
            yield [], [of_length(length, b"\r")[0], room(data)], 60 if length < 9 else 61 if length > 513 else 63
    for data in (1, 2, 251, 252):
        for output in sorted({0, data - 1, data, data + 1, data + 5}):
            yield [], [ascii_bytes(17, 3, pattern(data)), room(output)], 16 if output < data else 0
    for output in (0, 1):
        yield [], [ascii_bytes(17, 3, b""), room(output)], 0
    line = ascii_bytes(17, 3, pattern(2))
    for length in range(len(line)):
        yield [], [line[:length], room(2)], 60 if length < 9 else 62
    for broken, due in ascii_marks(line):
        yield [], [broken, room(2)], due
    # each character in the high and in the low place of the first data byte
    for place in (5, 6):
        for character in range(256):
            due = 0 if character == line[place] else 64 if character in DIGITS else 63
            yield [], [changed(line, place, bytes([character])), room(2)], due
    # each LRC; A3 is right
    for byte in range(256):
        yield [], [changed(line, len(line) - 4, characters([byte])), room(2)], 0 if byte == 0xA3 else 64
    # lower case: address, function, first data byte and LRC are the same letter twice, for which the second data byte is made
    for half in range(10, 16):
        byte = 17 * half
        line = ascii_bytes(byte, byte, bytes([byte, -4 * byte % 256]))
        yield [], [line, room(2)], 0
        yield [], [line.lower(), room(2)], 63
        for place in (1, 4, 5, 10) if half % 2 else (2, 3, 6, 9):
            yield [], [changed(line, place, line[place:place + 1].lower()), room(2)], 63
    for _ in range(20):
        data = rng.randbytes(rng.randrange(30))
        yield [], [ascii_bytes(rng.randrange(256), rng.randrange(256), data), room(len(data) + rng.randrange(4))], 0


def write_ascii(rng):
    def build(plan):
        return [plan["address"], plan["function"]], [pattern(plan["data"]), room(9 + 2 * plan["data"] + plan["more"])]
    good = {"address": 17, "function": 3, "data": 4, "more": 0}
    yield from with_faults(build, good, [(17, {"data": 253}), (17, {"data": 300}), (16, {"more": -1}), (16, {"more": -1000})], [17, 16])
    for address, function, data in messages():
        yield [address, function], [data, room(9 + 2 * len(data) + 2)], 0
    for data in (0, 1, 2, 251, 252, 253):
        for more in (-1000, -1, 0, 1, 5):
            yield *build({**good, "data": data, "more": more}), 17 if data > 252 else 16 if more < 0 else 0
    for more in range(-17, 3):
        yield *build({**good, "more": more}), 16 if more < 0 else 0
    for _ in range(20):
        yield *build({"address": rng.randrange(256), "function": rng.randrange(256), "data": rng.randrange(30), "more": rng.randrange(4)}), 0


CASES = {30: read_rtu, 31: write_rtu, 32: read_tcp, 33: write_tcp, 34: read_ascii, 35: write_ascii}
