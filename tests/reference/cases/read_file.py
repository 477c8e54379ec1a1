"""Cases for the read-file request 07 and its reply 87 (acts 75 to 79)."""
from cases.datagram import FILE_ORDER, PLAN, WIDEST, crc32_anew, file
from cases.making import changed, flipped, pattern, with_faults
from crc import crc32
from datagram import datagram_bytes
from printed import DATAGRAMS
from read_file import MESSAGE, NAME, REPLY, REQUEST

ORDER = FILE_ORDER + [35, 36]
# with the options and data of a request or reply, whose length is not that of the plan in cases/datagram.py
FAULTS = [
    (37, {"more data": 1}),
    (37, {"more data": -1}),
    (37, {"more options": 1}),
    (37, {"more options": -1}),
    (37, {"length": 17}),
    (37, {"length": 0}),
    (38, {"crc32": 1}),
    (39, {"compression": 1}),
    (39, {"compression": 0xFF}),
    (36, {"more text": 1}),
    (36, {"more text": -1}),
    (36, {"more text": 256}),
    (36, {"closing": b"\x01"}),
    (36, {"closing": b"\x80"}),
    (36, {"closing": b""}),
    (36, {"closing": b"\x00\x00"}),
]


def options_of(plan):
    """The fixed fields, a text's length that tells so much more than there is, the text and what closes it."""
    return plan["fixed"] + ((len(plan["text"]) + plan["more text"]) % 65536).to_bytes(2, "little") + plan["text"] + plan["closing"]


def made(plan):
    """As `file`, with these options and data."""
    options, data = options_of(plan), plan["data bytes"]
    whole = changed(file({**plan, "options": len(options), "data": len(data), "length": None}), 6, options + data)
    return (whole[:-4] + (crc32(whole[:-12]) ^ plan["crc32"]).to_bytes(4, "little"))[:plan["length"]]


def build(plan):
    return [], [made(plan)]


EITHER = {**PLAN, "text": b"name", "more text": 0, "closing": b"\x00"}
SIZES = bytes(range(1, 17))
A_REQUEST = {**EITHER, "type": REQUEST, "fixed": SIZES, "data bytes": b""}
A_REPLY = {**EITHER, "type": REPLY, "fixed": SIZES[:4], "data bytes": b"\x05\x00some \x00\x00"}


def read_either(rng, good, printed):
    """What a request and a reply have in common; one of the printed ones is good."""
    at = len(good["fixed"]) + 2
    yield from with_faults(build, good, FAULTS + [(35, {"type": good["type"] ^ 0x80}), (35, {"type": good["type"] ^ 1})], ORDER)
    # of another type and at fault in all else
    yield *build({**good, "type": 0, "compression": 1, "closing": b""}), 39
    yield *build({**good, "type": 0, "closing": b""}), 35
    for kind in range(256):
        yield *build({**good, "type": kind}), 0 if kind == good["type"] else 35
    for text in (b"", b"\x00", b"\x00\x00", b"n\x00me", b"name\x00", b"\xFF", bytes(range(256)), pattern(255), pattern(1000)):
        for more in (-1, 0, 1):
            yield *build({**good, "text": text, "more text": more}), 36 if more else 0
    # options of each length up to the fixed part with its closing zero, and one byte more
    for length in range(at + 3):
        yield [], [datagram_bytes(good["type"], bytes(length), b"")], 0 if length == at + 1 else 36
    for length in (0, at, at + 1, at + 1 + 257):
        yield [], [datagram_bytes(good["type"], b"\x01" * length, b"")], 36
    for number, one in enumerate(DATAGRAMS):
        yield [], [one], 0 if number == printed else 35
        yield [], [flipped(one, 8 * rng.randrange(6, len(one) - 12) + rng.randrange(8))], 38
        yield [], [crc32_anew(flipped(one, 8 * rng.randrange(6, len(one) - 12) + rng.randrange(8)))], None
    one = made(good)
    for byte in range(6, 6 + at + 5):
        yield [], [crc32_anew(flipped(one, 8 * byte + rng.randrange(8)))], 36 if byte in (6 + at - 2, 6 + at - 1, 6 + at + 4) else 0


def read_request(rng):
    yield from read_either(rng, A_REQUEST, 2)
    for data in (b"\x00", b"data", pattern(300)):
        yield *build({**A_REQUEST, "data bytes": data}), 36
        yield *build({**A_REQUEST, "data bytes": data, "type": REPLY}), 35
        yield *build({**A_REQUEST, "data bytes": data, "text": b""}), 36
    # the closing zero, and the name's last byte too, taken for data
    for taken in (1, 2):
        options = options_of(A_REQUEST)
        yield [], [datagram_bytes(REQUEST, options[:-taken], options[-taken:])], 36
    for fixed in (bytes(16), b"\xFF" * 16, bytes(8) + b"\xFF" * 8, b"\xFF" * 8 + bytes(8), bytes(7) + b"\x80" + bytes(8)):
        yield *build({**A_REQUEST, "fixed": fixed}), 0


def read_reply(rng):
    yield from read_either(rng, A_REPLY, 3)
    for data in (b"", b"\x00", b"\x00\x00", b"\xFF\xFFshort", pattern(300), pattern(2000)):
        yield *build({**A_REPLY, "data bytes": data}), 0
        yield *build({**A_REPLY, "data bytes": data, "text": b""}), 0
    # the closing zero, and the message's last byte too, taken for data
    for taken in (1, 2):
        options = options_of(A_REPLY)
        yield [], [datagram_bytes(REPLY, options[:-taken], options[-taken:])], 36
    for status in (0, 1, 255, 256, 65536, 2 ** 24, 2 ** 31 - 1, 2 ** 31, 2 ** 32 - 1):
        yield *build({**A_REPLY, "fixed": status.to_bytes(4, "little")}), 0


def write_request(rng):
    def build(plan):
        return [plan["offset"], plan["size"]], [plan["name"], pattern(max(0, 37 + len(plan["name"]) + plan["more"]), 0x31)]
    good = {"offset": 0, "size": WIDEST, "name": b"name", "more": 0}
    yield from with_faults(build, good, [(16, {"more": -1}), (16, {"more": -1000})], [16])
    for more in range(-41, 3, 3):
        yield *build({**good, "more": more}), 16 if more < 0 else 0
    for number in (1, 255, 256, 2 ** 16, 2 ** 32 - 1, 2 ** 32, 2 ** 63, WIDEST, 0x0807060504030201):
        yield *build({**good, "offset": number, "size": number ^ 0xFF}), 0
    for name in (b"", b"\x00", b"n\x00me", pattern(255), pattern(256), pattern(1000), bytes(range(256))):
        for more in (-1, 0, 3):
            yield *build({**good, "name": name, "more": more}), 16 if more < 0 else 0
    yield [0, WIDEST], [DATAGRAMS[2][6 + NAME:-13], bytes(73)], 0
    for _ in range(6):
        yield *build({"offset": rng.randrange(2 ** 64), "size": rng.randrange(2 ** 64), "name": rng.randbytes(rng.randrange(40)), "more": rng.randrange(4)}), 0


def write_reply(rng):
    def build(plan):
        message, data = plan["message"], plan["data"]
        return [plan["status"], len(message)], [message + data, pattern(max(0, 25 + len(message) + len(data) + plan["more"]), 0x31)]
    good = {"status": 0, "message": b"OK", "data": b"data", "more": 0}
    yield from with_faults(build, good, [(16, {"more": -1}), (16, {"more": -1000})], [16])
    for more in range(-31, 3, 3):
        yield *build({**good, "more": more}), 16 if more < 0 else 0
    for status in (1, 255, 256, 2 ** 16, 2 ** 31, 2 ** 32 - 1, 0x04030201):
        yield *build({**good, "status": status}), 0
    for message, data in ((b"", b""), (b"", b"data"), (b"OK", b""), (b"\x00", b"\x00"), (pattern(255), pattern(256)), (pattern(256), b""), (b"", pattern(1000))):
        for more in (-1, 0, 3):
            yield *build({**good, "message": message, "data": data, "more": more}), 16 if more < 0 else 0
    options = DATAGRAMS[3][6 + MESSAGE:6 + 9]
    yield [0, 2], [options[:2] + DATAGRAMS[3][6 + 9:-12], bytes(245)], 0
    for _ in range(6):
        yield *build({"status": rng.randrange(2 ** 32), "message": rng.randbytes(rng.randrange(20)), "data": rng.randbytes(rng.randrange(20)),
                      "more": rng.randrange(4)}), 0


def long_texts(rng):
    """Texts on both sides of 65,535 bytes, and of 32,767; rooms on both sides of what is needed, which without 36 would be enough or not."""
    for kind, fixed in ((REQUEST, 37), (REPLY, 25)):
        for length in (0, 256):
            yield [kind, length, fixed + length], [], 0
        for length in (32767, 32768, 65534, 65535):
            yield [kind, length, fixed + length], [], 0
            yield [kind, length, fixed + length - 1], [], 16
        yield [kind, 65535, 65700], [], 0
        for length in (65536, 65537, 65600):
            yield [kind, length, fixed + length], [], 36
        for room in (0, fixed, fixed + 65535, fixed + 65536 - 1, 65700):
            yield [kind, 65536, room], [], 36


CASES = {75: read_request, 76: write_request, 77: read_reply, 78: write_reply, 79: long_texts}
