"""The reference against what it was not made from: printed traffic, published check values and functions, 01's edges, cards, file records and archives by hand,
floats by their bits, python's calendar and CRC-32."""
import calendar
import datetime
import itertools
import random
import re
import struct
import zlib
from collections import Counter

import adi
import card
import clock
import consumption
import datagram
import modbus
import pulsar_body
import pulsar_frame
import pulsar_line
import read_file
import readings
import sm160
import turns
from crc import crc16, crc32, low_byte_first
from dates import is_date
from digits import digit, digit_of
from lrc import lrc
from printed import ASCII_LINES, DATAGRAMS, FILE_REQUEST, FRAMES, MODBUS_LINES, MODBUS_PACKETS

CARD = bytes.fromhex("00 00 00 20 00 21 00 00 40 00 00 00 00 00 00 00 A0")
LISTING = "address;channel;time;kind;bits\n00000001;1;2000-01-01 00:00:00;2;0000000000000005\n"
# 02, W-210, by hand: the same card moved, and with archive kind 4. After the value's last three bits, 101, come 000 or 100, and ten zeros.
MOVED = bytes.fromhex("00 00 00 20 00 21 00 00 40 00 00 00 00 00 00 00 A0 00")
HALF_HOURLY = bytes.fromhex("00 00 00 20 00 21 00 00 40 00 00 00 00 00 00 00 B0 00")
ARCHIVE_LISTING = "address;channel;time;kind;bits;archive\n00000001;1;2000-01-01 00:00:00;2;0000000000000005;4\n"


def same(what, got, due):
    if got != due:
        raise SystemExit(f"self check: {what}: got {got!r}, due {due!r}")


def checksums():
    same("checksum of nothing", crc16(b""), 0xFFFF)
    same("checksum of 00", crc16(b"\x00"), 0x40BF)
    same("checksum of 123456789", crc16(b"123456789"), 0x4B37)
    same("CRC-16/ARC of 123456789", crc16(b"123456789", start=0), 0xBB3D)
    for message in (b"", b"\x00", b"123456789", bytes(range(256))):
        same("over a message and its checksum", crc16(message + low_byte_first(crc16(message))), 0)


def crc32s():
    """Beside python's, from any start, and over stretches."""
    same("CRC-32 of 123456789", crc32(b"123456789"), 0xCBF43926)
    same("CRC-32 of nothing", crc32(b""), 0)
    rng = random.Random(32)
    for length in (0, 1, 2, 3, 4, 9, 100, 1000):
        message = rng.randbytes(length)
        cut = rng.randint(0, length)
        same("CRC-32", crc32(message), zlib.crc32(message))
        same("CRC-32 of two stretches", crc32(message[cut:], start=crc32(message[:cut])), zlib.crc32(message))
        for start in (0, 1, 0x80000000, 0xFFFFFFFF, rng.randrange(2 ** 32)):
            same("CRC-32 from a start", crc32(message, start=start), zlib.crc32(message, start))


def printed_frames():
    due = [
        # session, offset, flags, size
        (1, 0, 7, 22),
        (1, 22, 6, 31),
        (2, 0, 3, 68),
        (2, 68, 5, 5),
        (2, 73, 2, 68),
        (2, 141, 0, 68),
        (2, 209, 0, 68),
        (2, 277, 4, 41),
    ]
    same("number of printed frames", len(FRAMES), 8)
    for packet, (session, offset, flags, size) in zip(FRAMES, due):
        refusal, (_, unit, function, frame) = modbus.read_tcp(packet)
        same("printed packet", (refusal, unit, function), (0, 0xFF, 0x45))
        same("printed header", (sm160.session_field(frame), sm160.offset_field(frame), sm160.flags_field(frame), sm160.size_field(frame)),
             (session, offset, flags, size))
        same("printed CRC16", sm160.crc_field(frame), sm160.frame_crc(frame))
        same("printed frame made from its fields", sm160.frame_bytes(session, offset, flags, frame[12:]), frame)
        refusal, fields = sm160.read_frame(frame)
        same("printed frame read", (refusal, fields), (25, None) if flags & 1 else (0, (session, offset, flags, frame[12:])))


def printed_sessions():
    """From opening, the master's frames are 25 and each reply's START is 28; from the lent state at 141, 01's own case."""
    def fed(state, frames, buffer):
        answers = []
        for packet in frames:
            refusal, answer, state, buffer = sm160.receive(state, packet[8:], buffer)
            answers.append(refusal or answer)
        return answers, state, buffer
    same("session 1 from opening", fed((1, 68, False, 0), FRAMES[:2], bytes(400))[0], [25, 28])
    same("session 2 from opening", fed((2, 68, False, 0), FRAMES[2:], bytes(400))[0], [25, 25, 28, 27, 27, 27])
    answers, state, buffer = fed((2, 68, True, 141), FRAMES[5:], bytes(400))
    same("session 2 from 141", answers, [(False, 209), (False, 277), 37])
    same("state after it", state, (2, 68, True, 277))
    same("bytes after it", buffer, bytes(141) + b"".join(packet[20:] for packet in FRAMES[5:7]) + bytes(400 - 277))


def counted_from_start():
    """Each printed datagram with its offsets counted from its START, and without QA, arrives whole."""
    due = [[(True, 22)], [(True, 31)], [(False, 68), (True, 73)], [(False, 68), (False, 136), (False, 204), (True, 245)]]
    for frames, whole, answers in zip((FRAMES[:1], FRAMES[1:2], FRAMES[2:4], FRAMES[4:]), DATAGRAMS, due):
        first = frames[0][8:]
        session, start = sm160.session_field(first), sm160.offset_field(first)
        state, buffer, got = (session, 68, False, 0), bytes(300), []
        for packet in frames:
            frame = packet[8:]
            anew = sm160.frame_bytes(session, sm160.offset_field(frame) - start, sm160.flags_field(frame) & ~sm160.QA, sm160.part(frame))
            _, answer, state, buffer = sm160.receive(state, anew, buffer)
            got.append(answer)
        same("counted from START", (got, state, buffer), (answers, (session, 68, False, 0), whole + bytes(300 - len(whole))))


def printed_datagrams():
    due = [
        # type, options, data
        (0x0C, bytes.fromhex("50000000"), b""),
        (0x8C, bytes.fromhex("00000000 0200 4F4B00 50000000"), b""),
        (0x07, bytes(8) + b"\xFF" * 8 + b"\x24\x00/usr/piramida/store/arh_20130123.xml\x00", b""),
        (0x87, bytes.fromhex("00000000 0200 4F4B00"), DATAGRAMS[3][15:-12]),
    ]
    same("the file request before it is cut", DATAGRAMS[2], FILE_REQUEST)
    for one, (kind, options, data) in zip(DATAGRAMS, due):
        same("printed datagram", datagram.read_datagram(one), (0, (kind, len(options), len(data), options)))
        same("its data", datagram.read_data(one), (0, (kind, data)))
        same("its CRC-32", datagram.crc32_field(one), zlib.crc32(one[:-12]))
        same("written", datagram.write_datagram(kind, options, data, bytes(len(one))), (0, len(one), one))
    same("as requests", [read_file.read_request(one)[0] for one in DATAGRAMS], [35, 35, 0, 35])
    same("as replies", [read_file.read_reply(one)[0] for one in DATAGRAMS], [35, 35, 35, 0])
    same("the file request", read_file.read_request(DATAGRAMS[2])[1], (0, 2 ** 64 - 1, b"/usr/piramida/store/arh_20130123.xml"))
    same("the file reply", read_file.read_reply(DATAGRAMS[3])[1], (0, 218, b"OK"))
    # its data: one fragment with its length, and the fragment of length 0
    chunk = due[3][2]
    same("the file's fragment", (chunk[:2], chunk[2:5], chunk[-5:]), (b"\xD6\x00", b"<r ", b"/>\n\x00\x00"))


def datagram_edges():
    least = datagram.datagram_bytes(0, b"", b"")
    same("18 bytes", (len(least), datagram.datagram_fault(least, b"")), (18, 0))
    same("17 bytes", datagram.datagram_fault(least[:17], b""), 37)
    # 18 + 10 + (2^64 - 5) is 23 modulo 2^64
    front = bytes([7, 0, 10, 0, 0, 0]) + bytes(5)
    wrapped = front + (2 ** 64 - 5).to_bytes(8, "little") + zlib.crc32(front).to_bytes(4, "little")
    same("lengths that wrap", (len(wrapped), datagram.datagram_fault(b"", wrapped)), (23, 37))
    rng = random.Random(203)
    for _ in range(20):
        kind, options, data = rng.randrange(256), rng.randbytes(rng.randrange(9)), rng.randbytes(rng.randrange(9))
        _, length, output = datagram.write_datagram(kind, options, data, b"\x5A" * 40)
        one = output[:length]
        same("written and read", (datagram.read_datagram(one)[1], datagram.read_data(one)[1]), ((kind, len(options), len(data), options), (kind, data)))
        same("bytes after it", output[length:], b"\x5A" * (40 - length))
        same("one byte less", datagram.write_datagram(kind, options, data, bytes(length - 1)), (16, None, bytes(length - 1)))
        same("put in two steps", datagram.put_ends(kind, len(options), length - 12, len(data), bytes(6) + options + data + bytes(12)), one)
        same("cut at each place", {datagram.datagram_fault(one[:cut], one[cut:]) for cut in range(length + 1)}, {0})
        # every changed bit is found
        for bit in range(8 * length):
            lengths = bit // 8 in range(2, 6) or bit // 8 in range(length - 12, length - 4)
            broken = one[:bit // 8] + bytes([one[bit // 8] ^ 1 << bit % 8]) + one[bit // 8 + 1:]
            same(f"bit {bit}", datagram.datagram_fault(broken, b""), 37 if lengths else 38)


def texts():
    """Requests and replies written and read; the longest text and one byte more."""
    for text in (b"", b"\x00", b"n\x00me", bytes(range(256)), bytes(65_535)):
        _, length, one = read_file.write_request(1, 2 ** 64 - 1, text, bytes(37 + len(text)))
        same("request", (length, read_file.read_request(one)), (37 + len(text), (0, (1, 2 ** 64 - 1, text))))
        _, length, one = read_file.write_reply(2 ** 32 - 1, text, b"data", bytes(29 + len(text)))
        same("reply", (length, read_file.read_reply(one)), (29 + len(text), (0, (2 ** 32 - 1, 4, text))))
    same("a long name", read_file.write_request(0, 0, bytes(65_536), b""), (36, None, b""))
    same("a long message", read_file.write_reply(0, bytes(65_536), b"", bytes(70_000)), (36, None, bytes(70_000)))


def sent_and_received():
    """A datagram that is sent arrives; what is no datagram is not sent, and END does not complete it."""
    rng = random.Random(42)
    for largest in (1, 7, 18, 240):
        file = datagram.datagram_bytes(7, rng.randbytes(9), rng.randbytes(300))
        state, buffer, place = sm160.open_receiver(5, largest)[1], bytes(400), 0
        while place < len(file):
            _, length, place, output = sm160.send(file, 5, largest, place, bytes(252))
            refusal, answer, state, buffer = sm160.receive(state, output[:length], buffer)
            same("a frame of it", (refusal, answer), (0, (place == len(file), place)))
        same("the file", (state, buffer), ((5, largest, False, 0), file + bytes(400 - len(file))))
        for wrong, due in ((file[:-1], 37), (file[:-1] + bytes([file[-1] ^ 1]), 38), (b"\x07" * 17, 37)):
            for place in (0, len(wrong) - 1, len(wrong)):
                same("no datagram, sent", sm160.send(wrong, 5, largest, place, bytes(252))[0], due)
            end = sm160.frame_bytes(5, len(wrong) - 1, sm160.END, wrong[-1:])
            lent = ((5, largest, True, len(wrong) - 1), wrong[:-1] + b"\x5A")
            same("no datagram, ended", sm160.receive(lent[0], end, lent[1]), (due, None, *lent))


def modbus_examples():
    for line in MODBUS_LINES:
        refusal, fields = modbus.read_rtu(line)
        same("public RTU line", refusal, 0)
        same("public RTU line written", modbus.write_rtu(*fields, bytes(len(line))), (0, len(line), line))
    for packet in MODBUS_PACKETS:
        refusal, fields = modbus.read_tcp(packet)
        same("printed TCP packet", refusal, 0)
        same("printed TCP packet written", modbus.write_tcp(*fields, bytes(len(packet))), (0, len(packet), packet))
    for line in ASCII_LINES:
        message = bytes.fromhex(line[1:-4].decode())
        address, function, data = message[0], message[1], message[2:]
        output = bytes(len(data) + 1)
        same("public ASCII line", modbus.read_ascii(line, output), (0, (address, function, len(data)), data + b"\x00"))
        same("public ASCII line written", modbus.write_ascii(address, function, data, bytes(len(line))), (0, len(line), line))
        same("public ASCII line in lower case", modbus.read_ascii(line.lower(), output), (63, None, output))


# 003, appendix 2
CHAR_TO_BIN = [0, 1, 2, 3, 4, 5, 6, 7, 8, 9, 0, 0, 0, 0, 0, 0, 0, 10, 11, 12, 13, 14, 15]
BIN_TO_CHAR = "0123456789ABCDEF"


def functions_of_003():
    """Its LRC (appendix 1) and its digits (appendix 2)."""
    for byte in range(256):
        is_digit = ord("0") <= byte <= ord("9") or ord("A") <= byte <= ord("F")
        same(f"LRC of {byte}", lrc(bytes([byte])), (~byte + 1) % 256)
        same(f"digit {byte}", digit_of(byte), CHAR_TO_BIN[byte - 0x30] if is_digit else 16)
        same(f"digit of {byte}", digit(byte), ord(BIN_TO_CHAR[byte]) if byte < 16 else 0)
    same("LRC of many bytes", lrc(b"\xFF" * 254), (~(254 * 255) + 1) % 256)


def ascii_lengths():
    """W-201's limits, and 16 where the output is too short; a refusal leaves the output."""
    def answered(data, room):
        return modbus.read_ascii(b":" + (b"00" * (data + 3)) + b"\r\n", b"\x5A" * room)
    same("9 characters", answered(0, 0), (0, (0, 0, 0), b""))
    same("7 characters", answered(-1, 1), (60, None, b"\x5A"))
    same("513 characters", answered(252, 253), (0, (0, 0, 252), bytes(252) + b"\x5A"))
    same("515 characters", answered(253, 253), (61, None, b"\x5A" * 253))
    same("513 characters, room for 251 bytes", answered(252, 251), (16, None, b"\x5A" * 251))
    same("252 bytes", modbus.write_ascii(0, 0, bytes(252), bytes(513)), (0, 513, b":" + b"0" * 510 + b"\r\n"))
    same("253 bytes", modbus.write_ascii(0, 0, bytes(253), bytes(515)), (17, None, bytes(515)))


def edges():
    """01, both sides of each edge."""
    same("address 12 34 56 78", pulsar_frame.address_field(bytes.fromhex("12345678")), 12_345_678)
    same("address 12 34 56 7A", pulsar_frame.read_at_meter(1, bytes.fromhex("1234567A 01 0A 0000 0000"))[0], 3)
    same("9 bytes", pulsar_frame.read_at_meter(1, bytes(9))[0], 2)
    same("LEN 9", pulsar_frame.read_at_meter(1, bytes.fromhex("12345678 01 09 0000 0000"))[0], 4)
    same("LEN 11", pulsar_frame.read_at_meter(1, bytes.fromhex("12345678 01 0B 0000 0000")), (9, (1,)))
    same("mask 5, body of 8", pulsar_body.read_reply(1, 4, 5, bytes(range(8))), (0, {"mask": 5, "values": bytes(range(8))}))
    same("mask 5 is two values", readings.value_places(4, bytes(range(8))), [bytes(range(4)), bytes(range(4, 8))])
    same("mask 5, body of 7", pulsar_body.read_reply(1, 4, 5, bytes(7))[0], 11)
    same("mask 0, empty body", pulsar_body.read_reply(1, 4, 0, b"")[0], 12)
    same("month 12", pulsar_body.read_reply(4, 4, 0, bytes([0, 12, 1, 0, 0, 0]))[0], 0)
    same("month 13", pulsar_body.read_reply(4, 4, 0, bytes([0, 13, 1, 0, 0, 0]))[0], 13)
    same("a NaN beside itself", readings.same(0, 0x7FC00000, 0, 0x7FC00000), True)
    same("both zeros", readings.same(0, 0, 0, 0x80000000), False)
    same("01's card", card.read_card(CARD), (0, (1, 1, 0, 1, 1, 0, 0, 0, 2, 5)))
    same("01's card written", card.write_card((1, 1, 0, 1, 1, 0, 0, 0, 2, 5), bytes(17)), (0, 17, CARD))
    part = bytes(range(68))
    for offset, due in ((141, 0), (73, 29), (142, 30)):
        refusal, answer, _, buffer = sm160.receive((2, 240, True, 141), sm160.frame_bytes(2, offset, 0, part), bytes(400))
        same(f"receiver at 141, offset {offset}", refusal, due)
        same(f"receiver at 141, offset {offset}", answer, None if due else (False, 209))
        same("bytes", buffer, bytes(400) if due else bytes(141) + part + bytes(400 - 209))
    frame = sm160.frame_bytes(2, 141, 0, part)
    same("a part that fills the buffer", sm160.receive((2, 240, True, 141), frame, bytes(209))[0:2], (0, (False, 209)))
    same("one byte more", sm160.receive((2, 240, True, 141), frame, bytes(208))[0], 31)


def lister():
    same("01's listing", card.listing(CARD), LISTING)
    same("01's card's line", card.put_line(0, CARD, bytes(50)), (0, 50, LISTING.splitlines(True)[1].encode()))
    same("no input", card.listing(b""), "address;channel;time;kind;bits\n")
    same("a short last card", card.listing(CARD + CARD[:16]), LISTING + "refused 50\n")


def archive_cards():
    """02, W-210, both sides of each edge; and the other lister."""
    form = card.ARCHIVE_CARD
    values = (1, 1, 0, 1, 1, 0, 0, 0, 2, 5)
    for each in card.FORMS:
        same("bits of a form", sum(size for _, size in each.layout), 8 * each.length)
    for kind, whole in ((0, MOVED), (4, HALF_HOURLY)):
        same("01's card in the other form", card.read_card(whole, form), (0, (*values, kind)))
        same("the same written", card.write_card((*values, kind), b"\x5A" * 19, form), (0, 18, whole + b"\x5A"))
    same("01's card moved", card.to_archive_card(CARD, b"\x5A" * 19), (0, 18, MOVED + b"\x5A"))
    same("and back", card.to_card(MOVED, b"\x5A" * 18), (0, 17, CARD + b"\x5A"))
    same("moved into 17 bytes", card.to_archive_card(CARD, bytes(17)), (16, None, bytes(17)))
    same("back into 16 bytes", card.to_card(MOVED, bytes(16)), (16, None, bytes(16)))
    for output in (b"", bytes(17)):
        same("back with archive kind 4", card.to_card(HALF_HOURLY, output), (57, None, output))
    for last, due in (("B400", 56), ("BC00", 56), ("A001", 51), ("A200", 51), ("B600", 51)):
        wrong = MOVED[:16] + bytes.fromhex(last)
        same(f"a card that ends with {last}", (card.read_card(wrong, form)[0], card.to_card(wrong, bytes(17))[0]), (due, due))
    for kind, due in ((4, 0), (5, 56), (255, 56)):
        same(f"archive kind {kind} written", card.write_card((*values, kind), bytes(18), form)[0], due)
    same("of the other form", (card.read_card(CARD, form)[0], card.to_card(CARD, bytes(18))[0], card.to_archive_card(MOVED, bytes(18))[0]), (50, 50, 50))
    same("the listing", card.archive_listing(HALF_HOURLY), ARCHIVE_LISTING)
    same("its line", card.put_line(0, HALF_HOURLY, bytes(52), form), (0, 52, ARCHIVE_LISTING.splitlines(True)[1].encode()))
    same("no input", card.archive_listing(b""), "address;channel;time;kind;bits;archive\n")
    same("a short last card", card.archive_listing(HALF_HOURLY + MOVED[:17]), ARCHIVE_LISTING + "refused 50\n")
    for each in card.FORMS:
        same("the lines of no card", card.put_lines(b"", b"\x5A", each), (0, 0, b"\x5A"))
        same("with a byte too few", card.put_lines(MOVED[:each.length + 1], bytes(10), each)[0], 16)


def both_forms():
    """Any card, written and read, moved there and back; in numbers, the one without its 5 spare bits is the other without its last 13."""
    rng = random.Random(210)
    for _ in range(200):
        at = datetime.datetime(2000, 1, 1) + datetime.timedelta(seconds=rng.randrange(3_155_760_000))
        value_kind, kind = rng.randrange(4), rng.randrange(5)
        values = (rng.randint(1, 99_999_999), rng.randint(1, 32), at.year - 2000, at.month, at.day, at.hour, at.minute, at.second,
                  value_kind, rng.getrandbits(64 if value_kind % 2 else 32))
        old = card.write_card(values, bytes(17))[2]
        new = card.write_card((*values, kind), bytes(18), card.ARCHIVE_CARD)[2]
        same("read back", (card.read_card(old), card.read_card(new, card.ARCHIVE_CARD)), ((0, values), (0, (*values, kind))))
        same("in numbers", int.from_bytes(new, "big"), int.from_bytes(old, "big") >> 5 << 13 | kind << 10)
        same("moved", card.to_archive_card(old, bytes(18)), (0, 18, old + b"\x00"))
        same("moved back", card.to_card(old + b"\x00", bytes(17)), (0, 17, old))
        same("any kind back", card.to_card(new, bytes(17)), (57, None, bytes(17)) if kind else (0, 17, old))


def on_its_way():
    """02, W-205."""
    ten = bytes.fromhex("12345678 06 FF 00000000")
    same("10 bytes of 255", pulsar_frame.read_at_meter(12_345_678, ten), (9, (245,)))
    same("254 bytes of 255", pulsar_frame.read_at_master(12_345_678, 6, 0, ten + bytes(244)), (9, (1,)))
    same("of another address, at the meter", pulsar_frame.read_at_meter(1, ten), (9, (245,)))
    same("of another address, at the master", pulsar_frame.read_at_master(1, 6, 0, ten), (6, None))
    for held, lack in ((ten, 245), (ten[:9], 0), (ten + bytes(244), 1), (ten + bytes(245), 0), (ten + bytes(300), 0)):
        state = pulsar_line.fresh()
        for byte in held:
            _, state = pulsar_line.push(state, byte)
        same("told at silence", pulsar_line.silence(state)[1][1], lack)
    same("an unfit collector", pulsar_line.silence((bytes(255), 256)), (20, None))


def agreed_part():
    """02, W-211."""
    for largest, due in ((0, (33, None)), (1, (0, (7, 1, False, 0))), (240, (0, (7, 240, False, 0))), (241, (33, None))):
        same(f"opening with {largest}", sm160.open_receiver(7, largest), due)
    start = sm160.frame_bytes(7, 0, 2, bytes(68))
    damaged = start[:8] + bytes(2) + start[10:]
    for limit, good, wrong in ((0, 20, 20), (67, 23, 23), (68, 0, 24), (240, 0, 24), (241, 20, 20)):
        same(f"68 bytes with limit {limit}", sm160.receive((7, limit, False, 0), start, bytes(99))[0], good)
        same(f"68 bytes with limit {limit}, CRC16 wrong", sm160.receive((7, limit, False, 0), damaged, bytes(99))[0], wrong)
    file = datagram.datagram_bytes(0x0C, b"", b"")
    whole = sm160.frame_bytes(7, 0, 6, file)
    same("the limit after a completion", sm160.receive((7, 18, False, 0), whole, bytes(18)), (0, (True, 18), (7, 18, False, 0), file))


def collector():
    state = pulsar_line.fresh()
    for byte in range(256):
        _, state = pulsar_line.push(state, byte)
    same("the 256th byte is dropped", pulsar_line.silence(state), (0, (bytes(range(255)), 0, (bytes(255), 0))))


def tables():
    """02, W-213: 20 told by counting, the slot of a turn by how far each due one lies behind the last asked, a course by a dictionary."""
    rng = random.Random(213)
    for _ in range(2000):
        pool, one_in = rng.choice((([1, 2, 257, 99_999_999, 100_000_000], 16), (range(1, 300), 4), (range(1, 10 ** 8), 1)))
        addresses = tuple(0 if rng.randrange(one_in) else rng.choice(pool) for _ in range(32))
        due = tuple(rng.randrange(4) == 0 and (address > 0 or rng.randrange(50) == 0) for address in addresses)
        last = rng.choice((0, 1, 32, 33, rng.randint(1, 32)))
        table = addresses, due, last
        counts = Counter(address for address in addresses if address)
        fit = last in range(1, 33) and max(addresses) < 10 ** 8 and len(counts) == sum(counts.values()) and (0, True) not in zip(addresses, due)
        slots = sorted((slot for slot in range(1, 33) if due[slot - 1]), key=lambda slot: (slot - last - 1) % 32)
        refusal, values, after = turns.turn(table)
        same("20", refusal == 20, not fit)
        if fit:
            same("a turn", (refusal, values), (0, (slots[0], addresses[slots[0] - 1])) if slots else (105, ()))
            same("the table after it", after, (addresses, tuple(slot in slots[1:] for slot in range(1, 33)), slots[0]) if slots else table)
    held, waiting, last, table = {}, set(), 32, turns.new()
    for _ in range(5000):
        name, slot, address = rng.choice(("add", "add", "add", "add", "remove", "mark", "mark", "clear", "turn", "turn")), rng.randrange(34), rng.randrange(60)
        if name == "add":
            empty = sorted(set(range(1, 33)) - set(held))
            due = 100 if address == 0 else 103 if address in held.values() else 0 if empty else 104
            if due == 0:
                held[empty[0]] = address
        elif name == "turn":
            due = 0 if waiting else 105
            if due == 0:
                last = min(waiting, key=lambda slot: slot if slot > last else slot + 32)
                waiting -= {last}
        else:
            due = 101 if slot in (0, 33) else 0 if slot in held else 102
            if due == 0:
                waiting = waiting | {slot} if name == "mark" else waiting - {slot}
            if due == 0 and name == "remove":
                del held[slot]
        refusal, _, table = getattr(turns, name)(table, *([address] if name == "add" else [] if name == "turn" else [slot]))
        same(f"{name} in a course", (refusal, table), (due, (tuple(held.get(k, 0) for k in range(1, 33)), tuple(k in waiting for k in range(1, 33)), last)))


# 02, W-207, by hand. The first request is the public standard's example; its reply is the first one here but for the lengths, which there count the type.
ASKED = [
    # groups (file, record, length), request
    ([(4, 1, 2), (3, 9, 2)], "14 0E 06 0004 0001 0002 06 0003 0009 0002"),
    ([(1, 0, 8)], "14 07 06 0001 0000 0008"),
    ([(65_535, 9999, 65_535)], "14 07 06 FFFF 270F FFFF"),
]
BROUGHT = [
    # registers of each group, reply
    (["0DFE 0020", "33CD 0040"], "14 0C 04 06 0DFE 0020 04 06 33CD 0040"),
    (["1122"], "14 04 02 06 1122"),
    (["1122", "3344 5566 7788"], "14 0C 02 06 1122 06 06 3344 5566 7788"),
]
NO_REQUESTS = [
    (10, ""), (10, "94 02"), (10, "0E 07 06 0001 0000 0008"), (80, "14"), (80, "14 00"), (80, "14 02 00 06"), (80, "14 08 06 0001 0000 0008"),
    (80, "14 08 06 0001 0000 0008 06"), (81, "14 07 07 0000 2710 0000"), (82, "14 07 06 0000 0000 0000"), (82, "14 07 06 0001 2710 0000"),
    (83, "14 07 06 0001 270F 0000"), (83, "14 0E 06 0001 0000 0000 07 0000 2710 0000"), (81, "14 0E 06 0001 0000 0001 07 0000 2710 0000"),
]
NO_REPLIES = [
    (10, ""), (10, "94 02"), (10, "94 02 00 06"), (81, "14 02 00 05"), (80, "14"), (80, "14 01 02"), (80, "14 03 02 06 11"), (80, "14 05 02 06 1122"),
    (83, "14 0C 05 06 0DFE 0020 05 06 33CD 0040"), (83, "14 04 03 06 1122"), (81, "14 05 02 06 1122 02"), (83, "14 06 02 06 1122 02 06"),
    (83, "14 06 02 06 1122 00 06"), (81, "14 06 02 06 1122 00 07"), (83, "14 07 01 06 11 02 07 1122"), (81, "14 07 01 07 11 02 07 1122"),
]


def file_records():
    """02, W-207, both sides of its edges; a refusal leaves the output."""
    for groups, text in ASKED:
        one = bytes.fromhex(text)
        same(f"read {text}", adi.read_request(one), (0, (len(groups),)))
        same(f"asked by {text}", [adi.asked_at(place, one) for place in range(len(groups) + 2)], [None, *groups, None])
        same(f"written {text}", adi.write_request(groups, bytes(len(one)) + b"\x5A"), (0, len(one), one + b"\x5A"))
        same(f"written {text} into a byte too few", adi.write_request(groups, one[1:]), (16, None, one[1:]))
    for groups, text in BROUGHT:
        one, registers = bytes.fromhex(text), [bytes.fromhex(group) for group in groups]
        lengths = list(map(len, registers))
        same(f"read {text}", adi.read_reply(one), (0, (len(groups),)))
        same(f"brought by {text}", [adi.registers_at(place, one) for place in range(len(groups) + 2)], [b"", *registers, b""])
        same(f"written {text}", adi.write_reply(lengths, b"".join(registers), bytes(len(one)) + b"\x5A"), (0, len(one), one + b"\x5A"))
        same(f"written {text} into a byte too few", adi.write_reply(lengths, b"".join(registers), one[1:]), (16, None, one[1:]))
    for due, text in NO_REQUESTS:
        same(f"request {text}", adi.read_request(bytes.fromhex(text)), (due, None))
    for due, text in NO_REPLIES:
        same(f"reply {text}", adi.read_reply(bytes.fromhex(text)), (due, None))
    for count, length in itertools.product((0, 2, 4, 255), repeat=2):
        one = bytes([0x14, count, length, 6])
        same("no data", (adi.read_reply(one), adi.write_no_data(count, length, bytes(5))), ((0, (count, length)), (0, 4, one + b"\x00")))
    same("no data into three bytes", adi.write_no_data(2, 0, bytes(3)), (16, None, bytes(3)))
    for count, due in ((0, 80), (1, 0), (35, 0), (36, 80)):
        same(f"{count} groups", adi.write_request([(1, 0, 1)] * count, bytes(300))[0], due)
    for groups, due in (([(0, 0, 0)], 82), ([(1, 10_000, 0)], 82), ([(1, 9999, 0)], 83), ([(1, 0, 0), (0, 0, 1)], 83)):
        same(f"written {groups}", adi.write_request(groups, b""), (due, None, b""))
    # the lengths of a reply's groups, with as many registers
    for lengths, due in (([], 80), ([0], 80), ([1], 80), ([2], 0), ([3], 83), ([242], 0), ([243], 83), ([244], 80), ([2, 0], 83), ([2, 1], 83), ([1, 1], 83),
                         ([2] * 61, 0), ([2] * 60 + [4], 80), ([0] * 122, 83), ([0] * 123, 80)):
        same(f"lengths {lengths}", adi.write_reply(lengths, bytes(sum(lengths)), bytes(300))[0], due)
        same(f"lengths {lengths}, a register byte more", adi.write_reply(lengths, bytes(sum(lengths) + 1), bytes(300))[0], 80)


def unjudged():
    """02, W-207: places in any bytes."""
    for length, due in ((0, None), (2, None), (8, None), (9, (0, 0, 0)), (15, (0, 0, 0))):
        same(f"place 1 of {length} bytes", adi.asked_at(1, bytes(length)), due)
    same("places far away", [adi.asked_at(place, bytes(300)) for place in (42, 43, 2 ** 32 + 1, 2 ** 64 - 1)], [(0, 0, 0), None, None, None])
    # lengths 1, 0 and 3, of which the last tells a byte too many; and one that tells 255
    for text, due in (("00 00 01 00 11 00 00 03 00 22 33", ["", "11", "", "2233", "", ""]), ("14 FF FF", [""] * 6), ("FF FF FF FF 11", ["", "11", "", "", "", ""])):
        same(f"places of {text}", [adi.registers_at(place, bytes.fromhex(text)) for place in (0, 1, 2, 3, 4, 2 ** 64 - 1)], list(map(bytes.fromhex, due)))


def descriptors():
    """02, W-207: 65,538 records, low word first."""
    one = bytes.fromhex("0010 0001 05A0 0018 0003 0102 0002 0001")
    same("descriptor", adi.read_descriptor(one), (0, (16, 1, 1440, 24, 3, 258, 65_538)))
    same("bytes after it", adi.read_descriptor(one + b"\x5A"), adi.read_descriptor(one))
    same("15 bytes", adi.read_descriptor(one[:15]), (84, None))
    for at, word in ((2, "0000"), (2, "0002"), (2, "0101"), (8, "0004"), (8, "0100")):
        same(f"descriptor with {word} at {at}", adi.read_descriptor(one[:at] + bytes.fromhex(word) + one[at + 2:]), (84, None))


def exchanges():
    """02, W-207, in TCP by hand; in RTU beside it."""
    request, reply = bytes.fromhex("14 07 06 0001 0000 0001"), bytes.fromhex("14 04 02 06 1122")
    before, after = bytes.fromhex("1234 0000 000A 11"), bytes.fromhex("1234 0000 0007 11")
    registers = bytes.fromhex("1122")
    same("in TCP", adi.exchange_tcp(before + request, registers, bytes(14)), (0, 13, after + reply + b"\x00"))
    same("in TCP, no data", adi.exchange_tcp(before + request, b"", bytes(11)), (0, 11, bytes.fromhex("1234 0000 0005 11 14 02 00 06")))
    line = modbus.rtu_bytes(0x11, request[0], request[1:])
    same("in RTU", adi.exchange_rtu(line, registers, bytes(10)), (0, 9, modbus.rtu_bytes(0x11, reply[0], reply[1:]) + b"\x00"))
    for due, packet, given, room in ((43, before + request[:-1], registers, 13), (10, before + b"\x15" + request[1:], registers, 13),
                                     (83, before + request[:-1] + b"\x00", registers, 13), (80, before + request, b"\x11", 13), (16, before + request, registers, 12)):
        same(f"{due} in TCP", adi.exchange_tcp(packet, given, bytes(room)), (due, None, bytes(room)))
    same("44 in RTU", adi.exchange_rtu(line[:-1] + b"\x00", registers, bytes(9)), (44, None, bytes(9)))


# what a request and a reply are, as expressions over their bytes; of a reply's groups each length by itself
A_REQUEST = re.compile(rb"\x14.(?:\x06(?!\x00\x00)..(?:[\x00-\x26].|\x27[\x00-\x0F])(?!\x00\x00)..){1,35}", re.DOTALL)
A_REPLY = re.compile(rb"\x14.(?:" + b"|".join(re.escape(bytes([length, 6])) + b".{%d}" % length for length in range(2, 244, 2)) + rb")+", re.DOTALL)


def any_requests():
    """The first group at fault decides, and in it the first fault; what is accepted is written again as it was."""
    rng = random.Random(207)
    for _ in range(2000):
        groups = [(rng.choice((0, 1, 256, 65_535)), rng.choice((0, 9999, 10_000)), rng.choice((0, 1, 256))) if rng.randrange(5) == 0 else (1, 2, 3)
                  for _ in range(rng.randint(1, 5))]
        numbers = [82 if file == 0 or record == 10_000 else 83 if length == 0 else 0 for file, record, length in groups]
        due = next(filter(None, numbers), 0)
        request = adi.request_bytes(groups)
        same("the first group at fault", (adi.read_request(request)[0], adi.write_request(groups, request)[0]), (due, due))
        wrong = rng.randrange(len(groups))
        typed = request[:2 + 7 * wrong] + b"\x07" + request[3 + 7 * wrong:]
        same("a type among them", adi.read_request(typed)[0], next(filter(None, numbers[:wrong]), 81))
        same("a request", (due == 0, False), tuple(A_REQUEST.fullmatch(each) is not None for each in (request, typed)))
        same("what it asks for", [adi.asked_at(place, request) for place in range(1, len(groups) + 1)], groups)
        if due == 0:
            same("written again", adi.write_request(groups, bytes(len(request))), (0, len(request), request))


def any_replies():
    """Good ones with a byte changed, put in or left out: what is accepted is a reply, and is written again as it was."""
    rng = random.Random(207)
    for _ in range(2000):
        lengths = [rng.choice((2, 2, 4, 6)) for _ in range(rng.randint(1, 5))]
        body = adi.reply_bytes(lengths, rng.randbytes(sum(lengths)))[2:]
        at, byte = rng.randrange(len(body)), bytes([rng.choice((0, 1, 2, 3, 4, 5, 6, 7, 255))])
        body = rng.choice((body, body[:at] + byte + body[at + 1:], body[:at] + byte + body[at:], body[:at] + body[at + 1:]))
        reply = bytes([0x14, len(body)]) + body
        refusal, count = adi.read_reply(reply)
        same("a reply", refusal == 0, len(body) > 3 and A_REPLY.fullmatch(reply) is not None)
        if refusal == 0:
            groups = [adi.registers_at(place, reply) for place in range(1, count[0] + 1)]
            same("written again", adi.write_reply(list(map(len, groups)), b"".join(groups), bytes(len(reply))), (0, len(reply), reply))


# 02, W-208, by hand: kind, values; first and its place, last and its place, how many are present, the steps before the zeros
SUMMARIES = [
    # 5, absent, 9
    (0, "0000A040 FFFFFFFF 00001041", (0x40A00000, 1, 0x41100000, 3, 2, "00008040")),
    (1, "0000000000001440 FFFFFFFFFFFFFFFF 0000000000002240", (0x4014000000000000, 1, 0x4022000000000000, 3, 2, "0000000000001040")),
    (2, "05000000 FFFFFFFF 09000000", (5, 1, 9, 3, 2, "04000000")),
    (3, "0500000000000000 FFFFFFFFFFFFFFFF 0900000000000000", (5, 1, 9, 3, 2, "0400000000000000")),
    # 0, 1/1024, 1/1024 below the limit, and that again
    (0, "00000000 0000803A FFFF7F46 FFFF7F46", (0, 1, 0x467FFFFF, 4, 4, "0000803A FEFF7F46 00000000")),
    (1, "0000000000000000 000000000000503F F8FFFFFFFFFF6F42", (0, 1, 0x426FFFFFFFFFFFF8, 3, 3, "000000000000503F F0FFFFFFFFFF6F42")),
    # 0 and the largest; one alone
    (2, "FFFFFFFF 00000000 FEFFFFFF", (0, 2, 0xFFFFFFFE, 3, 2, "FEFFFFFF")),
    (3, "0000000000000000 FEFFFFFFFFFFFFFF FFFFFFFFFFFFFFFF", (0, 1, 0xFFFFFFFFFFFFFFFE, 2, 2, "FEFFFFFFFFFFFFFF")),
    (2, "FFFFFFFF 05000000 FFFFFFFF", (5, 2, 5, 2, 1, "")),
]
NO_SUMMARIES = [
    (0, "", (71, None)), (3, "FFFFFFFFFFFFFFFF", (71, None)), (2, "FFFFFFFF FFFFFFFF", (71, None)), (2, "05000000 09000000 07000000", (72, (3,))),
    (2, "05000000 FFFFFFFF 04000000", (72, (3,))), (0, "0000A040 00008040 00000080", (72, (2,))), (0, "0000A040 00000080 00008040", (73, (2,))),
    (0, "00000080", (73, (1,))), (0, "FFFFFFFF 0000003A", (73, (2,))), (0, "00008046", (73, (1,))), (0, "0000807F", (73, (1,))), (0, "FEFFFFFF", (73, (1,))),
    (1, "000000000000403F", (73, (1,))), (1, "FCFFFFFFFFFF6F42", (73, (1,))), (1, "0000000000007042", (73, (1,))), (1, "0100000000000000", (73, (1,))),
]
MASK_AND_DATE = bytes.fromhex("04000000 17021C0C1E1E")


def archives_by_hand():
    """02, W-208, both sides of its edges."""
    for kind, values, (*told, steps) in SUMMARIES:
        body, room = MASK_AND_DATE + bytes.fromhex(values), 28 * 8 if kind % 2 else 57 * 4
        same(f"{values} of kind {kind}", consumption.read_summary(kind, body), (0, (*told, bytes.fromhex(steps).ljust(room, b"\x00"))))
        same("a byte less", consumption.read_summary(kind, body[:-1]), (11, None))
        same("two channels", consumption.read_summary(kind, b"\x05" + body[1:]), (12, None))
        same("no date", consumption.read_summary(kind, body[:4] + b"\xFF" * 6 + body[10:]), (13, None))
    for kind, values, due in NO_SUMMARIES:
        same(f"{values} of kind {kind}", consumption.read_summary(kind, MASK_AND_DATE + bytes.fromhex(values)), due)


# of each float: bits below its exponent, exponent of 1/1024, bits of the limit
FLOATS = [(23, 117, 0x46800000), (52, 1013, 0x4270000000000000)]


def taken_by_bits(kind, bits):
    """02, W-208, in whole numbers: 0, or below the limit and with no bit set that tells less than 1/1024."""
    digits, least, limit = FLOATS[kind]
    exponent = bits >> digits
    return bits == 0 or bits < limit and exponent >= least and bits % 2 ** (digits + least - exponent) == 0


def floats():
    """All exponents of 32 bits, many of 64, with either sign: each digit alone, all from it on, all below it, and any."""
    rng = random.Random(208)
    for kind, exponents in ((0, range(2 ** 9)), (1, [*range(3), *range(930, 1090), *range(2045, 2051), *range(3050, 3090), 4094, 4095])):
        digits, width = FLOATS[kind][0], 8 if kind else 4
        parts = [part for at in range(digits + 1) for part in (2 ** at % 2 ** digits, 2 ** digits - 2 ** at, 2 ** at - 1, rng.getrandbits(digits))]
        for exponent, part in itertools.product(exponents, parts):
            bits = exponent << digits | part
            same(f"{bits:X} outside", consumption.outside(kind, bits.to_bytes(width, "little")), not taken_by_bits(kind, bits))


# by the width, bits of six floats that are taken, in order, and of some that are not
FLOAT_BITS = {
    4: [0, 0x3A800000, 0x40A00000, 0x40E00000, 0x41100000, 0x467FFFFF, 1, 0x3A000000, 0x46800000, 0x7FC00000, 0x80000000, 0xC0A00000],
    8: [0, 0x3F50000000000000, 0x4014000000000000, 0x401C000000000000, 0x4022000000000000, 0x426FFFFFFFFFFFF8, 1, 0x3F40000000000000, 0x4270000000000000,
        0x7FF8000000000000, 0x8000000000000000, 0xC014000000000000],
}


def archives():
    """The first place up to which not all that is present is taken and in order decides; the steps, added one by one to the first value, give all others."""
    rng, seen = random.Random(208), set()
    for _ in range(6000):
        kind = rng.randrange(4)
        form = struct.Struct("<" + "fdIQ"[kind])
        absent, pool = 256 ** form.size - 1, FLOAT_BITS[form.size]
        some = rng.choices(rng.choice((pool, pool[:6])), k=rng.randrange(9))
        some = [rng.choice((bits, bits, bits, absent)) for bits in rng.choice((some, sorted(some), [absent] * len(some)))]
        mask, month, more = rng.choice((4, 4, 4, 5)), rng.choice((2, 2, 2, 13)), bytes(rng.choice((0, 0, 0, 1)))
        body = bytes([mask, 0, 0, 0, 23, month, 28, 12, 30, 30]) + b"".join(bits.to_bytes(form.size, "little") for bits in some) + more
        refusal, told = consumption.read_summary(kind, body)
        seen.add(refusal)

        def in_order(count):
            present = [bits for bits in some[:count] if bits != absent]
            return present == sorted(present) and (kind > 1 or all(taken_by_bits(kind, bits) for bits in present))

        wrong = next((place for place in range(1, len(some) + 1) if not in_order(place)), None)
        places = [place for place, bits in enumerate(some, 1) if bits != absent]
        if more or mask == 5 or month == 13:
            same("the body's own", (refusal, told), (11 if more else 12 if mask == 5 else 13, None))
        elif wrong:
            same("the first place at fault", (refusal, told), (72 if kind > 1 or taken_by_bits(kind, some[wrong - 1]) else 73, (wrong,)))
        elif not places:
            same("nothing present", (refusal, told), (71, None))
        else:
            first, first_place, last, last_place, present, steps = told
            same("places", (refusal, first_place, last_place, present), (0, places[0], places[-1], len(places)))
            same("first and last", (first, last), (some[places[0] - 1], some[places[-1] - 1]))
            values = [value for place in places for value in form.unpack(some[place - 1].to_bytes(form.size, "little"))]
            added = [value for value, in form.iter_unpack(first.to_bytes(form.size, "little") + steps)]
            same("steps that add up", list(itertools.accumulate(added)), values + values[-1:] * (232 // form.size - present))
    same("the numbers that come", seen, {0, 11, 12, 13, 71, 72, 73})


def dates():
    """Every year, month and day within the ranges and just beyond, beside python's calendar."""
    for year, month, day in itertools.product(range(101), range(14), range(33)):
        due = year < 100 and 1 <= month <= 12 and 1 <= day <= calendar.monthrange(2000 + year, month)[1]
        same(f"{2000 + year}-{month}-{day} is a date", is_date((year, month, day, 0, 0, 0)), due)


def seconds():
    """The first and the last second of every day of the century, beside python's calendar."""
    begin = datetime.datetime(2000, 1, 1)
    for n in range(36_525):
        at = begin + datetime.timedelta(days=n)
        for time in (datetime.time(0, 0, 0), datetime.time(23, 59, 59)):
            now = datetime.datetime.combine(at, time)
            six = (now.year - 2000, now.month, now.day, now.hour, now.minute, now.second)
            same(f"seconds since 2000 at {now}", clock.seconds_since_2000(six), (now - begin) // datetime.timedelta(seconds=1))
    same("the last second of 2099", (six, clock.seconds_since_2000(six)), ((99, 12, 31, 23, 59, 59), 3_155_759_999))
    same("a second slow", clock.clock_difference((0, 1, 1, 0, 0, 0), (0, 1, 1, 0, 0, 1)), (0, -1))


def check():
    for one in (checksums, crc32s, printed_frames, printed_sessions, counted_from_start, printed_datagrams, datagram_edges, texts, sent_and_received,
                modbus_examples, functions_of_003, ascii_lengths, edges, on_its_way, agreed_part, lister, archive_cards, both_forms,
                collector, tables, file_records, unjudged, descriptors, exchanges, any_requests, any_replies, archives_by_hand, floats, archives, dates, seconds):
        one()


if __name__ == "__main__":
    check()
    print("self check: good")
