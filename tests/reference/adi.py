"""02, W-207, and 003: ADI heat meters by file record. Bytes are function 14 (hexadecimal) and its data; numbers most significant byte first.

Request: function, byte count 1, groups of 7: type 1, file 2, record 2, length in registers 2.
Reply: function, byte count 1, groups: length in bytes 1, type 1, that many register bytes. One of only four bytes means no data.
Descriptor, the registers of record 0: length, type, records, record length, contents type and next, 2 each; then a count of two words, the low one first.
"""
from functools import partial

import modbus
from modbus import number
from refusals import read, written

FUNCTION = 0x14
TYPE = 6
LONGEST = 245
HIGHEST_RECORD = 9999
# what the exchange writes its reply into: the longest function and data that an envelope holds
ROOM = 253


def two(of):
    return of.to_bytes(2, "big")


def wrong_function(pdu):
    return (10, lambda: pdu[:1] != bytes([FUNCTION]))


def bad_count(pdu, shortest):
    return len(pdu) < 2 or pdu[1] != len(pdu[2:]) or not shortest <= pdu[1] <= LONGEST


def group_by_group(groups, rules):
    """All rules of a group before those of the next."""
    return [rule for group in groups for rule in rules(group)]


def request_groups(pdu):
    """After function and byte count; the last one may be cut."""
    return [pdu[at:at + 7] for at in range(2, len(pdu), 7)]


def asked(group):
    """file, record, length."""
    return number(group[1:3]), number(group[3:5]), number(group[5:7])


def asked_rules(of):
    file, record, length = of
    return [
        (82, lambda: file < 1 or record > HIGHEST_RECORD),
        (83, lambda: length < 1),
    ]


def read_request(pdu):
    """How many groups."""
    groups = request_groups(pdu)
    return read([
        wrong_function(pdu),
        (80, lambda: bad_count(pdu, 7) or pdu[1] % 7 != 0),
        *group_by_group(groups, lambda group: [(81, lambda: group[0] != TYPE), *asked_rules(asked(group))]),
    ], lambda: (len(groups),))


def asked_at(place, pdu):
    """file, record, length; None where no whole group is at the place, counted from 1. Nothing is judged."""
    whole = [group for group in request_groups(pdu) if len(group) == 7]
    return asked(whole[place - 1]) if 1 <= place <= len(whole) else None


def request_bytes(groups):
    after = b"".join(bytes([TYPE]) + two(file) + two(record) + two(length) for file, record, length in groups)
    return bytes([FUNCTION, len(after)]) + after


def write_request(groups, output):
    """Groups are (file, record, length)."""
    return written([
        (80, lambda: not 1 <= len(groups) <= 35),
        *group_by_group(groups, asked_rules),
        (16, lambda: len(output) < 2 + 7 * len(groups)),
    ], lambda: request_bytes(groups), output)


def reply_groups(pdu):
    """After function and byte count, each as long as its first byte says; the last one may be cut."""
    groups, at = [], 2
    while at < len(pdu):
        groups.append(pdu[at:at + 2 + pdu[at]])
        at += 2 + pdu[at]
    return groups


def bad_length(length):
    return length < 2 or length % 2 != 0


def reply_rules(group):
    """The length stands first, and the type is judged first; it may be missing."""
    length, registers = group[0], group[2:]
    return [
        (81, lambda: group[1:2] != bytes([TYPE])),
        (83, lambda: bad_length(length) or length > len(registers)),
    ]


def read_reply(pdu):
    """How many groups; of one that means no data, both length bytes."""
    if len(pdu) == 4:
        return read([
            wrong_function(pdu),
            (81, lambda: pdu[3] != TYPE),
        ], lambda: (pdu[1], pdu[2]))
    groups = reply_groups(pdu)
    return read([
        wrong_function(pdu),
        (80, lambda: bad_count(pdu, 4)),
        *group_by_group(groups, reply_rules),
    ], lambda: (len(groups),))


def registers_at(place, pdu):
    """The register bytes of the group at a place, counted from 1, as far as there are any. Nothing is judged."""
    groups = reply_groups(pdu)
    return groups[place - 1][2:] if 1 <= place <= len(groups) else b""


def reply_bytes(lengths, registers):
    after, at = b"", 0
    for length in lengths:
        after += bytes([length, TYPE]) + registers[at:at + length]
        at += length
    return bytes([FUNCTION, len(after)]) + after


def write_reply(lengths, registers, output):
    """The lengths of the groups, and the registers of all as one."""
    count = sum(length + 2 for length in lengths)
    return written([
        (80, lambda: not 4 <= count <= LONGEST or sum(lengths) != len(registers)),
        *group_by_group(lengths, lambda length: [(83, lambda: bad_length(length))]),
        (16, lambda: len(output) < 2 + count),
    ], lambda: reply_bytes(lengths, registers), output)


def write_no_data(count, length, output):
    return written([(16, lambda: len(output) < 4)], lambda: bytes([FUNCTION, count, length, TYPE]), output)


def read_descriptor(registers):
    """length, type, records, record length, contents type, next, total."""
    def word(place):
        return number(registers[2 * place:2 * place + 2])
    return read([
        (84, lambda: len(registers) < 16 or word(1) != 1 or word(4) > 3),
    ], lambda: (*map(word, range(6)), word(6) + 65_536 * word(7)))


def reply_to(pdu, registers):
    """(number, the bytes of the reply or None): as many registers as are asked for, and no data where none are given."""
    refusal, groups = read_request(pdu)
    if refusal:
        return refusal, None
    lengths = [asked_at(place, pdu)[2] for place in range(1, groups[0] + 1)]
    room = bytes(ROOM)
    if registers:
        refusal, length, reply = write_reply(bytes(2 * length if length <= 127 else 0 for length in lengths), registers, room)
    else:
        refusal, length, reply = write_no_data(2, 0, room)
    return refusal, None if refusal else reply[:length]


def exchange(read_envelope, write_envelope, packet, registers, output):
    """The reply in the request's envelope."""
    refusal, fields = read_envelope(packet)
    if not refusal:
        *names, function, data = fields
        refusal, reply = reply_to(bytes([function]) + data, registers)
    if refusal:
        return refusal, None, output
    return write_envelope(*names, FUNCTION, reply[1:], output)


exchange_rtu = partial(exchange, modbus.read_rtu, modbus.write_rtu)
exchange_tcp = partial(exchange, modbus.read_tcp, modbus.write_tcp)
