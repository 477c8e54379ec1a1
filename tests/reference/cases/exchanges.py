"""Cases for exchanges (acts 98 and 99): an ADI request in its envelope, and the registers of the reply to it."""
from collections import namedtuple
from functools import partial
from itertools import product

from adi import two
from cases.adi import (DESCRIPTOR_REQUEST, FUNCTIONS, GROUP_FAULTS, NO_DATA, PUBLIC_REPLY, PUBLIC_REQUEST, altered, asked, asked_groups, asking, changed_at, counted,
                       good_reply, judged, pdu)
from cases.making import changed, flipped, pattern
from cases.modbus import room
from crc import crc16, low_byte_first

Envelope = namedtuple("Envelope", "made around faults")


def rtu(plan, some):
    before = bytes([plan["address"]]) + some
    return before + low_byte_first(crc16(before) ^ plan["crc"])


def tcp(plan, some):
    after = bytes([plan["address"]]) + some
    return two(plan["transaction"]) + two(plan["protocol"]) + two(len(after) + plan["length field"]) + after


# around: how many bytes there are beside function and data
RTU = Envelope(made=rtu, around=3, faults=[
    (40, {"received": 3}),
    (40, {"received": 0}),
    (41, {"after": bytes(240)}),
    (44, {"crc": 0x0001}),
    (44, {"crc": 0x8000}),
])
TCP = Envelope(made=tcp, around=7, faults=[
    (40, {"received": 7}),
    (40, {"received": 0}),
    (41, {"after": bytes(240)}),
    (42, {"protocol": 1}),
    (42, {"protocol": 0x0100}),
    (43, {"length field": 1}),
    (43, {"length field": -1}),
])
ASKING_FAULTS = [
    (10, {"function": 0x94}),
    (10, {"function": 0x03}),
    (80, {"more": 1}),
    (80, {"more": -7}),
    (81, {"kind": 7}),
    (82, {"file": 0}),
    (82, {"record": 10_000}),
    (83, {"length": 0}),
]
# a group of more than 127 registers is written with length 0
ANSWERING_FAULTS = [(80, {"registers": 1}), (80, {"registers": -1}), (83, {"length": 128})]
ROOM_FAULTS = [(16, {"room": -1}), (16, {"room": -1000})]
# others: how many registers further groups ask for; registers: how many bytes more there are than are asked for, None where there is none at all
EXCHANGE = {"address": 17, "transaction": 0x1234, "crc": 0, "protocol": 0, "length field": 0, "function": 0x14, "more": 0, "after": b"", "received": None,
            "kind": 6, "file": 1, "record": 9999, "length": 2, "others": [1], "registers": 0, "room": 0}


def written_lengths(plan):
    return [2 * length if length <= 127 else 0 for length in (plan["length"], *plan["others"])]


def due_of_lengths(plan):
    """Of a plan that has no other fault, with just the registers that are written: none at all are no data."""
    lengths = written_lengths(plan)
    return 0 if sum(lengths) == 0 else 80 if sum(lengths) + 2 * len(lengths) > 245 else 83 if 0 in lengths else 0


def exchange(envelope, plan):
    """With as much room as the reply needs, or as the longest one would."""
    groups = [asked(plan), *(asked(asking(place, {"length": length})) for place, length in enumerate(plan["others"], 2))]
    packet = envelope.made(plan, pdu(groups, plan["function"], plan["more"]) + plan["after"])[:plan["received"]]
    lengths = written_lengths(plan)
    registers = 0 if plan["registers"] is None else sum(lengths) + plan["registers"]
    reply = 4 if registers == 0 else min(247, 2 + sum(lengths) + 2 * len(lengths))
    return [len(packet)], [packet + pattern(registers), room(envelope.around + reply + plan["room"])]


def carried(envelope, some, registers):
    """Any function and data in a good envelope."""
    packet = envelope.made(EXCHANGE, some)
    return [len(packet)], [packet + registers, room(envelope.around + 2 + len(registers) + 20)]


def exchanges(envelope, rng):
    def of(**change):
        return exchange(envelope, {**EXCHANGE, **change})
    yield from judged(partial(exchange, envelope), EXCHANGE, envelope.faults + ASKING_FAULTS + ANSWERING_FAULTS + ROOM_FAULTS)
    # no data in place of the registers
    for number, change in envelope.faults + ASKING_FAULTS + ROOM_FAULTS:
        yield *of(registers=None, **change), number
    for registers in (0, None):
        for address in (0, 1, 58, 247, 248, 255):
            yield *of(address=address, registers=registers), 0
        for transaction in (0, 1, 0x00FF, 0x0100, 0xFFFF):
            yield *of(transaction=transaction, registers=registers), 0
    for registers, needed in ((0, 12), (None, 4)):
        for more in range(-envelope.around - needed, 4):
            yield *of(room=more, registers=registers), 16 if more < 0 else 0
    for more in range(-5, 6):
        yield *of(registers=more), 80 if more else 0
    yield from of_lengths(of)
    yield from of_packets(envelope)
    for count in (1, 2, 3, 35):
        for _ in range(15):
            yield *carried(envelope, altered(rng, pdu(asked_groups([{"length": 2}] * count))), pattern(4 * count)), None


def of_lengths(of):
    """What is asked for, on both sides of what a reply holds and of what a group's length holds, in one group and more."""
    lengths = [1, 60, 61, 119, 120, 121, 122, 127, 128, 256, 257, 65_535]
    several = [[], [1], [60], [128], [1, 128], [1] * 34, [1] * 33 + [65_535]]
    for length, others in product(lengths, several):
        plan = {"length": length, "others": others}
        yield *of(**plan), due_of_lengths(plan)
    for length, others in ((1, []), (121, []), (128, []), (65_535, []), (1, [1] * 34), (127, [127] * 34), (65_535, [65_535] * 34)):
        yield *of(length=length, others=others, registers=None), 0
        yield *of(length=length, others=others, registers=2), 80
    # 127 registers are 254 bytes, though there are just the two of the other group
    yield *of(length=127, others=[1], registers=-254), 80
    # 244 bytes of 35 groups, and 246
    yield *of(length=19, others=[2] * 34), 0
    yield *of(length=20, others=[2] * 34), 80


def of_packets(envelope):
    (short, _), *_, (broken, _) = envelope.faults
    registers = pattern(6)
    good = pdu(asked_groups([{"length": 2}, {"length": 1}]))
    packet = envelope.made(EXCHANGE, good)
    for length in range(len(packet)):
        yield [length], [packet[:length] + registers, room(24)], short if length <= envelope.around else broken
    for at in range(len(packet)):
        yield [len(packet)], [flipped(packet, 8 * at + 3 * at % 8) + registers, room(24)], broken if envelope is RTU else None
    for length in range(1, len(good)):
        # a first group alone asks for two registers
        yield *carried(envelope, good[:length], registers), 80
        yield *carried(envelope, counted(good[:length]), registers[:4]), 0 if length == 9 else 80
    for function in (0x14, *FUNCTIONS):
        yield *carried(envelope, bytes([function]), registers), 80 if function == 0x14 else 10
        yield *carried(envelope, changed(good, 0, bytes([function])), registers), 0 if function == 0x14 else 10
    for count, place in ((1, 1), (2, 1), (2, 2), (35, 1), (35, 35)):
        for number, change in GROUP_FAULTS:
            groups = asked_groups(changed_at([{"length": 1}] * count, place, {"length": 1, **change}))
            yield *carried(envelope, pdu(groups), pattern(2 * count)), number
    # the longest that an envelope holds, and a byte more
    for length, due in ((244, 80), (245, 82), (246, 80), (251, 80), (252, 41)):
        yield *carried(envelope, pdu([b"\x06" + bytes(length - 1)]), registers), due
    yield *carried(envelope, DESCRIPTOR_REQUEST, pattern(16)), 0
    yield *carried(envelope, PUBLIC_REQUEST, pattern(8)), 0
    for some in (NO_DATA, PUBLIC_REPLY, good_reply(1)):
        yield *carried(envelope, some, registers), 80


CASES = {98: partial(exchanges, RTU), 99: partial(exchanges, TCP)}
