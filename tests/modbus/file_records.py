"""Function 14 (hexadecimal), which reads file records (W-207, acts 90 to 99), beside pymodbus.

A request is the same to both: pymodbus makes requests, which the core reads; the core writes the same groups, which must be the same bytes,
and pymodbus reads them; and a request of pymodbus in its envelope is answered, in an envelope that pymodbus reads. A reply is not the same:
a group's length counts the type in the public standard, and does not in 003, which decides for ADI. pymodbus reads replies by the public
standard; those that it writes follow neither, since it puts the type first and then the number of registers. The core must refuse both, by
the number due, but where their bytes are a reply by 003 too. What pymodbus does with the core's replies, and with all that the core
refuses, is told, not judged.
"""
import itertools
import random
import struct
from functools import partial

import pymodbus.pdu as pdu
from pymodbus.exceptions import ModbusException
from pymodbus.factory import ClientDecoder
from pymodbus.file_message import FileRecord, ReadFileRecordRequest, ReadFileRecordResponse
from pymodbus.framer.rtu_framer import ModbusRtuFramer
from pymodbus.framer.socket_framer import ModbusSocketFramer

from comparison import read_by_pymodbus, some_bytes
from encoding import ASKED
from envelopes import Data, read_back, set_fields

FUNCTION = 0x14
TYPE = 6
OTHER_TYPES = [kind for kind in range(256) if kind != TYPE]
MOST_GROUPS = 35
# A reply has 245 bytes after its byte count at most, and a group of n registers 2 n + 2: so groups and registers are 122 at most together.
MOST_TOGETHER = 122
FILES, RECORDS, LENGTHS = (1, 65535), (0, 9999), (1, 65535)
EXCHANGES = [("RTU", 98), ("TCP", 99)]


# Requests. A group is its file, record and length.


def ends(first, last):
    return first, first + 1, last - 1, last


def pick(chance, first, last):
    return chance.choice([*ends(first, last), chance.randint(first, last)])


def group(chance):
    return tuple(pick(chance, *bounds) for bounds in (FILES, RECORDS, LENGTHS))


def requests(chance):
    """One group with each field at both ends of its range, then 1 to 35 groups."""
    alone = [[fields] for fields in itertools.product(*(ends(*bounds) for bounds in (FILES, RECORDS, LENGTHS)))]
    return alone + [[group(chance) for _ in range(count)] for count in range(1, MOST_GROUPS + 1) for _ in range(10)]


def request(groups, kind=TYPE):
    return ReadFileRecordRequest([
        FileRecord(reference_type=kind, file_number=file, record_number=record, record_length=length) for file, record, length in groups])


def bytes_of(message):
    """Function and data, as pymodbus writes them."""
    return bytes([message.function_code]) + bytes(message.encode())


def groups_given(groups):
    """As act 92 is given them."""
    return b"".join(ASKED.pack(*fields) for fields in groups)


# Replies. A group is its register bytes.


def shares(chance, count):
    """How many registers each of so many groups has where one reply holds them all, from one each to as many as there is room for."""
    total = chance.choice([count, MOST_TOGETHER - count, chance.randint(count, MOST_TOGETHER - count)])
    cuts = [0, *sorted(chance.sample(range(1, total), count - 1)), total]
    return [end - start for start, end in zip(cuts, cuts[1:])]


def replies(chance):
    """One group of each length, then 2 to 61 groups."""
    alone = [[length] for length in range(1, MOST_TOGETHER)]
    more = [shares(chance, count) for count in range(2, MOST_TOGETHER // 2 + 1) for _ in range(6)]
    return [[some_bytes(chance, 2 * length) for length in lengths] for lengths in alone + more]


def reply(parts):
    return bytes([FUNCTION, sum(len(part) for part in parts)]) + b"".join(parts)


def reply_of_003(groups):
    return reply([bytes([len(registers), TYPE]) + registers for registers in groups])


def reply_of_the_standard(groups):
    return reply([bytes([len(registers) + 1, TYPE]) + registers for registers in groups])


def reply_of_pymodbus(groups):
    return bytes_of(ReadFileRecordResponse([FileRecord(record_data=registers) for registers in groups]))


def no_data(count, length, kind=TYPE):
    return bytes([FUNCTION, count, length, kind])


class ReplyData(Data, pdu.ModbusResponse):
    """A reply of function 14 whose data pymodbus keeps as it is; in RTU it ends where the byte count says."""

    function_code = FUNCTION
    _rtu_byte_count_pos = 2


def plain_framers():
    decoder = ClientDecoder()
    decoder.register(ReplyData)
    return {"RTU": ModbusRtuFramer(decoder), "TCP": ModbusSocketFramer(decoder)}


# What pymodbus reads. None stands for an error that it raises.


def asked_by_pymodbus(decoder, given):
    try:
        return [(one.file_number, one.record_number, one.record_length) for one in decoder.decode(given).records]
    except struct.error:
        return None


def registers_of(message):
    return [bytes(one.record_data) for one in message.records]


def registers_by_pymodbus(decoder, given):
    """Its decoder of replies catches the error, and answers None."""
    message = decoder.decode(given)
    return message and registers_of(message)


def said_of(found, meanings):
    """What pymodbus does, in words: the first meaning whose groups it found."""
    if found is None:
        return "raises an error"
    if not found:
        return "reads no group"
    return next((words for words, groups in meanings if groups == found), "reads other groups")


def said_of_reply(found, groups):
    if found and groups and found != groups and found[0] == groups[0][:-1]:
        return f"reads the first group without its last byte{', and other groups' if len(found) > 1 else ''}"
    return said_of(found, [("reads the groups", groups)])


# Requests compared.


def compare_requests(comparison, decoder, chance):
    for groups in requests(chance):
        made = bytes_of(request(groups))
        comparison.ask("File record requests of pymodbus read: number of groups", (90, [], [made]), [0, len(groups)])
        for place, fields in enumerate(groups, 1):
            comparison.ask("File record requests of pymodbus read: file, record, length of a group", (91, [place], [made]), [0, 1, *fields])
        for place in (0, len(groups) + 1):
            comparison.ask("File record requests of pymodbus read: no group at another place", (91, [place], [made]), [0, 0])
        room = some_bytes(chance, len(made) + chance.randrange(3))
        back = partial(request_back, comparison, decoder, groups)
        comparison.ask_written("File record requests written like pymodbus", (92, [], [groups_given(groups), room]), made, back)


def request_back(comparison, decoder, groups, written):
    """What the core wrote has to be read by pymodbus as the same groups."""
    found = asked_by_pymodbus(decoder, written)
    comparison.judge("File record requests of the core read by pymodbus", found == groups, f"{written.hex()}: {found}")


def wrong_groups(groups, chance):
    """Groups of which one has a field out of its range: what is wrong, the groups, the number due."""
    at = chance.randrange(len(groups))
    file, record, length = groups[at]
    for change, fields, due in [
        ("with file 0", (0, record, length), 82),
        ("with a record above 9999", (file, pick(chance, 10000, 65535), length), 82),
        ("with length 0", (file, record, 0), 83),
    ]:
        yield change, groups[:at] + [fields] + groups[at + 1:], due


def wrong_requests(groups, chance):
    """The bytes of a good request broken: what was done to them, the bytes, the number due, the groups without one whose type was changed."""
    made = bytes_of(request(groups))
    at = chance.randrange(len(groups))
    kind = bytes([chance.choice(OTHER_TYPES)])
    yield "with a type other than 6", made[:2 + 7 * at] + kind + made[3 + 7 * at:], 81, groups[:at] + groups[at + 1:]
    yield "with a byte less", made[:-1], 80, groups
    yield "with a byte more", made + some_bytes(chance, 1), 80, groups
    for change, after in [
        ("a byte less", made[2:-1]),
        ("a byte more", made[2:] + some_bytes(chance, 1)),
        ("two to six bytes more", made[2:] + some_bytes(chance, chance.randint(2, 6))),
    ]:
        yield f"with {change}, as the byte count says", bytes([FUNCTION, len(after)]) + after, 80, groups


def written_by_pymodbus(groups):
    try:
        bytes_of(request(groups))
    except struct.error:
        return "raises an error"
    return "writes it"


def compare_refused_requests(comparison, decoder, chance):
    def read(change, made, due, *meanings):
        what = f"File record requests of pymodbus {change}"
        comparison.ask(what, (90, [], [made]), [due])
        comparison.tell(what, f"core {due}, pymodbus {said_of(asked_by_pymodbus(decoder, made), meanings)}")

    def write(change, groups, due):
        what = f"File record requests {change}, to be written"
        room = some_bytes(chance, 300)
        comparison.ask(what, (92, [], [groups_given(groups), room]), [due, room])
        comparison.tell(what, f"core {due}, pymodbus {written_by_pymodbus(groups)}")

    for groups in requests(chance):
        for change, wrong, due in wrong_groups(groups, chance):
            read(change, bytes_of(request(wrong)), due, ("reads the groups", wrong))
            write(change, wrong, due)
        for change, made, due, others in wrong_requests(groups, chance):
            read(change, made, due, ("reads the groups", groups), ("leaves the group out", others))
    for count in (0, *[36, 37, 38, 39, 40] * 10):
        groups = [group(chance) for _ in range(count)]
        change = f"of {'37 to 40' if count > 36 else count} groups"
        write(change, groups, 80)
        if count <= 36:
            read(change, bytes_of(request(groups)), 80, ("reads the groups", groups))


def compare_types(comparison, chance):
    """pymodbus is told another type for its request, but writes a 6."""
    what = "File record requests of pymodbus that is told another type"
    for kind in OTHER_TYPES:
        made = bytes_of(request([group(chance)], kind))
        comparison.ask(what, (90, [], [made]), [0, 1])
        comparison.tell(what, f"core reads it, pymodbus writes type {made[2]}")


# Exchanges: a request of pymodbus in its envelope, and the answer in its own.


def answerable(chance):
    """1 to 35 groups whose registers one reply can hold."""
    return [[(pick(chance, *FILES), pick(chance, *RECORDS), length) for length in shares(chance, count)]
            for count in range(1, MOST_GROUPS + 1) for _ in range(10)]


def packet_of(framer, message, chance):
    set_fields(message, chance)
    return bytes(framer.buildPacket(message))


def answer_to(framer, message, data):
    """The reply's packet, as pymodbus makes it with the request's unit and transaction and this data."""
    answer = ReplyData(data)
    answer.unit_id, answer.transaction_id, answer.protocol_id = message.unit_id, message.transaction_id, 0
    return bytes(framer.buildPacket(answer))


def answer_back(comparison, what, plain, own, fields, data, written):
    """An answer has to be read with the same fields and data, and by pymodbus's own class of this reply with the same fields."""
    read_back(comparison, f"{what}: answers read by pymodbus", plain, fields, data, written)
    read_back(comparison, f"{what}: answers read by pymodbus with its own class", own, fields, data, written)


def compare_exchanges(comparison, framers, chance):
    plain = plain_framers()
    for (envelope, act), groups in itertools.product(EXCHANGES, answerable(chance)):
        message = request(groups)
        packet = packet_of(framers[envelope]["request"], message, chance)
        fields = [message.transaction_id, message.unit_id, FUNCTION]
        registers = [some_bytes(chance, 2 * length) for _, _, length in groups]
        for ending, given, made in [("", b"".join(registers), reply_of_003(registers)), (" without data", b"", no_data(2, 0))]:
            what, data = f"File record exchanges in {envelope}{ending}", made[1:]
            answer = answer_to(plain[envelope], message, data)
            room = some_bytes(chance, len(answer) + chance.randrange(3))
            back = partial(answer_back, comparison, what, plain[envelope], framers[envelope]["response"], fields, data)
            comparison.ask_written(what, (act, [len(packet)], [packet + given, room]), answer, back)
            short = room[:len(answer) - 1]
            comparison.ask(f"{what}: no room, refused by 16", (act, [len(packet)], [packet + given, short]), [16, short])


def wrong_exchanges(groups, chance):
    """What is wrong, the groups of the request, the register bytes for the answer, and the number due."""
    registers = some_bytes(chance, sum(2 * length for _, _, length in groups))
    file, record, _ = groups[0]
    for change, wrong, due in wrong_groups(groups, chance):
        yield change, wrong, registers, due
    yield "of 36 groups", [(file, record, 1)] * 36, some_bytes(chance, 72), 41
    yield "with a register more than is asked for", groups, registers + some_bytes(chance, 2), 80
    many = chance.randint(MOST_TOGETHER, 127)
    yield "for more registers than a reply holds", [(file, record, many)], some_bytes(chance, 2 * many), 80
    more = pick(chance, 128, 65535)
    yield "with a second group of more than 127 registers", [(file, record, 1), (file, record, more)], some_bytes(chance, 2), 83


def broken_packet(envelope, packet, chance):
    """The packet and the number due."""
    if envelope == "TCP":
        return packet[:-1], 43
    at = chance.randrange(len(packet))
    return packet[:at] + bytes([packet[at] ^ 1 << chance.randrange(8)]) + packet[at + 1:], 44


def compare_refused_exchanges(comparison, framers, chance):
    def ask(what, act, packet, registers, due):
        room = some_bytes(chance, 300)
        comparison.ask(f"{what}, refused by {due}", (act, [len(packet)], [packet + registers, room]), [due, room])

    for (envelope, act), groups in itertools.product(EXCHANGES, answerable(chance)):
        what, framer = f"File record exchanges in {envelope}", framers[envelope]["request"]
        for change, wrong, registers, due in wrong_exchanges(groups, chance):
            ask(f"{what} {change}", act, packet_of(framer, request(wrong), chance), registers, due)
        packet, due = broken_packet(envelope, packet_of(framer, request(groups), chance), chance)
        ask(f"{what} in a broken packet", act, packet, b"", due)


# Replies compared.


def compare_replies(comparison, decoder, chance):
    """The core writes and reads groups by 003. It has to find the registers that pymodbus finds in the public standard's reply."""
    def back(what, groups, written):
        comparison.tell(what, f"pymodbus {said_of_reply(registers_by_pymodbus(decoder, written), groups)}")

    for groups in replies(chance):
        made = reply_of_003(groups)
        found = registers_by_pymodbus(decoder, reply_of_the_standard(groups))
        comparison.ask("File record replies of 003 read: number of groups", (93, [], [made]), [0, len(found)])
        for place, registers in enumerate(found, 1):
            comparison.ask("File record replies of 003 read: registers of a group", (94, [place], [made]), [0, registers])
        for place in (0, len(found) + 1):
            comparison.ask("File record replies of 003 read: no registers at another place", (94, [place], [made]), [0])
        what = f"File record replies of the core with {'one group' if len(groups) == 1 else 'more groups'}"
        room = some_bytes(chance, len(made) + chance.randrange(3))
        given = bytes(len(registers) for registers in groups) + b"".join(groups)
        comparison.ask_written(what, (95, [len(groups)], [given, room]), made, partial(back, what, groups))


def six_registers(chance):
    """A record of six registers, which pymodbus writes as 06 06 and its 12 bytes. To the core that is a group of six bytes, and the two after
    it are the next group's length and type: what these are, the registers, and the words due."""
    begin, end = some_bytes(chance, 6), some_bytes(chance, 4)
    length = chance.choice([length for length in range(256) if length not in (2, 4)])
    yield "then another type", begin + bytes([chance.randrange(256), chance.choice(OTHER_TYPES)]) + end, [81]
    yield "then a wrong length and type 6", begin + bytes([length, TYPE]) + end, [83]
    yield "then length 4 and type 6", begin + bytes([4, TYPE]) + end, [0, 2]


def compare_other_replies(comparison, decoder, chance):
    """Replies of the public standard, and those that pymodbus writes."""
    def read(what, made, words, groups):
        comparison.ask(what, (93, [], [made]), words)
        core = f"core {words[0]}" if words[0] else "core takes it"
        comparison.tell(what, f"{core}, pymodbus {said_of_reply(registers_by_pymodbus(decoder, made), groups)}")

    standard, own = "File record replies of the public standard", "File record replies of pymodbus"
    for groups in replies(chance):
        read(standard, reply_of_the_standard(groups), [83], groups)
        if len(groups[0]) != 12:
            read(f"{own}, the first record not of six registers", reply_of_pymodbus(groups), [81], groups)
    for many in range(MOST_TOGETHER, 127):
        groups = [some_bytes(chance, 2 * many)]
        read(f"{standard}, but for a byte count above 245", reply_of_the_standard(groups), [80], groups)
        read(f"{own} with a byte count above 245", reply_of_pymodbus(groups), [80], groups)
    read(f"{standard}, one group without registers", reply_of_the_standard([b""]), [0, 2, 1], [b""])
    read(f"{own}, one record without registers", reply_of_pymodbus([b""]), [81], [b""])
    read(f"{own} without a record", reply_of_pymodbus([]), [80], [])
    for _ in range(20):
        for following, registers, words in six_registers(chance):
            read(f"{own}, one record of six registers, {following}", reply_of_pymodbus([registers]), words, [registers])


def done_with_no_data(framer, packet, unit):
    try:
        found = read_by_pymodbus(framer, packet, unit)
    except ModbusException:
        return "raises an error"
    return said_of(registers_of(found[0]), [("reads a group without registers", [b""])]) if found else "finds nothing"


def compare_no_data(comparison, framers, chance):
    plain = plain_framers()
    numbers = (0, 1, 2, 3, 4, 5, 6, 7, 127, 128, 243, 244, 245, 246, 254, 255)
    for count, length in itertools.product(numbers, numbers):
        made, wrong = no_data(count, length), no_data(count, length, chance.choice(OTHER_TYPES))
        room = some_bytes(chance, 4 + chance.randrange(3))
        comparison.ask("File record replies without data read", (93, [], [made]), [0, count, length])
        comparison.ask("File record replies without data, but for another type, refused by 81", (93, [], [wrong]), [81])
        what = "File record replies without data written"
        comparison.ask_written(what, (96, [count, length], [b"", room]), made)
        for envelope, _ in EXCHANGES:
            answer = ReplyData(made[1:])
            packet = packet_of(plain[envelope], answer, chance)
            done = done_with_no_data(framers[envelope]["response"], packet, answer.unit_id)
            of = "0 or 1" if count < 2 else "2" if count == 2 else "3 to length + 2" if count <= length + 2 else "above length + 2"
            comparison.tell(what, f"byte count {of}: in {envelope} pymodbus {done}")


def compare_other_functions(comparison, made):
    exceptions = [("response", pdu.ExceptionResponse(FUNCTION, code)) for code in range(1, 12)]
    for kind, message in made + exceptions:
        if message.function_code != FUNCTION:
            act = 90 if kind == "request" else 93
            comparison.ask("File record messages of another function, refused by 10", (act, [], [bytes_of(message)]), [10])


def compare(comparison, decoders, framers, made):
    chance = random.Random(3)
    compare_requests(comparison, decoders["request"], chance)
    compare_refused_requests(comparison, decoders["request"], chance)
    compare_types(comparison, chance)
    compare_exchanges(comparison, framers, chance)
    compare_refused_exchanges(comparison, framers, chance)
    compare_replies(comparison, decoders["response"], chance)
    compare_other_replies(comparison, decoders["response"], chance)
    compare_no_data(comparison, framers, chance)
    compare_other_functions(comparison, made)
