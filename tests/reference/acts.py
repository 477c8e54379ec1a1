"""The acts of CASES.md: what each answers, as the words of its line, and which refusal numbers it can give."""
from functools import partial

import adi
import archive
import card
import clock
import consumption
import datagram
import modbus
import pulsar_body
import pulsar_frame
import pulsar_line
import read_file
import readings
import sm160
import turns
from cases.making import changed
from crc import crc16, crc32
from dates import NO_DATE, is_date
from digits import digit, digit_of
from encoding import ASKED, CALL, table_bytes, table_from
from lrc import lrc, summed


def told(refusal, *values):
    """The number, and where accepted the values."""
    return [refusal] if refusal else [0, *values]


def reader(function):
    """A reader's answer is (number, fields or None); 9 has a count, 72 and 73 have a place."""
    def answer(numbers, strings):
        refusal, fields = function(*numbers, *strings)
        return [refusal, *(fields or ())]
    return answer


def writer(function):
    """A writer's answer is (number, length, output)."""
    def answer(numbers, strings):
        refusal, length, output = function(*numbers, *strings)
        return told(refusal, length) + [output]
    return answer


def of_two(function):
    """A writer whose two byte strings are given as one: the last number is the length of the first."""
    def of_one(*given):
        *numbers, length, both, output = given
        return function(*numbers, both[:length], both[length:], output)
    return of_one


def checksum_from(numbers, strings):
    return told(0, crc16(strings[0], start=numbers[0]))


def checksum(numbers, strings):
    return told(0, crc16(strings[0]))


def stretches(numbers, strings):
    """What 02 asks of the two calls: the sum of the first stretch, and then that of the whole."""
    first, second = strings
    return told(0, crc16(first, start=numbers[0]), crc16(first + second, start=numbers[0]))


def crc32_stretches(numbers, strings):
    """As stretches, of the CRC-32."""
    first, second = strings
    return told(0, crc32(first, start=numbers[0]), crc32(first + second, start=numbers[0]))


def sum_byte(numbers, strings):
    before, byte = numbers
    return told(0, summed([byte], start=before))


def sum_stretches(numbers, strings):
    """As stretches, of the sum modulo 256."""
    first, second = strings
    return told(0, summed(first, start=numbers[0]), summed(first + second, start=numbers[0]))


def of_a_byte(numbers, strings):
    return told(0, lrc(bytes(numbers)), digit(*numbers), digit_of(*numbers))


def date(numbers, strings):
    return told(0, int(is_date(strings[0])))


def first_absent(numbers, strings):
    refusal, place = readings.first_absent(*numbers, *strings)
    return told(refusal, place)


def channel_of(numbers, strings):
    mask, place = numbers
    return told(0, readings.channel_of(mask, place), len(readings.channels(mask)))


def is_same(numbers, strings):
    return told(0, int(readings.same(*numbers)))


def collect(numbers, strings):
    state = pulsar_line.fresh()
    for byte in strings[0]:
        _, state = pulsar_line.push(state, byte)
    refusal, (handed, missing, _) = pulsar_line.silence(state)
    return told(refusal, len(handed), missing, handed)


def lent_collector(numbers, strings):
    count, byte, length = numbers
    lent = (changed(pulsar_line.fresh()[0], 5, bytes([length])), count)
    refusal, pushed = pulsar_line.push(lent, byte)
    words = told(refusal, pushed and pushed[1])
    refusal, handed = pulsar_line.silence(lent)
    return words + told(refusal, *(handed and (len(handed[0]), handed[1]) or ()))


REQUEST_WORDS = {
    0x01: ("mask",),
    0x02: ("mask", "values"),
    0x04: (),
    0x05: ("date",),
    0x06: ("mask", "type", "first", "last"),
    0x0A: ("index",),
    0x0B: ("index", "values"),
}
REPLY_WORDS = {
    0x00: ("error",),
    0x01: ("values",),
    0x02: ("mask",),
    0x04: ("date",),
    0x05: ("status",),
    0x06: ("mask", "date", "values"),
    0x0A: ("values",),
    0x0B: (),
}


def body_words(names, fields):
    for name in names:
        if name in ("date", "first", "last"):
            yield from fields[name]
        else:
            yield fields[name]


def read_request_body(numbers, strings):
    refusal, fields = pulsar_body.read_request(*numbers, *strings)
    if refusal:
        return told(refusal)
    return told(0, numbers[0], *body_words(REQUEST_WORDS[numbers[0]], fields))


def read_reply_body(numbers, strings):
    function = numbers[0]
    refusal, fields = pulsar_body.read_reply(*numbers, *strings)
    if refusal:
        return told(refusal)
    if function == 0x04:
        return told(0, 4, 0) if fields["date"] == NO_DATE else told(0, 4, 1, *fields["date"])
    return told(0, function, *body_words(REPLY_WORDS[function], fields))


def six(number):
    """A date that is given as one number."""
    return number.to_bytes(6, "little")


def write_request_body(numbers, strings):
    function, width, mask, kind, index, first, last = numbers
    values, output = strings
    fields = {"mask": mask, "type": kind, "index": index, "date": six(first), "first": six(first), "last": six(last),
              "values": values}
    refusal, length, output = pulsar_body.write_request(function, width, fields, output)
    return told(refusal, length) + [output]


def write_reply_body(numbers, strings):
    function, width, mask, status, error, date = numbers
    values, output = strings
    fields = {"mask": mask, "status": status, "error": error, "date": six(date), "values": values}
    refusal, length, output = pulsar_body.write_reply(function, width, fields, output)
    return told(refusal, length) + [output]


def read_ascii(numbers, strings):
    refusal, fields, output = modbus.read_ascii(*strings)
    return told(refusal, *(fields or ())) + [output]


def send(numbers, strings):
    session, largest, place = numbers
    file, output = strings
    refusal, length, after, output = sm160.send(file, session, largest, place, output)
    return told(refusal, length, after) + [output]


def receive(numbers, strings):
    session, limit, under_way, count = numbers
    refusal, answer, (session, limit, under_way, count), buffer = sm160.receive((session, limit, under_way != 0, count), *strings)
    words = told(refusal) if refusal else told(0, int(answer[0]), answer[1])
    return words + [session, limit, int(under_way), count, buffer]


def open_receiver(numbers, strings):
    refusal, state = sm160.open_receiver(*numbers)
    return told(refusal, *map(int, state or ()))


def datagram_fault(numbers, strings):
    return told(datagram.datagram_fault(*strings))


def put_ends(numbers, strings):
    _, output = strings
    return told(0, datagram.put_ends(*numbers, output))


def long_text(numbers, strings):
    """A text of zero bytes into an output of zero bytes, of which the CRC-32 is told."""
    kind, length, room = numbers
    text, output = bytes(length), bytes(room)
    if kind == read_file.REQUEST:
        refusal, length, output = read_file.write_request(0, 2 ** 64 - 1, text, output)
    else:
        refusal, length, output = read_file.write_reply(0, text, b"", output)
    return told(refusal, length) + [crc32(output)]


def card_writer(form):
    """Its date is given as one number, and there is no first byte string."""
    def write(address, channel, date, *others):
        *others, _, output = others
        return card.write_card((address, channel, *six(date), *others), output, form)
    return writer(write)


def put_lines(form, cards, output):
    return card.put_lines(cards, output, card.FORMS[form])


def archive_numbers(numbers, strings):
    """The number of a source and that of an archive kind, there and back."""
    source, kind = numbers
    return told(0, archive.source_number(archive.source_from(source)), archive.type_number(archive.type_from(kind)))


def clock_difference(numbers, strings):
    """Its sign, 1 for negative, and its size."""
    refusal, seconds = clock.clock_difference(*map(six, numbers))
    return told(refusal) if refusal else told(0, int(seconds < 0), abs(seconds))


# The calls on a table of turns, by act.
TURNS = {82: turns.add, 83: turns.remove, 84: turns.mark, 85: turns.clear, 86: turns.turn}


def called(act, table, *argument):
    """The number, slot and address that a call answers, 0 for what it does not, and the table after it."""
    refusal, values, after = TURNS[act](table, *argument)
    return [refusal, *(*values, 0, 0)[:2]], after


def of_table(act):
    def answer(numbers, strings):
        last, *argument = numbers
        words, after = called(act, table_from(strings[1], last), *argument)
        return words + [after[2], table_bytes(after)]
    return answer


def new_table(numbers, strings):
    table = turns.new()
    return told(0, table[2], table_bytes(table))


def course(numbers, strings):
    """Calls from a new table on, each on what the one before it left: the last table, and the answers of all."""
    calls, output = strings
    table, answers = turns.new(), b""
    for act, slot, address in CALL.iter_unpack(calls):
        words, table = called(act, table, *{82: [address], 86: []}.get(act, [slot]))
        answers += CALL.pack(*words)
    return told(0, table[2], changed(output, 0, table_bytes(table) + answers))


def asked_at(numbers, strings):
    """1 and the group's fields, or 0 for a place that is not there."""
    group = adi.asked_at(*numbers, *strings)
    return told(0, 0) if group is None else told(0, 1, *group)


def write_asked(groups, output):
    """Bytes of a last part group are left out."""
    whole = len(groups) // ASKED.size * ASKED.size
    return adi.write_request(list(ASKED.iter_unpack(groups[:whole])), output)


def registers_at(numbers, strings):
    return told(0, adi.registers_at(*numbers, *strings))


def write_no_data(count, length, _, output):
    return adi.write_no_data(count, length, output)


# act: name, the refusal numbers that it can give, its answer
ACTS = {
    1: ("checksum_from", [], checksum_from),
    2: ("checksum", [], checksum),
    3: ("is_date", [], date),
    4: ("value_at", [1, 11], reader(readings.value_at)),
    5: ("read_value", [11], reader(readings.read_value)),
    6: ("first_absent", [1, 11], first_absent),
    7: ("channel_of", [], channel_of),
    8: ("is_same", [], is_same),
    9: ("stretches", [], stretches),
    10: ("read_at_meter", [1, 2, 3, 4, 9, 5, 6, 7], reader(pulsar_frame.read_at_meter)),
    11: ("read_at_master", [1, 2, 3, 6, 7, 4, 9, 5, 8], reader(pulsar_frame.read_at_master)),
    12: ("write_request", [1, 17, 16], writer(pulsar_frame.write_request)),
    13: ("write_reply", [1, 17, 16], writer(pulsar_frame.write_reply)),
    14: ("collect", [], collect),
    15: ("lent collector", [20], lent_collector),
    20: ("read_request", [1, 10, 11, 12, 14, 13], read_request_body),
    21: ("read_reply", [1, 10, 11, 12, 13, 15], read_reply_body),
    22: ("write_request_body", [1, 11, 12, 13, 17, 16], write_request_body),
    23: ("write_reply_body", [1, 11, 12, 13, 15, 17, 16], write_reply_body),
    24: ("read_f32, read_f64, read_u32, read_u64", [11, 12, 13, 73, 72, 71], reader(consumption.read_summary)),
    30: ("read_rtu", [40, 41, 44], reader(modbus.read_rtu)),
    31: ("write_rtu", [17, 16], writer(modbus.write_rtu)),
    32: ("read_tcp", [40, 41, 42, 43], reader(modbus.read_tcp)),
    33: ("write_tcp", [17, 16], writer(modbus.write_tcp)),
    34: ("read_ascii", [60, 61, 62, 63, 64, 16], read_ascii),
    35: ("write_ascii", [17, 16], writer(modbus.write_ascii)),
    40: ("SM160 read_frame", [21, 22, 23, 24, 25], reader(sm160.read_frame)),
    41: ("SM160 write_frame", [23, 25, 16], writer(sm160.write_frame)),
    42: ("send", [32, 33, 37, 38, 39, 34, 16], send),
    43: ("receive", [20, 21, 22, 23, 24, 25, 26, 27, 28, 29, 30, 31, 37, 38, 39], receive),
    44: ("open", [33], open_receiver),
    50: ("read_card", [50, 51, 52, 53, 54], reader(card.read_card)),
    51: ("write_card", [52, 53, 55, 16], card_writer(card.CARD)),
    52: ("put_line", [16], writer(card.put_line)),
    53: ("read_archive_card", [50, 51, 52, 53, 54, 56], reader(partial(card.read_card, form=card.ARCHIVE_CARD))),
    54: ("write_archive_card", [52, 53, 55, 56, 16], card_writer(card.ARCHIVE_CARD)),
    55: ("to_archive_card", [50, 51, 52, 53, 54, 16], writer(card.to_archive_card)),
    56: ("to_card", [50, 51, 52, 53, 54, 56, 57, 16], writer(card.to_card)),
    57: ("put_line, archive", [16], writer(partial(card.put_line, form=card.ARCHIVE_CARD))),
    58: ("put_lines", [16], writer(put_lines)),
    59: ("archive numbers", [], archive_numbers),
    60: ("clock_difference", [13, 53], clock_difference),
    61: ("sum_byte", [], sum_byte),
    62: ("sum_from", [], sum_stretches),
    63: ("lrc, digit", [], of_a_byte),
    70: ("crc32_from", [], crc32_stretches),
    71: ("datagram_fault", [37, 38, 39], datagram_fault),
    72: ("read_datagram", [37, 38, 39], reader(datagram.read_datagram)),
    73: ("data_of", [37, 38, 39], reader(datagram.read_data)),
    74: ("write_datagram", [16], writer(of_two(datagram.write_datagram))),
    75: ("read 07", [37, 38, 39, 35, 36], reader(read_file.read_request)),
    76: ("write 07", [16], writer(read_file.write_request)),
    77: ("read 87", [37, 38, 39, 35, 36], reader(read_file.read_reply)),
    78: ("write 87", [16], writer(of_two(read_file.write_reply))),
    79: ("long texts", [36, 16], long_text),
    80: ("put_opening, _closing", [], put_ends),
    81: ("new", [], new_table),
    82: ("add", [20, 100, 103, 104], of_table(82)),
    83: ("remove", [20, 101, 102], of_table(83)),
    84: ("mark", [20, 101, 102], of_table(84)),
    85: ("clear", [20, 101, 102], of_table(85)),
    86: ("turn", [20, 105], of_table(86)),
    87: ("course of turns", [], course),
    90: ("ADI read_request", [10, 80, 81, 82, 83], reader(adi.read_request)),
    91: ("asked_at", [], asked_at),
    92: ("ADI write_request", [80, 82, 83, 16], writer(write_asked)),
    93: ("ADI read_reply", [10, 80, 81, 83], reader(adi.read_reply)),
    94: ("registers_at", [], registers_at),
    95: ("ADI write_reply", [80, 83, 16], writer(of_two(adi.write_reply))),
    96: ("write_no_data", [16], writer(write_no_data)),
    97: ("read_descriptor", [84], reader(adi.read_descriptor)),
    98: ("exchange in RTU", [40, 41, 44, 10, 80, 81, 82, 83, 16], writer(of_two(adi.exchange_rtu))),
    99: ("exchange in TCP", [40, 41, 42, 43, 10, 80, 81, 82, 83, 16], writer(of_two(adi.exchange_tcp))),
}
