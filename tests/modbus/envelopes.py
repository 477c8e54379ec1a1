"""The RTU, TCP and ASCII envelopes (acts 30 to 35) beside pymodbus.

pymodbus makes packets, which the core reads; the core writes the same envelopes, which must be the same bytes, and pymodbus reads them;
each packet is also broken, and then the core must refuse it. What pymodbus does with broken ASCII lines is told, not judged.
"""
import random
from functools import partial

import pymodbus.bit_read_message as bit_read
import pymodbus.bit_write_message as bit_write
import pymodbus.diag_message as diag
import pymodbus.file_message as file
import pymodbus.other_message as other
import pymodbus.pdu as pdu
import pymodbus.register_read_message as register_read
import pymodbus.register_write_message as register_write
from pymodbus.exceptions import ModbusException

from comparison import read_by_pymodbus, some_bytes
from digits import DIGITS, characters
from modbus import ascii_bytes


class Data:
    """A message whose data pymodbus keeps as it is."""

    def __init__(self, data=b"", **kwargs):
        pdu.ModbusPDU.__init__(self, **kwargs)
        self.data = data

    def encode(self):
        return self.data

    def decode(self, data):
        self.data = bytes(data)


class Function45(Data):
    """Function 45 with any data; the packet ends where the bytes do."""

    function_code = 0x45
    _rtu_frame_size = None
    should_respond = True

    @classmethod
    def calculateRtuFrameSize(cls, buffer):
        return len(buffer)


class DataRequest(Function45, pdu.ModbusRequest):
    pass


class DataResponse(Function45, pdu.ModbusResponse):
    pass


def set_fields(message, chance):
    """A unit and a transaction from both ends of their range, or by chance."""
    message.unit_id = chance.choice([0, 1, 247, 248, 255, chance.randrange(256)])
    message.transaction_id = chance.choice([0, 1, 65535, chance.randrange(65536)])
    message.protocol_id = 0


def messages():
    """Messages of every function that pymodbus knows, and of function 45 with data of each length; with fields at both ends of their range."""
    chance = random.Random(1)
    bits = [chance.random() < 0.5 for _ in range(2000)]
    registers = [chance.randrange(65536) for _ in range(125)]
    made = []

    def add(kind, message):
        made.append((kind, message))

    for first, count in [(0, 1), (65535, 1), (1, 2000), (4, 125)]:
        add("request", bit_read.ReadCoilsRequest(first, count))
        add("request", bit_read.ReadDiscreteInputsRequest(first, count))
        add("request", register_read.ReadHoldingRegistersRequest(first, min(count, 125)))
        add("request", register_read.ReadInputRegistersRequest(first, min(count, 125)))
    for count in [8, 16, 2000]:
        add("response", bit_read.ReadCoilsResponse(bits[:count]))
        add("response", bit_read.ReadDiscreteInputsResponse(bits[:count]))
        add("request", bit_write.WriteMultipleCoilsRequest(7, bits[:min(count, 1968)]))
        add("response", bit_write.WriteMultipleCoilsResponse(7, count))
    for count in [1, 2, 123]:
        add("response", register_read.ReadHoldingRegistersResponse(registers[:count]))
        add("response", register_read.ReadInputRegistersResponse(registers[:count]))
        add("request", register_write.WriteMultipleRegistersRequest(7, registers[:count]))
        add("response", register_write.WriteMultipleRegistersResponse(7, count))
    add("request", bit_write.WriteSingleCoilRequest(7, True))
    add("response", bit_write.WriteSingleCoilResponse(7, False))
    add("request", register_write.WriteSingleRegisterRequest(7, 65535))
    add("response", register_write.WriteSingleRegisterResponse(7, 0))
    add("request", register_write.MaskWriteRegisterRequest(4, 0xF2, 0x25))
    add("response", register_write.MaskWriteRegisterResponse(4, 0xF2, 0x25))
    add("request", diag.ReturnQueryDataRequest(0xA537))
    add("request", other.ReadExceptionStatusRequest())
    add("response", other.ReadExceptionStatusResponse(0x5A))
    add("request", file.ReadFileRecordRequest([file.FileRecord(reference_type=6, file_number=4, record_number=1, record_length=2)]))
    for code in range(1, 12):
        add("response", pdu.ExceptionResponse(3, code))
    for length in range(253):
        data = some_bytes(chance, length)
        add("request", DataRequest(data))
        add("response", DataResponse(data))
    for _, message in made:
        set_fields(message, chance)
    return made


def is_message(found, fields, data):
    """Whether a message that pymodbus found has these fields, and where it keeps its data as bytes, this data."""
    seen = [found.transaction_id, found.unit_id, found.function_code][-len(fields):]
    return seen == fields and (not isinstance(found, Data) or found.data == data)


def done_by_pymodbus(framer, line, fields, data):
    """What it does with a line that the core refuses."""
    try:
        found = read_by_pymodbus(framer, line, fields[-2])
    except (ValueError, IndexError, ModbusException):
        return "raises an error"
    if not all(is_message(one, fields, data) for one in found):
        return "reads another message"
    return f"reads the message {len(found)} times" if len(found) > 1 else "reads the message" if found else "finds nothing"


def broken_lines(line, chance):
    """A good ASCII line broken: what was done to it, the line, and the number due where its length is not refused."""
    at = chance.randrange(1, len(line) - 2)
    wrong = bytes([chance.choice([c for c in range(256) if c not in DIGITS + DIGITS.lower()])])
    lrc = int(line[-4:-2], 16)
    if line.lower() != line:
        yield "in lower case", line.lower(), 63
    yield "with a character less inside", line[:at] + line[at + 1:], 63
    yield "with a digit more inside", line[:at] + b"0" + line[at:], 63
    yield "with a character inside that is no digit", line[:at] + wrong + line[at + 1:], 63
    yield "with another LRC", line[:-4] + characters([(lrc + chance.randrange(1, 256)) % 256]) + line[-2:], 64
    if lrc < 16:
        yield "with a blank or a sign in the LRC's first place", line[:-4] + chance.choice([b" ", b"+"]) + line[-3:], 63
    yield "with a byte before the colon", bytes([chance.choice([c for c in range(256) if c != line[0]])]) + line, 62
    yield "without the colon", line[1:], 62
    yield "without the line feed", line[:-1], 62
    yield "with the end marks swapped", line[:-2] + b"\n\r", 62
    yield "with a byte after the end marks", line + bytes([chance.randrange(256)]), 62
    yield "twice", line + line, 63


def read_back(comparison, what, framer, fields, data, written):
    """What the core wrote has to be read by pymodbus as the same message."""
    found = read_by_pymodbus(framer, written, fields[-2])
    comparison.judge(what, len(found) == 1 and is_message(found[0], fields, data), f"{written.hex()}: {found}")


def compare(comparison, framers, made):
    chance = random.Random(2)

    def ask_broken(what, kind, fields, data, line, number):
        """The number is due of the core, and that it leaves its output; what pymodbus does is told."""
        number = 60 if len(line) < 9 else 61 if len(line) > 513 else number
        room = some_bytes(chance, len(data))
        comparison.ask(what, (34, [], [line, room]), [number, room])
        comparison.tell(what, f"core {number}, pymodbus {done_by_pymodbus(framers['ASCII'][kind], line, fields, data)}")

    for kind, message in made:
        data = bytes(message.encode())
        transaction, unit, function = message.transaction_id, message.unit_id, message.function_code
        for envelope, read, write, fields in [
            ("TCP", 32, 33, [transaction, unit, function]),
            ("RTU", 30, 31, [unit, function]),
            ("ASCII", 34, 35, [unit, function]),
        ]:
            framer = framers[envelope][kind]
            packet = bytes(framer.buildPacket(message))
            room = some_bytes(chance, len(packet) + chance.randrange(3))
            if envelope == "ASCII":
                words = [0, *fields, len(data), data + room[len(data):]]
                comparison.ask("ASCII packets of pymodbus read", (read, [], [packet, room]), words)
            else:
                comparison.ask(f"{envelope} packets of pymodbus read", (read, [], [packet]), [0, *fields, data])
            back = partial(read_back, comparison, f"{envelope} envelopes of the core read by pymodbus", framer, fields, data)
            comparison.ask_written(f"{envelope} envelopes written like pymodbus", (write, fields, [data, room]), packet, back)
            at, bit = chance.randrange(len(packet)), 1 << chance.randrange(8)
            broken = packet[:at] + bytes([packet[at] ^ bit]) + packet[at + 1:]
            if envelope == "RTU":
                comparison.ask("RTU packets of pymodbus with one bit flipped, refused by 44", (read, [], [broken]), [44])
            elif envelope == "ASCII":
                number = 62 if at in (0, len(packet) - 2, len(packet) - 1) else 64 if broken[at] in DIGITS else 63
                ask_broken("ASCII packets of pymodbus with one bit flipped", kind, fields, data, broken, number)
                for change, line, number in broken_lines(packet, chance):
                    ask_broken(f"ASCII packets of pymodbus {change}", kind, fields, data, line, number)
            else:
                more, less = packet + some_bytes(chance, 1), packet[:-1]
                comparison.ask("TCP packets of pymodbus with a byte more, refused", (read, [], [more]), [43 if len(more) <= 260 else 41])
                comparison.ask("TCP packets of pymodbus with a byte less, refused", (read, [], [less]), [43 if len(packet) > 8 else 40])
    for kind in ("request", "response"):
        for length in (253, 254, 300, 1000):
            data = some_bytes(chance, length)
            ask_broken("ASCII lines with more than 252 bytes of data", kind, [17, 0x45], data, ascii_bytes(17, 0x45, data), 61)
        for line in (b":\r\n", b":0\r\n", b":00\r\n", b":11E\r\n", b":11EF\r\n", b":11EF0\r\n"):
            ask_broken("ASCII lines under 9 characters", kind, [17, 0x45], b"", line, 60)
