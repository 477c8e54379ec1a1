"""02, W-203, and 001, 2.3.5 and 2.3.6: the options of the read-file request 07 and of its reply 87.

07: Offset 8, FileSize 8, NameLen 2, name, closing zero byte; no data. 87: StatusCode 4, StatusMsgLen 2, message, closing zero byte; the data is
not looked into.
"""
from datagram import SHORTEST, data, datagram_bytes, datagram_rules, number, options, type_field
from refusals import read, written

REQUEST, REPLY = 0x07, 0x87
# where the text begins in the options; its length is in the two bytes before
NAME, MESSAGE = 18, 6
LONGEST_TEXT = 65_535


def text(of_options, at):
    """From its place up to the closing zero."""
    return of_options[at:-1]


def bad_text(of_options, at):
    return len(of_options) < at + 1 or number(of_options[at - 2:at]) != len(text(of_options, at)) or of_options[-1] != 0


def read_request(datagram):
    """Offset, FileSize, name."""
    def of():
        return options(datagram)
    return read(datagram_rules(datagram) + [
        (35, lambda: type_field(datagram) != REQUEST),
        (36, lambda: bad_text(of(), NAME) or data(datagram) != b""),
    ], lambda: (number(of()[0:8]), number(of()[8:16]), text(of(), NAME)))


def read_reply(datagram):
    """StatusCode, length of the data, message."""
    def of():
        return options(datagram)
    return read(datagram_rules(datagram) + [
        (35, lambda: type_field(datagram) != REPLY),
        (36, lambda: bad_text(of(), MESSAGE)),
    ], lambda: (number(of()[0:4]), len(data(datagram)), text(of(), MESSAGE)))


def text_bytes(of):
    return len(of).to_bytes(2, "little") + of + b"\x00"


def request_bytes(offset, size, name):
    return datagram_bytes(REQUEST, offset.to_bytes(8, "little") + size.to_bytes(8, "little") + text_bytes(name), b"")


def reply_bytes(status, message, of_data):
    return datagram_bytes(REPLY, status.to_bytes(4, "little") + text_bytes(message), of_data)


def write_request(offset, size, name, output):
    return written([
        (36, lambda: len(name) > LONGEST_TEXT),
        (16, lambda: len(output) < SHORTEST + NAME + len(name) + 1),
    ], lambda: request_bytes(offset, size, name), output)


def write_reply(status, message, of_data, output):
    return written([
        (36, lambda: len(message) > LONGEST_TEXT),
        (16, lambda: len(output) < SHORTEST + MESSAGE + len(message) + 1 + len(of_data)),
    ], lambda: reply_bytes(status, message, of_data), output)
