"""01, Pulsar-M frame: ADDRESS 4 (BCD, most significant first), FN 1, LEN 1, PAYLOAD 0 to 245, ID 2, CRC 2. 02, W-205: 9, with the missing count."""
from crc import crc16, low_byte_first
from refusals import first, read, written

HIGHEST_ADDRESS = 99_999_999
LONGEST_PAYLOAD = 245


def is_bcd(four):
    return all(byte >> 4 <= 9 and byte & 15 <= 9 for byte in four)


def address_field(frame):
    return int(frame[0:4].hex())


def function_field(frame):
    return frame[4]


def len_field(frame):
    return frame[5]


def id_field(frame):
    """The two bytes before the CRC, which is found from LEN: bytes received beyond LEN are ignored."""
    length = len_field(frame)
    return int.from_bytes(frame[length - 4:length - 2], "little")


def crc_differs(frame):
    length = len_field(frame)
    return frame[length - 2:length] != low_byte_first(crc16(frame[:length - 2]))


def fields(frame):
    """address, function, id, len, payload."""
    length = len_field(frame)
    return address_field(frame), function_field(frame), id_field(frame), length, frame[6:length - 4]


def not_the_asked_address(asked, address):
    """Master: the asked one, and for asked 0 any but 0."""
    return address == 0 if asked == 0 else address != asked


def judged(rules, received):
    """(0, the fields), (9, the number of bytes that lack), or (the number, None)."""
    if first(rules) == 9:
        return 9, (len_field(received) - len(received),)
    return read(rules, lambda: fields(received))


def read_at_meter(own, received):
    return judged([
        (1, lambda: not 1 <= own <= HIGHEST_ADDRESS),
        (2, lambda: len(received) < 10),
        (3, lambda: not is_bcd(received[0:4])),
        (4, lambda: len_field(received) < 10),
        (9, lambda: len_field(received) > len(received)),
        (5, lambda: crc_differs(received)),
        (6, lambda: address_field(received) not in (own, 0)),
        (7, lambda: function_field(received) == 0),
    ], received)


def read_at_master(asked_address, asked_function, asked_id, received):
    return judged([
        (1, lambda: asked_address > HIGHEST_ADDRESS or asked_function == 0),
        (2, lambda: len(received) < 10),
        (3, lambda: not is_bcd(received[0:4])),
        (6, lambda: not_the_asked_address(asked_address, address_field(received))),
        (7, lambda: function_field(received) not in (asked_function, 0)),
        (4, lambda: len_field(received) < 10),
        (9, lambda: len_field(received) > len(received)),
        (5, lambda: crc_differs(received)),
        (8, lambda: id_field(received) != asked_id),
    ], received)


def frame_bytes(address, function, id, payload):
    before = bytes.fromhex(f"{address:08d}") + bytes([function, 10 + len(payload)]) + payload + id.to_bytes(2, "little")
    return before + low_byte_first(crc16(before))


def write_frame(field_faults, address, function, id, payload, output):
    return written(field_faults + [
        (17, lambda: len(payload) > LONGEST_PAYLOAD),
        (16, lambda: len(output) < 10 + len(payload)),
    ], lambda: frame_bytes(address, function, id, payload), output)


def write_request(address, function, id, payload, output):
    """By the master; address 0 is broadcast."""
    return write_frame([
        (1, lambda: address > HIGHEST_ADDRESS or function == 0),
    ], address, function, id, payload, output)


def write_reply(own, function, id, payload, output):
    """By the meter; any function, 0 is the error reply."""
    return write_frame([
        (1, lambda: not 1 <= own <= HIGHEST_ADDRESS),
    ], own, function, id, payload, output)
