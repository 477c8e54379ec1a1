"""01, Bodies: requests and replies of the standard functions. Many-byte fields are least significant first.

A body is a function and a dictionary of its fields. Where several fields are at fault the earlier field is judged first, after 11.
"""
from dates import NO_DATE, is_date
from readings import bad_width, channels
from refusals import read, written

REQUESTS = (0x01, 0x02, 0x04, 0x05, 0x06, 0x0A, 0x0B)
REPLIES = (0x00,) + REQUESTS
LONGEST_BODY = 245


def number(some):
    return int.from_bytes(some, "little")


def le(value, width):
    return value.to_bytes(width, "little")


def values_length(mask, width):
    return len(channels(mask)) * width


def not_one_bit(mask):
    return len(channels(mask)) != 1


# Requests

def request_length_wrong(function, width, body):
    if len(body) > LONGEST_BODY:
        return True
    if function == 0x02:
        return len(body) < 4 or len(body) != 4 + values_length(number(body[0:4]), width)
    return len(body) != {0x01: 4, 0x04: 0, 0x05: 6, 0x06: 18, 0x0A: 2, 0x0B: 10}[function]


def request_fields(function, body):
    """name and value of each field of a body whose length is right, in the body's order."""
    if function == 0x01:
        return {"mask": number(body)}
    if function == 0x02:
        return {"mask": number(body[0:4]), "values": body[4:]}
    if function == 0x05:
        return {"date": body}
    if function == 0x06:
        return {"mask": number(body[0:4]), "type": number(body[4:6]), "first": body[6:12], "last": body[12:18]}
    if function == 0x0A:
        return {"index": number(body)}
    if function == 0x0B:
        return {"index": number(body[0:2]), "values": body[2:]}
    return {}


def request_field_rules(function, fields):
    """The fields' faults in the body's order."""
    if function in (0x01, 0x02):
        return [(12, lambda: fields()["mask"] == 0)]
    if function == 0x05:
        return [(13, lambda: not is_date(fields()["date"]))]
    if function == 0x06:
        return [
            (12, lambda: not_one_bit(fields()["mask"])),
            (14, lambda: not 1 <= fields()["type"] <= 4),
            (13, lambda: not is_date(fields()["first"])),
            (13, lambda: not is_date(fields()["last"])),
        ]
    return []


def read_request(function, width, body):
    def fields():
        return request_fields(function, body)
    return read([
        (1, lambda: bad_width(width)),
        (10, lambda: function not in REQUESTS),
        (11, lambda: request_length_wrong(function, width, body)),
    ] + request_field_rules(function, fields), fields)


def request_bytes(function, fields):
    if function == 0x01:
        return le(fields["mask"], 4)
    if function == 0x02:
        return le(fields["mask"], 4) + fields["values"]
    if function == 0x05:
        return fields["date"]
    if function == 0x06:
        return le(fields["mask"], 4) + le(fields["type"], 2) + fields["first"] + fields["last"]
    if function == 0x0A:
        return le(fields["index"], 2)
    if function == 0x0B:
        return le(fields["index"], 2) + fields["values"]
    return b""


def write_request(function, width, fields, output):
    """`values` are those of an 02 request or the eight bytes of an 0B request; another number of bytes than due is 11."""
    def lengths_wrong():
        due = {0x02: values_length(fields["mask"], width), 0x0B: 8}
        return len(fields["values"]) != due.get(function, 0)

    def made():
        return request_bytes(function, fields)

    return written([
        (1, lambda: bad_width(width)),
        (10, lambda: function not in REQUESTS),
        (11, lengths_wrong),
    ] + request_field_rules(function, lambda: fields) + [
        (17, lambda: len(made()) > LONGEST_BODY),
        (16, lambda: len(output) < len(made())),
    ], made, output)


# Replies

def reply_length_wrong(function, width, asked_mask, body):
    if len(body) > LONGEST_BODY:
        return True
    if function == 0x01:
        return len(body) != values_length(asked_mask, width)
    if function == 0x06:
        return len(body) < 10 or (len(body) - 10) % width != 0
    return len(body) != {0x00: 1, 0x02: 4, 0x04: 6, 0x05: 4, 0x0A: 8, 0x0B: 2}[function]


def reply_fields(function, asked_mask, body):
    """The asked mask stands for the mask of an 01 reply, which the body has not."""
    if function == 0x00:
        return {"error": body[0]}
    if function == 0x01:
        return {"mask": asked_mask, "values": body}
    if function == 0x02:
        return {"mask": number(body)}
    if function == 0x04:
        return {"date": body}
    if function == 0x05:
        return {"status": body[0], "zeros": body[1:]}
    if function == 0x06:
        return {"mask": number(body[0:4]), "date": body[4:10], "values": body[10:]}
    if function == 0x0A:
        return {"values": body}
    if function == 0x0B:
        return {"zeros": body}
    return {}


def reply_field_rules(function, fields):
    if function == 0x01:
        return [(12, lambda: fields()["mask"] == 0)]
    if function == 0x04:
        return [(13, lambda: fields()["date"] != NO_DATE and not is_date(fields()["date"]))]
    if function == 0x05:
        return [(15, lambda: fields()["status"] > 1 or any(fields()["zeros"]))]
    if function == 0x06:
        return [
            (12, lambda: not_one_bit(fields()["mask"])),
            (13, lambda: not is_date(fields()["date"])),
        ]
    if function == 0x0B:
        return [(15, lambda: any(fields()["zeros"]))]
    return []


def read_reply(function, width, asked_mask, body):
    def fields():
        return reply_fields(function, asked_mask, body)
    return read([
        (1, lambda: bad_width(width)),
        (10, lambda: function not in REPLIES),
        (11, lambda: reply_length_wrong(function, width, asked_mask, body)),
    ] + reply_field_rules(function, fields), fields)


def reply_bytes(function, fields):
    if function == 0x00:
        return bytes([fields["error"]])
    if function == 0x01:
        return fields["values"]
    if function == 0x02:
        return le(fields["mask"], 4)
    if function == 0x04:
        return fields["date"]
    if function == 0x05:
        return bytes([fields["status"]]) + fields["zeros"]
    if function == 0x06:
        return le(fields["mask"], 4) + fields["date"] + fields["values"]
    if function == 0x0A:
        return fields["values"]
    if function == 0x0B:
        return fields["zeros"]
    return b""


def write_reply(function, width, fields, output):
    """The writer makes the zeros of 05 and 0B. `values` are those of an 01 or 06 reply or the eight bytes of an 0A reply."""
    fields = dict(fields, zeros=bytes(3) if function == 0x05 else bytes(2))

    def lengths_wrong():
        if function == 0x06:
            return len(fields["values"]) % width != 0
        due = {0x01: values_length(fields["mask"], width), 0x0A: 8}
        return len(fields["values"]) != due.get(function, 0)

    def made():
        return reply_bytes(function, fields)

    return written([
        (1, lambda: bad_width(width)),
        (10, lambda: function not in REPLIES),
        (11, lengths_wrong),
    ] + reply_field_rules(function, lambda: fields) + [
        (17, lambda: len(made()) > LONGEST_BODY),
        (16, lambda: len(output) < len(made())),
    ], made, output)
