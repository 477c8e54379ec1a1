"""Cases for request and reply bodies (acts 20 to 23)."""
from cases.ground import GOOD_DATE, WIDTHS, edge_dates, month_ends, random_date
from cases.making import date_number, flipped, pattern, with_faults
from dates import NO_DATE, is_date
from readings import channels

REQUESTS = (1, 2, 4, 5, 6, 10, 11)
REPLIES = (0,) + REQUESTS
OTHER_FUNCTIONS = (3, 7, 8, 9, 12, 0x45, 0x81, 255)
ONE_BIT = (1, 4, 0x100, 0x80000000)
NOT_ONE_BIT = (0, 3, 5, 0x80000001, 0xFFFFFFFF)
MASKS = (1, 2, 5, 0x80, 0x80000000, 0xFFFF0000, 0xFFFFFFFF)
LAST = bytes([99, 12, 31, 23, 59, 59])
BAD_DATE = bytes([23, 2, 31, 12, 30, 30])


def le(number, width):
    return number.to_bytes(width, "little")


def values(mask, width):
    return pattern(len(channels(mask)) * width, 0x11)


def mask_of(count):
    """A mask with so many channels."""
    return (1 << count) - 1


REQUEST = {
    "width": 4, "mask": 4, "type": 2, "first": GOOD_DATE, "last": LAST, "index": 0x1234, "eight": pattern(8),
    # the length of the values where it is not what the mask asks; bytes after the body, or missing; value bytes that the body has not
    "values": None, "more": 0, "stray": b"",
}


def request_body(plan):
    mask = le(plan["mask"], 4)
    of_mask = values(plan["mask"], plan["width"] if plan["width"] in (4, 8) else 4)
    body = {
        1: mask,
        2: mask + (of_mask if plan["values"] is None else pattern(plan["values"])),
        4: b"",
        5: plan["first"],
        6: mask + le(plan["type"], 2) + plan["first"] + plan["last"],
        10: le(plan["index"], 2),
        11: le(plan["index"], 2) + plan["eight"],
    }.get(plan["function"], mask)
    more = plan["more"]
    return body + pattern(more) if more >= 0 else body[:max(0, len(body) + more)]


def read_request_case(plan):
    return [plan["function"], plan["width"]], [request_body(plan)]


def read_request(rng):
    faults = {
        1: [(12, {"mask": 0})],
        2: [(12, {"mask": 0}), (11, {"values": 5}), (11, {"values": 0, "mask": 4})],
        5: [(13, {"first": BAD_DATE}), (13, {"first": NO_DATE})],
        6: [(12, {"mask": 0}), (12, {"mask": 5}), (14, {"type": 0}), (14, {"type": 5}), (14, {"type": 256}), (14, {"type": 0x0201}),
            (13, {"first": BAD_DATE}), (13, {"last": BAD_DATE}), (13, {"first": NO_DATE}), (13, {"last": NO_DATE})],
    }
    for function in REQUESTS:
        shorter = [] if function == 4 else [(11, {"more": -1}), (11, {"more": -1000})]
        changes = [(1, {"width": 5}), (1, {"width": 0}), (11, {"more": 1}), *shorter, *faults.get(function, [])]
        yield from with_faults(read_request_case, {**REQUEST, "function": function}, changes, [1, 10, 11, 12, 14, 13])
        for width in WIDTHS if function == 1 else WIDTHS[:3]:
            yield *read_request_case({**REQUEST, "function": function, "width": width}), 1
        body = request_body({**REQUEST, "function": function})
        for length in range(len(body)):
            yield [function, 8 if length % 2 else 4], [body[:length]], 11
        yield [function, 4], [bytes(246)], 11
    for function in (0,) + OTHER_FUNCTIONS:
        yield [function, 4], [le(5, 4)], 10
        yield [function, 5], [le(5, 4)], 1
        yield [function, 8], [b""], 10
    for mask in MASKS:
        yield *read_request_case({**REQUEST, "function": 1, "mask": mask}), 0
        for width in (4, 8):
            plan = {**REQUEST, "function": 2, "width": width, "mask": mask}
            yield *read_request_case(plan), 11 if width == 8 and mask == 0xFFFFFFFF else 0
            yield [2, 12 - width], [request_body(plan)], 11
    for count in (29, 30, 31, 32):
        for width in (4, 8):
            yield *read_request_case({**REQUEST, "function": 2, "width": width, "mask": mask_of(count)}), 11 if 4 + count * width > 245 else 0
    yield [2, 4], [bytes(4)], 12
    yield [2, 4], [bytes(8)], 11
    yield [2, 8], [bytes(3)], 11
    for date in edge_dates():
        yield [5, 8], [date], 0 if is_date(date) else 13
    for date, is_one in month_ends():
        yield *read_request_case({**REQUEST, "function": 5, "first": date}), 0 if is_one else 13
        for place in ("first", "last"):
            yield *read_request_case({**REQUEST, "function": 6, place: date}), 0 if is_one else 13
    for mask in ONE_BIT + NOT_ONE_BIT:
        yield *read_request_case({**REQUEST, "function": 6, "mask": mask}), 0 if mask in ONE_BIT else 12
    for kind in (1, 2, 3, 4, 0, 5, 0x0100, 0x0101, 0xFFFF):
        yield *read_request_case({**REQUEST, "function": 6, "type": kind}), 0 if 1 <= kind <= 4 else 14
    yield *read_request_case({**REQUEST, "function": 6, "first": LAST, "last": GOOD_DATE}), 0
    for index in (0, 1, 255, 256, 0xFFFF):
        yield *read_request_case({**REQUEST, "function": 10, "index": index}), 0
        yield *read_request_case({**REQUEST, "function": 11, "index": index, "eight": rng.randbytes(8)}), 0
    archive = request_body({**REQUEST, "function": 6})
    for bit in range(0, 8 * len(archive), 3):
        yield [6, 4], [flipped(archive, bit)], None
    for _ in range(10):
        plan = {**REQUEST, "function": 6, "mask": 1 << rng.randrange(32), "type": rng.randint(1, 4)}
        yield *read_request_case({**plan, "first": random_date(rng), "last": random_date(rng)}), 0


REPLY = {
    "width": 4, "asked": 5, "mask": 4, "date": GOOD_DATE, "status": 1, "zeros": bytes(3), "error": 7, "eight": pattern(8),
    "values": 2, "more": 0, "stray": b"",
}


def reply_body(plan):
    """The number of values is of places; `more` bytes follow, or are missing."""
    width = plan["width"] if plan["width"] in (4, 8) else 4
    body = {
        0: bytes([plan["error"]]),
        1: values(plan["asked"], width),
        2: le(plan["mask"], 4),
        4: plan["date"],
        5: bytes([plan["status"]]) + plan["zeros"],
        6: le(plan["mask"], 4) + plan["date"] + pattern(plan["values"] * width),
        10: plan["eight"],
        11: plan["zeros"][:2],
    }.get(plan["function"], le(plan["mask"], 4))
    more = plan["more"]
    return body + pattern(more) if more >= 0 else body[:max(0, len(body) + more)]


def read_reply_case(plan):
    return [plan["function"], plan["width"], plan["asked"]], [reply_body(plan)]


def read_reply(rng):
    order = [1, 10, 11, 12, 13, 15]
    faults = {
        1: [(12, {"asked": 0})],
        4: [(13, {"date": BAD_DATE}), (13, {"date": NO_DATE[:5] + b"\x0C"}), (13, {"date": b"\x0C" + NO_DATE[1:]})],
        5: [(15, {"status": 2}), (15, {"status": 255}), (15, {"zeros": b"\x01\x00\x00"}), (15, {"zeros": b"\x00\x00\x80"})],
        6: [(12, {"mask": 0}), (12, {"mask": 6}), (13, {"date": BAD_DATE}), (13, {"date": NO_DATE})],
        11: [(15, {"zeros": b"\x01\x00\x00"}), (15, {"zeros": b"\x00\x01\x00"})],
    }
    for function in REPLIES:
        changes = [(1, {"width": 5}), (1, {"width": 0}), (11, {"more": 1}), (11, {"more": -1}), (11, {"more": -1000}), *faults.get(function, [])]
        yield from with_faults(read_reply_case, {**REPLY, "function": function}, changes, order)
        for width in WIDTHS if function == 1 else WIDTHS[:3]:
            yield *read_reply_case({**REPLY, "function": function, "width": width}), 1
        body = reply_body({**REPLY, "function": function, "values": 0})
        for length in range(len(body)):
            for width in (4, 8):
                yield [function, width, 5], [body[:length]], 11
        yield [function, 4, 5], [bytes(246)], 11
        if function != 1:
            yield *read_reply_case({**REPLY, "function": function, "asked": 0}), 0
    for function in OTHER_FUNCTIONS:
        yield [function, 4, 5], [bytes(8)], 10
        yield [function, 5, 5], [bytes(8)], 1
    for error in (0, 1, 8, 9, 255):
        yield *read_reply_case({**REPLY, "function": 0, "error": error}), 0
    for mask in MASKS:
        for width in (4, 8):
            plan = {**REPLY, "function": 1, "width": width, "asked": mask}
            yield *read_reply_case(plan), 11 if width == 8 and mask == 0xFFFFFFFF else 0
            yield [1, 12 - width, mask], [reply_body(plan)], 11
    for count in (29, 30, 31, 32):
        for width in (4, 8):
            yield *read_reply_case({**REPLY, "function": 1, "width": width, "asked": mask_of(count)}), 11 if count * width > 245 else 0
    yield [1, 4, 5], [pattern(7)], 11
    yield [1, 4, 0], [b""], 12
    yield [1, 4, 0], [bytes(4)], 11
    for mask in (0,) + MASKS:
        yield *read_reply_case({**REPLY, "function": 2, "mask": mask}), 0
    for date in edge_dates():
        yield [4, 4, 0], [date], 0 if is_date(date) or date == NO_DATE else 13
    for date, is_one in month_ends():
        for function in (4, 6):
            yield *read_reply_case({**REPLY, "function": function, "date": date}), 0 if is_one else 13
    for status in (0, 1, 2, 128):
        yield *read_reply_case({**REPLY, "function": 5, "status": status}), 0 if status < 2 else 15
    for mask in ONE_BIT + NOT_ONE_BIT:
        yield *read_reply_case({**REPLY, "function": 6, "mask": mask}), 0 if mask in ONE_BIT else 12
    for width in (4, 8):
        for count in (0, 1, 2, 3, 28, 29, 30, 57, 58, 59, 60):
            yield *read_reply_case({**REPLY, "function": 6, "width": width, "values": count}), 11 if 10 + count * width > 245 else 0
        for more in (1, width - 1, width + 1):
            yield *read_reply_case({**REPLY, "function": 6, "width": width, "values": 0, "more": more}), 11
    yield [6, 8, 5], [reply_body({**REPLY, "function": 6, "width": 4, "values": 1})], 11
    archive = reply_body({**REPLY, "function": 6, "values": 1})
    for bit in range(0, 8 * len(archive), 3):
        yield [6, 4, 5], [flipped(archive, bit)], None


def written_request(plan):
    due = request_body({**plan, "more": 0, "width": plan["width"] if plan["width"] in (4, 8) else 4})
    given = plan["eight"] if plan["function"] == 11 else due[4:] if plan["function"] == 2 else b""
    numbers = [plan["function"], plan["width"], plan["mask"], plan["type"], plan["index"], date_number(plan["first"]), date_number(plan["last"])]
    return numbers, [given + plan["stray"], pattern(max(0, len(due) + plan["more"]), 0x31)]


def write_request_body(rng):
    order = [1, 11, 12, 13, 17, 16]
    faults = {
        1: [(12, {"mask": 0})],
        2: [(12, {"mask": 0, "values": 0}), (11, {"mask": 0, "values": 4}), (11, {"values": 5}), (11, {"values": 0}), (11, {"values": 8}),
            (17, {"mask": mask_of(31), "values": 248, "width": 8})],
        5: [(13, {"first": BAD_DATE}), (13, {"first": NO_DATE})],
        6: [(12, {"mask": 0}), (12, {"mask": 5}), (13, {"first": BAD_DATE}), (13, {"last": BAD_DATE}), (13, {"last": NO_DATE})],
        11: [(11, {"eight": pattern(7)}), (11, {"eight": b""})],
    }
    for function in REQUESTS:
        shorter = [] if function == 4 else [(16, {"more": -1}), (16, {"more": -1000})]
        changes = [(1, {"width": 5}), (1, {"width": 0}), (11, {"stray": b"\x00"}), *shorter, *faults.get(function, [])]
        yield from with_faults(written_request, {**REQUEST, "function": function}, changes, order)
        for width in WIDTHS if function == 1 else WIDTHS[:2]:
            yield *written_request({**REQUEST, "function": function, "width": width}), 1
        for more in (1, 5):
            yield *written_request({**REQUEST, "function": function, "width": 8, "more": more}), 0
    for mask in MASKS:
        yield *written_request({**REQUEST, "function": 1, "mask": mask}), 0
    for count in (1, 2, 29, 30, 31, 32):
        for width in (4, 8):
            plan = {**REQUEST, "function": 2, "width": width, "mask": mask_of(count)}
            yield *written_request(plan), 17 if 4 + count * width > 245 else 0
            yield *written_request({**plan, "more": -1}), 17 if 4 + count * width > 245 else 16
    yield *written_request({**REQUEST, "function": 2, "width": 8, "mask": mask_of(32), "values": 255}), 11
    for date in edge_dates():
        yield *written_request({**REQUEST, "function": 5, "first": date}), 0 if is_date(date) else 13
    for date, is_one in month_ends():
        yield *written_request({**REQUEST, "function": 5, "first": date}), 0 if is_one else 13
        for place in ("first", "last"):
            yield *written_request({**REQUEST, "function": 6, place: date}), 0 if is_one else 13
    for mask in ONE_BIT + NOT_ONE_BIT:
        yield *written_request({**REQUEST, "function": 6, "mask": mask}), 0 if mask in ONE_BIT else 12
    for kind in (1, 2, 3, 4):
        yield *written_request({**REQUEST, "function": 6, "type": kind, "first": random_date(rng), "last": random_date(rng)}), 0
    for index in (0, 1, 255, 256, 0xFFFF):
        yield *written_request({**REQUEST, "function": 10, "index": index}), 0
        yield *written_request({**REQUEST, "function": 11, "index": index, "eight": rng.randbytes(8)}), 0


def written_reply(plan):
    width = plan["width"] if plan["width"] in (4, 8) else 4
    asked = {**plan, "more": 0, "asked": plan["mask"], "width": width, "values": 0}
    given = {1: values(plan["mask"], width), 6: pattern(2 * width), 10: plan["eight"]}.get(plan["function"], b"")
    if plan["values"] is not None and plan["function"] in (1, 6):
        given = pattern(plan["values"])
    due = len(given) if plan["function"] == 1 else len(reply_body(asked)) + (len(given) if plan["function"] == 6 else 0)
    numbers = [plan["function"], plan["width"], plan["mask"], plan["status"], plan["error"], date_number(plan["date"])]
    return numbers, [given + plan["stray"], pattern(max(0, due + plan["more"]), 0x31)]


def write_reply_body(rng):
    order = [1, 11, 12, 13, 15, 17, 16]
    good = {**REPLY, "values": None}
    faults = {
        1: [(12, {"mask": 0, "values": 0}), (11, {"mask": 0, "values": 4}), (11, {"values": 3}), (11, {"values": 8}),
            (17, {"mask": mask_of(31), "width": 8, "values": 248})],
        4: [(13, {"date": BAD_DATE}), (13, {"date": NO_DATE[:5] + b"\x0C"})],
        5: [(15, {"status": 2}), (15, {"status": 255})],
        6: [(12, {"mask": 0}), (12, {"mask": 6}), (13, {"date": BAD_DATE}), (13, {"date": NO_DATE}), (11, {"values": 5}), (11, {"values": 237}),
            (17, {"values": 236}), (17, {"values": 240})],
        10: [(11, {"eight": pattern(7)}), (11, {"eight": b""})],
    }
    for function in REPLIES:
        changes = [(1, {"width": 5}), (1, {"width": 0}), (11, {"stray": b"\x00"}), (16, {"more": -1}), (16, {"more": -1000})]
        changes += faults.get(function, [])
        yield from with_faults(written_reply, {**good, "function": function}, changes, order)
        for width in WIDTHS if function == 1 else WIDTHS[:2]:
            yield *written_reply({**good, "function": function, "width": width}), 1
        for more in (1, 5):
            yield *written_reply({**good, "function": function, "width": 8, "more": more}), 0
    for error in (0, 1, 8, 9, 255):
        yield *written_reply({**good, "function": 0, "error": error}), 0
    for count in (1, 2, 29, 30, 31, 32):
        for width in (4, 8):
            plan = {**good, "function": 1, "width": width, "mask": mask_of(count)}
            yield *written_reply(plan), 17 if count * width > 245 else 0
            yield *written_reply({**plan, "more": -1}), 17 if count * width > 245 else 16
    yield *written_reply({**good, "function": 1, "width": 8, "mask": mask_of(32), "values": 255}), 11
    for mask in (0,) + MASKS:
        yield *written_reply({**good, "function": 2, "mask": mask}), 0
    for date in edge_dates():
        yield *written_reply({**good, "function": 4, "date": date}), 0 if is_date(date) or date == NO_DATE else 13
    for date, is_one in month_ends():
        for function in (4, 6):
            yield *written_reply({**good, "function": function, "date": date}), 0 if is_one else 13
    for status in (0, 1, 2, 128):
        yield *written_reply({**good, "function": 5, "status": status}), 0 if status < 2 else 15
    for mask in ONE_BIT + NOT_ONE_BIT:
        yield *written_reply({**good, "function": 6, "mask": mask}), 0 if mask in ONE_BIT else 12
    for width in (4, 8):
        for count in (0, 1, 3, 28, 29, 30, 58, 59):
            plan = {**good, "function": 6, "width": width, "values": count * width}
            yield *written_reply(plan), 17 if 10 + count * width > 245 else 0
    for _ in range(5):
        yield *written_reply({**good, "function": 6, "mask": 1 << rng.randrange(32), "date": random_date(rng), "values": 4 * rng.randrange(8)}), 0
        yield *written_reply({**good, "function": 10, "eight": rng.randbytes(8)}), 0


CASES = {20: read_request, 21: read_reply, 22: write_request_body, 23: write_reply_body}
