"""01, SM160 frames: session 2, offset 4, part size 2, CRC16 2, flags 2, then the part; numbers least significant first.

The CRC16 is the one that all printed frames have (01: the traffic decides): polynomial A001, start 0000, over the whole frame
with the two CRC16 bytes taken as zero, low byte first.

02, W-203: the sender sends and the receiver completes datagrams alone.
"""
from crc import crc16, low_byte_first
from datagram import datagram_rules, number
from refusals import first, read, written

HEADER = 12
LONGEST_PART = 240
LONGEST_FILE = 4_294_967_295
QA, START, END = 1, 2, 4


def session_field(frame):
    return number(frame[0:2])


def offset_field(frame):
    return number(frame[2:6])


def size_field(frame):
    return number(frame[6:8])


def crc_field(frame):
    return number(frame[8:10])


def flags_field(frame):
    return number(frame[10:12])


def part(frame):
    return frame[HEADER:]


def is_start(frame):
    return flags_field(frame) & START != 0


def is_end(frame):
    return flags_field(frame) & END != 0


def frame_crc(frame):
    return crc16(frame[:8] + bytes(2) + frame[10:], start=0x0000)


def bad_part(of, limit=LONGEST_PART):
    return len(of) == 0 or len(of) > limit


def bad_flags(flags):
    return flags & ~(START | END) != 0


def frame_rules(frame, limit=LONGEST_PART):
    return [
        (21, lambda: len(frame) < HEADER),
        (22, lambda: size_field(frame) != len(part(frame))),
        (23, lambda: bad_part(part(frame), limit)),
        (24, lambda: crc_field(frame) != frame_crc(frame)),
        (25, lambda: bad_flags(flags_field(frame))),
    ]


def read_frame(frame):
    """session, offset, flags, part."""
    return read(frame_rules(frame), lambda: (session_field(frame), offset_field(frame), flags_field(frame), part(frame)))


def frame_bytes(session, offset, flags, of):
    frame = (session.to_bytes(2, "little") + offset.to_bytes(4, "little") + len(of).to_bytes(2, "little")
             + bytes(2) + flags.to_bytes(2, "little") + of)
    return frame[:8] + low_byte_first(frame_crc(frame)) + frame[10:]


def write_frame(session, offset, flags, of, output):
    return written([
        (23, lambda: bad_part(of)),
        (25, lambda: bad_flags(flags)),
        (16, lambda: len(output) < HEADER + len(of)),
    ], lambda: frame_bytes(session, offset, flags, of), output)


def send(file, session, largest, place, output):
    """(number, length, next place, the whole output afterwards)."""
    of = file[place:place + largest]
    after = place + len(of)
    flags = (START if place == 0 else 0) | (END if after == len(file) else 0)
    refusal, length, output = written([
        (32, lambda: len(file) == 0 or len(file) > LONGEST_FILE),
        (33, lambda: not 1 <= largest <= LONGEST_PART),
    ] + datagram_rules(file) + [
        (34, lambda: place >= len(file)),
        (16, lambda: len(output) < HEADER + len(of)),
    ], lambda: frame_bytes(session, place, flags, of), output)
    return refusal, length, after, output


def open_receiver(session, largest):
    """(number, the state or None): a session, the largest part, whether a file is under way, and the count held."""
    return read([(33, lambda: largest not in range(1, LONGEST_PART + 1))], lambda: (session, largest, False, 0))


def judged_at_end(frame, held):
    """With END, and only then, the file must be a datagram: the bytes held and the new part."""
    return [(refusal, lambda fault=fault: is_end(frame) and fault()) for refusal, fault in datagram_rules(held + part(frame))]


def receive(state, frame, buffer):
    """(number, (complete, count or length) or None, the state and the buffer afterwards)."""
    session, limit, under_way, count = state

    def place():
        return 0 if is_start(frame) else count

    refusal = first([
        (20, lambda: count > len(buffer) or (under_way and count == 0) or (not under_way and count != 0) or not 1 <= limit <= LONGEST_PART),
    ] + frame_rules(frame, limit) + [
        (26, lambda: session_field(frame) != session),
        (27, lambda: not is_start(frame) and not under_way),
        (28, lambda: is_start(frame) and offset_field(frame) != 0),
        (29, lambda: not is_start(frame) and offset_field(frame) < count),
        (30, lambda: not is_start(frame) and offset_field(frame) > count),
        (31, lambda: place() + len(part(frame)) > len(buffer)),
    ] + judged_at_end(frame, buffer[:place()]))
    if refusal:
        return refusal, None, state, buffer
    held = place() + len(part(frame))
    buffer = buffer[:place()] + part(frame) + buffer[held:]
    if is_end(frame):
        return 0, (True, held), (session, limit, False, 0), buffer
    return 0, (False, held), (session, limit, True, held), buffer


def of_one_file(file, frame):
    """W-212: the frame's bytes stand in the file at its offset, and END is set only where the file ends."""
    place, end = offset_field(frame), offset_field(frame) + len(part(frame))
    return file[place:end] == part(frame) and (not is_end(frame) or end == len(file))
