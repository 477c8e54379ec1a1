"""Cases for SM160 frames, the sender and the receiver (acts 40 to 44)."""
from cases.datagram import FILE_FAULTS, FILE_ORDER, LENGTH, PLAN, WRAPS, crc32_anew, each_byte, file, in_lengths, nested, some_datagram
from cases.making import changed, flipped, pattern, with_faults
from crc import low_byte_first
from printed import DATAGRAMS, FRAMES
from sm160 import END, LONGEST_PART, QA, START, flags_field, frame_bytes, frame_crc, is_start, of_one_file, offset_field, session_field
from sm160 import part as part_of
from sm160 import receive as received

WIDEST = 2 ** 64 - 1


def frame(plan):
    """The bytes of a plan, with its CRC16 made after all else, but for the bits that `crc` flips in it. The part is given, or its length is."""
    part = plan["part"] if isinstance(plan["part"], bytes) else pattern(plan["part"])
    made = frame_bytes(plan["session"], plan["offset"], plan["flags"], part)
    made = changed(made, 6, ((len(part) + plan["size"]) % 65536).to_bytes(2, "little"))
    made = changed(made, 8, low_byte_first(frame_crc(made) ^ plan["crc"]))
    return made[:plan["received"]]


GOOD = {"session": 0x0102, "offset": 0, "flags": 2, "part": 4, "size": 0, "crc": 0, "received": None}
FRAME_FAULTS = [
    (21, {"received": 11}),
    (21, {"received": 0}),
    (22, {"size": 1}),
    (22, {"size": -1}),
    (22, {"size": 256}),
    (23, {"part": 0}),
    (23, {"part": 241}),
    (24, {"crc": 0x0001}),
    (24, {"crc": 0x8000}),
    (25, {"flags": 3}),
    (25, {"flags": 10}),
    (25, {"flags": 0x8002}),
]
FRAME_ORDER = [21, 22, 23, 24, 25]


def crc_anew(made):
    return changed(made, 8, low_byte_first(frame_crc(made)))


def read_frame(rng):
    yield from with_faults(lambda plan: ([], [frame(plan)]), GOOD, FRAME_FAULTS, FRAME_ORDER)
    for packet in FRAMES:
        yield [], [packet[8:]], None
        yield [], [flipped(packet[8:], rng.randrange(96, 8 * len(packet[8:])))], 24
    for flags in (0, 2, 4, 6):
        yield [], [frame({**GOOD, "flags": flags})], 0
    for bit in range(16):
        yield [], [frame({**GOOD, "flags": 1 << bit})], 0 if bit in (1, 2) else 25
    for session in (0, 1, 255, 256, 0xFFFF):
        yield [], [frame({**GOOD, "session": session})], 0
    for offset in (0, 1, 255, 256, 65535, 65536, 2 ** 31, 2 ** 32 - 1):
        yield [], [frame({**GOOD, "offset": offset})], 0
    for part in (1, 2, 239, 240, 241, 242):
        yield [], [frame({**GOOD, "part": part})], 23 if part > 240 else 0
    yield [], [frame({**GOOD, "part": 241, "size": -1})], 22
    yield [], [frame({**GOOD, "part": 0, "size": 1})], 22
    yield [], [frame({**GOOD, "size": -4})], 22
    yield [], [b"\x00\x00"], 21
    good = frame(GOOD)
    for bit in range(8 * len(good)):
        yield [], [flipped(good, bit)], 22 if bit // 8 in (6, 7) else 24
    for bit in range(0, 8 * len(good), 5):
        yield [], [crc_anew(flipped(good, bit))], None
    for length in range(len(good)):
        yield [], [good[:length]], 21 if length < 12 else 22
    for beyond in (1, 2, 100):
        yield [], [good + bytes(beyond)], 22
    # CRC16 by the rules that the traffic shut out: high byte first, and the flags taken as zero
    yield [], [changed(good, 8, good[9:7:-1])], 24
    yield [], [changed(good, 8, low_byte_first(frame_crc(changed(good, 10, bytes(2)))))], 24


def write_frame(rng):
    def build(plan):
        return [plan["session"], plan["offset"], plan["flags"]], [pattern(plan["part"]), pattern(max(0, 12 + plan["part"] + plan["more"]), 0x31)]
    good = {"session": 0x0102, "offset": 0x03040506, "flags": 2, "part": 4, "more": 0}
    yield from with_faults(build, good, [
        (23, {"part": 0}), (23, {"part": 241}), (25, {"flags": 1}), (25, {"flags": 8}), (25, {"flags": 0x8006}),
        (16, {"more": -1}), (16, {"more": -1000})], [23, 25, 16])
    for session in (0, 1, 255, 256, 0xFFFF):
        yield *build({**good, "session": session}), 0
    for offset in (0, 1, 255, 256, 65535, 65536, 2 ** 31, 2 ** 32 - 1):
        yield *build({**good, "offset": offset}), 0
    for bit in range(16):
        yield *build({**good, "flags": 1 << bit}), 0 if bit in (1, 2) else 25
    for flags in (0, 2, 4, 6, 7, 0xFFFF):
        yield *build({**good, "flags": flags}), 25 if flags & ~6 else 0
    for part in (1, 2, 239, 240, 241, 242, 255, 256):
        for more in (-1, 0, 3):
            yield *build({**good, "part": part, "more": more}), 23 if part > 240 else 16 if more < 0 else 0
    for more in range(-16, 3):
        yield *build({**good, "more": more}), 16 if more < 0 else 0
    for _ in range(20):
        yield *build({"session": rng.randrange(65536), "offset": rng.randrange(2 ** 32), "flags": 2 * rng.randrange(4),
                      "part": rng.randint(1, 30), "more": rng.randrange(4)}), 0


def send(rng):
    def build(plan):
        made = file(plan)
        part = min(plan["largest"], max(0, len(made) - plan["place"]))
        output = pattern(max(0, min(12 + part, 300) + plan["more"]), 0x31)
        return [plan["session"], plan["largest"], plan["place"]], [made, output]
    good = {**PLAN, "session": 0x0102, "largest": 4, "place": 4, "more": 0}
    order = [32, 33] + FILE_ORDER + [34, 16]
    past = [LENGTH, LENGTH + 1, 2 ** 32, WIDEST]
    yield from with_faults(build, good, [
        (32, {"length": 0}), (33, {"largest": 0}), (33, {"largest": 241}), (33, {"largest": 2 ** 32 + 1}), (33, {"largest": WIDEST})]
        + FILE_FAULTS + [(34, {"place": place}) for place in past] + [(16, {"more": -1}), (16, {"more": -1000})], order)
    for place in range(LENGTH + 2):
        for largest in (1, 4, LENGTH - 1, LENGTH, 240):
            yield *build({**good, "place": place, "largest": largest}), 0 if place < LENGTH else 34
    for data, largest, place in (
            (0, 18, 0), (0, 17, 0), (0, 240, 0), (0, 1, 17), (0, 240, 18), (222, 240, 0), (223, 240, 0), (223, 240, 240), (282, 240, 100), (282, 240, 60), (282, 239, 60)):
        for more in (-1, 0, 2):
            due = 34 if place == 18 + data else 16 if more < 0 else 0
            yield *build({**good, "options": 0, "data": data, "largest": largest, "place": place, "more": more}), due
    # the whole file is judged at each place, also past its end
    for number, change in FILE_FAULTS + [(37, change) for change in WRAPS] + [(37, {"length": 1}), (37, {"length": 16})]:
        for place in [0, LENGTH - 1] + past[:1] + past[-1:]:
            yield *build({**good, **change, "place": place}), number
    for one, due in each_byte():
        yield [0x0102, 4, 8], [one, pattern(16, 0x31)], due
    for length in range(1, 18):
        yield [0x0102, 240, 0], [pattern(length), pattern(40, 0x31)], 37
    for session in (0, 255, 256, 0xFFFF):
        yield *build({**good, "session": session}), 0
    for more in range(-16, 3):
        yield *build({**good, "more": more}), 16 if more < 0 else 0
    for one in DATAGRAMS:
        for place in range(0, len(one), 68):
            yield [2, 68, place], [one, pattern(80, 0x31)], 0


def piece(session, file, place, end):
    """The frame of a file's bytes from a place to an end."""
    return frame_bytes(session, place, (START if place == 0 else 0) | (END if end == len(file) else 0), file[place:end])


def cut(rng, session, file, largest=20, place=0, end=None):
    """The frames of a file, or of its bytes from a place to an end, cut anywhere into parts of 1 byte up to the largest."""
    frames, end = [], len(file) if end is None else end
    while place < end:
        after = min(end, place + rng.randint(1, largest))
        frames.append(piece(session, file, place, after))
        place = after
    return frames


def disturbed(rng, frames, others):
    """Frames as a bad line brings them: some lost, repeated, damaged, those of another file between, and cut off at last."""
    came = []
    for one in frames[:rng.randint(1, len(frames))]:
        came += rng.choice(([one], [one], [one, one], [flipped(one, rng.randrange(8 * len(one)))], [one[:-1]], [], [rng.choice(others), one]))
    return came


def transfers(rng):
    """Transfers frame by frame, each frame lent what the one before it left: two that go wrong, some with bytes between that are no datagram, and then
    a clean one, which must arrive whole."""
    for _ in range(12):
        session, buffer = rng.choice((1, 0x0102, 0xFFFF)), pattern(rng.randint(30, 60), 0x31)
        state = (session, LONGEST_PART, False, 0)
        for clean in (False, False, True):
            file, other = (some_datagram(rng, rng.randint(18, len(buffer))) for _ in range(2))
            other = rng.choice((other, rng.randbytes(len(other))))
            before = buffer
            frames = cut(rng, session, file)
            for one in frames if clean else disturbed(rng, frames, cut(rng, rng.choice((session, 7)), other)):
                yield list(map(int, state)), [one, buffer], None
                _, answer, state, buffer = received(state, one, buffer)
            if clean:
                assert answer == (True, len(file)) and buffer == file + before[len(file):]


def refused_at(rng, session, file, held, room):
    """Frames of each kind that a receiver refuses while it holds so many bytes of a file, at least one and not all, each with its number."""
    whole = piece(session, file, held, min(len(file), held + 240))
    short, bit = rng.randrange(len(whole)), rng.randrange(8 * len(whole))
    part, beyond = whole[12:], room - held + 1
    yield 21 if short < 12 else 22, whole[:short]
    yield 22 if bit // 8 in (6, 7) else 24, flipped(whole, bit)
    yield 23, frame_bytes(session, held, END, b"")
    yield 25, frame_bytes(session, held, QA, part)
    yield 26, piece(session ^ 1, file, held, held + 1)
    yield 28, frame_bytes(session, held, START, part)
    yield 31 if beyond <= 240 else 23, frame_bytes(session, held, END, pattern(beyond))
    if held > 1:
        place = rng.randrange(max(1, held - 240), held)
        # a part again, as it came, and one of another cut that begins among the bytes held
        yield 29, piece(session, file, place, held)
        yield 29, piece(session, file, place, min(len(file), place + 240))
    if held + 1 < len(file):
        yield 30, piece(session, file, held + 1, min(len(file), held + 241))
        # END too early
        yield 37, frame_bytes(session, held, END, file[held:held + 1])
    if len(file) - held <= 240:
        yield 38, frame_bytes(session, held, END, flipped(file, 8 * len(file) - 1)[held:])
    if len(file) <= 240:
        # another START, with a whole file that is no good
        yield 39, frame_bytes(session, 0, START | END, crc32_anew(flipped(file, 8)))


def strays(rng, session, file, place, early):
    """Of each kind what a receiver with a file's bytes up to a place, not up to its last, takes though it is not of the file: nothing; of another file a
    part that goes on, a START, and a whole file; and the file's next bytes with END, which comes too early, but where they are a datagram so far."""
    other, part = some_datagram(rng, len(file)), rng.randrange(1, len(file))
    yield []
    yield [frame_bytes(session, place, 0, bytes([file[place] ^ 0xFF]))]
    yield [frame_bytes(session, 0, START, other[:part])]
    yield [frame_bytes(session, 0, START | END, some_datagram(rng, rng.randint(18, len(file))))]
    yield [frame_bytes(session, place, END, file[place:early])]


def resumed(rng, session, file, place, first, second, stray=None):
    """A file cut by one largest part up to a place, refused frames of some kinds, and on from there by another; or, after strays, from START again."""
    room = len(file) + rng.randrange(4)
    refused = list(refused_at(rng, session, file, place, room))
    course = [(0, one) for one in cut(rng, session, file, first, 0, place)]
    course += rng.sample(refused, min(5, len(refused)))
    course += [(0, one) for one in (stray or []) + cut(rng, session, file, second, place if stray is None else 0)]
    course.append((27, piece(session, file, len(file) - 1, len(file))))
    state, buffer = (session, LONGEST_PART, True, 1), pattern(room, 0x31)
    whole = of_it = False
    for number, one in course:
        yield list(map(int, state)), [one, buffer], number
        refusal, answer, state, after = received(state, one, buffer)
        if not refusal and is_start(one):
            of_it, before = True, buffer
        if not refusal:
            of_it = of_it and of_one_file(file, one)
        # W-212: it and every frame accepted since that START are of the file, and this one completes
        if not refusal and of_it and answer[0]:
            assert answer == (True, len(file)) and after == file + before[len(file):]
            whole = True
        buffer = after
    assert whole


def in_two_ways(rng):
    """W-212: files of 18 bytes, resumed at each place, of 23 at some, and some with parts of real size; and from START again, after each kind of strays."""
    def small(file, place, kind=None):
        session, (first, second) = rng.choice((1, 0x0102, 0xFFFF)), rng.sample(range(1, 12), 2)
        stray = None if kind is None else list(strays(rng, session, file, place, 18))[kind]
        return resumed(rng, session, file, place, first, second, stray)
    for size, places in ((18, range(1, 18)), (23, range(2, 23, 4))):
        for place in places:
            yield from small(some_datagram(rng, size), place)
    for size, place, first, second in ((245, 136, 68, 240), (500, 240, 240, 68), (481, 480, 240, 239)):
        yield from resumed(rng, 2, some_datagram(rng, size), place, first, second)
    for more in (0, 3):
        for kind in range(5):
            yield from small(nested(rng, 18, more), rng.randrange(1, 17), kind)


def limits(build, going, idle, order):
    """W-211: a state's limit and a part, on both sides of each condition, and with each other number that can hold with 20 and 23 by the limit."""
    bad = [(20, {"limit": limit}) for limit in (0, 241, 256 + 4, 2 ** 32 + 4, WIDEST)]
    above = [(23, {"part": 5}), (23, {"part": 240})]
    others = [fault for fault in FRAME_FAULTS if fault[0] != 23]
    yield from with_faults(build, {**going, "limit": 4}, bad + above + others + [
        (26, {"session": 0x0103}), (29, {"offset": 5}), (30, {"offset": 7}), (31, {"buffer": 9})], order)
    yield from with_faults(build, {**idle, "limit": 4}, bad + above + others + [
        (26, {"session": 0x0103}), (27, {"flags": 0}), (28, {"offset": 1}), (31, {"buffer": 3})], order)
    for limit in (0, 1, 68, 239, 240, 241):
        for part in sorted({1, max(1, limit - 1), limit, limit + 1}):
            for crc in (0, 1):
                due = 20 if limit in (0, 241) else 23 if not 1 <= part <= limit else 24 if crc else 0
                change = {"limit": limit, "crc": crc, "buffer": 280}
                for plan in (going, idle):
                    yield *build({**plan, **change, "part": part}), due
                for whole, held in ((plain(20 + part), 20), (plain(part), 0)):
                    yield *build({**going, **ending(whole, held), **change}), due or (37 if len(whole) < 18 else 0)


def limited(rng, limit):
    """W-211: a file in parts above the limit, from its start and over a stump, of which nothing is stored; then one that keeps to it arrives whole."""
    parts = max(2, -(-18 // (limit + 1)))
    session, size = rng.choice((1, 0x0102, 0xFFFF)), parts * (limit + 1) + 1
    file, buffer = some_datagram(rng, size), pattern(size + rng.randrange(4), 0x31)
    state = (session, limit, False, 0)

    def feed(frames, number):
        nonlocal state, buffer
        for one in frames:
            yield list(map(int, state)), [one, buffer], number
            refusal, answer, state, after = received(state, one, buffer)
            assert state[:2] == (session, limit) and (refusal == 0 or after == buffer)
            buffer, last = after, answer
        return last

    # parts that are one byte too long, and then the file's last byte, with nothing under way
    long = [piece(session, file, at, min(size, at + limit + 1)) for at in range(0, size, limit + 1)]
    yield from feed(long[:-1], 23)
    yield from feed(long[-1:], 27)
    for place in sorted({1, limit}):
        stump = cut(rng, session, file, limit, 0, place)
        yield from feed(stump, 0)
        yield from feed([frame_bytes(session, place, flags, file[place:place + limit + 1]) for flags in (0, END)], 23)
        before = buffer
        last = yield from feed(cut(rng, session, file, limit), 0)
        assert last == (True, size) and buffer == file + before[size:]
        file = some_datagram(rng, size)


def opened(rng):
    for session in (0, 1, 0x0102, 0xFFFF):
        for largest in (0, 1, 2, 67, 68, 80, 239, 240, 241, 242, 255, 256, 257, 256 + 240, 65536 + 68, 2 ** 32 + 1, 2 ** 63, WIDEST):
            yield [session, largest], [], 0 if 1 <= largest <= 240 else 33


def plain(length):
    """A datagram of a length, or as many bytes where that is below 18."""
    return file({**PLAN, "options": 0, "data": length - 18}) if length >= 18 else pattern(length)


def ending(whole, held):
    """Of a plan: so many bytes of a file are held, and its rest comes with END."""
    return {"held": whole[:held], "part": whole[held:], "count": held, "offset": held, "under way": int(held > 0), "flags": END if held else START | END}


def build(plan):
    buffer = plan["held"] + pattern(max(0, plan["buffer"] - len(plan["held"])), 0x31)
    return [plan["own session"], plan["limit"], plan["under way"], plan["count"]], [frame(plan), buffer[:plan["buffer"]]]


GOING = {**GOOD, "own session": 0x0102, "limit": LONGEST_PART, "under way": 1, "count": 6, "buffer": 20, "offset": 6, "flags": 0, "held": b""}
IDLE = {**GOING, "under way": 0, "count": 0, "offset": 0, "flags": 2}
RECEIVE_ORDER = list(range(20, 32)) + FILE_ORDER


def build_file(plan):
    """The file of a plan, of which the first `at` bytes are held; where the plan names no part, the part is the rest."""
    made = file(plan)
    return build({**plan, "held": made[:plan["at"]], "part": made[plan["at"]:] if plan["part"] is None else plan["part"]})


def at_end(rng):
    """W-203: END at a file that is a datagram or not, with each other number that can hold with 37 to 39; the same without END."""
    last = {**GOING, **PLAN, "at": 6, "part": None, "flags": END, "buffer": 40}
    only = {**last, "at": 0, "under way": 0, "count": 0, "offset": 0, "flags": START | END}
    yield from with_faults(build_file, last, FILE_FAULTS + [(20, {"buffer": 5}), (20, {"under way": 0}), (20, {"limit": 241})] + FRAME_FAULTS + [
        (26, {"session": 0x0103}), (29, {"offset": 5}), (30, {"offset": 7}), (31, {"buffer": LENGTH - 1}), (31, {"buffer": 16})], RECEIVE_ORDER)
    yield from with_faults(build_file, only, FILE_FAULTS + [
        (20, {"count": 1}), (25, {"flags": 7}), (26, {"own session": 0x0103}), (27, {"flags": END}), (28, {"offset": 1}), (31, {"buffer": LENGTH - 1}), (31, {"buffer": 0})],
        RECEIVE_ORDER)
    for number, change in FILE_FAULTS:
        yield *build_file({**last, **change, "flags": 0}), 0
        yield *build_file({**only, **change, "flags": START}), 0
        # over a file under way, which goes on
        yield *build_file({**only, **change, "under way": 1, "count": 6}), number
    for change in WRAPS:
        yield *build_file({**last, **change}), 37
        yield *build_file({**only, **change}), 37
    for one, due in each_byte():
        yield *build({**GOING, **ending(one, 20), "buffer": 30}), due
        yield *build({**GOING, **ending(one, 0), "buffer": LENGTH}), due
    for length in (1, 2, 16, 17, 18, 19):
        for held in sorted({0, 1, length // 2, length - 1} - {length}):
            yield *build({**GOING, **ending(plain(length), held)}), 37 if length < 18 else 0
            yield *build({**GOING, **ending(bytes(length), held)}), 37 if length < 18 else 38 if length == 18 else 37
    # a datagram whose fields are cut at each place
    for change, due in (({}, 0), ({"more data": 1}, 37), ({"crc32": 0x100}, 38), ({"compression": 1}, 39)):
        for held in range(LENGTH):
            yield *build({**GOING, **ending(file({**PLAN, **change}), held), "buffer": 30}), due


def what_is_judged(rng):
    """The bytes held up to the frame's place and the part, and no others."""
    good = file(PLAN)
    last = {**GOING, **ending(good, 6), "buffer": 30}
    # START takes the bytes held for none, and those after the part are of no file
    yield *build({**last, "flags": START | END, "offset": 0}), 37
    yield *build({**last, **ending(good, 0), "held": good[:6], "under way": 1, "count": 6}), 0
    yield *build({**last, "held": good, "part": good[6:-1]}), 37
    yield *build({**last, "held": good, "part": good[6:7]}), 37
    yield *build({**last, "held": good + good}), 0
    # a buffer that the caller changed between two calls
    for at in range(6):
        yield *build({**last, "held": flipped(good[:6], 8 * at + rng.randrange(8))}), 37 if at > 1 else 38
    for at in range(LENGTH - 1):
        held = flipped(good[:-1], 8 * at + rng.randrange(8))
        yield *build({**last, **ending(good, LENGTH - 1), "held": held}), 37 if in_lengths(good, at) else 38
    yield *build({**last, "held": file({**PLAN, "compression": 1})[:6]}), 38
    yield *build({**last, "held": file({**PLAN, "compression": 1})[:6], "part": file({**PLAN, "compression": 1})[6:]}), 39


def fed(state, buffer, course):
    """Frames one after another, each lent what the one before it left. Hands back the last answer, the state and the buffer."""
    for number, one in course:
        yield list(map(int, state)), [one, buffer], number
        refusal, answer, state, after = received(state, one, buffer)
        assert refusal == 0 or after == buffer
        buffer = after
    return answer, state, buffer


def numbered(frames, last=0):
    """Frames that are taken, but for the last, which has a number."""
    return [(0, one) for one in frames[:-1]] + [(last, frames[-1])]


def ends_again(rng):
    """W-203: a file whose last frame is refused, and what may come after it."""
    session = 0x0102
    opened, idle = (session, LONGEST_PART, False, 0), pattern(50, 0x31)
    for length in (18, 33):
        good = some_datagram(rng, length)
        wrongs = [(37, flipped(good, 8 * length - 96)), (38, flipped(good, 8 * length - 1)), (39, crc32_anew(flipped(good, 8)))]
        for number, wrong in wrongs:
            refused, place = numbered(cut(rng, session, wrong), number), length - 2
            for course in (
                    # the whole file again, well
                    refused + numbered(cut(rng, session, good)),
                    # the same frame again, and a file of another session
                    refused + [refused[-1], (26, piece(session ^ 1, good, 0, length))] + numbered(cut(rng, session, good, 7)),
                    # in one frame, and then the good one
                    [(number, piece(session, wrong, 0, length)), (27, piece(session, good, 1, length)), (0, piece(session, good, 0, length))],
                    # a wrong whole file over one under way, which goes on
                    numbered(cut(rng, session, good, 9, 0, place)) + [(number, piece(session, wrong, 0, length)), (0, piece(session, good, place, length))],
                    # END too early, the same bytes without it, and on
                    [(0, piece(session, good, 0, 5)), (37, frame_bytes(session, 5, END, good[5:16])), (0, piece(session, good, 5, 16)), (0, piece(session, good, 16, length))],
                    # a wrong END, and then a good one
                    [(0, piece(session, good, 0, 16)), (37 if length > 18 else 38, frame_bytes(session, 16, END, b"\xFF" * (length - 16))), (0, piece(session, good, 16, length))]):
                answer, state, buffer = yield from fed(opened, idle, course)
                assert answer == (True, length) and state == opened and buffer == good + idle[length:]
    # byte by byte
    for number, change in ((0, {}), (37, {"more options": 1}), (38, {"crc32": 1}), (39, {"compression": 1})):
        made = file({**PLAN, "options": 1, "data": 1, **change})
        answer, state, buffer = yield from fed(opened, idle, numbered(cut(rng, session, made, 1), number))
        assert buffer == (made[:-1] + idle[len(made) - 1:] if number else made + idle[len(made):])


def counted_from(one, start):
    """What a host does with a controller's frame: its fields, the offset less the START's, written again; a master's frame without its QA."""
    return frame_bytes(session_field(one), offset_field(one) - start, flags_field(one) & ~QA, part_of(one))


def printed_transfer(rng):
    """01's printed case, as W-203 has it: the whole transfer from opening, from the lent state at 141, and with offsets counted from START."""
    frames = [packet[8:] for packet in FRAMES]
    for buffer in (pattern(400, 0x31), bytes(318)):
        for session, course in ((1, zip((25, 28), frames[:2])), (2, zip((25, 25, 28, 27, 27, 27), frames[2:]))):
            _, state, after = yield from fed((session, 68, False, 0), buffer, course)
            assert state == (session, 68, False, 0) and after == buffer
    parts = b"".join(map(part_of, frames[5:7]))
    for held in (bytes(141), pattern(141), DATAGRAMS[2] + DATAGRAMS[3][:68]):
        for room in (318, 400):
            buffer = held + pattern(room - 141, 0x31)
            _, state, after = yield from fed((2, 68, True, 141), buffer, [(0, frames[5]), (0, frames[6]), (37, frames[7]), (37, frames[7])])
            assert state == (2, 68, True, 277) and after == held + parts + buffer[277:]
        yield from fed((2, 68, True, 277), (held + parts + bytes(40)), [(31, frames[7])])
    for session, first, last, start, of in ((1, 0, 1, 0, 0), (1, 1, 2, 22, 1), (2, 2, 4, 0, 2), (2, 4, 8, 73, 3)):
        length = len(DATAGRAMS[of])
        for room in (length, 318):
            course = [(0, counted_from(one, start)) for one in frames[first:last]]
            answer, state, buffer = yield from fed((session, 68, False, 0), bytes(room), course)
            assert answer == (True, length) and state == (session, 68, False, 0) and buffer == DATAGRAMS[of] + bytes(room - length)


def receive(rng):
    yield from transfers(rng)
    going, idle, order = GOING, IDLE, RECEIVE_ORDER
    unfit = [
        (20, {"buffer": 5}),
        (20, {"under way": 0}),
        (20, {"count": 0}),
        (20, {"count": 21}),
        (20, {"count": WIDEST}),
    ]
    yield from with_faults(build, going, unfit + FRAME_FAULTS + [
        (26, {"session": 0x0103}), (26, {"own session": 0x0202}),
        (29, {"offset": 5}), (29, {"offset": 0}), (30, {"offset": 7}), (30, {"offset": 2 ** 32 - 1}), (31, {"buffer": 9}), (37, {"flags": END})], order)
    yield from with_faults(build, idle, [
        (20, {"count": 1}), (20, {"under way": 1}), (25, {"flags": 3}), (26, {"session": 0x0002}), (27, {"flags": 0}), (27, {"flags": 4}),
        (28, {"offset": 1}), (28, {"offset": 2 ** 31}), (31, {"buffer": 3}), (31, {"buffer": 0}), (37, {"flags": START | END})], order)
    # START over a file under way; refused, it leaves the file
    yield from with_faults(build, {**going, "flags": 2, "offset": 0}, [
        (24, {"crc": 1}), (26, {"session": 7}), (28, {"offset": 6}), (31, {"part": 21}), (37, {"flags": START | END})], order)
    last, only = {**going, **ending(plain(26), 20)}, {**going, **ending(plain(26), 0)}
    for plan, held, whole in ((going, 6, 10), (idle, 0, 4), (last, 20, 26), (only, 0, 26)):
        for end in (0, END):
            for buffer in sorted({0, 1, held, whole, *range(max(0, held - 2), whole + 2)}):
                due = 20 if buffer < held else 31 if buffer < whole else 37 if end and whole < 18 else 0
                yield *build({**plan, "flags": plan["flags"] & START | end, "buffer": buffer}), due
    for part in (1, 2, 13, 14, 15, 239, 240):
        for end in (0, 4):
            yield *build({**going, "part": part, "flags": end}), 31 if part > 14 else 37 if end else 0
            yield *build({**idle, "part": part, "flags": 2 + end}), 31 if part > 20 else 37 if end else 0
    for part in (239, 240):
        for plan in ({**going, "part": part}, {**going, **ending(plain(6 + part), 6)}):
            yield *build({**plan, "buffer": 246}), 0
            yield *build({**plan, "buffer": 245}), 31 if part > 239 else 0
        for room in (part - 1, part, part + 1):
            yield *build({**going, **ending(plain(part), 0), "buffer": room}), 31 if room < part else 0
    # a full buffer is fit
    yield *build({**going, "count": 20, "offset": 20}), 31
    yield *build({**going, "count": 20, "offset": 19}), 29
    yield *build({**going, "count": 20, "offset": 0, "flags": 2}), 0
    yield *build({**idle, "buffer": 0, "flags": 0}), 27
    # 01's edges at 141, and the printed frames
    for offset, due in ((141, 0), (73, 29), (142, 30)):
        yield *build({**going, "part": 68, "buffer": 400, "count": 141, "offset": offset}), due
    for count, packet, due in ((141, FRAMES[5], 0), (209, FRAMES[6], 0), (277, FRAMES[7], 37)):
        yield [2, LONGEST_PART, 1, count], [packet[8:], pattern(320)], due
        yield [2, LONGEST_PART, 1, count], [packet[8:], pattern(count + len(packet) - 20)], due
        yield [2, LONGEST_PART, 1, count], [packet[8:], pattern(count + len(packet) - 21)], 31
    for packet, due in zip(FRAMES, (25, 28, 25, 25, 28, 27, 27, 27)):
        yield [packet[8], LONGEST_PART, 0, 0], [packet[8:], pattern(10)], due
    yield [2, LONGEST_PART, 1, 141], [FRAMES[4][8:], pattern(210)], 28
    good = frame(going)
    for bit in range(0, 8 * len(good), 3):
        yield [0x0102, LONGEST_PART, 1, 6], [flipped(good, bit), pattern(20)], 22 if bit // 8 in (6, 7) else 24
    for bit in range(0, 96, 2):
        yield [0x0102, LONGEST_PART, 1, 6], [crc_anew(flipped(good, bit)), pattern(20)], None
    for state in ([0x0102, LONGEST_PART, 0, 1], [0x0102, LONGEST_PART, 1, 0], [0x0102, LONGEST_PART, 1, 21]):
        yield state, [b"", pattern(20)], 20
        yield state, [frame(idle), pattern(20)], 20
    yield from in_two_ways(rng)
    yield from limits(build, going, idle, order)
    for limit in (1, 2, 5, 68, 239, 240):
        yield from limited(rng, limit)
    yield from at_end(rng)
    yield from what_is_judged(rng)
    yield from ends_again(rng)
    yield from printed_transfer(rng)


CASES = {40: read_frame, 41: write_frame, 42: send, 43: receive, 44: opened}
