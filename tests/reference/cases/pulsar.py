"""Cases for Pulsar-M frames and the line collector (acts 10 to 15)."""
from cases.making import flipped, pattern, with_faults
from crc import crc16, low_byte_first
from pulsar_frame import frame_bytes

HIGHEST = 99_999_999
WIDEST_ADDRESS = 2 ** 32 - 1
WIDEST = 2 ** 64 - 1


def address_bytes(address):
    return bytes.fromhex(f"{address:08d}")


def frame(plan):
    """The bytes of a plan, in which LEN, the CRC and the number of bytes received may be other than due."""
    length = 10 + len(plan["payload"]) if plan["length"] is None else plan["length"]
    before = plan["address"] + bytes([plan["function"], length]) + plan["payload"] + plan["id"].to_bytes(2, "little")
    sent = before + low_byte_first(crc16(before) ^ plan["crc"]) + plan["beyond"]
    return sent if plan["received"] is None else sent[:plan["received"]]


GOOD = {
    "own": 12_345_678, "asked address": 12_345_678, "asked function": 6, "asked id": 0xA55A,
    "address": address_bytes(12_345_678), "function": 6, "length": None, "payload": bytes([5, 0, 0, 0x80]), "id": 0xA55A,
    "crc": 0, "beyond": b"", "received": None,
}
FAULTS_OF_THE_BYTES = [
    (2, {"received": 9}),
    (2, {"received": 0}),
    (3, {"address": bytes.fromhex("1234567A")}),
    (3, {"address": bytes.fromhex("A2345678")}),
    (3, {"address": bytes.fromhex("00F00000")}),
    (4, {"length": 9}),
    (4, {"length": 0}),
    (9, {"length": 15}),
    (9, {"length": 255}),
    (5, {"crc": 0x0001}),
    (5, {"crc": 0x8000}),
    (6, {"address": address_bytes(12_345_679)}),
    (6, {"address": address_bytes(78_563_412)}),
]
METER_FAULTS = [
    (1, {"own": 0}),
    (1, {"own": HIGHEST + 1}),
    (1, {"own": WIDEST_ADDRESS}),
    *FAULTS_OF_THE_BYTES,
    (7, {"function": 0}),
]
MASTER_FAULTS = [
    (1, {"asked address": HIGHEST + 1}),
    (1, {"asked address": WIDEST_ADDRESS}),
    (1, {"asked function": 0}),
    *FAULTS_OF_THE_BYTES,
    (6, {"address": address_bytes(0)}),
    (7, {"function": 1}),
    (7, {"function": 255}),
    (8, {"id": 0xA55B}),
    (8, {"id": 0x255A}),
    (8, {"id": 0x5AA5}),
]


def at_meter(plan):
    return [plan["own"]], [frame(plan)]


def at_master(plan):
    return [plan["asked address"], plan["asked function"], plan["asked id"]], [frame(plan)]


def good_frames(rng):
    """Plans that both sides accept, at every edge of a field."""
    for address in (1, 9, 10, 99, 100, 10_000_000, 99_999_998, HIGHEST):
        yield {**GOOD, "own": address, "asked address": address, "address": address_bytes(address)}
    for length in (0, 1, 2, 100, 244, 245):
        yield {**GOOD, "payload": pattern(length)}
    for id in (0, 1, 255, 256, 0xFFFF):
        yield {**GOOD, "id": id, "asked id": id}
    for function in (1, 2, 3, 4, 5, 10, 11, 0x45, 0x80, 255):
        yield {**GOOD, "function": function, "asked function": function}
    for beyond in (b"\x00", b"\xFF" * 3, pattern(60), pattern(300)):
        yield {**GOOD, "beyond": beyond}
    yield {**GOOD, "payload": b"", "beyond": b"\x00"}
    yield {**GOOD, "payload": pattern(245), "beyond": pattern(5)}
    for _ in range(12):
        address, function, id = rng.randint(1, HIGHEST), rng.randint(1, 255), rng.randrange(65536)
        yield {**GOOD, "own": address, "asked address": address, "address": address_bytes(address), "function": function,
               "asked function": function, "id": id, "asked id": id, "payload": rng.randbytes(rng.randrange(20))}


# 02, W-205
SOME_LENS = (9, 10, 11, 255)
SOME_COUNTS = (9, 10, 11, 254, 255)


def begun(address, length, received):
    """So many bytes, which begin with a frame of that LEN or with its front; its CRC is good, and LEN 9 stands in a frame of ten bytes."""
    return (frame({**GOOD, "address": address, "length": length, "payload": pattern(max(0, length - 10))}) + pattern(255))[:received]


def due_for(length, received, earlier=0, later=0):
    """2, an earlier fault of the bytes, 4, 9, a later fault."""
    return 2 if received < 10 else earlier or (4 if length < 10 else 9 if length > received else later)


def on_their_way(asked, of_another):
    """Frames of each LEN of which so many bytes came, from the address asked, one that is not BCD, and another (6, at its place in the order)."""
    for address, faults in (("12345678", {}), ("1234567A", {"earlier": 3}), ("12345679", of_another)):
        for length in SOME_LENS:
            for received in SOME_COUNTS:
                yield asked, [begun(bytes.fromhex(address), length, received)], due_for(length, received, **faults)


def damaged(rng):
    """Frames with one flipped bit as received, and with the CRC made anew over what was flipped."""
    sent = frame(GOOD)
    for bit in range(0, 8 * len(sent), 2):
        yield flipped(sent, bit)
    for bit in range(1, 8 * (len(sent) - 2), 3):
        before = flipped(sent, bit)[:-2]
        yield before + low_byte_first(crc16(before))
    for length in range(len(sent)):
        yield sent[:length]
    for _ in range(5):
        yield rng.randbytes(rng.randrange(10, 16))


def read_at_meter(rng):
    yield from with_faults(at_meter, GOOD, METER_FAULTS, [1, 2, 3, 4, 9, 5, 6, 7])
    yield from on_their_way([12_345_678], {"later": 6})
    for plan in good_frames(rng):
        yield *at_meter(plan), 0
        yield *at_meter({**plan, "own": 1, "address": address_bytes(0)}), 0
    yield *at_meter({**GOOD, "payload": b"", "length": 9}), 4
    yield *at_meter({**GOOD, "payload": b"", "length": 11}), 9
    yield *at_meter({**GOOD, "length": 10}), 5
    yield *at_meter({**GOOD, "beyond": b"\x01", "length": 15}), 5
    for change in ({"payload": b""}, {"payload": pattern(245)}, {"address": address_bytes(0)}, {"beyond": pattern(3)}):
        yield *at_meter({**GOOD, "function": 0, **change}), 7
        yield *at_meter({**GOOD, "own": 1, "address": address_bytes(2), "function": 0, **change}), 7 if "address" in change else 6
    yield [0], [b""], 1
    for received in damaged(rng):
        yield [GOOD["own"]], [received], None


def read_at_master(rng):
    order = [1, 2, 3, 6, 7, 4, 9, 5, 8]
    yield from with_faults(at_master, GOOD, MASTER_FAULTS, order)
    yield from on_their_way([12_345_678, 6, 0xA55A], {"earlier": 6})
    yield from with_faults(at_master, {**GOOD, "asked address": 0}, [
        (6, {"address": address_bytes(0)}), (7, {"function": 7}), (4, {"length": 9}), (9, {"length": 15}), (8, {"asked id": 0})], order)
    for plan in good_frames(rng):
        yield *at_master(plan), 0
    yield *at_master({**GOOD, "function": 0}), 0
    yield *at_master({**GOOD, "function": 0, "asked function": 255}), 0
    yield [HIGHEST + 1, 1, 0], [b""], 1
    for received in damaged(rng):
        yield [GOOD["asked address"], GOOD["asked function"], GOOD["asked id"]], [received], None


def writing(plan):
    """Output of the due length, less or more."""
    due = 10 + plan["payload"]
    output = pattern(max(0, due + plan["more"]), 0x31)
    return [plan["address"], plan["function"], plan["id"]], [pattern(plan["payload"]), output]


TO_WRITE = {"address": 12_345_678, "function": 6, "id": 0xA55A, "payload": 4, "more": 0}
WRITING_FAULTS = [
    (1, {"address": HIGHEST + 1}),
    (1, {"address": WIDEST_ADDRESS}),
    (17, {"payload": 246}),
    (16, {"more": -1}),
    (16, {"more": -1000}),
]


def frames_to_write(rng):
    for address in (1, 9, 10, 99, 10_000_000, HIGHEST):
        yield {**TO_WRITE, "address": address}, 0
    for id in (0, 1, 255, 256, 0xFFFF):
        yield {**TO_WRITE, "id": id}, 0
    for function in (1, 2, 3, 4, 5, 10, 11, 0x45, 0x80, 255):
        yield {**TO_WRITE, "function": function}, 0
    for payload in (0, 1, 2, 3, 100, 244, 245):
        yield {**TO_WRITE, "payload": payload}, 0
        yield {**TO_WRITE, "payload": payload, "more": 3}, 0
        yield {**TO_WRITE, "payload": payload, "more": -1}, 16
    for payload in (246, 247, 256, 300):
        yield {**TO_WRITE, "payload": payload, "more": 0}, 17
    for more in range(-14, 3):
        yield {**TO_WRITE, "more": more}, 16 if more < 0 else 0
    for _ in range(20):
        yield {"address": rng.randint(1, HIGHEST), "function": rng.randint(1, 255), "id": rng.randrange(65536),
               "payload": rng.randrange(30), "more": rng.randrange(4)}, 0


def write_request(rng):
    yield from with_faults(writing, TO_WRITE, WRITING_FAULTS + [(1, {"function": 0})], [1, 17, 16])
    yield *writing({**TO_WRITE, "address": 0}), 0
    yield *writing({**TO_WRITE, "address": 0, "function": 0}), 1
    for plan, due in frames_to_write(rng):
        yield *writing(plan), due


def write_reply(rng):
    yield from with_faults(writing, TO_WRITE, WRITING_FAULTS + [(1, {"address": 0})], [1, 17, 16])
    yield *writing({**TO_WRITE, "function": 0}), 0
    for plan, due in frames_to_write(rng):
        yield *writing(plan), due


def collect(rng):
    for length in (0, 1, 2, 3, 9, 10, 11, 64, 128, 200, 253, 254, 255, 256, 257, 300, 511):
        yield [], [pattern(length)], 0
    yield [], [bytes(20)], 0
    yield [], [frame_bytes(1, 1, 7, b"\x05\x00\x00\x00") + b"\xFF"], 0
    for length in SOME_LENS:
        for received in (*SOME_COUNTS, 256, 300):
            for address in ("12345678", "1234567A", "00000000"):
                yield [], [begun(bytes.fromhex(address), length, received)], 0
    for _ in range(10):
        yield [], [rng.randbytes(rng.randrange(40))], 0


def lent_collector(rng):
    for count in (0, 1, 2, 9, 10, 100, 127, 128, 253, 254, 255, 256, 257, 511, 512, 2 ** 32, 2 ** 32 + 1, 2 ** 63, WIDEST):
        for byte in (0, 1, 0x80, 0xFF):
            yield [count, byte, 0], [], 20 if count > 255 else 0
        for length in (9, 10, 11, 128, 254, 255):
            yield [count, 0xFF, length], [], 20 if count > 255 else 0


CASES = {10: read_at_meter, 11: read_at_master, 12: write_request, 13: write_reply, 14: collect, 15: lent_collector}
