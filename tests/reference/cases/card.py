"""Cases for the reading card in both forms, its moves and its lines (acts 50 to 58), for the numbers of archives (act 59), and the listers' inputs."""
import card as reference
from card import ARCHIVE_CARD, CARD, FORMS
from cases.ground import edge_dates, month_ends, random_date
from cases.making import date_number, flipped, pattern, with_faults

HIGHEST = 99_999_999
# 01's card in W-210's form; its first 17 bytes are the card in 01's.
FIRST = bytes.fromhex("00 00 00 20 00 21 00 00 40 00 00 00 00 00 00 00 A0 00")
GOOD = {"address": 12_345_678, "channel less one": 16, "year": 23, "month": 2, "day": 28, "hour": 12, "minute": 34, "second": 56,
        "kind": 2, "value bits": 0x89ABCDEF, "archive kind": 3, "spare": 0}
ORDER = [50, 51, 52, 53, 54, 55, 56, 57, 16]


def packed(plan):
    return [], [reference.pack(plan, plan["form"])[:plan["received"]] + plan["after"]]


def good_card(form):
    return {**GOOD, "form": form, "received": None, "after": b""}


def random_card(rng, form, archive_kinds=range(5)):
    """A good one."""
    kind = rng.randrange(4)
    values = [rng.randint(1, HIGHEST), rng.randint(1, 32), *random_date(rng), kind, rng.getrandbits(64 if kind % 2 else 32)]
    own = [] if form is CARD else [rng.choice(archive_kinds)]
    return reference.card_bytes(values + own, form)


def dated(plan, date):
    return {**plan, **dict(zip(reference.DATE, date))}


def fits_a_card(date):
    return all(field < 2 ** size for field, (_, size) in zip(date, reference.FIELDS[2:8]))


def faults(form):
    """What a reader refuses: the form's length and spare bits, the fields that both forms have, and the form's own."""
    spare = [1, 16, 31] if form is CARD else [1 << bit for bit in range(10)] + [1023]
    own = [] if form is CARD else [(56, {"archive kind": kind}) for kind in (5, 6, 7)]
    return [
        (50, {"received": form.length - 1}), (50, {"received": 0}), (50, {"after": b"\x00"}),
        *((51, {"spare": bits}) for bits in spare),
        (52, {"address": 0}), (52, {"address": HIGHEST + 1}), (52, {"address": 2 ** 27 - 1}),
        (53, {"day": 29}), (53, {"year": 100}), (53, {"month": 13}), (53, {"month": 0}), (53, {"day": 0}), (53, {"hour": 24}),
        (53, {"minute": 60}), (53, {"second": 60}),
        (54, {"value bits": 2 ** 32}), (54, {"value bits": 2 ** 63 + 7}),
        *own]


def read(good):
    """A good card, of either form, and changes of it."""
    form = good["form"]
    yield from with_faults(packed, good, faults(form), ORDER)
    yield [], [FIRST[:form.length]], 0
    for address in (1, 2, 12_345_678, HIGHEST - 1, HIGHEST):
        yield *packed({**good, "address": address}), 0
    for channel in range(32):
        yield *packed({**good, "channel less one": channel}), 0
    for date in edge_dates():
        if fits_a_card(date):
            yield *packed(dated(good, date)), None
    for date, is_one in month_ends():
        if fits_a_card(date):
            yield *packed(dated(good, date)), 0 if is_one else 53
    for kind in range(4):
        for bits in (0, 5, 2 ** 32 - 1, 2 ** 32, 2 ** 63, 2 ** 64 - 1, 0x0123456789ABCDEF, 0x7FC00000):
            yield *packed({**good, "kind": kind, "value bits": bits}), 54 if kind in (0, 2) and bits >= 2 ** 32 else 0
    yield *packed(dated(good, (127, 15, 31, 31, 63, 63))), 53
    yield [], [b"\xFF" * form.length], 51
    yield [], [bytes(form.length)], 52
    for bit in range(8 * form.length):
        yield [], [flipped(packed(good)[1][0], bit)], None
    for length in (1, 2, form.length - 2, form.length + 1, 2 * form.length):
        yield [], [pattern(length)], 50


def read_card(rng):
    yield from read(good_card(CARD))


def read_archive(good):
    """Each archive kind beside each end of the value bits and beside each spare bit too; and 01's card, which is of the other form."""
    yield from read(good)
    for kind in range(8):
        due = 56 if kind > 4 else 0
        yield *packed({**good, "archive kind": kind}), due
        for ends in range(8):
            yield *packed({**good, "kind": 3, "value bits": ends << 61 | ends, "archive kind": kind}), due
        for bit in range(10):
            yield *packed({**good, "archive kind": kind, "spare": 1 << bit}), 51
    yield [], [FIRST[:17]], 50


def read_archive_card(rng):
    yield from read_archive(good_card(ARCHIVE_CARD))


def card_number(plan):
    date = date_number(plan[name] for name in reference.DATE)
    numbers = [plan["address"], plan["channel"], date, plan["kind"], plan["value bits"]]
    own = [] if plan["form"] is CARD else [plan["archive kind"]]
    return numbers + own, [b"", pattern(plan["output"], 0x31)]


def good_fields(form):
    return {**GOOD, "form": form, "channel": 17, "output": form.length}


def write(rng, good, own):
    """With faults of the form's own."""
    length = good["form"].length
    yield from with_faults(card_number, good, [
        (52, {"address": 0}), (52, {"address": HIGHEST + 1}), (52, {"address": 2 ** 32 - 1}),
        (53, {"day": 29}), (53, {"year": 100}), (53, {"month": 0}), (53, {"month": 13}), (53, {"day": 0}), (53, {"day": 32}),
        (53, {"hour": 24}), (53, {"minute": 60}), (53, {"second": 60}), (53, {"second": 255}),
        (55, {"channel": 0}), (55, {"channel": 33}), (55, {"channel": 255}),
        *own,
        (16, {"output": length - 1}), (16, {"output": 0})], ORDER)
    for address in (1, 2, HIGHEST - 1, HIGHEST):
        yield *card_number({**good, "address": address}), 0
    for channel in range(1, 33):
        yield *card_number({**good, "channel": channel}), 0
    for date in edge_dates():
        yield *card_number(dated(good, date)), None
    for date, is_one in month_ends():
        yield *card_number(dated(good, date)), 0 if is_one else 53
    for kind in range(4):
        for bits in (0, 5, 0x7FC00000, 2 ** 32 - 1, 2 ** 32, 2 ** 63, 2 ** 64 - 1, 0x0123456789ABCDEF):
            if kind in (1, 3) or bits < 2 ** 32:
                yield *card_number({**good, "kind": kind, "value bits": bits}), 0
    for more in (1, 3, 23):
        yield *card_number({**good, "output": length + more}), 0
    for _ in range(12):
        plan = dated(good, random_date(rng))
        yield *card_number({**plan, "address": rng.randint(1, HIGHEST), "channel": rng.randint(1, 32)}), 0


def write_card(rng):
    yield from write(rng, good_fields(CARD), [])


def write_archive_card(rng):
    good = good_fields(ARCHIVE_CARD)
    yield from write(rng, good, [(56, {"archive kind": kind}) for kind in (5, 6, 7, 8, 127, 128, 132, 255)])
    for kind in range(5):
        for ends in range(8):
            yield *card_number({**good, "kind": 3, "value bits": ends << 61 | ends, "archive kind": kind}), 0
        yield *card_number({**good, "archive kind": kind, "output": 40}), 0
        yield *card_number({**good, "archive kind": kind, "output": 17}), 16
    for _ in range(12):
        plan = {**dated(good, random_date(rng)), "address": rng.randint(1, HIGHEST), "channel": rng.randint(1, 32)}
        yield *card_number({**plan, "kind": rng.choice((1, 3)), "value bits": rng.getrandbits(64), "archive kind": rng.randint(0, 4)}), 0


def moved(plan):
    _, [card] = packed(plan)
    return [], [card, pattern(plan["output"], 0x31)]


def move(good, own, length):
    """Into a form of that length, with faults of the move's own; and into outputs of other lengths."""
    yield from with_faults(moved, {**good, "output": length}, [
        *faults(good["form"]),
        *own,
        (16, {"output": length - 1}), (16, {"output": 0})], ORDER)
    for output in (0, 1, 16, 17, 18, 19, 20, 40):
        yield *moved({**good, "output": output}), 16 if output < length else 0


def to_archive_card(rng):
    """All that is read, moved; what was moved back, moved again; and a card that is of the other form already."""
    yield from move(good_card(CARD), [], 18)
    for _, [card], due in read_card(rng):
        yield [], [card, pattern(18, 0x31)], due
    for _ in range(12):
        _, _, card = reference.to_card(random_card(rng, ARCHIVE_CARD, [0]), bytes(17))
        yield [], [card, pattern(18, 0x31)], 0
    yield [], [FIRST, pattern(18, 0x31)], 50


def to_card(rng):
    """The same the other way; of what is read only a current card goes back, into an output of any length."""
    good = {**good_card(ARCHIVE_CARD), "archive kind": 0}
    yield from move(good, [(57, {"archive kind": kind}) for kind in (1, 2, 3, 4)], 17)
    for _, [card], due in read_archive(good):
        # the three bits of the archive kind
        yield [], [card, pattern(17, 0x31)], 57 if due == 0 and card[16] & 0x1C else due
    for kind in range(1, 8):
        for output in (0, 16, 18, 40):
            yield *moved({**good, "archive kind": kind, "output": output}), 57 if kind <= 4 else 56
    for _ in range(12):
        _, _, card = reference.to_archive_card(random_card(rng, CARD), bytes(18))
        yield [], [card, pattern(17, 0x31)], 0
        yield [], [random_card(rng, ARCHIVE_CARD, range(1, 5)), pattern(17, 0x31)], 57


def put(form, own):
    """Each line with no room, with a byte too few, with room for it exactly, and with more."""
    good = good_card(form)
    plans = [{**good, "channel less one": channel} for channel in (0, 8, 9, 31)]
    plans += [{**good, "address": address} for address in (1, HIGHEST)]
    plans += [{**good, "kind": kind, "value bits": bits} for kind in range(4) for bits in (0, 2 ** 32 - 1)]
    plans += [{**good, "kind": kind, "value bits": 2 ** 64 - 1} for kind in (1, 3)]
    plans += [dated(good, (0, 1, 1, 0, 0, 0)), dated(good, (99, 12, 31, 23, 59, 59))]
    plans += [{**good, **fault} for fault in ({"received": form.length - 1}, {"received": 0}, {"spare": 1}, {"address": 0}, {"day": 29}, {"month": 13},
                                              {"value bits": 2 ** 32})]
    plans += [{**good, **change} for change in own]
    lines = [(0, packed(plan)[1][0]) for plan in plans]
    lines += [(refusal, FIRST[:form.length]) for refusal in (1, 9, 10, 50, 55, 99, 100, 255)]
    for refusal, card in lines:
        length = len(reference.refused_line(refusal) if refusal else reference.line(card, form)) + 1
        for room in (0, length - 1, length, length + 1, length + 20):
            yield [refusal], [card, pattern(room, 0x31)], 16 if room < length else 0


def put_line(rng):
    yield from put(CARD, [])


def put_archive_line(rng):
    yield from put(ARCHIVE_CARD, [{"archive kind": kind, "channel less one": channel} for kind in range(8) for channel in (0, 31)])


def rows_of_cards(rng, form):
    """No card; one; several with short lines, with long ones and with both; refused ones, by each number, alone and among them; a short last one; and
    two of the other form."""
    good = good_card(form)
    short, long = (packed({**good, "channel less one": channel})[1][0] for channel in (0, 31))
    refused = list({number: packed({**good, **change})[1][0] for number, change in faults(form) if number != 50}.values())
    yield from ([], [short], [long], [short] * 3, [long] * 3, [short, long, short, long], refused[:1], refused, [short, *refused, long])
    yield [random_card(rng, form) for _ in range(6)]
    for left in (1, form.length - 1):
        yield [long[:left]]
        yield [short, refused[-1], long, long[:left]]
    yield [random_card(rng, FORMS[1 - FORMS.index(form)]) for _ in range(2)]


def put_lines(rng):
    """Each row with room that ends beside each of its lines, and with 51 to 54 bytes a card and a byte less."""
    for number, form in enumerate(FORMS):
        for row in rows_of_cards(rng, form):
            cards = b"".join(row)
            text = reference.lines(cards, form)
            ends = [0] + [at + 1 for at, character in enumerate(text) if character == "\n"]
            rooms = {end + more for end in ends for more in (-1, 0, 1)} | {len(text) + 20}
            rooms |= {(len(ends) - 1) * each - less for each in (51, 52, 53, 54) for less in (0, 1)}
            for room in sorted(room for room in rooms if room >= 0):
                yield [number], [cards, pattern(room, 0x31)], 16 if room < len(text) else 0


def archive_numbers(rng):
    """Each byte as both numbers; and numbers of an archive kind that are no byte."""
    for number in range(256):
        yield [number, number], [], 0
    for number in (256, 257, 258, 259, 260, 0x0301, 0x7FFF, 0x8000, 0x8001, 0xFF01, 0xFFFF):
        yield [number % 256, number], [], 0


CASES = {50: read_card, 51: write_card, 52: put_line, 53: read_archive_card, 54: write_archive_card, 55: to_archive_card, 56: to_card,
         57: put_archive_line, 58: put_lines, 59: archive_numbers}


def lister_input(rng, form):
    """1,300 cards: the cases of act 50 or 53, among them cards refused by each number, then good ones; and a short last one."""
    read_cases = read_card if form is CARD else read_archive_card
    cards = [card for _, [card], _ in read_cases(rng) if len(card) == form.length]
    while len(cards) < 1300:
        cards.append(random_card(rng, form))
    return b"".join(cards) + FIRST[:form.length - 1]


def sample_input():
    """A few cards for a first try of the lister: three good ones, one of them absent; and one of 31 February, refused."""
    plans = [
        {**GOOD, "address": 1, "channel less one": 0, "kind": 2, "value bits": 5, **dict(zip(reference.DATE, (0, 1, 1, 0, 0, 0)))},
        {**GOOD, "channel less one": 31, "kind": 0, "value bits": 0x42F6E979},
        {**GOOD, "address": HIGHEST, "kind": 3, "value bits": 2 ** 64 - 1, **dict(zip(reference.DATE, (99, 12, 31, 23, 59, 59)))},
        {**GOOD, "day": 31},
    ]
    return b"".join(reference.pack(plan) for plan in plans)


def archive_sample_input():
    """The same of the other form: 01's card moved; an hourly, a daily, a monthly and a half-hourly one, which is absent; and one of archive kind 5, refused."""
    cards = [
        (12_345_678, 17, 23, 2, 28, 12, 0, 0, 0, 0x42F6E979, 1),
        (12_345_678, 17, 23, 2, 28, 0, 0, 0, 1, 0x40934A456D5CFAAD, 2),
        (12_345_678, 17, 23, 2, 1, 0, 0, 0, 3, 1_234_567, 3),
        (HIGHEST, 32, 99, 12, 31, 23, 30, 0, 2, 2 ** 32 - 1, 4),
        (12_345_678, 17, 23, 2, 28, 12, 0, 0, 0, 0x42F6E979, 5),
    ]
    return FIRST + b"".join(reference.card_bytes(values, ARCHIVE_CARD) for values in cards)
