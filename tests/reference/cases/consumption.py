"""Cases for the summary of an archive reply (act 24). Most hold the reference, as they are made, to the place of a 72 or 73 or to all that a summary tells."""
import struct
from fractions import Fraction
from itertools import combinations, product

from cases.bodies import BAD_DATE, NOT_ONE_BIT, ONE_BIT
from cases.ground import GOOD_DATE, edge_dates, month_ends
from consumption import read_summary
from dates import NO_DATE, is_date
from pulsar_body import le, number
from readings import WIDTH_OF_KIND

KINDS = F32, F64, U32, U64 = range(4)
FLOATS = F32, F64
FORMS = {F32: "<f", F64: "<d", U32: "<I", U64: "<Q"}
# What is taken is so many units, from 0 on and below this: of 1/1024 in the floats, of 1 in the whole numbers, whose last is absent.
UNITS = {F32: 2 ** 24, F64: 2 ** 50, U32: 2 ** 32 - 1, U64: 2 ** 64 - 1}
# as many values as 245 bytes hold
MOST = {F32: 58, F64: 29, U32: 58, U64: 29}
# the bits of a float below its exponent, and those of the exponent
FORMATS = {F32: (23, 8), F64: (52, 11)}
ABSENT = None


def of_bits(kind, bits):
    return le(bits, WIDTH_OF_KIND[kind])


def value(kind, units):
    """The bytes of so many units; or ABSENT."""
    if units is ABSENT:
        return b"\xFF" * WIDTH_OF_KIND[kind]
    return struct.pack(FORMS[kind], units / 1024 if kind in FLOATS else units)


def values(kind, *units):
    return [value(kind, each) for each in units]


def asked(kind, some, mask=4, date=GOOD_DATE):
    """Of some values, as bytes."""
    return [kind], [le(mask, 4) + date + b"".join(some)]


def rationals(kind, some):
    return [Fraction(each) for each, in struct.iter_unpack(FORMS[kind], some)]


def taken(kind, units):
    """An archive that is accepted. Its steps are made in units, and add up as rationals."""
    case = asked(kind, values(kind, *units))
    places = [place for place, each in enumerate(units, 1) if each is not ABSENT]
    there = [units[place - 1] for place in places]
    first, last = values(kind, there[0], there[-1])
    steps = b"".join(values(kind, *(after - before for before, after in zip(there, there[1:])), *[0] * (MOST[kind] - len(there))))
    assert read_summary(kind, *case[1]) == (0, (number(first), places[0], number(last), places[-1], len(there), steps))
    assert sum(rationals(kind, first + steps)) == rationals(kind, last)[0]
    return *case, 0


def refused(due, place, kind, some):
    """72 or 73, at that place."""
    case = asked(kind, some)
    assert read_summary(kind, *case[1]) == (due, (place,))
    return *case, due


def squares(count):
    """Units, each step of which is another."""
    return [place * place for place in range(1, count + 1)]


def kept(units, places):
    """The others are absent."""
    return [each if place in places else ABSENT for place, each in enumerate(units, 1)]


# The body's own refusals

def lengths(kind):
    """Up to two values and some bytes more; beside 245; those that would be good in 8 bits."""
    width, [whole] = WIDTH_OF_KIND[kind], asked(kind, [bytes(600)])[1]
    for length in [*range(12 + 2 * width), *range(240, 252), 255, 256, 257, 266, 270, 274, 282, 522, 530]:
        wrong = not 10 <= length <= 245 or (length - 10) % width != 0
        yield [kind], [whole[:length]], 11 if wrong else 71 if length == 10 else 0
        if length < 10:
            yield [kind], [bytes(length)], 11
    for count in [*range(1, 11), MOST[kind] - 1, MOST[kind]]:
        yield taken(kind, squares(count))
    yield *asked(kind, values(kind, *squares(MOST[kind] + 1))), 11


def contents(kind):
    """(number, values): what the values give by themselves. The last is -0.0 as a float."""
    yield 0, values(kind, 5, 9)
    yield 72, values(kind, 9, 5)
    yield 71, values(kind, ABSENT, ABSENT)
    yield 71, []
    yield 73 if kind in FLOATS else 0, [bytes(WIDTH_OF_KIND[kind] - 1) + b"\x80"]


def own(kind):
    """11, 12 and 13 beside each other and beside what the values give."""
    for (due, some), more, mask, date in product(contents(kind), (b"", b"\x00"), (4, 5), (GOOD_DATE, BAD_DATE, NO_DATE)):
        yield *asked(kind, [*some, more], mask, date), 11 if more else 12 if mask != 4 else 13 if date != GOOD_DATE else due
    # a value too many
    for (_, some), mask, date in product(contents(kind), (4, 0), (GOOD_DATE, BAD_DATE)):
        if some:
            yield *asked(kind, (some * 60)[:MOST[kind] + 1], mask, date), 11
    for mask in ONE_BIT + NOT_ONE_BIT:
        yield *asked(kind, values(kind, 5, 9), mask), 0 if mask in ONE_BIT else 12


def dates():
    """Of each kind in turn."""
    judged = [(date, is_date(date)) for date in edge_dates()] + list(month_ends())
    for at, (date, good) in enumerate(judged):
        kind = KINDS[at // 2 % 4]
        yield *asked(kind, values(kind, 5, ABSENT), date=date), 0 if good else 13


# What is absent

def absent(kind):
    """Each choice of places among up to four; some among as many as a body holds."""
    for count in range(1, 5):
        for size in range(1, count + 1):
            for places in combinations(range(1, count + 1), size):
                yield taken(kind, kept(squares(count), places))
    most = MOST[kind]
    places = range(1, most + 1)
    for some in ([1], [2], [8], [9], [most - 1], [most], [1, most], [1, 2], [most - 1, most], places[1:], places[:-1], places[1:-1], places[::2], places[1::2],
                 places[:most // 2], places[most // 2:], [*places[:16], *places[17:]]):
        yield taken(kind, kept(squares(most), some))
    for count in (1, 2, 3, 4, 9, most - 1, most):
        yield *asked(kind, values(kind, *[ABSENT] * count)), 71


def near_absent(kind):
    """All bits set but one; a value's length of FF that begins within one value and ends within the next."""
    width = WIDTH_OF_KIND[kind]
    less_one = [2 ** (8 * width) - 1 - 2 ** bit for bit in reversed(range(8 * width))]
    if kind in FLOATS:
        for bits in less_one:
            yield refused(73, 1, kind, [of_bits(kind, bits)])
    else:
        for at in range(0, len(less_one), MOST[kind]):
            yield taken(kind, less_one[at:at + MOST[kind]])
    due, place = (73, 1) if kind in FLOATS else (72, 2)
    for cut in range(1, width):
        yield refused(due, place, kind, [bytes(cut), value(kind, ABSENT), bytes(width - cut)])


# 16 bytes of values, and what each kind gives for them
ANY_KIND = [
    ("FFFFFFFF FFFFFFFF FFFFFFFF FFFFFFFF", (71, 71, 71, 71)),
    ("00000000 00000000 00000000 00000000", (0, 0, 0, 0)),
    ("FFFFFFFF FFFFFFFF 00000000 00000000", (0, 0, 0, 0)),
    ("FFFFFFFF 00000000 00000000 00000000", (0, 73, 0, 72)),
    ("00000000 FFFFFFFF 00000000 00000000", (0, 73, 0, 72)),
    ("00000000 00000000 FFFFFFFF 00000000", (0, 73, 0, 0)),
    ("00000000 00000000 00000000 FFFFFFFF", (0, 73, 0, 0)),
    ("00000000 FFFFFFFF FFFFFFFF 00000000", (0, 73, 0, 72)),
    ("FFFFFFFF 05000042 FFFFFFFF 06000042", (73, 73, 0, 0)),
    ("F8FFFFFF 04006042 F8FFFFFF 05006042", (73, 0, 72, 0)),
    # 5 and 9 as floats of 64 bits; 5, 9, 9 and 12 as floats of 32; 1 to 4 as whole numbers, there and back
    ("00000000 00001440 00000000 00002240", (72, 0, 72, 0)),
    ("0000A040 00001041 00001041 00004041", (0, 73, 0, 0)),
    ("01000000 02000000 03000000 04000000", (73, 73, 0, 0)),
    ("04000000 03000000 02000000 01000000", (73, 73, 72, 72)),
]


def any_kind():
    for some, dues in ANY_KIND:
        for kind, due in zip(KINDS, dues):
            yield *asked(kind, [bytes.fromhex(some)]), due


# Neighbours

def rising(last):
    """Units, the last that are taken among them."""
    return [[0], [1], [last], [0, 0], [0, 1], [1, 1], [5, 5, 5], [0, last], [last, last], [last - 1, last], [0, last - 1, last], [5, ABSENT, 9], [5, ABSENT, 5],
            [ABSENT, 0, ABSENT, last, ABSENT], [last, ABSENT, last], [5, 9, 9, 12], [5, 9, ABSENT, 9, 700], [0, 0, 0, last]]


def falling(last):
    """(Place, units): below the one before, over absent ones too, and above, as or below the first; then as before, higher, or lower still."""
    return [(2, [1, 0]), (2, [5, 4]), (2, [last, 0]), (2, [last, last - 1]), (2, [9, 5, 9]), (2, [9, 5, 4]), (2, [9, 5, 6]), (2, [9, 5, ABSENT, 9]),
            (3, [5, 9, 7]), (3, [5, 9, 8]), (3, [5, 9, 5]), (3, [5, 9, 4]), (3, [5, 9, 0]), (3, [0, last, last - 1]), (3, [5, 9, 7, 8]), (3, [5, 9, 7, 9, 12]),
            (3, [5, ABSENT, 4]), (3, [9, ABSENT, 0]), (4, [5, 9, ABSENT, 7]), (4, [5, ABSENT, 9, 7]), (4, [5, ABSENT, ABSENT, 4]), (4, [5, 5, 5, 4]),
            (5, [ABSENT, 5, ABSENT, ABSENT, 4]), (5, [5, ABSENT, 9, ABSENT, 7]), (5, [ABSENT, 5, ABSENT, 9, 7, ABSENT])]


def neighbours(kind):
    last, most = UNITS[kind] - 1, MOST[kind]
    for units in rising(last):
        yield taken(kind, units)
    for place, units in falling(last):
        yield refused(72, place, kind, values(kind, *units))
    for units in (0, 5, last):
        yield taken(kind, [units] * most)
    # far on
    for place in (8, 9, 17, most - 1, most):
        lower, over = squares(most), squares(most)
        lower[place - 1] = lower[place - 2] - 1
        over[place - 2:place] = ABSENT, over[place - 3] - 1
        for units in (lower, over, kept(lower, (place - 1, place))):
            yield refused(72, place, kind, values(kind, *units))


def powers_of_two(kind):
    """Those that are taken, in units."""
    return [2 ** power for power in range((UNITS[kind] - 1).bit_length())]


def powers(kind):
    """Each power and the unit before it: in rising order, as many as a body holds; and each two the other way round."""
    pairs, half = [(power - 1, power) for power in powers_of_two(kind)], MOST[kind] // 2
    for at in range(0, len(pairs), half):
        yield taken(kind, [units for pair in pairs[at:at + half] for units in pair])
    for before, power in pairs:
        yield refused(72, 2, kind, values(kind, power, before))


# Units from which on both halves of a value have digits, and how many bits of them are in the lower one.
HALVES = {F32: (2 ** 23, 16), F64: (2 ** 49, 29), U32: (0, 16), U64: (0, 32)}


def halves(kind):
    """The upper half decides, and the lower one where the upper ones are the same."""
    base, bits = HALVES[kind]
    some = [base + (upper << bits) + lower for upper in (1, 2) for lower in (1, 2 ** (bits - 1), 2 ** bits - 1)]
    for lower, higher in combinations(some, 2):
        yield taken(kind, [lower, higher])
        yield refused(72, 2, kind, values(kind, higher, lower))


# Floats that are not taken

def not_taken(kind):
    """Their bits."""
    digits, exponent = FORMATS[kind]
    sign, infinity, normal, quiet = 1 << digits + exponent, 2 ** exponent - 1 << digits, 1 << digits, 1 << digits - 1
    least, five, last, limit = map(number, values(kind, 1, 5 * 1024, UNITS[kind] - 1, UNITS[kind]))
    return [
        # negative: zero, the least float, 1/1024, 5, the limit
        sign, sign | 1, sign | least, sign | five, sign | limit,
        # infinities; NaN: signalling, quiet, with all bits but the sign, with all but the lowest
        infinity, sign | infinity, infinity | 1, infinity | quiet, sign | infinity | 1, sign | infinity | quiet, sign - 1, 2 * sign - 2,
        # denormals: the least, the largest, one between; the least normal ones
        1, normal - 1, quiet, normal, normal | 1,
        # 1/2048; beside 1/1024; 3/2048; beside 5
        least - normal, least - 1, least + 1, least + quiet, five - 1, five + 1,
        # between the last that is taken and the limit; the limit, the next one, twice the limit, the largest float
        *range(last + 1, limit), limit, limit + 1, limit + normal, infinity - 1,
    ]


def outside(kind):
    last, most = UNITS[kind] - 1, MOST[kind]
    zero, five, nine, highest, none = values(kind, 0, 5, 9, last, ABSENT)
    bad = [of_bits(kind, bits) for bits in not_taken(kind)]
    for each in bad:
        # first; after absent ones; above the one before, but for the negative ones; below it, but for the high ones; after a fall
        yield refused(73, 1, kind, [each])
        yield refused(73, 3, kind, [none, none, each, five])
        yield refused(73, 2, kind, [zero, each])
        yield refused(73, 2, kind, [highest, each])
        yield refused(72, 2, kind, [nine, five, each])
    for each, other in zip(bad[::6], bad[1::6]):
        yield refused(73, 1, kind, [each, other])
        yield refused(73, 2, kind, [nine, each, five])
        yield refused(73, 2, kind, [five, each, other, none])
        yield refused(73, 3, kind, [nine, none, each, five])
        yield refused(73, 3, kind, [five, nine, each])
        yield refused(72, 3, kind, [nine, none, five, each])
        yield refused(72, 3, kind, [*values(kind, 5, 9, 7, ABSENT), other])
        yield refused(73, most, kind, [*values(kind, *squares(most - 1)), each])
        yield refused(73, most, kind, [*[none] * (most - 1), each])


def fractions(kind):
    """Of each exponent that is taken: the power of two, the next units and the last ones; and half a unit after the power, after the next unit and after the last,
    and the lowest bit after the power."""
    digits, _ = FORMATS[kind]
    for at, power in enumerate(powers_of_two(kind)):
        yield taken(kind, sorted({units for units in (power, power + 1, power + 2, 2 * power - 2, 2 * power - 1) if power <= units < 2 * power}))
        unit, [alone] = 2 ** (digits - at), values(kind, power)
        for bits in sorted({unit // 2, 3 * unit // 2, 2 ** digits - unit // 2, 1}):
            if bits % unit and bits < 2 ** digits:
                yield refused(73, 2, kind, [alone, of_bits(kind, number(alone) + bits)])


# Exponents below that of 1/1024, those among them where 32, 64 or 128 bits would be below a unit, and those beside them; and from that of the limit on.
EXPONENTS = {
    F32: [1, 2, 75, 76, 77, *range(105, 117), *range(141, 150), 167, 254],
    F64: [1, 2, 936, 937, 938, *range(999, 1013), *range(1063, 1075), 1087, 2046],
}


def far(kind):
    """Powers of two that are not taken, and those that would be but for their sign."""
    digits, exponent = FORMATS[kind]
    for each in EXPONENTS[kind]:
        yield refused(73, 1, kind, [of_bits(kind, each << digits)])
    for power in powers_of_two(kind)[::3]:
        yield refused(73, 2, kind, [value(kind, 0), of_bits(kind, 1 << digits + exponent | number(value(kind, power)))])


def whole(kind):
    """What is not taken as a float, in rising order, and each two the other way round."""
    some = sorted(not_taken(kind % 2))
    for at in range(0, len(some), MOST[kind]):
        yield taken(kind, some[at:at + MOST[kind]])
    for lower, higher in zip(some, some[1:]):
        yield refused(72, 2, kind, values(kind, higher, lower))


# Random archives

def archive(rng, kind, count):
    """Units that rise, of some size; some are absent, but not all."""
    top = min(UNITS[kind], 2 ** rng.randint(4, UNITS[kind].bit_length()))
    share, here = rng.choice((0, 0, 0.2, 0.7)), rng.randint(1, count)
    return [units if place == here or rng.random() >= share else ABSENT
            for place, units in enumerate(sorted(rng.randrange(1, top) for _ in range(count)), 1)]


def archives(rng, kind):
    """Good ones; and good ones up to a fault, after which comes anything."""
    most = MOST[kind]
    for _ in range(100):
        yield taken(kind, archive(rng, kind, rng.choice((rng.randint(2, 10), rng.randint(2, most), most))))
    bad = [of_bits(kind, bits) for bits in not_taken(kind % 2)]
    for at in range(30):
        units = archive(rng, kind, rng.randint(1, most - 1))
        last = [each for each in units if each is not ABSENT][-1]
        due, fault = (73, rng.choice(bad)) if kind in FLOATS and at % 2 else (72, value(kind, rng.randrange(last)))
        after = rng.choices([*values(kind, ABSENT, 0, UNITS[kind] - 1), *bad], k=rng.randint(0, most - 1 - len(units)))
        yield refused(due, len(units) + 1, kind, [*values(kind, *units), fault, *after])


def summaries(rng):
    yield from dates()
    yield from any_kind()
    for kind in KINDS:
        for cases in (lengths, own, absent, near_absent, neighbours, powers, halves, *((outside, fractions, far) if kind in FLOATS else (whole,))):
            yield from cases(kind)
        yield from archives(rng, kind)


CASES = {24: summaries}
