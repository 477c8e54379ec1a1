"""Cases for the clock difference (act 60)."""
from cases.ground import GOOD_DATE, edge_dates, month_ends, random_date
from cases.making import date_number
from dates import NO_DATE, days, is_date

FIRST = bytes([0, 1, 1, 0, 0, 0])
LAST = bytes([99, 12, 31, 23, 59, 59])


def seams():
    """(a last second, the next one): of every month in a leap year and in the years beside it, of every February 28 and 29, of every year."""
    for year in (23, 24, 25):
        for month in range(1, 12):
            yield bytes([year, month, days(year, month), 23, 59, 59]), bytes([year, month + 1, 1, 0, 0, 0])
    for year in range(100):
        next_day = (2, 29) if days(year, 2) == 29 else (3, 1)
        yield bytes([year, 2, 28, 23, 59, 59]), bytes([year, *next_day, 0, 0, 0])
    for year in range(0, 100, 4):
        yield bytes([year, 2, 29, 23, 59, 59]), bytes([year, 3, 1, 0, 0, 0])
    for year in range(99):
        yield bytes([year, 12, 31, 23, 59, 59]), bytes([year + 1, 1, 1, 0, 0, 0])
    for time, later in (((0, 0, 0), (0, 0, 1)), ((0, 0, 59), (0, 1, 0)), ((0, 59, 59), (1, 0, 0)), ((22, 59, 59), (23, 0, 0))):
        yield GOOD_DATE[:3] + bytes(time), GOOD_DATE[:3] + bytes(later)


def pairs(rng):
    """Both ways round, and each beside itself and both ends of the century."""
    for one, other in seams():
        yield one, other
        yield other, one
    for date in (FIRST, LAST, GOOD_DATE, bytes([0, 2, 29, 12, 0, 0]), bytes([24, 2, 29, 0, 0, 0]), bytes([96, 2, 29, 23, 59, 59])):
        for other in (date, FIRST, LAST):
            yield date, other
            yield other, date
    for _ in range(300):
        yield random_date(rng), random_date(rng)
    # the same up to one number, as clocks that are a little off are
    for _ in range(120):
        one, other, at = random_date(rng), random_date(rng), rng.randrange(6)
        near = one[:at] + other[at:at + 1] + one[at + 1:]
        yield near if is_date(near) else other, one


def clock_difference(rng):
    for meter, cabinet in pairs(rng):
        yield [date_number(meter), date_number(cabinet)], [], 0
    # each side of every range and month end, at the meter and at the cabinet
    judged = [(date, is_date(date)) for date in edge_dates()] + list(month_ends())
    for date, good in judged:
        for other in (GOOD_DATE, random_date(rng)):
            yield [date_number(date), date_number(other)], [], 0 if good else 13
            yield [date_number(other), date_number(date)], [], 0 if good else 53
        # no date and 31 April at the other
        for bad in (NO_DATE, bytes([24, 4, 31, 0, 0, 0])):
            yield [date_number(bad), date_number(date)], [], 13
            yield [date_number(date), date_number(bad)], [], 53 if good else 13


CASES = {60: clock_difference}
