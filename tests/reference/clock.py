"""02, W-214: how far off the meter's clock is. The year of a date is from 2000."""
from functools import lru_cache

from dates import days, is_date
from refusals import read

DAY = 24 * 60 * 60


@lru_cache(maxsize=None)
def days_before_month(year, month):
    """From 1 January 2000 on, counted month by month."""
    years = sum(days(earlier, each) for earlier in range(year) for each in range(1, 13))
    return years + sum(days(year, each) for each in range(1, month))


def seconds_since_2000(six):
    year, month, day, hour, minute, second = six
    return (days_before_month(year, month) + day - 1) * DAY + hour * 3600 + minute * 60 + second


def clock_difference(meter, cabinet):
    """(number, seconds): the meter's date less the cabinet's. No date is not a date."""
    rules = [
        (13, lambda: not is_date(meter)),
        (53, lambda: not is_date(cabinet)),
    ]
    return read(rules, lambda: seconds_since_2000(meter) - seconds_since_2000(cabinet))
