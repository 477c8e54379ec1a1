"""01, Bodies, DATETIME, as W-202 of 02 has it: each field by its own range, and a day that its month has."""

RANGES = [
    ("year", 0, 99),
    ("month", 1, 12),
    ("day", 1, 31),
    ("hour", 0, 23),
    ("minute", 0, 59),
    ("second", 0, 59),
]

NO_DATE = b"\xFF" * 6


def days(year, month):
    """The days of a month; the year is from 2000."""
    if month in (4, 6, 9, 11):
        return 30
    if month == 2:
        return 29 if year % 4 == 0 else 28
    return 31


def is_date(six):
    in_range = all(lowest <= field <= highest for field, (_, lowest, highest) in zip(six, RANGES))
    year, month, day = six[:3]
    return in_range and day <= days(year, month)
