"""Day numbers and moments."""

import datetime
from collections import namedtuple
from fractions import Fraction

from .fixed import round_away

Moment = namedtuple('Moment', 'day second')  # day None or 1..73050; second 0..86399

LAST_DAY = 73050
MONTHS = (b'Jan', b'Feb', b'Mar', b'Apr', b'May', b'Jun', b'Jul', b'Aug', b'Sep', b'Oct', b'Nov', b'Dec')
_BASE = datetime.date(1900, 1, 1).toordinal()


def day_of(year, month, day):
    """Day 1 is 1 January 1900, day 60 is 29 February 1900, day 73050 is 31 December 2099."""
    if not 1900 <= year <= 2099:
        return None
    if (year, month, day) == (1900, 2, 29):
        return 60
    try:
        ordinal = datetime.date(year, month, day).toordinal()
    except (ValueError, OverflowError):
        return None
    days = ordinal - _BASE + 1
    return days if days < 60 else days + 1


def civil_of(day):
    """Year, month and day of a day number, or None."""
    if not 1 <= day <= LAST_DAY:
        return None
    if day == 60:
        return (1900, 2, 29)
    plain = datetime.date.fromordinal(_BASE + day - 1 - (1 if day > 60 else 0))
    return (plain.year, plain.month, plain.day)


def seconds_of(millionths):
    """The nearest second of a fraction of a day, halves up, modulo 86400."""
    return round_away(Fraction(millionths * 86400, 1_000_000)) % 86400


def fraction_of(second):
    """The nearest millionth of a day (halves, as at second 27, away from zero: this project's choice)."""
    return round_away(Fraction(second * 1_000_000, 86400))


def date1(day):
    """01-Jun-87.  From 2000 on the last two digits of the year."""
    year, month, d = civil_of(day)
    return b'%02d-%s-%02d' % (d, MONTHS[month - 1], year % 100)


def date2(day):
    """A day as 01-Jun."""
    _, month, d = civil_of(day)
    return b'%02d-%s' % (d, MONTHS[month - 1])


def date3(day):
    """A day as Jun-87."""
    year, month, _ = civil_of(day)
    return b'%s-%02d' % (MONTHS[month - 1], year % 100)
