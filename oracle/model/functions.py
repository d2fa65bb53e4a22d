"""Functions of single values.  Arguments are millionths or bytes; None is ERR."""

from fractions import Fraction

from . import dates, fixed, text
from .fixed import ONE, cut


def whole(v):
    """Whole arguments are cut toward zero."""
    return cut(v)


def date(y, m, d):
    """@DATE: years from 1900 to 2099."""
    year = whole(y)
    if not 0 <= year <= 199:
        return None
    day = dates.day_of(1900 + year, whole(m), whole(d))
    return None if day is None else day * ONE


def time(h, m, s):
    """@TIME."""
    h, m, s = whole(h), whole(m), whole(s)
    if not (0 <= h <= 23 and 0 <= m <= 59 and 0 <= s <= 59):
        return None
    return dates.fraction_of(h * 3600 + m * 60 + s)


def _civil(n):
    """Year, month and day of a number, or None."""
    return dates.civil_of(whole(n))


def day(n):
    """@DAY."""
    c = _civil(n)
    return None if c is None else c[2] * ONE


def month(n):
    """@MONTH."""
    c = _civil(n)
    return None if c is None else c[1] * ONE


def year(n):
    """@YEAR: 0 is 1900."""
    c = _civil(n)
    return None if c is None else (c[0] - 1900) * ONE


def _seconds(n):
    """Of the fraction; ERR below 0."""
    if n < 0:
        return None
    return dates.seconds_of(n % ONE)


def hour(n):
    """@HOUR."""
    s = _seconds(n)
    return None if s is None else s // 3600 * ONE


def minute(n):
    """@MINUTE."""
    s = _seconds(n)
    return None if s is None else s // 60 % 60 * ONE


def second(n):
    """@SECOND."""
    s = _seconds(n)
    return None if s is None else s % 60 * ONE


def value(t):
    """t, trimmed, as a decimal; the empty text is 0."""
    trimmed = text.trim(t)
    if trimmed == b'':
        return 0
    v = fixed.read_decimal(trimmed)
    return v if isinstance(v, int) else None


def _digits(data, least, most):
    """A number of least to most digits, or None."""
    if least <= len(data) <= most and all(48 <= b <= 57 for b in data):
        return int(data)
    return None


MONTH_NUMBERS = {text.fold(name): i + 1 for i, name in enumerate(dates.MONTHS)}


def datevalue(t):
    """`D-MMM-YY` or `M/D/YY`; each number has one or two digits."""
    parts = t.split(b'-')
    if len(parts) == 3:
        d, m, y = _digits(parts[0], 1, 2), MONTH_NUMBERS.get(text.fold(parts[1])), _digits(parts[2], 1, 2)
    else:
        parts = t.split(b'/')
        if len(parts) != 3:
            return None
        m, d, y = _digits(parts[0], 1, 2), _digits(parts[1], 1, 2), _digits(parts[2], 1, 2)
    if d is None or m is None or y is None:
        return None
    n = dates.day_of(1900 + y, m, d)
    return None if n is None else n * ONE


def timevalue(t):
    """`H:MM` or `H:MM:SS`, hours to 23; H one or two digits, MM and SS two."""
    parts = t.split(b':')
    if len(parts) not in (2, 3):
        return None
    h = _digits(parts[0], 1, 2)
    rest = [_digits(p, 2, 2) for p in parts[1:]]
    if h is None or None in rest or h > 23 or max(rest) > 59:
        return None
    return dates.fraction_of(h * 3600 + rest[0] * 60 + (rest[1] if len(rest) == 2 else 0))


def string(x, n):
    """@STRING: a number with 0 to 15 decimals."""
    places = whole(n)
    if not 0 <= places <= 15:
        return None
    return fixed.write_decimal(x, places)


def mid(t, s, n):
    """@MID: n bytes from a place on."""
    s, n = whole(s), whole(n)
    if s < 0 or n < 0:
        return None
    return t[s:s + n]


def left(t, n):
    """@LEFT."""
    n = whole(n)
    return None if n < 0 else t[:n]


def right(t, n):
    """@RIGHT."""
    n = whole(n)
    if n < 0:
        return None
    return t[max(0, len(t) - n):]


def replace(t, s, n, new):
    """@REPLACE: n bytes from a place on by others."""
    s, n = whole(s), whole(n)
    if s < 0 or n < 0:
        return None
    out = t[:s] + new + t[s + n:]
    return out if len(out) <= text.MAX else None


def repeat(t, n):
    """@REPEAT."""
    n = whole(n)
    if n < 0 or len(t) * n > text.MAX:
        return None
    return t * min(n, text.MAX)


def char_of(n):
    """@CHAR: codes 32 to 255."""
    n = whole(n)
    return bytes([n]) if 32 <= n <= 255 else None


def code(t):
    """@CODE of the first byte."""
    return t[0] * ONE if t else None


def find_in(w, t, s):
    """The first place at or after s; a negative s is before every place (the row gives ERR only
    where there is no place: this project's choice)."""
    at = text.find(t, w, max(0, whole(s)))
    return None if at is None else at * ONE


def average(total, count):
    """A sum by its count, rounded."""
    return fixed.round_away(Fraction(total, count))
