"""Numbers in whole millionths, which is this project's choice, and the doubles of worksheet files.  A number is an int
of millionths."""

from fractions import Fraction

ONE = 1_000_000
LIMIT = 999_999_999_999_999  # the greatest size of a number: this project's choice


def round_away(q):
    """The nearest whole number of a fraction, halves away from zero."""
    q = Fraction(q)
    size = abs(q)
    whole = (2 * size.numerator + size.denominator) // (2 * size.denominator)
    return -whole if q < 0 else whole


def sized(v):
    """None past the size."""
    return v if -LIMIT <= v <= LIMIT else None


def neg(a):
    """The number with the other sign."""
    return -a


def cut(a):
    """The whole part of a number as a plain int, cut toward zero."""
    return a // ONE if a >= 0 else -((-a) // ONE)


def int_(a):
    """`Fixed::int`: cut toward zero, in millionths."""
    return cut(a) * ONE


def add(a, b):
    """The sum, or None past the size."""
    return sized(a + b)


def sub(a, b):
    """The difference, or None past the size."""
    return sized(a - b)


def mul(a, b):
    """The rounded product, or None past the size."""
    return sized(round_away(Fraction(a * b, ONE)))


def div(a, b):
    """The rounded quotient, or None past the size or for a zero divisor."""
    if b == 0:
        return None
    return sized(round_away(Fraction(a * ONE, b)))


def modulo(a, b):
    """`modulo` has the sign of the first number; None for a zero divisor."""
    if b == 0:
        return None
    rest = abs(a) % abs(b)
    return -rest if a < 0 else rest


def pow_(a, e):
    """The list of rounded products from the left; exponent whole and at most 1000 in size."""
    if e % ONE != 0 or abs(e) > 1000 * ONE:
        return None
    n = abs(e) // ONE
    result = ONE  # exponent 0 gives 1
    for _ in range(n):
        result = mul(result, a)
        if result is None:
            return None
    if e < 0:
        return div(ONE, result)  # 1 divided by the positive power
    return result


def round_(a, places):
    """`round` to `places` decimals (a plain int); None outside -15..15."""
    if not -15 <= places <= 15:
        return None
    unit = Fraction(ONE) / (Fraction(10) ** places)  # in millionths
    if unit < 1:
        return a
    return sized(int(round_away(Fraction(a) / unit) * unit))


NOT_NUMBER = 'NotNumber'
TOO_LARGE = 'TooLarge'


def read_decimal(data):
    """The number that bytes spell.  An int, or NOT_NUMBER, or TOO_LARGE."""
    rest = bytes(data)
    sign = 1
    if rest[:1] in (b'+', b'-'):
        if rest[:1] == b'-':
            sign = -1
        rest = rest[1:]
    whole, point, part = rest.partition(b'.')
    if not whole + part or not all(48 <= b <= 57 for b in whole + part):
        return NOT_NUMBER
    exact = Fraction(int(whole + part), 10 ** len(part))
    v = round_away(exact * ONE)
    if v >= 1_000_000_000 * ONE:  # a rounded size of 1,000,000,000 or more is too large
        return TOO_LARGE
    return sign * v


def decimal_digits(size, places):
    """The digits of a size that isn't negative (a Fraction or int in millionths) with `places`
    decimals, halves away from zero; bytes with a point where places > 0."""
    scaled = round_away(Fraction(size) / ONE * 10 ** places)
    text = str(scaled).rjust(places + 1, '0')
    if places == 0:
        return text.encode()
    return (text[:-places] + '.' + text[-places:]).encode()


def write_decimal(v, places):
    """So many decimals; no sign where all digits are zero."""
    digits = decimal_digits(abs(v), places)
    if v < 0 and any(b in b'123456789' for b in digits):
        return b'-' + digits
    return digits


def needed_places(v):
    """The decimals that a number needs."""
    size = abs(v)
    places = 6
    while places > 0 and size % 10 == 0:
        size //= 10
        places -= 1
    return places


def plain(v):
    """A decimal with as many decimals as it needs."""
    return write_decimal(v, needed_places(v))


# ---- doubles as whole-number bits ----

ERR_BITS = 0x7FF0000000000000
NA_BITS = 0xFFF0000000000000


def from_double_bits(bits):
    """An int, or 'NA', 'ERR', TOO_LARGE."""
    if bits == NA_BITS:
        return 'NA'
    sign = -1 if bits >> 63 else 1
    exponent = (bits >> 52) & 0x7FF
    fraction = bits & ((1 << 52) - 1)
    if exponent == 0x7FF:
        return 'ERR'
    if exponent == 0:
        mantissa, power = fraction, -1074
    else:
        mantissa, power = fraction | (1 << 52), exponent - 1075
    exact = Fraction(mantissa) * (Fraction(2) ** power)
    v = round_away(exact * ONE)
    if v > LIMIT:
        return TOO_LARGE
    return sign * v


def to_double_bits(v):
    """The nearest double, ties to even."""
    if v == 0:
        return 0
    sign = 1 if v < 0 else 0
    exact = Fraction(abs(v), ONE)
    power = 0  # exact = m * 2**power with 2**52 <= m < 2**53
    while exact >= Fraction(2) ** (power + 53):
        power += 1
    while exact < Fraction(2) ** (power + 52):
        power -= 1
    scaled = exact / Fraction(2) ** power
    mantissa = scaled.numerator // scaled.denominator
    rest = scaled - mantissa
    if rest > Fraction(1, 2) or (rest == Fraction(1, 2) and mantissa % 2 == 1):
        mantissa += 1
    if mantissa == 1 << 53:
        mantissa >>= 1
        power += 1
    # sizes 1e-6 .. 1e9 are all normal doubles
    return (sign << 63) | ((power + 1075) << 52) | (mantissa & ((1 << 52) - 1))
