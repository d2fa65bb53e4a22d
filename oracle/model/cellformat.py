"""Format bytes, as the worksheet file format has them, and what a cell shows.

show_number, show_label and indicator are its parts.  `shown` is the whole of it for one cell
(content, value, format byte, width) and is what a screen and a report use; `runs_on` tells whether
the shown text stands at the left and is longer than its width, so that it runs over blank cells."""

from fractions import Fraction

from . import dates, fixed

DEFAULT = 0x7F
GENERAL = 0x71


def kind_of(fmt):
    """Bits 4 to 6: the kind of format."""
    return (fmt >> 4) & 7


def detail_of(fmt):
    """Bits 0 to 3: decimals, or which format of the last kind."""
    return fmt & 15


def indicator(fmt):
    """What the control panel tells of a format, with its brackets; nothing for default."""
    kind, detail = kind_of(fmt), detail_of(fmt)
    if kind in (0, 1, 2, 3, 4):
        return b'(%s%d)' % ((b'F', b'S', b'C', b'P', b',')[kind], detail)
    if kind == 7:
        if detail == 15:
            return b''
        known = {0: b'(+)', 1: b'(G)', 2: b'(D1)', 3: b'(D2)', 4: b'(D3)', 5: b'(T)', 6: b'(H)'}
        if detail in known:
            return known[detail]
    return b'(?)'


def effective(fmt, global_format):
    """Default is the global format, and a global format that is default is General."""
    if fmt & 0x7F != DEFAULT:
        return fmt & 0x7F
    if global_format & 0x7F != DEFAULT:
        return global_format & 0x7F
    return GENERAL


def grouped(digits):
    """`,` between groups of three of the whole part."""
    whole, point, part = digits.partition(b'.')
    out = b''
    while len(whole) > 3:
        out = b',' + whole[-3:] + out
        whole = whole[:-3]
    return whole + out + point + part


def is_zero(digits):
    """Whether all digits are zeros."""
    return not any(b in b'123456789' for b in digits)


def general(v, room):
    """General in `room` bytes; None where it doesn't fit.  A number rounded to as many decimals
    as fit is then shown with the decimals that it needs (no zeros at the end)."""
    full = fixed.plain(v)
    if len(full) <= room:
        return full
    for places in range(fixed.needed_places(v), -1, -1):
        text = fixed.write_decimal(v, places)
        if len(text) <= room:
            if places:
                text = text.rstrip(b'0').rstrip(b'.')
                if text in (b'', b'-'):
                    text = b'0'
            return text
    return None


def right_text(text, width):
    """A number's text ends one byte before the right edge; if longer than the width less one, `*`."""
    if text is None or len(text) > width - 1:
        return b'*' * width
    return b' ' * (width - 1 - len(text)) + text + b' '


def number_text(v, fmt, room):
    """The text of a number, or None where all bytes are `*`."""
    kind, detail = kind_of(fmt), detail_of(fmt)
    if kind == 0:
        return fixed.write_decimal(v, detail)
    if kind in (2, 4):
        digits = fixed.decimal_digits(abs(v), detail)
        text = (b'$' if kind == 2 else b'') + grouped(digits)
        return b'(' + text + b')' if v < 0 and not is_zero(digits) else text
    if kind == 3:
        digits = fixed.decimal_digits(Fraction(abs(v)) * 100, detail)
        return (b'-' if v < 0 and not is_zero(digits) else b'') + digits + b'%'
    if kind == 7 and detail in (2, 3, 4):
        day = fixed.cut(v)
        if dates.civil_of(day) is None:
            return None
        return {2: dates.date1, 3: dates.date2, 4: dates.date3}[detail](day)
    return general(v, room)  # General, scientific, bar, text of a number, unnamed


def is_hidden(fmt):
    """Whether a format hides the cell."""
    return kind_of(fmt) == 7 and detail_of(fmt) == 6


def is_text_format(fmt):
    """Whether a format shows the formula."""
    return kind_of(fmt) == 7 and detail_of(fmt) == 5


def show_number(v, fmt, width):
    """Exactly `width` bytes.  A format that is default counts as General here."""
    fmt = effective(fmt, GENERAL)
    if is_hidden(fmt):
        return b' ' * width
    return right_text(number_text(v, fmt, width - 1), width)


def masked(data):
    """Bytes of 127 and above are shown as `?`."""
    return bytes(0x3F if b >= 127 else b for b in data)


def cut_left(data, width):
    """A text at the left, cut to the width."""
    return data[:width].ljust(width)


def stands_left(prefix, data, width):
    """Whether a label stands at the left, in its own width."""
    if prefix in b"'|":
        return True
    if prefix == 0x22:
        return len(data) > width - 1
    if prefix == 0x5E:
        return len(data) > width
    return False


def show_label(prefix, data, width):
    """A label in its width, by its prefix."""
    text = masked(data)
    if prefix == 0x5C:  # \ repeats its text through the width
        if not text:
            return b' ' * width
        return (text * width)[:width]
    if stands_left(prefix, data, width):
        return cut_left(text, width)
    if prefix == 0x22:
        return b' ' * (width - 1 - len(text)) + text + b' '
    if prefix == 0x5E:
        before = (width - len(text)) // 2
        return (b' ' * before + text).ljust(width)
    return cut_left(text, width)


def shown(content, value, fmt, width, global_format, formula_text=b''):
    """What one cell shows, without running over.  `formula_text` is the formula's own text."""
    fmt = effective(fmt, global_format)
    if is_hidden(fmt):
        return b' ' * width  # hidden is blank: also labels
    if content[0] == 'formula' and is_text_format(fmt):
        return cut_left(masked(formula_text), width)
    if content[0] == 'label':
        return show_label(content[1], content[2], width)
    if value[0] == 'str':
        return show_label(0x27, value[1], width)  # a text value stands at the left
    if value[0] == 'num':
        return show_number(value[1], fmt, width)
    if value[0] == 'err':
        return right_text(b'ERR', width)
    if value[0] == 'na':
        return right_text(b'NA', width)
    return b' ' * width


def runs_on(content, value, fmt, width, global_format):
    """The whole (masked) text where it stands at the left and is longer than its width, else None."""
    fmt = effective(fmt, global_format)
    if is_hidden(fmt) or (content[0] == 'formula' and is_text_format(fmt)):
        return None
    if content[0] == 'label':
        prefix, data = content[1], content[2]
    elif value[0] == 'str':
        prefix, data = 0x27, value[1]
    else:
        return None
    if prefix != 0x5C and stands_left(prefix, data, width) and len(data) > width:
        return masked(data)
    return None
