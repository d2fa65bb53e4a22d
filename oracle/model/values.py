"""Shared representations: values and contents."""

BLANK = ('blank',)
ERR = ('err',)
NA = ('na',)


def num(millionths):
    """A number's value."""
    return ('num', millionths)


def string(data):
    """A text's value."""
    return ('str', bytes(data))


TRUE = num(1_000_000)
FALSE = num(0)

# contents
C_BLANK = ('blank',)
ERR_EXPR = ('call', 0x20, [])  # @ERR
NA_EXPR = ('call', 0x1F, [])   # @NA

QUOTE = 0x27  # the prefix '


def first_value(content):
    """The value with which a content begins; a new formula begins with 0."""
    kind = content[0]
    if kind == 'blank':
        return BLANK
    if kind == 'number':
        return num(content[1])
    if kind == 'label':
        return string(content[2])
    return num(0)


def value_content(value):
    """What Range Value, Transpose, Extract and tables write: a number as a
    number, a text as a label with ', ERR as @ERR, NA as @NA, a blank as Blank."""
    kind = value[0]
    if kind == 'blank':
        return C_BLANK
    if kind == 'num':
        return ('number', value[1])
    if kind == 'str':
        return ('label', QUOTE, value[1])
    if kind == 'err':
        return ('formula', ERR_EXPR)
    return ('formula', NA_EXPR)
