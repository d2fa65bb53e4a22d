"""Formula trees and formula text."""

import sys

from . import fixed
from .address import NotAnAddress, cells_of, col_text, ordered, read_cell, ref_of, resolve
from .text import fold, is_digit, is_letter, is_text

# recursion on trees is at most 512 deep; several Python frames stand for one level
sys.setrecursionlimit(max(sys.getrecursionlimit(), 20000))

# ---- the table of functions (code -> name, least and most arguments) ----

FUNCTIONS = {
    0x1F: (b'NA', 0, 0), 0x20: (b'ERR', 0, 0), 0x33: (b'FALSE', 0, 0), 0x34: (b'TRUE', 0, 0),
    0x21: (b'ABS', 1, 1), 0x22: (b'INT', 1, 1), 0x2F: (b'MOD', 2, 2), 0x30: (b'CHOOSE', 2, 255),
    0x31: (b'ISNA', 1, 1), 0x32: (b'ISERR', 1, 1), 0x3B: (b'IF', 3, 3),
    0x44: (b'ISNUMBER', 1, 1), 0x45: (b'ISSTRING', 1, 1), 0x3F: (b'ROUND', 2, 2),
    0x36: (b'DATE', 3, 3), 0x3C: (b'DAY', 1, 1), 0x3D: (b'MONTH', 1, 1), 0x3E: (b'YEAR', 1, 1),
    0x40: (b'TIME', 3, 3), 0x41: (b'HOUR', 1, 1), 0x42: (b'MINUTE', 1, 1), 0x43: (b'SECOND', 1, 1),
    0x37: (b'NOW', 0, 0), 0x4D: (b'DATEVALUE', 1, 1), 0x4E: (b'TIMEVALUE', 1, 1),
    0x46: (b'LENGTH', 1, 1), 0x47: (b'VALUE', 1, 1), 0x48: (b'STRING', 2, 2), 0x49: (b'MID', 3, 3),
    0x68: (b'LEFT', 2, 2), 0x69: (b'RIGHT', 2, 2), 0x4A: (b'CHAR', 1, 1), 0x4B: (b'CODE', 1, 1),
    0x4C: (b'FIND', 3, 3), 0x65: (b'REPEAT', 2, 2), 0x6A: (b'REPLACE', 4, 4),
    0x66: (b'UPPER', 1, 1), 0x67: (b'LOWER', 1, 1), 0x6B: (b'PROPER', 1, 1), 0x6D: (b'TRIM', 1, 1),
    0x6E: (b'CLEAN', 1, 1), 0x71: (b'EXACT', 2, 2),
    0x50: (b'SUM', 1, 255), 0x51: (b'AVG', 1, 255), 0x52: (b'COUNT', 1, 255),
    0x53: (b'MIN', 1, 255), 0x54: (b'MAX', 1, 255),
    0x55: (b'VLOOKUP', 3, 3), 0x5A: (b'HLOOKUP', 3, 3),
    0x5B: (b'DSUM', 3, 3), 0x5C: (b'DAVG', 3, 3), 0x5D: (b'DCOUNT', 3, 3), 0x5E: (b'DMIN', 3, 3),
    0x5F: (b'DMAX', 3, 3), 0x62: (b'INDEX', 3, 3), 0x63: (b'COLS', 1, 1), 0x64: (b'ROWS', 1, 1),
    0x4F: (b'CELLPOINTER', 1, 1), 0x6C: (b'CELL', 2, 2), 0x73: (b'@', 1, 1),
}
CODE_OF = {name: code for code, (name, _, _) in FUNCTIONS.items()}

# codes of the file format that are no function here; 72 (add-in call) has no name
LEFT_OUT = {
    0x23: b'SQRT', 0x24: b'LOG', 0x25: b'LN', 0x26: b'PI', 0x27: b'SIN', 0x28: b'COS', 0x29: b'TAN',
    0x2A: b'ATAN2', 0x2B: b'ATAN', 0x2C: b'ASIN', 0x2D: b'ACOS', 0x2E: b'EXP', 0x35: b'RAND',
    0x38: b'PMT', 0x39: b'PV', 0x3A: b'FV', 0x56: b'NPV', 0x57: b'VAR', 0x58: b'STD', 0x59: b'IRR',
    0x60: b'DVAR', 0x61: b'DSTD', 0x6F: b'S', 0x70: b'N', 0x72: None, 0x74: b'RATE', 0x75: b'TERM',
    0x76: b'CTERM', 0x77: b'SLN', 0x78: b'SYD', 0x79: b'DDB',
}
LEFT_OUT_NAMES = {name for name in LEFT_OUT.values() if name}

COUNTED = (0x30, 0x50, 0x51, 0x52, 0x53, 0x54)  # the six with a free count of arguments

# volatile functions
VOLATILE = {CODE_OF[n] for n in (b'NOW', b'CELL', b'CELLPOINTER', b'@', b'DSUM', b'DAVG', b'DCOUNT', b'DMIN', b'DMAX')}

# levels of precedence, as in the manual's table
LEVEL = {'^': 7, '*': 5, '/': 5, '+': 4, '-': 4, '=': 3, '<>': 3, '<': 3, '>': 3, '<=': 3, '>=': 3,
         'AND': 1, 'OR': 1, '&': 1}
NEG_LEVEL = 6
NOT_LEVEL = 2
NO_LEVEL = 9  # above every level: leaves, brackets and calls

OP_TEXT = {'AND': b'#AND#', 'OR': b'#OR#', 'NOT': b'#NOT#'}


def op_text(op):
    """An operator as it is printed."""
    return OP_TEXT.get(op, op.encode())


# ---- trees ----

def kids(expr):
    """The trees directly below a tree."""
    kind = expr[0]
    if kind in ('group', 'neg', 'not'):
        return (expr[1],)
    if kind == 'bin':
        return (expr[2], expr[3])
    if kind == 'call':
        return tuple(expr[2])
    return ()


def depth(expr):
    """A leaf has depth 1."""
    return 1 + max((depth(k) for k in kids(expr)), default=0)


def level(expr):
    """The level of an operator node, or NO_LEVEL."""
    if expr[0] == 'bin':
        return LEVEL[expr[1]]
    if expr[0] == 'neg':
        return NEG_LEVEL
    if expr[0] == 'not':
        return NOT_LEVEL
    return NO_LEVEL


def edge_min(expr):
    """The least level of an operator on the right edge: the node, then its right operand or
    its front operand, and so on; brackets and calls end it."""
    least = NO_LEVEL
    while True:
        least = min(least, level(expr))
        if expr[0] == 'bin':
            expr = expr[3]
        elif expr[0] in ('neg', 'not'):
            expr = expr[1]
        else:
            return least


def left_ok(op, left):
    """Whether a tree may stand in front of an operator without brackets."""
    return edge_min(left) >= LEVEL[op]


def right_ok(op, right):
    """Whether a tree may stand behind an operator without brackets."""
    return not (right[0] == 'bin' and LEVEL[right[1]] <= LEVEL[op])


def front_ok(front_level, operand):
    """Whether a tree may stand behind a sign of a level without brackets."""
    return not (operand[0] == 'bin' and LEVEL[operand[1]] <= front_level)


def well_bracketed(expr):
    """The four rules of brackets in a tree that text can spell."""
    kind = expr[0]
    if kind == 'bin' and not (left_ok(expr[1], expr[2]) and right_ok(expr[1], expr[3])):
        return False
    if kind == 'neg' and not front_ok(NEG_LEVEL, expr[1]):
        return False
    if kind == 'not' and not front_ok(NOT_LEVEL, expr[1]):
        return False
    return all(well_bracketed(k) for k in kids(expr))


def own_code_size(expr):
    """Bytes of code of one node."""
    kind = expr[0]
    if kind == 'num':
        return 3 if is_short(expr[1]) else 9
    if kind == 'str':
        return len(expr[1]) + 2
    if kind == 'cell':
        return 5
    if kind == 'span':
        return 9
    if kind == 'call':
        return 2 if expr[1] in COUNTED else 1
    return 1


def is_short(v):
    """A whole number of at most 32767 (leaves aren't negative)."""
    return v % fixed.ONE == 0 and 0 <= v // fixed.ONE <= 32767


def code_size(expr):
    """1 for the whole and the nodes."""
    total = 1
    todo = [expr]
    while todo:
        e = todo.pop()
        total += own_code_size(e)
        todo.extend(kids(e))
    return total


def shape_fault(expr):
    """`Formula::of`: None, 'BadShape' or 'TooDeep'."""
    todo = [expr]
    while todo:
        e = todo.pop()
        if e[0] == 'num' and not 0 <= e[1] <= fixed.LIMIT:
            return 'BadShape'
        if e[0] == 'str' and (not is_text(e[1]) or b'"' in e[1]):
            return 'BadShape'
        if e[0] == 'call':
            if e[1] not in FUNCTIONS:
                return 'BadShape'
            _, least, most = FUNCTIONS[e[1]]
            if not least <= len(e[2]) <= most:
                return 'BadShape'
        todo.extend(kids(e))
    if not well_bracketed(expr) or code_size(expr) > 65520:
        return 'BadShape'
    if depth(expr) > 256:
        return 'TooDeep'
    return None


def span_of(expr, at):
    """The resolved span of a cell or span operand, corners put in order."""
    if expr[0] == 'cell':
        cell = resolve(expr[1], at)
        return (cell, cell)
    return ordered(resolve(expr[1], at), resolve(expr[2], at))


def reads(expr, at):
    """The spans of the cell and span operands, from left to right."""
    if expr[0] in ('cell', 'span'):
        return [span_of(expr, at)]
    out = []
    for k in kids(expr):
        out.extend(reads(k, at))
    return out


def read_cells(expr, at):
    """What it reads as a list of cells (for small spans)."""
    return [cell for span in reads(expr, at) for cell in cells_of(span)]


def is_volatile(expr):
    """Whether a formula is evaluated at each recalculation."""
    if expr[0] == 'call' and expr[1] in VOLATILE:
        return True
    return any(is_volatile(k) for k in kids(expr))


# ---- reading ----

class ParseFault(Exception):
    """1 nothing may begin at this byte, 2 the text ends too early, 3 no such function, 4 a function that is left out,
    5 a wrong count of arguments, 6 a number too large, 7 no such name, 8 a text too long.  `at` is None for 2 and 8."""

    def __init__(self, number, at=None):
        super().__init__(number, at)
        self.number = number
        self.at = at


def is_word_byte(b):
    """Whether a byte may stand in an address or a name."""
    return is_letter(b) or is_digit(b) or b in b'_$'


def read_address(word, at):
    """A word that is a column and a row with an optional $ before each -> Ref, or None."""
    i = 0
    fixed_col = word[:1] == b'$'
    if fixed_col:
        i = 1
    j = i
    while j < len(word) and is_letter(word[j]):
        j += 1
    letters = word[i:j]
    fixed_row = word[j:j + 1] == b'$'
    digits = word[j + 1:] if fixed_row else word[j:]
    if not letters or not digits or not all(is_digit(b) for b in digits):
        return None  # `$$A1` and `A$B1` are no addresses: one $ before each, then the row's digits
    try:
        target = read_cell(letters + digits)
    except NotAnAddress:
        return None
    return ref_of(target, at, fixed_col, fixed_row)


PUNCT2 = (b'<>', b'<=', b'>=')
PUNCT1 = b'(),;^*/+-=<>&'
HASH = (b'#AND#', b'#OR#', b'#NOT#')


def number_end(text, pos):
    """The end of the longest decimal without a sign at pos, or pos where there is none."""
    i = pos
    digits = 0
    point = False
    while i < len(text):
        if is_digit(text[i]):
            digits += 1
        elif text[i] == 0x2E and not point:
            point = True
        else:
            break
        i += 1
    return i if digits else pos


def number_token(text, pos, end):
    """A number that ends there."""
    v = fixed.read_decimal(text[pos:end])
    return ('operand', end, None, 6) if v == fixed.TOO_LARGE else ('operand', end, ('num', v), None)


def text_token(text, pos):
    """A text in quotes: none where what stands between isn't a text (a byte below 32: this project's choice)."""
    close = text.find(b'"', pos + 1)
    if close < 0:
        return ('open', len(text), None, None)
    held = text[pos + 1:close]
    return ('operand', close + 1, ('str', held), None) if is_text(held) else None


def word_token(text, pos, at, names):
    """An address, two of them with one or two dots between, or a name."""
    end = word_end(text, pos)
    ref = read_address(text[pos:end], at)
    if ref is None:
        return name_token(text[pos:end], end, at, names)
    dots = len(text[end:end + 2]) - len(text[end:end + 2].lstrip(b'.'))
    start = end + dots
    if dots and start < len(text) and is_word_byte(text[start]) and not is_digit(text[start]):
        stop = word_end(text, start)
        other = read_address(text[start:stop], at)
        if other is not None:
            return ('operand', stop, ('span', ref, other), None)
    return ('operand', end, ('cell', ref), None)


def name_token(word, end, at, names):
    """A name's span, or its cell, absolute behind a dollar sign."""
    absolute = word[:1] == b'$'
    span = names.find(word[1:] if absolute else word)
    if span is None:
        return ('operand', end, None, 7)
    first, last = (ref_of(corner, at, absolute, absolute) for corner in span)
    return ('operand', end, ('cell', first) if span[0] == span[1] else ('span', first, last), None)


def function_token(text, pos):
    """The name of a function, which is an operand where it takes no argument; a run has at least one byte."""
    if text[pos + 1:pos + 2] == b'@':
        return ('function', pos + 2, 0x73, None)
    end = pos + 1
    while end < len(text) and (is_letter(text[end]) or is_digit(text[end])):
        end += 1
    name = fold(text[pos + 1:end])
    if not name:
        return None
    if name not in CODE_OF:
        return ('function', end, None, 4 if name in LEFT_OUT_NAMES else 3)
    code = CODE_OF[name]
    return ('operand', end, ('call', code, []), None) if FUNCTIONS[code][2] == 0 else ('function', end, code, None)


def sign_token(text, pos):
    """A sign of two bytes or of one."""
    if text[pos:pos + 2] in PUNCT2:
        return ('op', pos + 2, text[pos:pos + 2].decode(), None)
    if text[pos] not in PUNCT1:
        return None
    sign = chr(text[pos])
    if sign in '(),;':
        return (',' if sign == ';' else sign, pos + 1, None, None)
    return ('op', pos + 1, sign, None)


def next_token(text, pos, at, names):
    """The longest token at pos: (kind, end, payload, fault) with fault None or 3, 4, 6, 7;
    None where no token begins there.  An unclosed text has the kind 'open'."""
    b = text[pos]
    end = number_end(text, pos)
    if end > pos:
        return number_token(text, pos, end)
    if b == 0x22:
        return text_token(text, pos)
    if is_word_byte(b):  # digits were numbers
        return word_token(text, pos, at, names)
    if b == 0x40:
        return function_token(text, pos)
    if b == 0x23:
        word = next((word for word in HASH if fold(text[pos:pos + len(word)]) == word), None)
        return word and ('op', pos + len(word), word[1:-1].decode(), None)
    return sign_token(text, pos)


def word_end(text, pos):
    """Where the bytes of a word end."""
    end = pos
    while end < len(text) and is_word_byte(text[end]):
        end += 1
    return end


class _Scanner:
    """The token list of a text as it grows, by a table of two states, before an operand and behind one."""

    def __init__(self):
        self.tokens = []
        # each ['(', None, 0] or ['f', code, arguments that are complete]
        self.brackets = []
        # 'operand' wanted, 'operator' wanted, or 'bracket': a function's own ( wanted
        self.state = 'operand'

    def put(self, state, *token):
        """A token, and what is wanted behind it."""
        self.tokens.append(token)
        self.state = state

    def take(self, kind, payload, pos):
        """The token at a place; at one place the faults come in the order 3, 4, 7, 6, 5, 1."""
        if not {'bracket': self.bracket, 'operand': self.operand,
                'operator': self.operator}[self.state](kind, payload, pos):
            raise ParseFault(1, pos)

    def bracket(self, kind, _payload, _pos):
        """A function's own bracket."""
        if kind != '(':
            return False
        self.brackets.append(['f', self.tokens[-1][1], 0])
        self.state = 'operand'
        return True

    def operand(self, kind, payload, pos):
        """What may stand before an operand and is one; a + in front is passed over before grouping."""
        if kind == 'open':
            raise ParseFault(2)  # the text ends in a text
        if kind == ')' and self.brackets and self.brackets[-1][0] == 'f':
            self.test_count(self.brackets[-1], self.brackets[-1][2], pos)  # as at `@SUM()`
        if kind == 'operand':
            self.put('operator', 'operand', payload)
        elif kind == '(':
            self.put('operand', '(')
            self.brackets.append(['(', None, 0])
        elif kind == 'function':
            self.put('bracket', 'function', payload)
        elif kind == 'op' and payload in ('-', 'NOT'):
            self.put('operand', 'front', payload)
        else:
            return kind == 'op' and payload == '+'
        return True

    def operator(self, kind, payload, pos):
        """What may stand behind an operand."""
        if kind == 'op' and payload in LEVEL:
            self.put('operand', 'bin', payload)
        elif kind == ',' and self.brackets and self.brackets[-1][0] == 'f':
            self.brackets[-1][2] += 1
            self.put('operand', ',')
        elif kind == ')' and self.brackets:
            bracket = self.brackets.pop()
            self.test_count(bracket, bracket[2] + 1, pos)
            self.put('operator', ')')
        else:
            return False
        return True

    @staticmethod
    def test_count(bracket, count, pos):
        """Whether a function takes so many arguments."""
        if bracket[0] == 'f':
            _, least, most = FUNCTIONS[bracket[1]]
            if not least <= count <= most:
                raise ParseFault(5, pos)


def scan(text, at, names):
    """The token list of a text that spells a tree; raises the first fault otherwise. That it is past 240 bytes comes
    first."""
    text = bytes(text)
    if len(text) > 240:
        raise ParseFault(8)
    scanner, pos = _Scanner(), 0
    while True:
        while pos < len(text) and text[pos] == 0x20:
            pos += 1
        if pos >= len(text):
            break
        token = next_token(text, pos, at, names)
        if token is None:
            raise ParseFault(1, pos)
        kind, end, payload, fault = token
        if fault is not None:
            raise ParseFault(fault, pos)
        scanner.take(kind, payload, pos)
        pos = end
    if scanner.state != 'operator' or scanner.brackets:
        raise ParseFault(2)
    return scanner.tokens


class _Builder:
    """Makes the one well bracketed tree of a token list."""

    def __init__(self, tokens):
        self.tokens = tokens
        self.i = 0

    def take(self):
        """The next token."""
        token = self.tokens[self.i]
        self.i += 1
        return token

    def peek(self):
        """The next token, which isn't taken."""
        return self.tokens[self.i] if self.i < len(self.tokens) else (None,)

    def tree(self, above):
        """The longest tree whose outer binary operators have levels greater than `above`."""
        token = self.take()
        if token[0] == 'operand':
            left = token[1]
        elif token[0] == 'front':
            if token[1] == '-':
                left = ('neg', self.tree(NEG_LEVEL))
            else:
                left = ('not', self.tree(NOT_LEVEL))
        elif token[0] == '(':
            left = ('group', self.tree(0))
            self.take()
        else:
            args = [self.tree(0)]
            while self.take()[0] == ',':
                args.append(self.tree(0))
            left = ('call', token[1], args)
        while self.peek()[0] == 'bin' and LEVEL[self.peek()[1]] > above:
            op = self.take()[1]
            left = ('bin', op, left, self.tree(LEVEL[op]))
        return left


def read(text, at, names):
    """The tree that a text spells in a cell."""
    tokens = scan(text, at, names)
    builder = _Builder(tokens)
    expr = builder.tree(0)
    # the definition: well bracketed, and its tokens are the text's tokens in order
    assert builder.i == len(tokens) and well_bracketed(expr) and tree_tokens(expr) == tokens
    # within 240 bytes depth 256 and 65,520 bytes of code can't be passed
    assert depth(expr) <= 256 and code_size(expr) <= 65520
    return expr


def tree_tokens(expr):
    """The tokens of a tree, in order."""
    kind = expr[0]
    if kind in ('num', 'str', 'cell', 'span'):
        return [('operand', expr)]
    if kind == 'group':
        return [('(',)] + tree_tokens(expr[1]) + [(')',)]
    if kind == 'neg':
        return [('front', '-')] + tree_tokens(expr[1])
    if kind == 'not':
        return [('front', 'NOT')] + tree_tokens(expr[1])
    if kind == 'bin':
        return tree_tokens(expr[2]) + [('bin', expr[1])] + tree_tokens(expr[3])
    if not expr[2]:
        return [('operand', expr)]
    out = [('function', expr[1])]
    for i, arg in enumerate(expr[2]):
        if i:
            out.append((',',))
        out += tree_tokens(arg)
    return out + [(')',)]


# ---- printing ----

def ref_text(ref, at):
    """A reference with its signs."""
    col, row = resolve(ref, at)
    return ((b'$' if ref[0][0] == 'abs' else b'') + col_text(col)
            + (b'$' if ref[1][0] == 'abs' else b'') + str(row + 1).encode())


def alike(refs):
    """'abs' or 'off' where all coordinates are of that kind, else None."""
    kinds = {axis[0] for ref in refs for axis in ref}
    return kinds.pop() if len(kinds) == 1 else None


def operand_text(expr, at, names):
    """A cell or a span, as a name where all of its coordinates are alike."""
    if expr[0] == 'cell':
        kind = alike([expr[1]])
        cell = resolve(expr[1], at)
        name = names.of_span((cell, cell)) if kind else None
        if name is not None:
            return (b'$' if kind == 'abs' else b'') + name
        return ref_text(expr[1], at)
    first, last = resolve(expr[1], at), resolve(expr[2], at)
    kind = alike([expr[1], expr[2]])
    # more than one cell, four coordinates alike, first corner top left
    if kind and first != last and first[0] <= last[0] and first[1] <= last[1]:
        name = names.of_span((first, last))
        if name is not None:
            return (b'$' if kind == 'abs' else b'') + name
    return ref_text(expr[1], at) + b'..' + ref_text(expr[2], at)


def _print(expr, at, names):
    """The text of a tree."""
    kind = expr[0]
    if kind == 'num':
        return fixed.plain(expr[1])
    if kind == 'str':
        return b'"' + expr[1] + b'"'
    if kind in ('cell', 'span'):
        return operand_text(expr, at, names)
    if kind == 'group':
        return b'(' + _print(expr[1], at, names) + b')'
    if kind == 'neg':
        return b'-' + _print(expr[1], at, names)
    if kind == 'not':
        return b'#NOT#' + _print(expr[1], at, names)
    if kind == 'bin':
        return _print(expr[2], at, names) + op_text(expr[1]) + _print(expr[3], at, names)
    name = b'@' + FUNCTIONS[expr[1]][0]
    if not expr[2]:
        return name
    return name + b'(' + b','.join(_print(a, at, names) for a in expr[2]) + b')'


def print_(expr, at, names):
    """The whole text; callers cut at 240."""
    text = _print(expr, at, names)
    if text and (is_letter(text[0]) or text[0] == 0x22):
        return b'+' + text
    return text
