"""Keys that go through the commands below Data and the keys QUERY and TABLE, over small sheets that are made for them.

A sheet is told by lines of `edits.Desk`: it is typed, or it stands in the file that the run begins with."""
from ..model import menu, wk1
from ..model.address import cell_text, col_text, height_of, read_cell, read_span, span_text, width_of
from .cases import Blocks, Extractions, Queries
from .edits import Desk

NUMBERS = [b'0', b'1', b'2', b'-1', b'1.5', b'10', b'0.1', b'-0.000001', b'8191', b'-8191', b'999999999.999997', b'.5',
           b'+3', b'1.0000001']
NO_NUMBERS = [b'', b'x', b'1/2', b'1000000000', b' 5', b'+', b'A1', b'1e3', b'5%', b'@NA']
NO_ORDERS = [b'', b'x', b'AD', b'1', b' A', b'Ascending', b'~']
ONE_ROW = 1
# bins whose counts have no room, or only just
AT_THE_EDGE = [((255, 0), (255, 2)), ((255, 4), (255, 4)), ((6, 8190), (6, 8191)), ((6, 8189), (6, 8190)),
               ((254, 0), (255, 1))]


def file_of(lines):
    """The bytes of a saved sheet that lines tell."""
    desk = Desk()
    for line in lines:
        if line != b':':
            desk.line(line)
    desk.calc()
    return wk1.write(desk.sheet.snapshot())


class DataKeys:
    """Makes the keys; a scene is the lines of its sheet, and the keys that are then typed."""

    def __init__(self, menus):
        self.menus, self.typist, self.r = menus, menus.typist, menus.r

    # ------------------------------------------------------------ sheets
    def entered(self, part):
        """Keys that enter a cell of a line, mostly with its format or mark."""
        r = self.r
        cell, code, text = part.split(b' ', 2)
        if not text:
            return b''
        keys = self.menus.at(cell) + self.typist.typed(text) + b'~'
        if code == b'-' or r.randrange(4):
            return keys
        return keys + (self.menus.format(cell) if r.randrange(2) else self.menus.done('r.unprotect', cell))

    def typed_line(self, line):
        """Keys that come to what a line tells."""
        rest, done = line[1:], self.menus.done
        if line[:1] == b'x':
            return b''.join(self.entered(part) for part in rest.split(b'\t'))
        if line[:1] == b'+':
            span, _, name = rest.partition(b' ')
            return done('rn.create', self.typist.typed(name), span)
        if line[:1] == b'w':
            cell, _, width = rest.partition(b' ')
            return self.menus.at(cell) + done('wc.set', width)
        if line[:1] == b's':
            actions = {b'M': 'wgr.manual', b'P': 'wgp.enable', b'A': 'wgr.automatic'}
            return done(actions[rest]) if rest in actions else b''
        return b''

    def typed_sheet(self, lines):
        """Keys that type a sheet of lines."""
        return b''.join(self.typed_line(line) for line in lines)

    # ------------------------------------------------------------ answers
    def decimal(self, usual):
        """Mostly the usual number, or one of many, or seldom none."""
        r = self.r
        return usual if r.randrange(4) else r.choice(NO_NUMBERS if r.randrange(12) == 0 else NUMBERS)

    def order(self):
        """An order of sorting."""
        r = self.r
        return self.typist.typed(r.choice(NO_ORDERS)) if r.randrange(25) == 0 else r.choice([b'A', b'a', b'D', b'd'])

    def spelled(self, span):
        """A range as it may be typed: of a cell by itself, with its corners in other places, or in small letters."""
        r = self.r
        first, last = span
        corners = [cell_text(first), cell_text(last)]
        if first == last and r.randrange(2):
            return corners[0]
        if r.randrange(8) == 0:
            corners = [cell_text((first[0], last[1])), cell_text((last[0], first[1]))]
        text = r.choice([b'..', b'..', b'.']).join(corners)
        return text.lower() if r.randrange(8) == 0 else text

    def near(self, span):
        """Mostly a span, or seldom one that is cut, moved, of one row or one column."""
        (a, b), (c, d) = span
        if self.r.randrange(10):
            return span
        return self.r.choice([((a, b), (c, b)), ((a, b), (a, d)), ((a, b), (min(c + 1, 255), d)),
                              ((a, min(b + 1, d)), (c, d)), ((a, b), (c, max(b, d - 1))), ((c, b), (c, d))])

    # ------------------------------------------------------------ menus that come back
    def opened(self, path):
        """Keys that open a menu."""
        way = next(way for action, way in self.menus.ways if any(at == path for at, _ in way))
        return self.menus.way(way[:[at for at, _ in way].index(path)])

    def chosen(self, path, action, *answers):
        """Keys that take an item of the menu that is open, with answers that are finished."""
        place = [after for _, after in menu.items(path)].index(action)
        return self.menus.taken(path, place) + b''.join(answer + b'~' for answer in answers)

    def left(self):
        """A way out of a menu."""
        return self.r.choice([b'q', b'Q', b'{ESC 3}', b'{BREAK}', b'{RIGHT}{BREAK}'])

    def guarded(self, spans, often):
        """Mostly nothing, or protection, with some of the spans unprotected."""
        r = self.r
        if r.randrange(often):
            return b''
        free = b''.join(self.menus.done('r.unprotect', span_text(span)) for span in spans if r.randrange(4))
        return free + self.menus.done('wgp.enable')

    def settings(self):
        """Seldom settings of the recalculation."""
        if self.r.randrange(5):
            return b''
        return self.r.choice([lambda: self.menus.done('wgr.manual'), self.menus.order, self.menus.passes])()

    def seen(self, *cells):
        """The pointer goes over cells, so that the screen shows them and its first line tells of them."""
        r = self.r
        keys = b'{BREAK}'
        for cell in cells:
            keys += self.menus.at(cell_text(cell)) + r.choice([b'', b'{DOWN}', b'{DOWN 2}', b'{RIGHT}',
                                                               b'{DOWN}{RIGHT}'])
        return keys

    def changed(self, span):
        """A cell of a span that gets other contents."""
        r = self.r
        cell = r.randrange(span[0][0], span[1][0] + 1), r.randrange(span[0][1], span[1][1] + 1)
        return self.menus.at(cell_text(cell)) + self.typist.typed(r.choice([b'0', b'1', b'2', b"'fig", b"'Fig", b'@NA',
                                                                            b'@ERR', b'+A1', b"'f*"])) + b'~'

    # ------------------------------------------------------------ fill
    def filling(self):
        """Start, step and stop: some that belong together, and any."""
        r = self.r
        together = [(b'1', b'1', b'8191'), (b'1', b'2', b'9'), (b'0', b'0.5', b'2.5'), (b'5', b'-1', b'0'),
                    (b'3', b'-0.1', b'-8191'), (b'1', b'0', b'9'), (b'2', b'1', b'2'), (b'3', b'1', b'2'),
                    (b'1', b'-1', b'2'), (b'999999999.999997', b'0.000001', b'999999999.999999'),
                    (b'-1', b'-600000000', b'-999999999.999999')]
        return [self.decimal(number) for number in r.choice(together)]

    def fill(self):
        """Ranges that are filled, sometimes under protection, of which a part may be free."""
        r = self.r
        first = r.choice([(0, 0), (1, 1), (2, 4), (254, 8188), (0, 8190)])
        span = first, (min(first[0] + r.randrange(3), 255), min(first[1] + r.randrange(5), 8191))
        sheet = self.block() if r.randrange(3) == 0 else [b':', b'xC9 - @SUM(A1..C8)', b's'
                                                          + r.choice([b'A', b'A', b'M'])]
        keys = self.guarded([span, (span[0], span[0])], 5)
        for _ in range(r.randrange(1, 4)):
            keys += self.menus.done('d.fill', self.spelled(span), *self.filling()) + r.choice([b'', b'{ESC}', b'~'])
        return sheet, keys + self.seen(span[0], span[1], (2, 8))

    # ------------------------------------------------------------ sort
    def block(self):
        """A small block: of few values, or of all kinds that are sorted among each other."""
        r = self.r
        if r.randrange(3):
            return self.mixed_block()
        of = Blocks(r)
        lines = of.sheet()
        self.block_span = (of.left, of.top), (of.left + of.cols - 1, of.top + of.rows - 1)
        return lines

    def mixed_block(self):
        """Three columns of six to nine rows, of which the first two hold values that often are alike or nearly so."""
        r = self.r
        self.block_span = (0, 0), (2, r.randrange(5, 9))
        near = [b'@NA', b'@ERR', b"'fig", b"'Fig", b'"FIG', b"'b", b"'", b'1', b'2', b'-1', b'0', b'0.5', b'+"fig"',
                b'', b'-0.5', b'1']
        cells = []
        for row in range(self.block_span[1][1] + 1):
            code = r.choice([b'-', b'-', b'2', b'113', b'130'])
            cells += [b'A%d ' % (row + 1) + code + b' ' + r.choice(near), b'B%d - ' % (row + 1) + r.choice(near),
                      b'C%d ' % (row + 1) + code + b' ' + r.choice([b'%d' % row, b'+A%d' % (row + 1)])]
        return [b':', b'x' + b'\t'.join(cell for cell in cells if not cell.endswith(b' '))]

    def key(self, span):
        """A cell of a column that the sort goes by, seldom beside the range."""
        r = self.r
        col = r.randrange(span[0][0], span[1][0] + 1)
        if r.randrange(12) == 0:
            col = r.choice([max(span[0][0] - 1, 0), min(span[1][0] + 1, 255)])
        return cell_text((col, r.randrange(8))) + r.choice([b'', b'', b'..C3'])

    def sorting(self, span):
        """Keys that set what a sort goes by, each seldom left out, in any order."""
        r = self.r
        parts = [self.chosen('ds', 'ds.range', self.spelled(span)),
                 self.chosen('ds', 'ds.primary', self.key(span), self.order()),
                 self.chosen('ds', 'ds.secondary', self.key(span), self.order()) if r.randrange(2) else b'']
        if r.randrange(12) == 0:
            parts.pop(r.randrange(2))
        if r.randrange(4) == 0:
            r.shuffle(parts)
        return b''.join(parts)

    def sort(self):
        """A block that is sorted by one or two keys, and again by others."""
        r = self.r
        lines = self.block()
        span = self.near(self.block_span)
        keys = self.settings() + self.guarded([span, self.block_span], 8) + self.opened('ds') + self.sorting(span)
        keys += (self.left() + self.opened('ds') if r.randrange(6) == 0 else b'') + self.chosen('ds', 'ds.go')
        for _ in range(r.randrange(1, 5)):
            anew = lambda: (self.chosen('ds', 'ds.reset') + self.opened('ds')
                            + self.chosen('ds', 'ds.range', self.spelled(span))
                            + self.chosen('ds', 'ds.primary', self.key(span), self.order()))
            again = [lambda: self.chosen('ds', 'ds.primary', self.key(span), self.order()),
                     lambda: self.chosen('ds', 'ds.range', self.spelled(self.near(span))),
                     anew, anew, anew, lambda: self.chosen('ds', 'ds.reset') + self.opened('ds'),
                     lambda: self.sorting(self.near(span)), lambda: b'']
            keys += b'{BREAK}' + self.changed(self.block_span) + self.opened('ds') + r.choice(again)()
            keys += self.chosen('ds', 'ds.go')
        return lines, keys + self.seen(span[0], span[1])

    # ------------------------------------------------------------ distribution
    def distribution(self):
        """Values that are counted by bins, also where the counts have no room."""
        r = self.r
        lines = self.block()
        values = self.near(self.block_span)
        first = r.choice([(6, 0), (6, 0), (6, 2), self.block_span[0], (254, 8188)])
        bins = first, (first[0], min(first[1] + r.randrange(4), 8191))
        if r.randrange(4) == 0:
            bins = r.choice(AT_THE_EDGE)
        cells = [cell_text((bins[0][0], row)) for row in range(bins[0][1], bins[1][1] + 1)]
        text = lambda: r.choice([b'0', b'0', b'1', b'1', b'2', b'-1', b'-1', b"'fig", b'@NA', b'0.5', b'+A1', b''])
        limits = b'x' + b'\t'.join(cell + b' - ' + text() for cell in cells)
        beside = min(bins[0][0] + 1, 255)
        keys = self.settings() + self.guarded([((beside, bins[0][1]), (beside, min(bins[1][1] + 1, 8191))), bins], 6)
        for _ in range(r.randrange(1, 5)):
            asked = bins if r.randrange(3) else r.choice(AT_THE_EDGE)
            keys += self.menus.done('d.distribution', self.spelled(values), self.spelled(asked))
            keys += b'{ESC}' + r.choice([b'', b'', self.changed(bins), self.changed(values)])
            values = self.near(self.block_span)
        return lines + [limits], keys + self.seen(bins[0], (beside, bins[0][1]), (beside, bins[1][1]))

    # ------------------------------------------------------------ query
    def asked(self, of):
        """Keys that set a query's ranges, each seldom left out, in any order."""
        r = self.r
        output = self.near(of.output) if isinstance(of, Extractions) else ((10, 0), (12, r.randrange(6)))
        given = [('dq.input', self.near(of.input)), ('dq.criterion', self.near(of.criterion)), ('dq.output', output)]
        if r.randrange(15) == 0:
            given.pop(r.randrange(3))
        if r.randrange(4) == 0:
            r.shuffle(given)
        if r.randrange(6) == 0:
            given.insert(r.randrange(len(given)), ('dq.criterion', of.input))
        return b''.join(self.chosen('dq', action, self.spelled(span)) for action, span in given), output

    def taken(self):
        """Keys that take one of the three queries, or seldom a way that leaves them."""
        r = self.r
        delete = [after for _, after in menu.items('dq')].index('dqd')
        if r.randrange(20) == 0:
            return r.choice([self.menus.taken('dq', delete) + r.choice([b'C', b'~', b'{ESC}q']),
                             self.chosen('dq', 'dq.reset')])
        return r.choice([lambda: self.chosen('dq', 'dq.extract'), lambda: self.chosen('dq', 'dq.extract'),
                         lambda: self.chosen('dq', 'dq.unique'),
                         lambda: self.chosen('dq', 'dq.unique'), lambda: self.menus.taken('dq', delete)
                         + r.choice([b'D', b'd', b'{RIGHT}~'])])()

    def query(self):
        """Records that are queried, and again, by QUERY too, after changes of what they hold or are asked for."""
        r = self.r
        of = Extractions(r) if r.randrange(3) else Queries(r)
        lines = of.sheet()
        ranges, output = self.asked(of)
        free = (output[0], (output[1][0], 8191 if height_of(output) == ONE_ROW else output[1][1]))
        guard = self.guarded([of.input, output], 8) if height_of(free) < 50 else b''
        keys = self.settings() + guard + self.opened('dq') + ranges + self.taken() + b'{BREAK}'
        change = [lambda: self.changed(of.input), lambda: self.changed(of.criterion), lambda: b'{CALC}',
                  self.menus.shifted,
                  lambda: self.opened('dq') + self.chosen('dq', 'dq.output', self.spelled(self.near(output)))
                  + self.left(),
                  lambda: self.opened('dq') + self.chosen('dq', 'dq.reset'),
                  lambda: self.opened('dq') + self.chosen('dq', 'dq.reset') + self.opened('dq') + ranges + self.left()]
        again = [lambda: self.opened('dq') + self.taken(), lambda: self.opened('dq') + self.taken(), lambda: b'{QUERY}',
                 lambda: b'{QUERY}', lambda: b'{query}', lambda: b'{QUERY 2}', lambda: b'{EDIT}{QUERY}{ESC 2}',
                 lambda: b'/{QUERY}{ESC}']
        for _ in range(r.randrange(4)):
            keys += r.choice(change)() + r.choice(again)() + r.choice([b'{ESC}', b'{BREAK}'])
        return lines, keys + self.seen(output[0], of.input[0], (output[0][0], min(output[0][1] + 3, 8191)),
                                       (of.input[0][0], of.input[1][1]))

    def few_records(self):
        """Records of one or two fields of which many are alike, and an output that is as long as what is written, or
        nearly so."""
        r = self.r
        last = r.randrange(4, 10)
        values = r.choice([[b'1', b'2'], [b"'fig", b"'Fig", b'^fig'], [b'1', b"'1", b'', b'2'],
                           [b'@NA', b'@ERR', b'+"1"', b"'1"]])
        cells = [b"A1 - 'N", b"B1 - 'W", b"D1 - 'n", b'D2 - ' + r.choice([b'', b'', b"'~x", b'1', b"'f*", b'@TRUE']),
                 b"F1 - 'N", b"G1 - 'w"]
        cells += [col + b'%d ' % row + r.choice([b'- ', b'- ', b'2 ', b'130 ']) + r.choice(values)
                  for col in (b'A', b'B') for row in range(2, last + 1)]
        sheet = [b':', b'x' + b'\t'.join(cell for cell in cells if not cell.endswith(b' '))]
        ends = lambda: r.choice([2, 3, 4, 5, last - 1, last, last + 1]) if r.randrange(5) else ONE_ROW
        output = lambda: self.chosen('dq', 'dq.output', r.choice([b'F1..F%d', b'F1..F%d', b'F1..G%d']) % ends())
        asked = self.chosen('dq', 'dq.input', b'A1..B%d' % last) + self.chosen('dq', 'dq.criterion', b'D1..D2')
        keys = self.opened('dq') + asked + (output() if r.randrange(3) else b'') + self.taken()
        rows = ((0, 1), (1, last - 1))
        part = [lambda: self.changed(rows) + b'{QUERY}', lambda: b'{QUERY}', lambda: self.opened('dq') + self.taken(),
                lambda: self.opened('dq') + output() + self.taken(),
                lambda: self.opened('dq') + output() + self.chosen('dq', 'dq.unique'),
                lambda: self.opened('dq') + output() + self.chosen('dq', 'dq.extract')]
        for _ in range(r.randrange(2, 6)):
            keys += b'{BREAK}' + self.seen((5, 1)) + r.choice(part)()
        return sheet, keys + self.seen((5, 1), (6, 2))

    # ------------------------------------------------------------ tables
    def tried(self):
        """A value that a table tries."""
        return self.r.choice([b'1', b'2', b'-3', b'0.5', b'10', b'7', b"'fig", b"'A1", b'', b'@NA', b'@ERR', b'+B1',
                              b'+A2+1', b'+"x"'])

    def answer(self):
        """What a table asks for: formulas of its inputs, in circles and volatile ones too, or what is none."""
        return self.r.choice([b'+A1*2', b'+A1+A2', b'+B1', b'@SUM(A1..B2)', b'+A1&"x"', b'@IF(A1>1,A2,@NA)', b'+C2+1',
                              b'@@("A1")', b'@CELL("contents",A1)', b'@CELLPOINTER("row")+A1', b'5', b"'label", b'',
                              b'+B2', b'1/A1', b'@COUNT(A1..A2)', b'+E2', b'+F2+A1'])

    def table_sheet(self, span, two):
        """The inputs and formulas of a table, and formulas that hang on the cells that it tries."""
        r = self.r
        (left, top), (right, bottom) = span
        put = lambda cell, text: cell_text(cell) + r.choice([b' - ', b' - ', b' 2 ', b' 113 ', b' 130 ']) + text
        parts = [put((left, row), self.tried()) for row in range(top + 1, bottom + 1)]
        parts += [put((col, top), self.tried() if two else self.answer()) for col in range(left + 1, right + 1)]
        parts.append(put((left, top), self.answer()))
        parts += [put(read_cell(cell), text) for cell, text in [
            (b'A1', r.choice([b'4', b'', b"'old", b'+A2+1', b'@NA'])), (b'A2', r.choice([b'3', b'', b'+B2'])),
            (b'B1', r.choice([b'+A1+A2', b'+A1*A1', b'+B1+A1', b'+C1+A1', b'9'])),
            (b'B2', r.choice([b'@SUM(A1..B1)', b'+A1-1', b'@@("B1")', b'2'])),
            (b'C1', r.choice([b'+B1', b'+C1+1', b'', b'1'])),
            (b'C2', r.choice([b'+A2/A1', b'@MAX(A1..A2)', b'+B2&""']))]]
        return [b':', b'x' + b'\t'.join(part for part in parts if not part.endswith(b' ')), b's'
                + r.choice([b'A', b'A', b'A', b'M'])]

    def table(self):
        """A table of one input or two, and again by TABLE after changes."""
        r = self.r
        two = r.randrange(2) == 0
        first = r.choice([(4, 0), (4, 0), (4, 3), (253, 8189)])
        span = first, (min(first[0] + r.randrange(1, 4), 255), min(first[1] + r.randrange(1, 4), 8191))
        lines = self.table_sheet(span, two)
        inputs = [r.choice([b'A1', b'A1', b'A2', b'A1..B2', b'IV1', b'B1', b'D9']) for _ in range(1 + two)]
        if r.randrange(3) == 0:
            inputs[-1] = inputs[0] if r.randrange(4) else cell_text(r.choice([span[0], span[1]]))
        used = self.near(span)
        below = (first[0] + 1, first[1] + 1), span[1]
        free = r.choice([[below], [below], [((0, 0), (1, 1))], [below, ((0, 0), (1, 1))], [below, ((0, 0), (0, 0))]])
        keys = self.settings() + self.guarded(free, 3)
        again = self.menus.done('dt.2' if two else 'dt.1', self.spelled(used), *inputs)
        keys += again
        for _ in range(r.randrange(4)):
            keys += b'{ESC}' + r.choice([lambda: self.changed(span), lambda: self.changed(((0, 0), (1, 1))),
                                         lambda: b'{CALC}', self.menus.shifted,
                                         lambda: self.menus.done('dt.reset'), lambda: b'{BREAK}'
                                         + self.menus.done('wgp.disable')])()
            keys += r.choice([b'{TABLE}', b'{TABLE}', b'{table}', b'{TABLE 2}', b'5{TABLE}~', again])
        return lines, keys + r.choice([b'', b'{CALC}']) + self.seen(below[0], (0, 0), span[1], (1, 1))

    # ------------------------------------------------------------ database functions, refusals and all others
    def functions(self):
        """Database functions over records, whose values change."""
        r = self.r
        of = Queries(r)
        lines = of.sheet()
        call = lambda: (b'@' + r.choice([b'DSUM', b'DCOUNT', b'DMIN', b'DMAX', b'DAVG']) + b'(' + span_text(of.input)
                        + b',' + r.choice([b'0', b'1', b'2', b'A1', b'9'])
                        + b',' + span_text(of.criterion) + b')')
        cells = [(10, 0), (11, 0), (10, 1)]
        lines.append(b'x' + b'\t'.join(cell_text(cell) + b' - ' + call() for cell in cells))
        keys = self.settings()
        for _ in range(r.randrange(1, 4)):
            keys += r.choice([lambda: self.changed(of.input), lambda: self.changed(of.criterion), lambda: b'{CALC}'])()
        return lines, keys + self.seen(*cells)

    def refused(self):
        """Commands whose answers are fine and that are then refused by several causes, of which one is told."""
        r = self.r
        done, opened, chosen = self.menus.done, self.opened, self.chosen
        sheet = [b':',
                 b"xA1 - 'N\tA2 - 1\tA3 - 2\tA4 - 3\tC1 - 'N\tC2 - +A2>1\tE1 - 'N\tE2 - 9\t"
                 b"B1 - 'X\tH8192 - 5\tG1 - 'NOBODY\tG2 - 1"]
        keys = self.guarded([((0, 0), (0, 3)), ((4, 0), (4, 1)), ((2, 0), (2, 1))], 2)
        ranges = [(b'A1..A4', b'C1..C2', b'E1..E2'), (b'A1..A4', b'C1..C2', b'G1..G2'), (b'A1..A4', b'G1..G2', b'G1'),
                  (b'A1', b'G1..G2', b'E1..E2'), (b'A1..B4', b'C1..C2', b'E1..E3'), (b'A2..A4', b'G1..G2', b'G1'),
                  (b'A1..A4', b'C1..C1', b'E1..E2'), (b'A1..A4', b'C1..C2', b'E1..E9'),
                  (b'A1..A4', b'C1..C2', b'A1..A4')]
        query = lambda given: opened('dq') + b''.join(
            chosen('dq', *of) for of in zip(['dq.input', 'dq.criterion', 'dq.output'], given))
        part = [('dq', lambda: query(r.choice(ranges)) + self.taken()),
                ('dq', lambda: query(r.choice(ranges)[:2]) + self.taken()),
                ('dq', lambda: b'{QUERY}'),
                ('dt', lambda: b'{TABLE}'),
                ('dt', lambda: done('dt.1', *r.choice([(b'A1..A3', b'A1'), (b'A1..C1', b'A1'), (b'A1..B3', b'B3'),
                                                       (b'E1..F3', b'A2'), (b'B2', b'B2')]))),
                ('dt', lambda: done('dt.2', *r.choice([(b'A1..B3', b'C1', b'A2'), (b'A1..B3', b'A2', b'B1'),
                                                       (b'A1..A9', b'A1', b'A1'), (b'E1..F3', b'C2', b'A1')]))),
                ('ds', lambda: opened('ds') + chosen('ds', 'ds.go')),
                ('ds', lambda: opened('ds') + chosen('ds', 'ds.range', b'A1..B4')
                 + chosen('ds', 'ds.primary', self.key(((0, 0), (2, 0))),
                                                                                           b'A') + chosen('ds',
                                                                                                          'ds.go')),
                ('ds', lambda: opened('ds') + chosen('ds', 'ds.primary', b'A1', b'D') + chosen('ds', 'ds.go')),
                ('ds', lambda: opened('ds') + chosen('ds', 'ds.reset')),
                ('dq', lambda: opened('dq') + chosen('dq', 'dq.reset')),
                ('d.fill', lambda: done('d.fill', b'A1..A4', b'1', r.choice([b'0', b'0', b'1']), b'9')),
                ('d.distribution', lambda: done('d.distribution', b'A2..A4',
                                                r.choice([b'IV1..IV2', b'A8192', b'E8191..E8192', b'E1', b'E2..E2',
                                                          b'IU1'])))]
        part = [made for path, made in part if self.is_there(path)] or [lambda: b'']
        for _ in range(r.randrange(3, 9)):
            keys += r.choice(part)() + r.choice([b'{ESC 3}', b'{BREAK}', b'~{BREAK}'])
        return sheet, keys + self.seen((4, 1), (0, 1), (5, 1))

    def is_there(self, path):
        """Whether the menus show it."""
        return menu.is_shown('d') and menu.is_shown(path)

    def scene(self):
        """Any of these whose menus are shown."""
        many = [('d.fill', self.fill), ('ds', self.sort), ('ds', self.sort),
                *[('d.distribution', self.distribution)] * 2, *[('dq', self.query)] * 3,
                *[('dq', self.few_records)] * 3, *[('dt', self.table)] * 3, ('d', self.refused), ('d', self.refused)]
        return self.r.choice([made for path, made in many if self.is_there(path)] + [self.functions])()
