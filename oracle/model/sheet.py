"""The worksheet: cells, edits, names, settings and recalculation.  Edits make no recalculation.  `calc` evaluates
every formula; which formulas are dirty is kept beside that by definition, and only their work is counted.

`Sheet` is a Look for evaluate: value, content, format, width, filled, and the attribute names."""

import os
from bisect import bisect_left

from . import adjust, fixed, formula
from .address import COLS, ROWS, area, cells_of, height_of, in_span, row_order, span_at, width_of
from .evaluate import evaluate, glance
from .names import Names
from .values import BLANK, C_BLANK, first_value, value_content

DEFAULT_FORMAT = 0xFF  # a cell that is absent has the format byte hex FF
CHECK = os.environ.get('ORACLE_CHECK') == '1'


class SheetFault(Exception):
    """kind 'Protected' (payload the cell), 'PushedOff' (the cell), 'OutOfSheet' (the span)."""

    def __init__(self, kind, payload):
        super().__init__(kind, payload)
        self.kind = kind
        self.payload = payload


class State:
    """What a cell holds: content, value and format byte."""

    def __init__(self, content=C_BLANK, value=BLANK, format=DEFAULT_FORMAT):
        self.content = content
        self.value = value
        self.format = format
        self._reads = None  # a cache of the spans that it reads, for the one cell where this state stands

    def copy(self):
        """A state of its own."""
        return State(self.content, self.value, self.format)

    def __eq__(self, other):
        return (isinstance(other, State) and self.content == other.content
                and self.value == other.value and self.format == other.format)

    def __repr__(self):
        return 'State(%r, %r, %#x)' % (self.content, self.value, self.format)


class Settings:
    """The settings of a sheet, which its file keeps."""

    FIELDS = ('automatic', 'passes', 'prefix', 'format', 'width', 'protection', 'pointer', 'order')

    def __init__(self):
        # a fresh sheet
        self.automatic = True
        self.passes = 1
        self.prefix = 0x27
        self.format = 0x71
        self.width = 9
        self.protection = False
        self.pointer = (0, 0)
        self.order = 'natural'

    def copy(self):
        """Settings of their own."""
        other = Settings()
        for f in self.FIELDS:
            setattr(other, f, getattr(self, f))
        return other

    def __eq__(self, other):
        return isinstance(other, Settings) and all(getattr(self, f) == getattr(other, f) for f in self.FIELDS)

    def __repr__(self):
        return 'Settings(%s)' % ', '.join('%s=%r' % (f, getattr(self, f)) for f in self.FIELDS)


class Saved:
    """What is kept of a sheet: cells, own widths, hidden columns, names, settings."""

    def __init__(self, cells=None, widths=None, hidden=None, names=None, settings=None):
        self.cells = {} if cells is None else cells
        self.widths = {} if widths is None else widths
        self.hidden = set() if hidden is None else hidden
        self.names = Names() if names is None else names
        self.settings = Settings() if settings is None else settings

    def copy(self):
        """What is kept, of its own."""
        return Saved({c: s.copy() for c, s in self.cells.items()}, dict(self.widths), set(self.hidden),
                     self.names.copy(), self.settings.copy())

    def __eq__(self, other):
        return (isinstance(other, Saved) and self.cells == other.cells and self.widths == other.widths
                and self.hidden == other.hidden and self.names == other.names
                and self.settings == other.settings)

    def last_used(self):
        """The last column and row that hold a cell, or None."""
        return last_used(self.cells)


class KeptState:
    """What undo keeps."""

    def __init__(self, saved, circular, stale):
        self.saved, self.circular, self.stale = saved, circular, stale


def last_used(cells):
    """The last column and the last row that hold a cell of the map, as one cell, or None."""
    if not cells:
        return None
    return (max(c for c, _ in cells), max(r for _, r in cells))


class Graph:
    """Which formula reads which, over all formulas: `formulas` in row order, `pre` and its reverse."""

    def __init__(self, cells):
        self.formulas = sorted((c for c, s in cells.items() if s.content[0] == 'formula'), key=row_order)
        self.keys = [row_order(c) for c in self.formulas]
        self.is_formula = set(self.formulas)
        self.reads = {}
        self.pre = {}
        for c in self.formulas:
            s = cells[c]
            if s._reads is None:
                s._reads = formula.reads(s.content[1], c)
            self.reads[c] = s._reads
            self.pre[c] = self.pre_of(s._reads)
        self.readers = {c: [] for c in self.formulas}
        for c in self.formulas:
            for d in self.pre[c]:
                self.readers[d].append(c)
        self.volatile = {c for c in self.formulas if formula.is_volatile(cells[c].content[1])}

    def pre_of(self, spans):
        """The formula cells among the reads, left to right, a span's cells in row order."""
        out = []
        for first, last in spans:
            if first == last:
                if first in self.is_formula:
                    out.append(first)
                continue
            lo = bisect_left(self.keys, (first[1], first[0]))
            hi = bisect_left(self.keys, (last[1], last[0] + 1))
            out.extend(c for c in self.formulas[lo:hi] if first[0] <= c[0] <= last[0])
        return out

    def reaching(self, seeds):
        """The seeds and every formula that reaches one of them (graph search over reads)."""
        found = set(seeds)
        todo = list(seeds)
        while todo:
            for reader in self.readers[todo.pop()]:
                if reader not in found:
                    found.add(reader)
                    todo.append(reader)
        return found

    def on_circles(self):
        """The formulas that reach themselves: those in a strongly connected part of more than one
        formula, or that read themselves (Tarjan's search with a list of its own)."""
        index, low, on_stack, stack, out = {}, {}, set(), [], set()
        for root in self.formulas:
            if root in index:
                continue
            work = [(root, iter(self.pre[root]))]
            index[root] = low[root] = len(index)
            stack.append(root)
            on_stack.add(root)
            while work:
                c, rest = work[-1]
                step = None
                for d in rest:
                    if d not in index:
                        step = d
                        break
                    if d in on_stack:
                        low[c] = min(low[c], index[d])
                if step is not None:
                    index[step] = low[step] = len(index)
                    stack.append(step)
                    on_stack.add(step)
                    work.append((step, iter(self.pre[step])))
                    continue
                work.pop()
                if work:
                    low[work[-1][0]] = min(low[work[-1][0]], low[c])
                if low[c] == index[c]:
                    part = []
                    while True:
                        d = stack.pop()
                        on_stack.discard(d)
                        part.append(d)
                        if d == c:
                            break
                    if len(part) > 1 or c in self.pre[c]:
                        out.update(part)
        return out

    def natural(self):
        """Natural order: the walk of all formula cells in row order, and whether CIRC was raised."""
        done, done_set, path, circ = [], set(), set(), False
        for root in self.formulas:
            if root in done_set:
                continue
            work = [(root, iter(self.pre[root]))]
            path.add(root)
            while work:
                c, rest = work[-1]
                step = None
                for d in rest:
                    if d in done_set:
                        continue
                    if d in path:
                        circ = True
                        continue
                    step = d
                    break
                if step is not None:
                    path.add(step)
                    work.append((step, iter(self.pre[step])))
                    continue
                work.pop()
                path.discard(c)
                done.append(c)
                done_set.add(c)
        return done, circ

    def order(self, which):
        """The formulas in the order of evaluation."""
        if which == 'columnwise':
            return sorted(self.formulas), False
        if which == 'rowwise':
            return list(self.formulas), False
        return self.natural()


class Sheet:
    """A worksheet."""

    def __init__(self):
        self.cells = {}
        self.widths = {}
        self.hidden = set()
        self.names = Names()
        self.settings = Settings()
        self.circ = False
        self.stale = False
        self.dirty = set()  # empty for a fresh sheet
        self._graph = None

    # ---- whole states ----

    @classmethod
    def restore(cls, saved):
        """A sheet of what was saved; all formulas are dirty."""
        sheet = cls()
        sheet._take(saved)
        return sheet

    def _take(self, saved):
        """Takes the place of all that there is; all formulas are dirty."""
        saved = saved.copy()
        self.cells, self.widths, self.hidden = saved.cells, saved.widths, saved.hidden
        self.names, self.settings = saved.names, saved.settings
        self._graph = None
        self.dirty = set(self.graph().formulas)

    def snapshot(self):
        """What is kept of the sheet now."""
        return Saved(self.cells, self.widths, self.hidden, self.names, self.settings).copy()

    def keep(self):
        """What undo keeps of the sheet now."""
        return KeptState(self.snapshot(), self.circ, self.stale)

    def put_back(self, kept):
        """No recalculation; all formulas dirty; with its pointer and marks."""
        self._take(kept.saved)
        self.circ = kept.circular
        self.stale = kept.stale

    # ---- looking ----

    def graph(self):
        """Which formula reads which, made anew behind each edit."""
        if self._graph is None:
            self._graph = Graph(self.cells)
        return self._graph

    def state(self, cell):
        """The state of a cell, also of one that is absent."""
        return self.cells.get(cell) or State()

    def value(self, cell):
        """The value of a cell."""
        s = self.cells.get(cell)
        return BLANK if s is None else s.value

    def content(self, cell):
        """The content of a cell."""
        s = self.cells.get(cell)
        return C_BLANK if s is None else s.content

    def format(self, cell):
        """The format byte of a cell."""
        s = self.cells.get(cell)
        return DEFAULT_FORMAT if s is None else s.format

    def width(self, col):
        """The width of a column, its own or the sheet's."""
        return self.widths.get(col, self.settings.width)

    def filled(self, span):
        """The cells of the span that aren't Blank, in row order."""
        if area(span) <= len(self.cells):
            return [c for c in cells_of(span) if self.content(c)[0] != 'blank']
        return sorted((c for c, s in self.cells.items() if in_span(c, span) and s.content[0] != 'blank'),
                      key=row_order)

    def value_of(self, cell):
        """None exactly where the cell has no state."""
        s = self.cells.get(cell)
        return None if s is None else s.value

    def text_of(self, cell):
        """The content as it would be typed, whole."""
        content = self.content(cell)
        if content[0] == 'label':
            return bytes([content[1]]) + content[2]
        if content[0] == 'number':
            return fixed.plain(content[1])
        if content[0] == 'formula':
            return formula.print_(content[1], cell, self.names)
        return b''

    def own_width(self, col):
        """The width of a column of its own, or None."""
        return self.widths.get(col)

    def last_used(self):
        """The last column and row that hold a cell, or None."""
        return last_used(self.cells)

    def is_hidden(self, col):
        """Whether a column is hidden."""
        return col in self.hidden

    def is_circular(self):
        """Whether the last recalculation met a circle."""
        return self.circ

    def is_stale(self):
        """Whether contents were edited since the last recalculation."""
        return self.stale

    # ---- refusals ----

    def _test_protected(self, cells):
        """It names the first written cell in row order whose bit 7 is set, while protection is on."""
        if self.settings.protection:
            for cell in cells:
                if self.format(cell) & 0x80:
                    raise SheetFault('Protected', cell)

    # ---- changing the map ----

    def _put(self, cell, content, value, fmt):
        """A state that is Blank with byte FF isn't kept."""
        if content == C_BLANK and fmt == DEFAULT_FORMAT:
            self.cells.pop(cell, None)
        else:
            self.cells[cell] = State(content, value, fmt)

    def _write(self, cell, content, fmt=None):
        """Puts a content with its first value, and a format byte or the cell's own."""
        self._put(cell, content, first_value(content), self.format(cell) if fmt is None else fmt)

    def _edited(self, written):
        """After a content edit: `written` is a span or a collection of cells."""
        self.stale = True
        self._graph = None
        graph = self.graph()
        if isinstance(written, tuple):  # a span
            span = written

            def is_written(cell):
                """Whether a cell is written."""
                return in_span(cell, span)

            def touches(s):
                """Whether a span that is read holds a written cell."""
                return not (s[1][0] < span[0][0] or span[1][0] < s[0][0]
                            or s[1][1] < span[0][1] or span[1][1] < s[0][1])
        else:
            cells = set(written)
            is_written = cells.__contains__

            def touches(s):
                if area(s) <= len(cells):
                    return any(c in cells for c in cells_of(s))
                return any(in_span(c, s) for c in cells)
        seeds = [c for c in graph.formulas if is_written(c) or any(touches(s) for s in graph.reads[c])]
        self.dirty = {c for c in self.dirty if c in graph.is_formula} | graph.reaching(seeds)

    def _all_dirty(self):
        """All formulas are dirty."""
        self._graph = None
        self.dirty = set(self.graph().formulas)

    # ---- edits ----

    def enter(self, cell, content):
        """Writes a content into a cell."""
        self._test_protected([cell])
        self._write(cell, content)
        self._edited((cell, cell))

    def enter_line(self, cell, content, scene, tally):
        """`enter` and, in Manual mode, the one evaluation of a formula."""
        self.enter(cell, content)
        if not self.settings.automatic and content[0] == 'formula':
            self.cells[cell].value = evaluate(content[1], cell, self, scene, tally)

    def erase(self, span):
        """Writes Blank and keeps the format byte."""
        self._test_protected(cells_of(span))
        for cell in [c for c in self.cells if in_span(c, span)]:
            self._write(cell, C_BLANK)
        self._edited(span)

    def copy_target(self, source, to):
        """The written span of a copy: a source of one column is repeated across the target's columns, a
        source of one row down its rows; otherwise one copy stands at the target's first cell."""
        width = width_of(to) if width_of(source) == 1 else width_of(source)
        height = height_of(to) if height_of(source) == 1 else height_of(source)
        return span_at(to[0], width, height)

    def copy_span(self, source, to):
        """Copy: contents and format bytes; the values are those that new contents have."""
        target = self.copy_target(source, to)
        if target is None:
            raise SheetFault('OutOfSheet', source)
        self._test_protected(cells_of(target))
        read = {c: self.state(c).copy() for c in cells_of(source)}  # all sources are read first
        w, h = width_of(source), height_of(source)
        for cell in cells_of(target):
            s = read[(source[0][0] + (cell[0] - target[0][0]) % w, source[0][1] + (cell[1] - target[0][1]) % h)]
            self._write(cell, s.content, s.format)
        self._edited(target)

    def _write_values(self, source, to, turn):
        """Writes the values of a span, which may be turned round its corner."""
        w, h = width_of(source), height_of(source)
        target = span_at(to, h, w) if turn else span_at(to, w, h)
        if target is None:
            raise SheetFault('OutOfSheet', source)
        self._test_protected(cells_of(target))
        read = {c: self.state(c).copy() for c in cells_of(source)}
        for c, s in read.items():
            dc, dr = c[0] - source[0][0], c[1] - source[0][1]
            cell = (to[0] + dr, to[1] + dc) if turn else (to[0] + dc, to[1] + dr)
            self._write(cell, value_content(s.value), s.format)
        self._edited(target)

    def value_span(self, source, to):
        """Range Value."""
        self._write_values(source, to, False)

    def transpose(self, source, to):
        """Range Transpose."""
        self._write_values(source, to, True)

    def shift(self, source, to):
        """Move: content, value and format byte; references and names follow."""
        target = span_at(to, width_of(source), height_of(source))
        if target is None:
            raise SheetFault('OutOfSheet', source)
        if self.settings.protection:  # the cells of the source are written too
            self._test_protected(sorted(set(cells_of(target)) | set(cells_of(source)), key=row_order))
        old = self.cells
        self.cells = {}
        for cell, s in old.items():
            if in_span(cell, source):
                new = adjust.move_place(cell, source, to)
            elif in_span(cell, target):
                continue  # overwritten
            else:
                new = cell
            content = s.content
            if content[0] == 'formula':
                content = ('formula', adjust.moved(content[1], cell, new, source, to))
            self.cells[new] = State(content, s.value, s.format)
        self._move_names(lambda span: adjust.span_moved(span, source, to))
        self.stale = True
        self._all_dirty()

    def _move_names(self, where):
        """Names follow their spans."""
        names = Names()
        for name, span in self.names.items():
            new = where(span)
            if new is not None:  # a name with a lost corner is dropped
                names.map[name] = new
        self.names = names

    def write(self, writes):
        """A list of (cell, content, format or None), in order."""
        writes = list(writes)
        if self.settings.protection:
            self._test_protected(sorted({w[0] for w in writes}, key=row_order))
        for cell, content, fmt in writes:
            self._write(cell, content, fmt)
        self._edited({w[0] for w in writes})

    def _lines(self, change):
        """Rows or columns are inserted or deleted, as a change tells."""
        kind, first, count = change
        rows = kind.endswith('Rows')
        if self.settings.protection:  # it names the first cell of the first line
            raise SheetFault('Protected', (0, first) if rows else (first, 0))
        if kind.startswith('Insert'):
            lost = [c for c, s in self.cells.items()
                    if s.content[0] != 'blank' and adjust.change_place(c, change) is None]
            if lost:
                raise SheetFault('PushedOff', min(lost, key=row_order))
        old = self.cells
        self.cells = {}
        for cell, s in old.items():
            new = adjust.change_place(cell, change)
            if new is None:
                continue
            content = s.content
            if content[0] == 'formula':
                content = ('formula', adjust.shifted(content[1], cell, new, change))
            self.cells[new] = State(content, s.value, s.format)
        if not rows:
            # own widths and hidden marks go with their columns, and a new column has neither
            place = lambda col: adjust.line_place(col, COLS, kind.startswith('Insert'), first, count)
            self.widths = {place(c): w for c, w in self.widths.items() if place(c) is not None}
            self.hidden = {place(c) for c in self.hidden if place(c) is not None}
        self._move_names(lambda span: adjust.span_shifted(span, change))
        self.stale = True
        self._all_dirty()

    def insert_rows(self, at, count):
        """Inserts rows before a row."""
        self._lines(('InsertRows', at, count))

    def insert_columns(self, at, count):
        """Inserts columns before a column."""
        self._lines(('InsertColumns', at, count))

    def delete_rows(self, at, count):
        """Deletes rows from a row on."""
        self._lines(('DeleteRows', at, count))

    def delete_columns(self, at, count):
        """Deletes columns from a column on."""
        self._lines(('DeleteColumns', at, count))

    # ---- changes that write no content ----

    def _set_byte(self, cell, fmt):
        """Gives a cell a format byte; a blank cell with byte FF isn't kept."""
        s = self.state(cell)
        if s.content == C_BLANK and fmt == DEFAULT_FORMAT:
            self.cells.pop(cell, None)
        elif cell in self.cells:
            self.cells[cell].format = fmt
        else:
            self.cells[cell] = State(C_BLANK, BLANK, fmt)

    def set_format(self, span, code):
        """Sets bits 0 to 6 and keeps bit 7."""
        for cell in cells_of(span):
            self._set_byte(cell, self.format(cell) & 0x80 | code & 0x7F)

    def set_protected(self, span, protected):
        """Sets bit 7 or takes it away."""
        for cell in cells_of(span):
            self._set_byte(cell, self.format(cell) & 0x7F | (0x80 if protected else 0))

    def set_width(self, col, width):
        """Gives a column a width of its own, or takes it away."""
        if width is None:
            self.widths.pop(col, None)
        else:
            self.widths[col] = width

    def create_name(self, name, span):
        """Names a span."""
        self.names.create(name, span)

    def delete_name(self, name):
        """Takes a name away."""
        self.names.delete(name)

    def reset_names(self):
        """Takes all names away."""
        self.names.reset()

    def set_settings(self, settings):
        """With the condition that the order stays."""
        assert settings.order == self.settings.order
        self.settings = settings.copy()

    def set_order(self, order):
        """Another order of evaluation makes all formulas dirty."""
        if order != self.settings.order:
            self.settings.order = order
            self.dirty = set(self.graph().formulas)

    def set_hidden(self, first, last, hidden):
        """Hides columns, or shows them again."""
        assert first <= last
        for col in range(first, last + 1):
            (self.hidden.add if hidden else self.hidden.discard)(col)

    # ---- recalculation ----

    def dirty_after(self):
        """The set after a recalculation."""
        graph = self.graph()
        if self.settings.order != 'natural':
            return set(graph.formulas)
        return graph.reaching(graph.volatile | graph.on_circles())

    def calc(self, scene, tally):
        """Every formula, along the whole order, for each pass.  The work is that of the dirty formulas."""
        graph = self.graph()
        order, circ = graph.order(self.settings.order)
        after = self.dirty_after()
        tally.raise_by(len(self.dirty) + (self.settings.passes - 1) * len(after))
        shadow = self._only_dirty(order, after, scene) if CHECK else None
        for _ in range(self.settings.passes):
            for c in order:
                self.cells[c].value = glance(self.cells[c].content[1], c, self, scene)
        if CHECK:
            for c in order:
                assert shadow[c] == self.cells[c].value, ('the dirty formulas alone give another value', c, shadow[c],
                                                          self.cells[c].value)
        self.circ = circ
        self.dirty = after
        self.stale = False
        if CHECK:
            self.check(scene)

    def _only_dirty(self, order, after, scene):
        """The values that re-evaluating the dirty formulas alone would give."""
        kept = {c: self.cells[c].value for c in order}
        now = self.dirty
        for _ in range(self.settings.passes):
            for c in order:
                if c in now:
                    self.cells[c].value = glance(self.cells[c].content[1], c, self, scene)
            now = after
        out = {c: self.cells[c].value for c in order}
        for c, v in kept.items():
            self.cells[c].value = v
        return out

    def check(self, scene):
        """What holds of the dirty formulas after a recalculation."""
        graph = self.graph()
        assert self.dirty <= graph.is_formula
        circles = graph.on_circles()
        for c in graph.formulas:
            if c not in self.dirty:
                assert not any(d in self.dirty for d in graph.pre[c]), ('reads a dirty formula and is not dirty', c)
                assert c not in graph.volatile and c not in circles, ('always dirty, and is not', c)
                assert self.cells[c].value == glance(self.cells[c].content[1], c, self,
                                                     scene), ('its value is old, and it is not dirty', c)

    def recalc_span(self, span, by_columns, scene, tally):
        """One pass over the span, by row order or by column and then by row; the work is the
        number of its formulas that are in the set, which stays; CIRC and stale stay."""
        graph = self.graph()
        cells = [c for c in graph.formulas if in_span(c, span)]
        if by_columns:
            cells.sort()
        tally.raise_by(sum(1 for c in cells if c in self.dirty))
        for c in cells:
            v = glance(self.cells[c].content[1], c, self, scene)
            if CHECK and c not in self.dirty:
                assert v == self.cells[c].value, ('its value is old, and it is not dirty', c)
            self.cells[c].value = v
