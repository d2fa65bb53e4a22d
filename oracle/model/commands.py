"""What the menus' commands do, once all is answered."""
from . import address, names as names_mod, fixed, query, blocks, wk1, report
from .evaluate import Scene
from .keys import fold
from .menu import prompts
from .outside import Failed, file_name
from .sheet import Sheet, SheetFault, State
from .values import value_content, first_value

# the most bytes of a worksheet's file that is read
MOST_BYTES = 67_108_864

MESSAGES = {
    1: 'Invalid address', 2: 'Invalid number', 3: 'Invalid name', 4: 'Name not found', 5: 'Protected cell',
    6: 'File does not exist', 8: 'Disk error', 9: 'Cells would leave the sheet', 10: 'Range leaves the sheet',
    11: 'Step is zero', 12: 'Invalid table', 13: 'Input cell in table', 14: 'Query range missing',
    15: 'Field not found', 16: 'Output range full', 17: 'Invalid file name', 18: 'Sort setting missing',
    19: 'Line too long', 20: 'Key outside the range', 21: 'Nothing to undo', 22: 'Print range missing',
    23: 'Page too small', 24: 'Report too long', 25: 'Worksheet too large',
}


class CommandError(Exception):
    """A message of the manual, or of this project, by its number."""

    def __init__(self, number, fault=None):
        super().__init__(number)
        self.number = number
        self.fault = fault                   # message 7 tells which fault of a worksheet file

    def message(self):
        """The message."""
        if self.number == 7:
            return ('File refused F%d' % self.fault).encode()
        return MESSAGES[self.number].encode()


def sheet_error(f):
    """The message of a sheet's fault."""
    return CommandError({'Protected': 5, 'PushedOff': 9, 'OutOfSheet': 10}[f.kind])


class PrintSettings:
    """The defaults are left 4, right 76, top 2, bottom 2, length 66, and empty texts."""

    def __init__(self):
        self.header = b''
        self.footer = b''
        self.left, self.right, self.top, self.bottom, self.length = 4, 76, 2, 2, 66


class Desk:
    """A sheet and what the commands remember beside it."""

    def __init__(self, sheet):
        self.sheet = sheet
        self.input = self.criterion = self.output = self.sort = None
        self.primary = self.secondary = None           # (col, descending)
        self.last_query = None                         # 'extract', 'unique', 'delete'
        self.last_table = None                         # (1, span, cell) or (2, span, down, across)
        self.file_name = None
        self.print_range = None
        self.print_file = None
        self.print_set = PrintSettings()


# ---------------------------------------------------------------- answers

def span_of(line, desk):
    """A typed answer is an address, a span or a range name, refused with message 1 or 4."""
    try:
        return address.read_span(line)
    except address.NotAnAddress:
        pass
    span = desk.sheet.names.find(line)
    if span is not None:
        return span
    try:
        names_mod.check(line)
    except names_mod.NameFault:
        raise CommandError(1)                # neither address, span nor fit to be a name
    raise CommandError(4)


def whole_of(line, low, high):
    """A whole number between two, or message 2."""
    v = fixed.read_decimal(line)
    if isinstance(v, str) or v % 1_000_000 or not low <= v // 1_000_000 <= high:
        raise CommandError(2)
    return v // 1_000_000


def decimal_of(line):
    """A number, or message 2."""
    v = fixed.read_decimal(line)
    if isinstance(v, str):
        raise CommandError(2)
    return v


def test_line(ask, line, desk):
    """The test of one answer, refused with message 1, 2, 3, 4 or 17."""
    if ask in ('R', 'C'):
        span_of(line, desk)
    elif ask[0] == 'N':
        whole_of(line, ask[1], ask[2])
    elif ask == 'D':
        decimal_of(line)
    elif ask == 'T:name' or ask == 'T:old':
        try:
            names_mod.check(line)
        except names_mod.NameFault:
            raise CommandError(3)
        if ask == 'T:old' and desk.sheet.names.find(line) is None:
            raise CommandError(4)
    elif ask == 'T:order':                   # A or D; message 2 for another letter (folded)
        if fold(line) not in (b'A', b'D'):
            raise CommandError(2)
    elif ask[0] == 'F':
        if file_name(line, ask[1]) is None:
            raise CommandError(17)


def test_answer(action, answers, desk):
    """The test of the last answer."""
    asks = [ask for _, ask in prompts(action) if ask not in ('replace', 'confirm')]
    test_line(asks[len(answers) - 1], answers[-1], desk)


def the_file(action, answers):
    """The file that the answers name, or None."""
    for (_, ask), line in zip(prompts(action), answers):
        if ask[0] == 'F':
            return file_name(line, ask[1])
    return None


def needs_choice(action, answers, choice, shelf):
    """For Confirm true; for Replace true exactly where the shelf has the file.  A failed call is message 8."""
    if choice == 'confirm':
        return True
    try:
        return shelf.has(the_file(action, answers))
    except Failed:
        raise CommandError(8)


# ---------------------------------------------------------------- the finished command

FORMATS = {'general': 0x71, 'date1': 0x72, 'date2': 0x73, 'date3': 0x74, 'text': 0x75, 'hidden': 0x76,
           'reset': 0x7F}
DETAILED = {'fixed': 0x00, 'currency': 0x20, 'percent': 0x30, 'comma': 0x40}
PREFIX = {'left': ord("'"), 'right': ord('"'), 'center': ord('^')}


def set_settings(sheet, **fields):
    """Changes settings of a sheet."""
    s = sheet.settings.copy()
    for k, v in fields.items():
        setattr(s, k, v)
    sheet.set_settings(s)


def state_of(sheet, cell):
    """The state of a cell, also of one that is absent."""
    st = sheet.cells.get(cell)
    return st if st is not None else State(('blank',), ('blank',), 0xFF)


def recalc(desk, scene, tally):
    """In Automatic mode one recalculation follows each content edit."""
    if desk.sheet.settings.automatic:
        desk.sheet.calc(scene, tally)


def act(action, answers, desk, shelf, scene, tally):
    """'changed', 'looked' or 'quit'; CommandError, with the sheet unchanged."""
    deed = Deed(action, answers, desk, shelf, scene, tally)
    try:
        return (DEEDS.get(action) or HEADS[deed.head])(deed)
    except SheetFault as f:
        raise sheet_error(f)
    except Failed:
        raise CommandError(8)


class Deed:
    """A command that is carried out: its action's name, whose part behind the point is its tail, the answers, and what
    it works on. Each command of DEEDS, or of HEADS for all actions that begin alike, answers 'changed', 'looked' or
    'quit'."""

    def __init__(self, action, answers, desk, shelf, scene, tally):
        self.action, self.answers, self.desk = action, answers, desk
        self.shelf, self.scene, self.tally = shelf, scene, tally
        self.sheet = desk.sheet
        self.head, _, self.tail = action.partition('.')

    def span(self, at):
        """The span of an answer."""
        return span_of(self.answers[at], self.desk)

    def cell(self, at):
        """For a cell its first cell counts."""
        return self.span(at)[0]

    def whole(self, at, low, high):
        """The whole number of an answer."""
        return whole_of(self.answers[at], low, high)

    def changed(self):
        """What follows each edit of contents."""
        recalc(self.desk, self.scene, self.tally)
        return 'changed'

    def write(self, writes):
        """A list of writes, and what follows it."""
        self.sheet.write(writes)
        return self.changed()

    def set(self, **fields):
        """Settings of the sheet."""
        set_settings(self.sheet, **fields)
        return 'looked'

    def looks(self):
        """Nothing is done."""
        return 'looked'

    def quits(self):
        """The run ends."""
        return 'quit'

    # ------------------------------------------------------------ Worksheet

    def sheet_format(self):
        """Worksheet Global Format."""
        return self.set(format=FORMATS[self.tail] if self.tail in FORMATS else DETAILED[self.tail]
                        | self.whole(0, 0, 15))

    def sheet_prefix(self):
        """Worksheet Global Label-Prefix."""
        return self.set(prefix=PREFIX[self.tail])

    def sheet_width(self):
        """Worksheet Global Column-Width."""
        return self.set(width=self.whole(0, 1, 240))

    def sheet_recalculation(self):
        """Worksheet Global Recalculation; an order change is no content edit."""
        if self.tail in ('automatic', 'manual'):
            return self.set(automatic=self.tail == 'automatic')
        if self.tail == 'iteration':
            return self.set(passes=self.whole(0, 1, 50))
        self.sheet.set_order(self.tail)
        return 'looked'

    def sheet_protection(self):
        """Worksheet Global Protection."""
        return self.set(protection=self.tail == 'enable')

    def lines_change(self):
        """Worksheet Insert and Delete, of rows and columns."""
        sheet, (first, last) = self.sheet, self.span(0)
        inserts = self.head == 'wi'
        if self.tail == 'row':
            (sheet.insert_rows if inserts else sheet.delete_rows)(first[1], last[1] - first[1] + 1)
        else:
            (sheet.insert_columns if inserts else sheet.delete_columns)(first[0], last[0] - first[0] + 1)
        return self.changed()

    def column_width(self):
        """Worksheet Column Set-Width."""
        self.sheet.set_width(self.sheet.settings.pointer[0], self.whole(0, 1, 240))
        return 'looked'

    def column_reset(self):
        """Worksheet Column Reset-Width."""
        self.sheet.set_width(self.sheet.settings.pointer[0], None)
        return 'looked'

    def columns_hide(self):
        """Worksheet Column Hide and Display."""
        first, last = self.span(0)
        self.sheet.set_hidden(first[0], last[0], self.tail == 'hide')
        return 'looked'

    def sheet_erase(self):
        """Worksheet Erase."""
        self.desk.sheet = Sheet()
        self.scene = Scene(self.desk.sheet.settings.pointer, self.scene.now)
        return self.changed()

    # ------------------------------------------------------------ Range

    def range_format(self):
        """Range Format."""
        if self.tail in FORMATS:
            byte, span = FORMATS[self.tail], self.span(0)
        else:
            byte, span = DETAILED[self.tail] | self.whole(0, 0, 15), self.span(1)
        self.sheet.set_format(span, byte)
        return 'looked'

    def range_prefix(self):
        """Range Label-Prefix: the labels alone are written."""
        there = [(cell, self.sheet.cells.get(cell)) for cell in address.cells_of(self.span(0))]
        return self.write([(cell, ('label', PREFIX[self.tail], st.content[2]), None)
                           for cell, st in there if st is not None and st.content[0] == 'label'])

    def range_erase(self):
        """Range Erase."""
        self.sheet.erase(self.span(0))
        return self.changed()

    def name_create(self):
        """Range Name Create."""
        self.sheet.create_name(self.answers[0], self.span(1))
        return 'looked'

    def name_delete(self):
        """Range Name Delete."""
        self.sheet.delete_name(self.answers[0])
        return 'looked'

    def names_reset(self):
        """Range Name Reset."""
        self.sheet.reset_names()
        return 'looked'

    def range_protect(self):
        """Range Protect and Unprotect."""
        self.sheet.set_protected(self.span(0), self.tail == 'protect')
        return 'looked'

    def range_value(self):
        """Range Value."""
        self.sheet.value_span(self.span(0), self.cell(1))
        return self.changed()

    def range_transpose(self):
        """Range Transpose."""
        self.sheet.transpose(self.span(0), self.cell(1))
        return self.changed()

    def copy(self):
        """Copy."""
        self.sheet.copy_span(self.span(0), self.span(1))
        return self.changed()

    def move(self):
        """Move."""
        self.sheet.shift(self.span(0), self.cell(1))
        return self.changed()

    # ------------------------------------------------------------ Print and Data

    def prints(self):
        """The commands of Print."""
        return print_command(self.action, self.answers, self.desk, self.shelf, self.scene)

    def data_fill(self):
        """Data Fill."""
        span, numbers = self.span(0), [decimal_of(line) for line in self.answers[1:4]]
        return self.write(of_block(blocks.fill, span, *numbers))

    def data_distribution(self):
        """Data Distribution."""
        return self.write(of_block(blocks.distribution, self.span(0), self.span(1), self.sheet))

    def data_table(self):
        """Data Table 1 and 2."""
        span, inputs = self.span(0), [self.cell(at) for at in range(1, int(self.tail) + 1)]
        return table((int(self.tail), span, *inputs), self.desk, self.scene, self.tally)

    def table_reset(self):
        """Data Table Reset."""
        self.desk.last_table = None
        return 'looked'

    def sort_range(self):
        """Data Sort Data-Range."""
        self.desk.sort = self.span(0)
        return 'looked'

    def sort_key(self):
        """Data Sort Primary-Key and Secondary-Key."""
        setattr(self.desk, self.tail, (self.cell(0)[0], fold(self.answers[1]) == b'D'))
        return 'looked'

    def sort_reset(self):
        """Data Sort Reset."""
        self.desk.sort = self.desk.primary = self.desk.secondary = None
        return 'looked'

    def sort_go(self):
        """Data Sort Go."""
        desk = self.desk
        if desk.sort is None or desk.primary is None:
            raise CommandError(18)
        keys = [key for key in (desk.primary, desk.secondary) if key is not None]
        if not all(desk.sort[0][0] <= col <= desk.sort[1][0] for col, _ in keys):
            raise CommandError(20)
        return self.write(blocks.sort_rows(desk.sort, keys, self.sheet))

    def query_range(self):
        """Data Query Input, Criterion and Output."""
        setattr(self.desk, self.tail, self.span(0))
        return 'looked'

    def query_reset(self):
        """Data Query Reset: the three ranges; the last query stays."""
        self.desk.input = self.desk.criterion = self.desk.output = None
        return 'looked'

    def query(self):
        """Data Query Extract, Unique and Delete."""
        return run_query(self.tail, self.desk, self.scene, self.tally)

    # ------------------------------------------------------------ File

    def the_file(self):
        """The file that an answer names."""
        return the_file(self.action, self.answers)

    def saved_file(self):
        """The worksheet of the named file; a call that fails is message 8."""
        data = self.shelf.get(self.the_file())
        if data is None:
            raise CommandError(6)
        try:
            return wk1.read(data)
        except wk1.Wk1Fault as f:
            raise CommandError(7, f.number)

    def file_retrieve(self):
        """File Retrieve recalculates in both modes; the pointer is where it then stands."""
        self.desk.sheet = Sheet.restore(self.saved_file())
        self.desk.sheet.calc(Scene(self.desk.sheet.settings.pointer, self.scene.now), self.tally)
        return 'changed'

    def file_save(self):
        """File Save; the name is kept for the next one."""
        name = self.the_file()
        self.shelf.put(name, written(self.sheet.snapshot()))
        self.desk.file_name = name
        return 'looked'

    def file_erase(self):
        """File Erase."""
        if not self.shelf.remove(self.the_file()):
            raise CommandError(6)
        return 'looked'

    def file_xtract(self):
        """File Xtract Formulas and Values."""
        name = self.the_file()
        self.shelf.put(name, written(xtract(self.sheet, self.span(1), self.tail == 'values')))
        return 'looked'

    def file_combine(self):
        """File Combine Copy, Add and Subtract: from the pointer on, what the file's cells hold or their numbers."""
        saved, (col, row) = self.saved_file(), self.sheet.settings.pointer
        filled = [cell for cell in sorted(saved.cells, key=lambda cell: (cell[1], cell[0]))
                  if is_combined(self.tail, saved.cells[cell])]
        if any(cell[0] + col > 255 or cell[1] + row > 8191 for cell in filled):
            raise CommandError(10)
        placed = (((cell[0] + col, cell[1] + row), saved.cells[cell]) for cell in filled)
        writes = (combined(self.tail, state_of(self.sheet, to).content, to, st) for to, st in placed)
        return self.write([write for write in writes if write is not None])


def is_combined(kind, st):
    """Whether a cell of a file is combined: filled, and a number where numbers are added."""
    return st.content[0] != 'blank' and (kind == 'copy' or st.value[0] == 'num')


def combined(kind, here, to, st):
    """What Combine writes into a cell with a content, or none."""
    if kind == 'copy':
        return to, st.content, st.format
    if here[0] not in ('number', 'blank'):
        return None
    base = here[1] if here[0] == 'number' else 0
    total = base + (st.value[1] if kind == 'add' else -st.value[1])
    return to, ('formula', ('call', 0x20, [])) if abs(total) > 999_999_999_999_999 else ('number', total), None


# what carries out the actions that begin so, and the others
HEADS = {'wgf': Deed.sheet_format, 'wgl': Deed.sheet_prefix, 'wgr': Deed.sheet_recalculation,
         'wgp': Deed.sheet_protection,
         'wi': Deed.lines_change, 'wd': Deed.lines_change, 'rf': Deed.range_format, 'rl': Deed.range_prefix,
         'fc': Deed.file_combine,
         'fx': Deed.file_xtract, 'p': Deed.prints, 'po': Deed.prints, 'pm': Deed.prints}
DEEDS = {'q.yes': Deed.quits, 'nothing': Deed.looks, 'wgc': Deed.sheet_width, 'wc.set': Deed.column_width,
         'wc.reset': Deed.column_reset,
         'wc.hide': Deed.columns_hide, 'wc.display': Deed.columns_hide, 'we.yes': Deed.sheet_erase,
         'r.erase': Deed.range_erase,
         'rn.create': Deed.name_create, 'rn.delete': Deed.name_delete, 'rn.reset': Deed.names_reset,
         'r.protect': Deed.range_protect,
         'r.unprotect': Deed.range_protect, 'r.value': Deed.range_value, 'r.transpose': Deed.range_transpose,
         'copy': Deed.copy,
         'move': Deed.move, 'f.retrieve': Deed.file_retrieve, 'f.save': Deed.file_save, 'f.erase': Deed.file_erase,
         'd.fill': Deed.data_fill,
         'd.distribution': Deed.data_distribution, 'dt.1': Deed.data_table, 'dt.2': Deed.data_table,
         'dt.reset': Deed.table_reset,
         'ds.range': Deed.sort_range, 'ds.primary': Deed.sort_key, 'ds.secondary': Deed.sort_key,
         'ds.reset': Deed.sort_reset,
         'ds.go': Deed.sort_go, 'dq.input': Deed.query_range, 'dq.criterion': Deed.query_range,
         'dq.output': Deed.query_range,
         'dq.reset': Deed.query_reset, 'dq.extract': Deed.query, 'dq.unique': Deed.query, 'dq.delete': Deed.query}


def of_block(call, *given):
    """What a call on blocks of cells answers, its faults told as errors."""
    try:
        return call(*given)
    except blocks.BlockFault as f:
        raise block_error(f)


def block_error(f):
    """The message of a fault on blocks."""
    if f.kind == 'Sheet':
        return sheet_error(f.payload)
    return CommandError({'ZeroStep': 11, 'NoTable': 12, 'InputInTable': 13}[f.kind])


def query_error(f):
    """The message of a query's fault."""
    return CommandError({'NoFieldRow': 14, 'FieldAbsent': 15, 'OutputFull': 16}[f.kind])


def run_query(kind, desk, scene, tally):
    """Data Query Extract, Unique or Delete, which the next Query repeats."""
    sheet = desk.sheet
    if desk.input is None or desk.criterion is None or (kind != 'delete' and desk.output is None):
        raise CommandError(14)
    try:
        if kind == 'delete':
            writes = query.delete(desk.input, desk.criterion, sheet, scene)
        else:
            writes = query.extract(desk.input, desk.criterion, desk.output, kind == 'unique', sheet, scene)
    except query.QueryFault as f:
        raise query_error(f)
    sheet.write(writes)
    recalc(desk, scene, tally)
    desk.last_query = kind
    return 'changed'


class TableBench:
    """Bench over the desk's sheet."""

    def __init__(self, sheet, scene, tally):
        self.sheet, self.scene, self.tally = sheet, scene, tally
        self.old = {}

    def try_input(self, cell, value):
        """Enters a value and recalculates."""
        if cell not in self.old:
            self.old[cell] = state_of(self.sheet, cell).content
        self.sheet.enter(cell, value_content(value))
        self.sheet.calc(self.scene, self.tally)

    def answer(self, cell):
        """The value of a cell, or None."""
        st = self.sheet.cells.get(cell)
        return None if st is None else st.value

    def give_back(self):
        """Puts the old contents back and recalculates."""
        for cell, content in self.old.items():
            self.sheet.enter(cell, content)
        self.old = {}
        self.sheet.calc(self.scene, self.tally)


def table(what, desk, scene, tally):
    """Data Table 1 or 2: its span and input cells."""
    sheet = desk.sheet
    span, inputs = what[1], what[2:]
    (c0, r0), (c1, r1) = span
    if c0 == c1 or r0 == r1:                 # B2
        raise CommandError(12)
    for i in inputs:                         # B3 names the first given
        if c0 <= i[0] <= c1 and r0 <= i[1] <= r1:
            raise CommandError(13)
    if sheet.settings.protection:            # before the first input is entered
        results = [(c, r) for r in range(r0 + 1, r1 + 1) for c in range(c0 + 1, c1 + 1)]
        for c in list(inputs) + results:
            if state_of(sheet, c).format & 0x80:
                raise CommandError(5)
    make = blocks.table_one if what[0] == 1 else blocks.table_two
    sheet.write(of_block(make, span, *inputs, TableBench(sheet, scene, tally)))
    sheet.calc(scene, tally)                 # one recalculation follows in either mode
    desk.last_table = what
    return 'changed'


def written(saved):
    """The bytes of a worksheet's file, or message 25, before the shelf is asked, where it would not be read again."""
    data = wk1.write(saved)
    if len(data) > MOST_BYTES:
        raise CommandError(25)
    return data


def xtract(sheet, span, values):
    """Xtract: the cells of R moved to A1, under Values as Range Value writes them, with the settings and without
    names, own widths and hidden columns.  Formulas are moved as the edit Move moves (references follow)."""
    w, h = span[1][0] - span[0][0] + 1, span[1][1] - span[0][1] + 1
    cells = {}
    if values:
        for c in address.cells_of(span):
            st = state_of(sheet, c)
            content = value_content(st.value)
            if content[0] == 'blank' and st.format == 0xFF:
                continue
            cells[(c[0] - span[0][0], c[1] - span[0][1])] = State(content, first_value(content), st.format)
    else:
        other = Sheet.restore(sheet.snapshot())
        set_settings(other, protection=False)
        other.shift(span, (0, 0))
        for c, st in other.cells.items():
            if c[0] < w and c[1] < h:
                cells[c] = State(st.content, st.value, st.format)
    saved = sheet.snapshot()
    saved.cells = cells
    saved.widths = {}
    saved.hidden = set()
    saved.names = names_mod.Names()
    return saved


def print_command(action, a, desk, shelf, scene):
    """The commands of Print."""
    s = desk.print_set
    if action == 'p.file':
        desk.print_file = the_file(action, a)
    elif action == 'p.range':
        desk.print_range = span_of(a[0], desk)
    elif action == 'po.header':
        s.header = a[0]
    elif action == 'po.footer':
        s.footer = a[0]
    elif action == 'po.length':
        s.length = whole_of(a[0], 10, 100)
    elif action in ('pm.left', 'pm.right'):
        setattr(s, action[3:], whole_of(a[0], 0, 240))
    elif action in ('pm.top', 'pm.bottom'):
        setattr(s, action[3:], whole_of(a[0], 0, 10))
    elif action == 'p.go':                   # messages 22, 23, 24 and 8, in this order
        if desk.print_range is None:
            raise CommandError(22)
        try:
            data = report.report(desk.print_range, s, desk.sheet.snapshot(), scene.now)
        except report.PrintFault as f:
            raise CommandError({'PageTooSmall': 23, 'TooLong': 24}[f.kind])
        shelf.put(desk.print_file, data)
    return 'looked'
