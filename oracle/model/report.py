"""Reports."""

from . import cellformat, dates, formula
from .address import area, cells_of
from .sheet import State

MOST = 67_108_864


class PrintFault(Exception):
    """Kind 'PageTooSmall' (message 23) or 'TooLong' (message 24)."""

    def __init__(self, kind):
        super().__init__(kind)
        self.kind = kind


class PrintSettings:
    """The settings of a report."""

    def __init__(self, header=b'', footer=b'', left=4, right=76, top=2, bottom=2, length=66):
        self.header, self.footer = header, footer
        self.left, self.right, self.top, self.bottom, self.length = left, right, top, bottom, length

    def copy(self):
        """Settings of their own."""
        return PrintSettings(self.header, self.footer, self.left, self.right, self.top, self.bottom, self.length)


def running_line(template, w, page, now):
    """A header or footer: three parts, cut at its first two `|`, laid over W blanks in this order."""
    parts = template.split(b'|', 2)
    parts += [b''] * (3 - len(parts))
    line = bytearray(b' ' * w)
    for place, part in enumerate(parts):
        full = b''
        for b in part:
            if b == 0x23:  # '#': the page's number
                full += str(page).encode()
            elif b == 0x40:  # '@': the moment's day as Date 1 shows it
                full += b'' if now.day is None else dates.date1(now.day)
            else:
                full += bytes([b])
        full = full[:w]
        start = (0, (w - len(full)) // 2, w - len(full))[place]
        line[start:start + len(full)] = full
    return bytes(line)


def row_line(saved, columns, widths, row):
    """A row's cells as the screen shows them, where labels run over blank cells of the band."""
    settings = saved.settings
    line = b''
    running = b''  # what is left of a text that runs on
    for col, width in zip(columns, widths):
        cell = (col, row)
        state = saved.cells.get(cell) or State()
        if state.content[0] == 'blank' and running:
            line += running[:width].ljust(width)
            running = running[width:]
            continue
        own = b''
        if state.content[0] == 'formula':
            own = formula.print_(state.content[1], cell, saved.names)[:240]
        line += cellformat.shown(state.content, state.value, state.format, width, settings.format, own)
        whole = cellformat.runs_on(state.content, state.value, state.format, width, settings.format)
        running = whole[width:] if whole else b''
    return line


def bands_of(span, saved, width):
    """The columns of a span that are shown, with the widths that their cells get, in bands of at most a width; a lone
    wide column's cells are cut to it."""
    bands, used = [], 0
    for col in range(span[0][0], span[1][0] + 1):
        if col in saved.hidden:
            continue
        own = saved.widths.get(col, saved.settings.width)
        if not bands or used + own > width:
            bands.append([])
            used = 0
        bands[-1].append((col, own))
        used += own
    return bands


class Pages:
    """A report as it grows, page by page."""

    def __init__(self, set_, saved, now):
        self.set, self.saved, self.now = set_, saved, now
        self.width = set_.right - set_.left
        self.height = set_.length - set_.top - set_.bottom - 6
        self.out, self.page = bytearray(), 0

    def put(self, *lines):
        """Lines behind the left margin, without the spaces at their ends."""
        for line in lines:
            if line.strip(b' '):
                self.out.extend((b' ' * self.set.left + line).rstrip(b' '))
            self.out.extend(b'\r\n')

    def add(self, band, rows):
        """A page of a band."""
        self.page += 1
        cols, widths = [col for col, _ in band], [width for _, width in band]
        text = lambda text: running_line(text, self.width, self.page, self.now)
        self.put(*[b''] * self.set.top, text(self.set.header), b'', b'')
        self.put(*(row_line(self.saved, cols, widths, row)[:self.width] for row in rows),
                 *[b''] * (self.height - len(rows)))
        self.put(b'', b'', text(self.set.footer), *[b''] * self.set.bottom)
        if len(self.out) > MOST:
            raise PrintFault('TooLong')


def report(span, set_, saved, now):
    """The bytes of a report: its bands one behind another, each in pages of so many rows."""
    if set_.top + set_.bottom + 6 >= set_.length or set_.right <= set_.left:
        raise PrintFault('PageTooSmall')
    pages, rows = Pages(set_, saved, now), range(span[0][1], span[1][1] + 1)
    for band in bands_of(span, saved, pages.width):
        for at in range(0, len(rows), pages.height):
            pages.add(band, rows[at:at + pages.height])
    return bytes(pages.out)
