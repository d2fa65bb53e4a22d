"""Stored runs of the commands below Data and of macros, over sheets in files: what the lines of worked/data and
worked/macros tell, and those of `cases`."""
import functools
import re

from ..model.address import cell_text, height_of, read_span, span_at, span_text, width_of
from ..model.cli import run
from .cases import Blocks, Extractions, Macros, Queries, worked
from .data_keys import file_of
from .joined import Joined, joined

# the moment's function, in letters of either case
NOW = re.compile(rb'@now', re.IGNORECASE)
# where the records that match are extracted to
BESIDE = (52, 0)
# a macro that ends within so many steps is followed by those of other sheets, so many in a run, which takes so many
# steps
ENDING, MANY, MOST_STEPS = 200, 4, 1000


def asked_sheets(lines, asking):
    """The lines that make each sheet, and those that ask something of it, which begin with one of these letters."""
    made, asked = [], []
    for line in lines:
        if line[:1] in asking:
            asked.append(line)
            continue
        if asked:
            yield made, asked
        made, asked = [] if line == b':' else made + [line], []
    yield made, asked


# ---------------------------------------------------------------- data commands

def sort_keys(span, *keys):
    """A sort by one or two keys."""
    given = b''.join(item + key[1:] + b'~' + (b'D' if key[:1] == b'-' else b'A') + b'~'
                     for item, key in zip((b'P', b'S'), keys))
    return b'/DSR/DSD' + span + b'~' + given + b'G'


def extract_keys(item, output, given, criterion):
    """An extraction of all records or of those that differ."""
    return b'/DQI' + given + b'~C' + criterion + b'~O' + output + b'~' + item


def select_keys(given, criterion):
    """All fields of the records that match, beside them."""
    first, last = read_span(given)
    heads = span_text((first, (last[0], first[1])))
    beside = span_text(span_at(BESIDE, width_of((first, last)), max(height_of((first, last)), 2)))
    return b'/C' + heads + b'~' + cell_text(BESIDE) + b'~' + extract_keys(b'E', beside, given, criterion)


def data_keys(line):
    """The keys of what a line asks."""
    words = line[1:].split(b' ')
    return {b'f': lambda: b'/DF' + b''.join(word + b'~' for word in words), b's': lambda: sort_keys(*words),
            b'd': lambda: b'/DD' + b''.join(word + b'~' for word in words), b'm': lambda: select_keys(*words[1:]),
            b'q': lambda: select_keys(*words), b'r': lambda: b'/DQI' + words[0] + b'~C' + words[1] + b'~DD',
            b'e': lambda: extract_keys(b'E', *words), b'u': lambda: extract_keys(b'U', *words)}[line[:1]]()


def asked_data(made, asked, to):
    """A sheet that stands in a file, of which each command is asked anew."""
    name = to.put(file_of(made))
    for line in asked:
        to.retrieve(name)
        to.type(data_keys(line))
        to.save()


def data(r):
    """The worked lines, 500 fills, sorts and distributions of small sheets, 500 queries, and 400 extractions of all
    records and of those that differ."""
    lines = worked('data').splitlines() + Blocks(r).asked(500) + Queries(r).asked(500) + Extractions(r).asked(400)
    return joined(functools.partial(asked_data, *sheet) for sheet in asked_sheets(lines, b'fsdmqreu'))


# ---------------------------------------------------------------- macros

def macro_sheet(made, asked):
    """A sheet in a file whose macros have keys that start them, and these keys: the first macro first, and the last."""
    cells = [line[1:].split(b' ')[0] for line in asked]
    letters = [b'%c' % (65 + at) for at in range(len(cells))]
    held = file_of([b'+' + cell + b' \\' + letter for cell, letter in zip(cells, letters)]
                   + [NOW.sub(b'@ERR', line) for line in made])
    starts = [b'{ALT ' + letter + b'}{BREAK}' for letter in letters]
    return held, [b''.join(starts)] + [b''.join(starts[::-1])] * (len(starts) > 1)


def has_end(held, keys):
    """Whether the macros end, and soon."""
    return run(['--file', 'A', '--steps', str(ENDING)], keys, {'A.WK1': held}).status != 3


def macros(r):
    """The worked lines, and 2,000 macros over small sheets: mostly several sheets in a run, which a macro without an
    end ends."""
    to = Joined()
    for made, asked in asked_sheets(worked('macros').splitlines() + Macros(r).runs(2000), b'r'):
        held, orders = macro_sheet(made, asked)
        for keys in orders:
            to.retrieve(to.put(held))
            to.type(keys)
            if has_end(held, keys):
                to.save()
            else:
                yield to.run('--steps', str(MOST_STEPS))
                to = Joined()
        if len(to.folder) >= MANY:
            yield to.run()
            to = Joined()
    if to.keys:
        yield to.run()
