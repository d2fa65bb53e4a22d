"""Worksheet files of cells of one kind, or of each kind in every fourth column, from A1 on and row by row, or of cells
of one kind in other places and orders."""
import struct

FIRST, LAST = bytes.fromhex("000002000604"), bytes.fromhex("01000000")  # the records of the beginning and the end
# a sum of A1, which is absolute, and of the cell below and right of the formula's
CODE = bytes.fromhex("010000000001018001800903")


def double(number):
    """The bits of 65,536 and so many sixty-fourths."""
    return 65536 + number / 64


def record(form, code):
    """What packs a cell's record: its type, its length, its format byte, its place and what the cell holds."""
    packed = struct.Struct("<HHBHH" + form)
    return lambda place, *held: packed.pack(code, packed.size - 4, 0xFF, *place, *held)


INTEGER, NUMBER, LABEL, FORMULA = record("H", 0x0D), record("d", 0x0E), record("22s", 0x0F), record("dH12s", 0x10)


def integer(place, number):
    """A whole number of 0 to 29,999."""
    return INTEGER(place, number % 30000)


def decimal(place, number):
    """A number of eight bytes."""
    return NUMBER(place, double(number))


def label(place, number):
    """A label of 20 bytes."""
    return LABEL(place, b"'order %07d is due\0" % number)


def labels_of(length):
    """Packs labels of so many bytes, the last of which are digits."""
    packed = record(f"{length + 2}s", 0x0F)
    return lambda place, number: packed(place, b"'%s\0" % (b"%d" % number).rjust(length, b"x")[-length:])


def formula(place, number):
    """A formula with a number as its value."""
    return FORMULA(place, double(number), len(CODE), CODE)


# what the columns hold by turns
KINDS = {"integers": [integer], "numbers": [decimal], "labels": [label], "formulas": [formula],
         "mixed": [integer, decimal, label, formula]}
# labels of one byte, of so few that they have a block of their own, and of more
LENGTHS = {f"labels of {length}": [labels_of(length)] for length in (1, 14, 40)}
# the columns and rows of other shapes, in the order of their records
SHAPES = {"one row of 256": [(column, 0) for column in range(256)],
          "20 rows of 8": [(column, row) for row in range(20) for column in range(8)],
          "8 columns of 1,000 by columns": [(column, row) for column in range(8) for row in range(1000)],
          "a column from the bottom up": [(0, row) for row in reversed(range(8192))],
          "256 cells, each 32 rows lower": [(column, 32 * column) for column in range(256)],
          "256 cells, far apart": [(4 * column, 64 * row) for row in range(4) for column in range(64)]}


def make(path, kind, rows, columns):
    """Writes a file whose cells fill so many rows and columns, and tells its bytes."""
    held = (KINDS | LENGTHS)[kind]
    cells = [(column, held[column % len(held)]) for column in range(columns)]
    with open(path, "wb") as file:
        file.write(FIRST)
        for row in range(rows):
            file.write(b"".join(cell((column, row), row * 256 + column) for column, cell in cells))
        file.write(LAST)
        return file.tell()


def make_at(path, kind, places):
    """Writes a file of cells of one kind in these places, and tells its bytes."""
    (cell,) = (KINDS | LENGTHS)[kind]
    with open(path, "wb") as file:
        file.write(FIRST + b"".join(cell(place, number) for number, place in enumerate(places)) + LAST)
        return file.tell()
