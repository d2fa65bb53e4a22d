"""Worksheet files with a chain of formulas in the first column, each of which adds one to the cell above."""
import sys

from counted import TOP

sys.path.insert(0, TOP)
from oracle.model import wk1
from oracle.make.edits import Desk


def make(folder, rows):
    """Writes the file R and the number of rows."""
    desk = Desk()
    cells = ["A1 - 1"] + [f"A{row} - +A{row - 1}+1" for row in range(2, rows + 1)]
    desk.edit(("x" + "\t".join(cells)).encode())
    with open(f"{folder}/R{rows}.WK1", "wb") as file:
        file.write(wk1.write(desk.sheet.snapshot()))
