"""Matrices: two sizes, and words at some positions."""
from typing import Dict, Mapping, Optional

Row = Dict[int, int]        # from columns to words, by ascending column


class Matrix:
    """`cells` has the rows that hold something, by ascending row. Rows and columns count from 0."""

    def __init__(self, rows: int, columns: int, cells: Mapping[int, Row]) -> None:
        self.rows = rows
        self.columns = columns
        self.cells = {i: dict(sorted(cells[i].items())) for i in sorted(cells) if cells[i]}
        self.entries = sum(len(row) for row in self.cells.values())

    def row(self, i: int) -> Row:
        return self.cells.get(i, {})

    def has_shape_of(self, other: 'Matrix') -> bool:
        return (self.rows, self.columns) == (other.rows, other.columns)


def lets_pass(mask: Optional[Matrix], i: int, j: int) -> bool:
    """Whether a position is in a mask, or there is none."""
    return mask is None or j in mask.row(i)
