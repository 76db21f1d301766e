"""Matrices that one session makes of Matrix Market texts, which its server reads, and constants."""
from __future__ import annotations

import io
from typing import Dict, Optional, Tuple, Union

from .. import limits, scale as scales
from ..backends.server import ServerBackend
from ..errors import Refused, TextRefused, about, refusal
from ..integers import side
from ..matrix import Matrix
from ..metadata import BY_POSITIONS, NOTHING
from ..matrix_base import alias, as_constant
from ..types import Source
from . import arrays, files, matrix_market, matrix_text
from .edges import Layout
from .files import name_of
from .formats import Request
from .importers import DupOp, Sources
from .matrix_text import Triples
from .values import Rounding

# rows of ones that a session keeps, of one length each
KEPT_ONES = 4
LONG = 1 << 20                                     # longer ones are not kept


class SessionSources(Sources[Matrix]):
    """What makes matrices of one session, of texts and of triples."""

    backend: ServerBackend
    _ones: Dict[int, Matrix]

    def from_text(self, text: Union[bytes, str], name: Optional[str] = None) -> Matrix:
        r"""Make a matrix of a Matrix Market text that the server reads as it is.

        Parameters
        ----------
        text : str or bytes
            The text: coordinate, integer or pattern, general or symmetric. `mmread` reads other
            texts too.
        name : str, optional
            A name for the matrix.

        Returns
        -------
        Matrix
            The matrix, whose rows and columns are called by their positions.

        Raises
        ------
        TextRefused
            If the text breaks a rule (M1 to M12); it names the line.
        TooLarge
            If rows, columns or entries are more than 16,777,216 (M4), or in a symmetric text the
            entries more than 8,388,608.

        See Also
        --------
        mmread : From a file.
        Matrix.to_text : The other way.

        Notes
        -----
        No job.

        Examples
        --------
        >>> import spmat
        >>> s = spmat.Session()
        >>> text = "%%MatrixMarket matrix coordinate integer general\n1 2 1\n1 2 7\n"
        >>> s.from_text(text).to_triples()
        [(0, 1, 7)]
        """
        made = self._from_text(text, name)
        made.notes = BY_POSITIONS
        return made

    def _from_text(self, text: Union[bytes, str], name: Optional[str] = None) -> Matrix:
        text = text.encode() if isinstance(text, str) else bytes(text)
        made: Matrix = self.backend.matrix_type(self, self.backend.put_text(text, name), name)
        return made

    def _from(self, triples: Triples, dup_op: DupOp = None, name: Optional[str] = None) -> Matrix:
        return self._of_triples(self._folded(triples, dup_op), False, name)

    def _both_ways(self, triples: Triples, name: Optional[str] = None) -> Matrix:
        return self._of_triples(triples, True, name)

    def _of_triples(self, triples: Triples, symmetric: bool, name: Optional[str]) -> Matrix:
        try:
            return self._from_text(matrix_text.write(triples, ones=True, symmetric=symmetric), name)
        except TextRefused as refused:
            if refused.rule != 'M8' or refused.at is None:
                raise
            raise arrays.repeated(triples, refused.at - matrix_text.HEAD_LINES - 1,
                               symmetric) from None

    def mmread(self, source: Source, *, values: bool = True, scale: Optional[float] = None,
               max_bytes: Optional[int] = None, dup_op: DupOp = None,
               name: Optional[str] = None) -> Matrix:
        """Read a Matrix Market file.

        What the server reads is sent as it is. `real` values, `array`, `skew-symmetric`, and with
        `dup_op` positions that repeat are made so by the client.

        Parameters
        ----------
        source : path or file
            A path (also .gz and .bz2), or a file opened in binary.
        values : bool, default True
            False reads no values, so that each entry is 1, also of `complex` files. Else values are
            whole numbers.
        scale : number, optional
            Values are multiplied by it and rounded to the nearest. Without it they have to be
            whole.
        max_bytes : int, optional
            The most bytes that a packed file may have once it is unpacked; 268,435,456 unless
            given.
        dup_op : operator, optional
            Combines the values of a repeated position.
        name : str, optional
            A name for the matrix.

        Returns
        -------
        Matrix
            The matrix.

        Raises
        ------
        ValueError
            If the file is no such text, or a value isn't whole; it names the file and the line.
        TextRefused
            If the text breaks a rule of the server's, such as that a position repeats (M8) and
            no `dup_op` folds it. It is a ValueError.
        TooLarge
            If rows, columns or entries are more than the server takes (M4). It is a ValueError.
        ImportError
            If pandas is missing (extra `files`), and the file isn't one that the server reads.

        See Also
        --------
        read_graph : A file of any format.
        Matrix.mmwrite : Writes it.

        Notes
        -----
        With `dup_op` 1 job and 1 run, where any position repeats; else no job. LAGraph:
        `LAGraph_MMRead`. In python-graphblas `io.mmread`. `read_graph` reads other formats too.

        Examples
        --------
        >>> import spmat
        >>> s = spmat.Session()
        >>> s.full(2, 2, 7).mmwrite("a.mtx")
        >>> s.mmread("a.mtx").to_triples()
        [(0, 0, 7), (0, 1, 7), (1, 0, 7), (1, 1, 7)]
        """
        request = Request('mtx', Layout(values=values, scale=scale))
        scales.of_read(scale, dup_op)
        return self._market(name_of(source), files.load(source, max_bytes), request, dup_op,
                            name)

    def _market(self, file: str, text: bytes, request: Request, dup_op: DupOp,
                name: Optional[str]) -> Matrix:
        scale = request.layout.scale
        values = matrix_market.Values(request.layout.values, scale,
                                      None if scale is None else Rounding(scale))
        try:
            made, kind = self._of_market(text, values, dup_op, name)
        except TextRefused as refused:
            if (refused.rule == 'M8' and refused.command != matrix_market.COMMAND
                and not matrix_market.is_plain(text)):
                # the file's line, not that of the text that was made of it
                found = matrix_market.find_repeated(io.BytesIO(text))
                raise (found or refused).of_file(file) from None
            said = '' if text.split()[:1] == [b'%%MatrixMarket'] else matrix_market.NO_MARKET
            told = refused.hinting('M8', arrays.DUP_OP).of_file(file,
                                                             said if refused.rule == 'M1' else '')
            raise about(told, *(('dup_op',) if refused.rule == 'M8' else ())) from None
        except Refused as refused:
            raise refused.of_file(file) from None
        made.notes = kind.notes if dup_op is None else kind.notes._replace(weighted=True)
        return made

    def _of_market(self, text: bytes, values: matrix_market.Values, dup_op: DupOp,
                   name: Optional[str]) -> Tuple[Matrix, matrix_market.Kind]:
        """The matrix of a text, as it is sent or made here, and what its first line says."""
        as_it_is = (dup_op is None and matrix_market.is_plain(text)
                    and values == matrix_market.Values())
        if as_it_is:
            made = self.from_text(text, name)      # which refuses a first line of any other form
            return made, matrix_market.kind_of(text)
        triples, symmetry = matrix_market.parse(text, values)
        unit = scales.of_read(values.scale, dup_op)
        folded = self._folded(triples, dup_op)
        made = self.from_text(matrix_text.write(matrix_text.mirrored(folded, symmetry)), name)
        made.notes = made.notes._replace(unit=unit)
        return made, matrix_market.kind_of(text, values)

    def full(self, nrows: int, ncols: int, value: int = 1, *, name: Optional[str] = None) -> Matrix:
        """A matrix with one value everywhere.

        Parameters
        ----------
        nrows, ncols : int
            The sizes.
        value : int, default 1
            The value of each entry, a whole number of 64 bits.
        name : str, optional
            A name for the matrix.

        Returns
        -------
        Matrix
            A matrix of `nrows` rows and `ncols` columns, with an entry at each place.

        Raises
        ------
        TooLarge
            If a size, or the number of entries, is more than 16,777,216 (M4).
        ValueError
            If a size is below 0, or the value isn't a whole number of 64 bits.

        See Also
        --------
        identity : On the diagonal alone.
        ones : One row.

        Notes
        -----
        No job. GraphBLAS: `assign` of a number to all places.

        Examples
        --------
        >>> import spmat
        >>> s = spmat.Session()
        >>> s.full(2, 2, 7).to_triples()
        [(0, 0, 7), (0, 1, 7), (1, 0, 7), (1, 1, 7)]
        """
        nrows, ncols = side(nrows, 0, 'nrows'), side(ncols, 0, 'ncols')
        if nrows * ncols > limits.MOST_SIDE:
            raise refusal('M4', detail='%d entries' % (nrows * ncols))
        return as_constant(self._from(arrays.full(nrows, ncols, value), name=name))

    def identity(self, n: int, value: int = 1, *, name: Optional[str] = None) -> Matrix:
        """A square matrix with one value on its diagonal.

        Parameters
        ----------
        n : int
            The number of rows, and of columns.
        value : int, default 1
            The value of each entry, a whole number of 64 bits.
        name : str, optional
            A name for the matrix.

        Returns
        -------
        Matrix
            A matrix of n rows and n columns, with an entry at each (i, i).

        Raises
        ------
        TooLarge
            If n is more than 16,777,216 (M4).
        ValueError
            If n is below 0, or the value isn't a whole number of 64 bits.

        See Also
        --------
        full : One value everywhere.
        Matrix.diag : A column on the diagonal.

        Notes
        -----
        No job. GraphBLAS: `Matrix_diag` of a column with one value.

        Examples
        --------
        >>> import spmat
        >>> s = spmat.Session()
        >>> s.identity(3).to_triples()
        [(0, 0, 1), (1, 1, 1), (2, 2, 1)]
        """
        at = arrays.indices(side(n, 0, 'size'))
        return as_constant(self._from(arrays.checked(at, at, value, n, n), name=name))

    def ones(self, ncols: int) -> Matrix:
        """A row of ones, which folds columns.

        Parameters
        ----------
        ncols : int
            The number of columns.

        Returns
        -------
        Matrix
            A matrix of 1 row, with 1 in each column.

        Raises
        ------
        TooLarge
            If there are more than 16,777,216 columns (M4).
        ValueError
            If the number is below 0.

        See Also
        --------
        full : Any size and value.

        Notes
        -----
        No job. The session keeps the rows of the last 4 lengths, but for those longer than
        1,048,576, and gives another matrix of them each time.

        Examples
        --------
        >>> import spmat
        >>> s = spmat.Session()
        >>> s.ones(3).to_triples()
        [(0, 0, 1), (0, 1, 1), (0, 2, 1)]
        """
        with self.backend.lock():
            ncols = side(ncols, 0, 'ncols')
            row = self._ones.pop(ncols, None)
            row = self.full(1, ncols) if row is None else row
            if ncols <= LONG and row.handle.backend is self.backend:
                self._ones[ncols] = row
            while len(self._ones) > KEPT_ONES:
                del self._ones[next(iter(self._ones))]
            return alias(row, NOTHING)
