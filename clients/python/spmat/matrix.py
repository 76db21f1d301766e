"""Matrices: jobs on them, and their entries in and out, in the order of the GraphBLAS.

What a job or a method is made of stands in modules of its own: `result_metadata` (names, units),
`submatrices` and `updates` (parts), `reductions` (aggregators), `io` (files and tables)."""
from __future__ import annotations

# pylint takes a mask that may be None for None
# pylint: disable=invalid-unary-operand-type

import functools
import heapq
import itertools
import math
import os
import weakref
from fractions import Fraction
from typing import (TYPE_CHECKING, Any, Dict, Iterable, Iterator, List, Mapping, Optional, Sequence,
                    Set, Tuple, Type, TypeVar, Union, cast)

import numpy

from . import display, integers, oversized_jobs, result_metadata, scale as scales, submatrices
from .backends.protocol import Backend, Handle, Job, OneVisit
from .errors import BudgetExceeded, SpmatError, TooLarge, refusal, warn_user
from .extras import import_extra
from .indexing import WHAT, check_once, choose_places, find_place, pair_of
from .io import files, writers
from .io.arrays import by_columns, dense, to_compressed, to_dicts
from .job_operators import (RINGS, Ring, applied, kind_of_function, of_form, of_index, ring_of)
from .limits import MOST_SIDE
from .mask import Mask, MaskLike, as_mask, structure
from .matrix_base import MatrixBase, alias, common_session, not_a_matrix, with_unit
from .metadata import (BY_POSITIONS, COLUMNS, ELEMENTWISE, NOTHING, ROWS, Axis, Metadata, Nodes,
                       Unnamed, VertexUnit, abbreviate_names, along, check_one_kind, even,
                       given_axis, hint_of, is_line, joined, list_of_names, of_copy, vertices_of)
from .operators import Op, Operator, Semiring, binary, indexunary, unary
from .reductions import aggregate, aggregate_all, is_aggregator
from .submatrices import (BOTH, find_first, find_greatest, move, take, value_at, value_of)
from .types import Array, DType, Exact, NodesLike, Number, Path, Source, Target, Vertex
from .unsupported_syntax import Signs, refusing

if TYPE_CHECKING:
    from .session import Session

Self = TypeVar('Self', bound='Matrix')
# What stands on the diagonal of a matrix that is multiplied by others without changing them.
NEUTRAL: Dict[str, int] = {'plus_times': 1, 'lor_land': 1, 'any_pair': 1, 'min_plus': 0,
                           'max_plus': 0}
# whose products are associative also where sums wrap
EXACT = ('plus_times', 'lor_land', 'any_pair')
POSITIONAL: Dict[str, Any] = {kind + shift: (kind.startswith('second'),
                                             'rowindex' if kind.endswith('i') else 'colindex',
                                             int(shift or 0))
                              for kind in ('firsti', 'firstj', 'secondi', 'secondj')
                              for shift in ('', '1')}
ORDERS = {'rowwise': True, 'C': True, 'columnwise': False, 'F': False}     # numpy's letters too
# operators that count rows or columns from 0
COUNTING: Dict[str, int] = {'rowle': ROWS, 'rowgt': ROWS, 'colle': COLUMNS, 'colgt': COLUMNS}


class MatrixType(type):
    """The class of matrices, which says of what python-graphblas has there where it is here."""

    def __getattr__(cls, name: str) -> Any:
        if name.startswith('from_') or name == 'io':
            raise AttributeError(
                'a matrix belongs to a session, which makes it: with spmat.Session() as s: s.%s(..)'
                % (name if name != 'io' else 'read_graph'))
        raise AttributeError('type object %r has no attribute %r' % (cls.__name__, name))


class Matrix(Signs, MatrixBase, metaclass=MatrixType):
    """A matrix that the session holds, or the result of a job that waits. Sessions make them;
    nothing changes one.

    Attributes
    ----------
    nrows, ncols : int
        The sizes, together `shape`.
    name : str
        Its name.
    session : Session
        The session that holds it.
    notes : Metadata
        What is known beside its entries: names of vertices, the unit, what it was read from.

    Notes
    -----
    Vectors are matrices of one column.

    Each method that takes an operator queues one job, unless it says otherwise. It answers at once
    with the matrix that it will be, and costs no run. Where an operand or the mask is itself a
    job's result that waits, the queue runs first. So it does where a result's entries, their
    number, or a mask other than A.S are asked for. Every `mask=` takes A.S, A.V, ~A.S, ~A.V or a
    mask of these; a matrix is A.S, with a MaskWarning. All but A.S cost more jobs, as `S`, `V` and
    `without` say. Operators are Operators, built-in names, or functions.

    A stored whole number x stands for x / `unit`, 1 unless the matrix was read with `scale=`;
    results have units. UnitsDiffer where two that differ meet: `rescale` gives one matrix the
    other's. Stored numbers wrap at 64 bits. docs/files.md says more.

    Refusals are raised where the method is called: DimensionMismatch (J5, J9), DomainMismatch (J4),
    OperatorRefused, BudgetExceeded, TooLarge (J7, J8), OutOfMemory. Wrong shapes and kinds are
    found here, before anything is sent."""

    session: 'Session'

    # -- what it is

    def __init__(self, session: 'Session', handle: Handle, name: Optional[str] = None) -> None:
        if not isinstance(handle, Handle):
            raise TypeError('a session makes matrices: s.from_triples(triples, nrows, ncols), '
                            's.from_dense(array), s.read_graph(path)')
        self.session, self.handle = session, handle
        self.nrows, self.ncols = handle.shape
        self.notes = NOTHING
        self.kept = handle.facts                   # what algorithms found out about its entries
        self.name = name or ('at the client' if handle.is_deferred else handle.key)
        handle.holders.append(weakref.ref(self))

    def __reduce__(self) -> Any:
        raise TypeError(
            'a matrix belongs to its session: A.dup() copies it, s.save(path, A=A) keeps it with '
            'names and scale, and to_coo() can be pickled')

    def __repr__(self) -> str:
        known = self.handle
        state = ('never made' if known.lost is not None else 'queued: .wait() runs it'
                 if known.waits else '%d entries' % (known.nvals or 0))
        return '<%s %s %dx%d, %s%s>' % ('Vector' if self.is_vector else 'Matrix', self.name,
                                        self.nrows, self.ncols, state, self._describe_values())

    def _repr_html_(self) -> str:
        """What a notebook shows: sizes, what is known of it, and a corner with values. A matrix
        that waits is run for it. Of many entries the server is asked for the corner."""
        about = ['%s &times; %s' % tuple(format(side, ',') for side in self.shape)]
        are_vertices = self.notes.value_names is not None
        facts = {'directed': self.directed is True, 'undirected': self.directed is False,
                 'unit %s' % self.unit: self.unit != 1 and not are_vertices,
                 'values are vertices': are_vertices,
                 'named': self.row_nodes is not None or self.column_nodes is not None}
        known = [fact for fact, is_so in facts.items() if is_so]
        try:
            about.append('%s entries' % format(self.nvals, ','))
            held = self if self.nvals <= display.FEW else submatrices.take_cells(
                self, *(range(min(side, display.CORNER)) for side in self.shape))
            cells = {(i, j): self._describe_value(value) for i, j, value in held.to_triples()
                     if max(i, j) < display.CORNER}
        except SpmatError as fault:
            return display.headed('Matrix', about + known, display.text_of(fault))
        return display.headed('Matrix', about + known, display.corner(
            self.row_nodes or range(self.nrows), self.column_nodes or range(self.ncols), cells))

    def _describe_value(self, stored: int) -> str:
        """What a stored number stands for, with six digits."""
        value = scales.to_decimal(stored, self.unit)
        return '%.6g' % value if isinstance(value, float) else scales.to_text(stored, self.unit)

    def _describe_values(self) -> str:
        """What `repr` says of the values, and of the file that the matrix was read from."""
        vertices = self.notes.value_names
        values = (', values are vertices: ' + abbreviate_names(vertices) if vertices is not None
                  else ', unit %s' % self.unit if self.unit != 1 else '')
        return values + ('; ' + self.notes.source if self.notes.source else '')

    @property
    def in_one_place(self) -> bool:
        """Whether one session has it whole.

        Returns
        -------
        bool
            False of blocks, which no session has whole.

        See Also
        --------
        nvals : The number of entries.

        Examples
        --------
        >>> import spmat
        >>> s = spmat.Session()
        >>> A = s.from_triples([(0, 0, 1), (0, 2, -2), (1, 2, 3)], 2, 3)
        >>> A.in_one_place
        True
        """
        return self.handle.backend.in_one_place

    @property
    def waits(self) -> bool:
        """Whether this is the result of a job that hasn't run.

        Returns
        -------
        bool
            False of a matrix that is there.

        See Also
        --------
        new : The result, once it is there.
        Session.run : Run all jobs that wait.

        Examples
        --------
        >>> import spmat
        >>> s = spmat.Session()
        >>> A = s.from_triples([(0, 0, 1), (0, 2, -2), (1, 2, 3)], 2, 3)
        >>> B = A.apply("abs")
        >>> B.waits, B.new().waits
        (True, False)
        """
        return self.handle.waits

    @property
    def nvals(self) -> int:
        """The number of entries.

        Returns
        -------
        int
            How many entries are stored, also those whose value is 0.

        See Also
        --------
        shape : Rows and columns.
        reduce_scalar : A fold of the values.

        Notes
        -----
        Runs the queue where this matrix waits; nothing is sent otherwise.

        Examples
        --------
        >>> import spmat
        >>> s = spmat.Session()
        >>> A = s.from_triples([(0, 0, 1), (0, 2, -2), (1, 2, 3)], 2, 3)
        >>> A.nvals
        3
        """
        return self.session.backend.count(self.handle)

    def wait(self: Self) -> Self:
        """This matrix, once it is there.

        Returns
        -------
        Matrix
            This matrix itself.

        See Also
        --------
        waits : Whether a result waits for a run.
        Session.run : Run all jobs that wait.

        Notes
        -----
        Runs the queue where this matrix waits. In python-graphblas `wait`, and `new` of an
        expression.

        Examples
        --------
        >>> import spmat
        >>> s = spmat.Session()
        >>> A = s.from_triples([(0, 0, 1), (0, 2, -2), (1, 2, 3)], 2, 3)
        >>> A.apply("abs").new().waits
        False
        """
        self.session.backend.wait(self.handle)
        return self

    new = wait

    @property
    def price(self) -> Optional[int]:
        """Of a job's result the most steps that the job could take.

        Returns
        -------
        int or None
            None of a matrix that is no job's result.

        See Also
        --------
        steps : What the job took.
        price : The cost of a whole call.
        Session.limit : Bound the cost of a block.

        Notes
        -----
        A job that waits to be sent is sent.

        Examples
        --------
        >>> import spmat
        >>> s = spmat.Session()
        >>> A = s.from_triples([(0, 0, 1), (0, 2, -2), (1, 2, 3)], 2, 3)
        >>> B = A.apply("abs")
        >>> B.price
        12
        """
        if self.handle.price is None and self.handle.waits:
            self.session.backend.flush(self.handle)
        return self.handle.price

    @property
    def steps(self) -> Optional[int]:
        """Of a job's result the steps that the job took.

        Returns
        -------
        int or None
            None until the job ran, and of a matrix that is no job's result.

        See Also
        --------
        price : The most that it could take.
        Session.budget : What is left.

        Examples
        --------
        >>> import spmat
        >>> s = spmat.Session()
        >>> A = s.from_triples([(0, 0, 1), (0, 2, -2), (1, 2, 3)], 2, 3)
        >>> B = A.apply("abs").new()
        >>> B.steps
        10
        """
        return self.handle.steps

    @property
    def S(self) -> Mask:
        """The mask of the positions that are stored here, whatever their values.

        Returns
        -------
        Mask
            `~A.S` is the mask of the positions that aren't stored.

        See Also
        --------
        V : The positions whose value isn't 0.
        without : What a mask leaves out.

        Notes
        -----
        It costs no job. `~A.S` takes 5 jobs and 4 runs more than no mask (`without`).

        Examples
        --------
        >>> import spmat
        >>> s = spmat.Session()
        >>> A = s.from_triples([(0, 0, 1), (0, 2, -2), (1, 2, 3)], 2, 3)
        >>> B = s.full(2, 3, 7)
        >>> B.select("nonzero", mask=A.S).to_triples()
        [(0, 0, 7), (0, 2, 7), (1, 2, 7)]
        >>> B.select("nonzero", mask=~A.S).nvals
        3
        """
        return Mask(self)

    @property
    def V(self) -> Mask:
        """The mask of the positions whose value isn't 0.

        Returns
        -------
        Mask
            `~A.V` is the mask of all other positions.

        See Also
        --------
        S : The positions that are stored.

        Notes
        -----
        It takes 1 job and 1 run more than `A.S`; `~A.V` takes 1 job more than `~A.S`. ValueError
        where values are vertices, none of which is 0.

        Examples
        --------
        >>> import spmat
        >>> s = spmat.Session()
        >>> A = s.from_triples([(0, 0, 0), (0, 1, 5)], 1, 2)
        >>> A.dup(mask=A.V).to_triples()
        [(0, 1, 5)]
        """
        if self.notes.value_names is not None:
            raise ValueError('values that are vertices are none of them 0: write c.S for where the '
                             'column has one, or c.select("==", name).S')
        return Mask(self, value=True)

    @property
    def nodes(self) -> Optional[Sequence[Any]]:
        """The names of the vertices.

        A column has those of its rows, and a row those of its columns. A square matrix has them
        where its rows and columns have the same. Results carry the names of what they are made of.
        They can be set: `G.nodes = names`.

        Returns
        -------
        sequence or None
            It equals the list of the names, and can't be changed: `list(G.nodes)` can. None where
            there are none, or rows and columns have different ones (`row_nodes`, `column_nodes`).

        Raises
        ------
        ValueError
            If a name that is set stands twice, or has an end of line in it.

        See Also
        --------
        row_nodes : The names of the rows.
        index : The row of a name.
        align : Matrices on one list of names.

        Examples
        --------
        >>> import spmat
        >>> s = spmat.Session()
        >>> G = s.from_edgelist([("Ann", "Bob", 5), ("Bob", "Cid", 7)])
        >>> G.nodes
        ['Ann', 'Bob', 'Cid']
        """
        if is_line(self.shape, self.notes):
            return self.notes.names(along(self.shape, self.notes))
        axis = vertices_of(self.notes)
        return None if axis is None else axis.names

    @nodes.setter
    def nodes(self, names: NodesLike) -> None:
        self.notes = self.notes.with_nodes(names if names is None or isinstance(names, Nodes)
                                           else list_of_names(names), self.shape)

    @property
    def row_nodes(self) -> Optional[Sequence[Any]]:
        """The names of the rows.

        They can be set as `nodes`.

        Returns
        -------
        sequence or None
            None where they have none. It can't be changed.

        See Also
        --------
        column_nodes : The names of the columns.
        nodes : Both, where they are one list.

        Examples
        --------
        >>> import spmat
        >>> s = spmat.Session()
        >>> B = s.from_edgelist([("Ann", "tea"), ("Bob", "jam")], bipartite=True)
        >>> B.row_nodes
        ['Ann', 'Bob']
        """
        return self.notes.rows

    @row_nodes.setter
    def row_nodes(self, names: Optional[Iterable[Vertex]]) -> None:
        axis = given_axis(names, self.nrows)._replace(kind=self.notes.row_kind)
        self.notes = self.notes.with_axes(axis, self.notes.axis(COLUMNS))

    @property
    def column_nodes(self) -> Optional[Sequence[Any]]:
        """The names of the columns.

        They can be set as `nodes`.

        Returns
        -------
        sequence or None
            None where they have none. It can't be changed.

        See Also
        --------
        row_nodes : The names of the rows.
        nodes : Both, where they are one list.

        Examples
        --------
        >>> import spmat
        >>> s = spmat.Session()
        >>> B = s.from_edgelist([("Ann", "tea"), ("Bob", "jam")], bipartite=True)
        >>> B.column_nodes
        ['tea', 'jam']
        """
        return self.notes.columns

    @column_nodes.setter
    def column_nodes(self, names: Optional[Iterable[Vertex]]) -> None:
        axis = given_axis(names, self.ncols)._replace(kind=self.notes.column_kind)
        self.notes = self.notes.with_axes(self.notes.axis(ROWS), axis)

    @property
    def directed(self) -> Optional[bool]:
        """Whether the matrix is that of a directed graph.

        Returns
        -------
        bool or None
            False where the graph is known to be undirected, so that entries stand both ways with
            one value. True where it was read as a directed one, None where nothing is known. Set it
            where you know more than the matrix does.

        See Also
        --------
        T : The transpose.
        undirected : The graph without directions.

        Examples
        --------
        >>> import spmat
        >>> s = spmat.Session()
        >>> s.from_edgelist([(0, 1)], directed=False).directed
        False
        """
        return self.notes.directed

    @directed.setter
    def directed(self, directed: Optional[bool]) -> None:
        self.notes = self.notes._replace(directed=directed)

    @property
    def unit(self) -> int:
        """What the stored whole numbers are parts of: x stands for x / unit.

        It can be set, `A.unit = 100`, which changes no stored number, so that each stands for
        another one.

        Returns
        -------
        int
            100 for what was read with `scale=100`, and 1 unless anything is known. Of times it is
            the label "s" or the like, which counts as a number of 1.

        Raises
        ------
        ValueError
            If what is set is neither a whole number above 0 nor a unit of times.

        See Also
        --------
        rescale : Another unit.

        Examples
        --------
        >>> import spmat
        >>> s = spmat.Session()
        >>> prices = s.from_edgelist([("Ann", "Bob", 1.25)], scale=100)
        >>> prices.unit, prices["Ann", "Bob"]
        (100, 1.25)
        """
        unit: int = self.notes.unit
        return unit

    @unit.setter
    def unit(self, unit: Union[Exact, str]) -> None:
        self.notes = self.notes._replace(unit=scales.as_unit(unit))

    def rescale(self: Self, unit: Union[Exact, str], *, exact: bool = True) -> Self:
        """The same numbers in another unit: 1.25 of 125 stored hundredths is 1250 thousandths after
        `A.rescale(1000)`.

        Parameters
        ----------
        unit : number or str
            What the new stored whole numbers are parts of, such as 1000; of times "D", "s", "ms",
            "us" or "ns".
        exact : bool
            False rounds values that have more digits than the new unit, halves to the even one;
            times are cut down.

        Returns
        -------
        Matrix
            A new matrix; this one where it has the unit already.

        Raises
        ------
        ValueError
            If a value would lose digits, unless `exact=False`; where one would be beyond 64
            bits.

        See Also
        --------
        unit : What the numbers are parts of.

        Notes
        -----
        3 jobs and 1 run; 2 more jobs and 1 more run where a unit is no multiple of the other.

        Examples
        --------
        >>> import spmat
        >>> s = spmat.Session()
        >>> A = s.from_dense([[1.25]], scale=100)
        >>> A.rescale(1000).unit, A.rescale(1000)[0, 0]
        (1000, 1.25)
        """
        before, wanted = self.unit, scales.as_unit(unit)
        if isinstance(before, VertexUnit):
            scales.refuse_vertices('vertices have no other unit')
        factor = Fraction(wanted, before)
        if isinstance(wanted, scales.TimeUnit):
            if not isinstance(before, scales.TimeUnit):
                raise ValueError('the values are no times yet, so that they have no other unit of '
                                 'times: A.unit = %r says that they are' % wanted)
            factor = Fraction(before.size, wanted.size)
        if factor == 1:
            return with_unit(self, wanted)
        (more, less), made = factor.as_integer_ratio(), cast(Any, with_unit(self, 1))
        if exact and less != 1:
            _check_digits(made, less, before, wanted)
        _check_fits(made, factor, wanted)
        if less != 1 and (exact or isinstance(wanted, scales.TimeUnit)):
            made = made.apply('floordiv', right=less)
        elif less != 1:
            made, more = made.apply(_rounding(more, less)), 1
        if more != 1:
            made = made.apply('times', right=more)
        made.notes = self.notes._replace(source='', unit=wanted)
        return cast(Self, made)

    def index(self, node: Vertex, axis: int = 0) -> int:
        """The row of a vertex, or with `axis=1` the column.

        It is the place of its name where rows have names, else the number itself. Where no name is
        a number, nor text of one such as "7", numbers are places as well.

        Parameters
        ----------
        node : name or int
            The vertex.
        axis : int, default 0
            0 for the row, 1 for the column.

        Returns
        -------
        int
            The place, from 0.

        Raises
        ------
        ValueError
            If there is no such vertex.

        See Also
        --------
        nodes : The names.
        get : The value of one entry.

        Examples
        --------
        >>> import spmat
        >>> s = spmat.Session()
        >>> G = s.from_edgelist([("Ann", "Bob", 5), ("Bob", "Cid", 7)])
        >>> G.index("Bob")
        1
        """
        if axis not in (0, 1):
            raise ValueError('axis is 0 for a row or 1 for a column, not %s' % integers.shown(axis))
        return find_place(self, node, int(axis))

    # -- products

    def mxm(self, other: 'Matrix', op: Ring = 'plus_times', *, mask: MaskLike = None,
            parts: bool = False, associative: Optional[bool] = None,
            name: Optional[str] = None) -> 'Matrix':
        """The product over a semiring.

        At (i, j) stand the terms mul(A(i, k), B(k, j)) for k stored in both, folded by add with
        ascending k.

        Parameters
        ----------
        other : Matrix
            As many rows as this one has columns.
        op : str, Semiring or pair, default 'plus_times'
            Any two binary operators: by name "min_plus", of one's own a pair (add, mul) or
            `semiring(add, mul)`. In "any_secondi" the terms are positions: "firsti", "firstj",
            "secondi" and "secondj" of A(i, k) and B(k, j). They count from 1 with a "1" behind the
            name, and take 1 job and 1 run more.
        mask : Mask, optional
            Where the result may have entries.
        parts : bool, default False
            Whether a product that is too large is made by halves of this matrix's rows, and their
            halves. Each halving takes 2 jobs and 2 runs more.
        associative : bool, optional
            The caller's word that ADD is associative. Row blocks then send `other` block by block;
            see `spmat_blocks.BlockMatrix`.
        name : str, optional
            What the result is called.

        Returns
        -------
        Matrix
            A matrix with this one's rows and the other's columns.

        Raises
        ------
        TypeError
            If `other` is no matrix.
        DimensionMismatch
            If the other has not as many rows as this one has columns, or the mask not the
            result's shape.
        TooLarge
            Of more than 16,777,216 multiplications (in the rows of which the mask stores
            something), or a price above 2^32 steps, unless `parts` is set.

        See Also
        --------
        mxv : With a column.
        vxm : A row with a matrix.
        power : Several times with itself.
        ewise_mult : Entry by entry.

        Notes
        -----
        1 job. In the GraphBLAS GrB_mxm; here `product`.

        Examples
        --------
        >>> import spmat
        >>> s = spmat.Session()
        >>> G = s.from_edgelist([("Ann", "Bob", 5), ("Bob", "Cid", 7)])
        >>> G.mxm(G, "plus_times").to_edgelist()
        [('Ann', 'Cid', 35)]
        >>> G.mxm(G, "min_plus").to_edgelist()
        [('Ann', 'Cid', 12)]
        >>> G.mxm(G, ("max", lambda x, y: x - y)).to_edgelist()
        [('Ann', 'Cid', -2)]
        """
        self._check_shape('product', other, (self.ncols, None))
        operators = RINGS.get(op) if type(op) is str else None
        if operators is None:
            if is_positional(op):
                return cast('Matrix', multiply_positions(self, other, op, mask, name, parts=parts,
                                                         associative=associative))
            operators = ring_of(op)
        notes = self._derive('product', operators, other)
        job = Job('product', operators, (self.handle, other.handle), (self.nrows, other.ncols),
                  None, None, parts, associative)
        if parts and not self.session.backend.halves_products:
            return oversized_jobs.in_parts(self, lambda rows: self._queue(
                job._replace(operands=(rows.handle, other.handle)), (rows, other), notes, mask,
                name))
        return self._queue(job, (self, other), notes, mask, name)

    def mxv(self, vector: 'Matrix', op: Ring = 'plus_times', *, mask: MaskLike = None,
            name: Optional[str] = None) -> 'Matrix':
        """The product of this matrix with a column.

        Parameters
        ----------
        vector : Matrix
            A column, with as many rows as this matrix has columns.
        op : str, Semiring or pair, default 'plus_times'
            A semiring, as `mxm` has it.
        mask : Mask, optional
            Where the result may have entries.
        name : str, optional
            What the result is called.

        Returns
        -------
        Matrix
            A column with this matrix's rows.

        Raises
        ------
        TypeError
            If `vector` is no matrix.
        DimensionMismatch
            If it is no column, or has another length.

        See Also
        --------
        mxm : With a matrix.
        vxm : A row with a matrix.

        Notes
        -----
        1 job: `mxm` with a column. In the GraphBLAS GrB_mxv.

        Examples
        --------
        >>> import spmat
        >>> s = spmat.Session()
        >>> A = s.from_dense([[1, 2], [3, 4]])
        >>> A.mxv(s.from_dense([5, 6]), "plus_times").to_list()
        [17, 39]
        """
        if not isinstance(vector, Matrix) or vector.ncols != 1:
            self._check_shape('product', vector, (self.ncols, 1))
        return self.mxm(vector, op, mask=mask, associative=False, name=name)

    def vxm(self, matrix: 'Matrix', op: Ring = 'plus_times', *, mask: MaskLike = None,
            name: Optional[str] = None) -> 'Matrix':
        """The product of this row with a matrix.

        Of a column take `T` first, or `matrix.T.mxv(column)`.

        Parameters
        ----------
        matrix : Matrix
            A matrix with as many rows as this row has columns.
        op : str, Semiring or pair, default 'plus_times'
            A semiring, as `mxm` has it.
        mask : Mask, optional
            Where the result may have entries.
        name : str, optional
            What the result is called.

        Returns
        -------
        Matrix
            A row with the matrix's columns.

        Raises
        ------
        TypeError
            If `matrix` is no matrix.
        DimensionMismatch
            If this is no row, or the matrix has not as many rows as this one has columns.

        See Also
        --------
        mxv : A matrix with a column.
        mxm : Two matrices.

        Notes
        -----
        1 job: `mxm` of a row. In the GraphBLAS GrB_vxm.

        Examples
        --------
        >>> import spmat
        >>> s = spmat.Session()
        >>> A = s.from_dense([[1, 2], [3, 4]])
        >>> s.from_dense([[5, 6]]).vxm(A, "plus_times").to_list()
        [23, 34]
        """
        if self.nrows != 1:
            raise refusal('J5', command='product',
                          detail='vxm is of a row, and this is %dx%d' % self.shape)
        return self.mxm(matrix, op, mask=mask, name=name)

    def power(self: Self, n: int, op: Ring = 'plus_times', *, name: Optional[str] = None) -> Self:
        """This matrix multiplied with itself, n times in all.

        Parameters
        ----------
        n : int
            0 or more. Of 0 it is the matrix with what changes nothing on its diagonal, for
            "plus_times", "lor_land", "any_pair", "min_plus" and "max_plus".
        op : str, Semiring or pair, default 'plus_times'
            A semiring whose product is associative.
        name : str, optional
            What the result is called.

        Returns
        -------
        Matrix
            A matrix of the same shape.

        Raises
        ------
        DimensionMismatch
            If this matrix isn't square.
        ValueError
            For a power below 0, or one of 0 over another semiring.

        See Also
        --------
        mxm : One product.
        fixpoint : Until nothing changes.

        Notes
        -----
        Costs are up to 2 log2(n) products. In python-graphblas the same name, in numpy
        `matrix_power`.

        Examples
        --------
        >>> import spmat
        >>> s = spmat.Session()
        >>> G = s.from_edgelist([("Ann", "Bob", 5), ("Bob", "Cid", 7)])
        >>> G.power(2).to_edgelist()
        [('Ann', 'Cid', 35)]
        """
        n = integers.whole(n, 'power')
        if self.nrows != self.ncols:
            raise refusal('J5', command='product',
                          detail='a power is of a square matrix, and this is %dx%d' % self.shape)
        if n < 0:
            raise ValueError('a power is 0 or more, not %d' % n)
        if n == 0:
            return self._make_neutral(op, name)
        # a product is typed as a Matrix, whatever class its operands are of
        made, square = cast(Any, None), cast(Any, self)
        while n:
            if n & 1:
                made = square if made is None else made.mxm(square, op)
            n >>= 1
            square = square.mxm(square, op) if n else square
        if op in EXACT:                            # powers of a symmetric matrix commute
            made.notes = made.notes._replace(directed=even(self.notes))
        return cast(Self, made.dup(name=name) if name is not None or made is self else made)

    def _make_neutral(self: Self, op: Ring, name: Optional[str]) -> Self:
        """The power of 0: what changes nothing, on the diagonal."""
        if op not in NEUTRAL:
            raise ValueError(
                'what changes nothing is known for %s, not for %r: powers are 1 or more'
                % (', '.join(NEUTRAL), op))
        value = NEUTRAL[op]  # type: ignore[index]
        neutral: Any = self.session.identity(self.nrows, value, name=name)
        neutral.notes = NOTHING._replace(directed=False).with_axes(self.notes.axis(ROWS),
                                                                   self.notes.axis(COLUMNS))
        return cast(Self, neutral)

    # -- entry by entry

    def ewise_mult(self, other: 'Matrix', op: Op = 'times', *, mask: MaskLike = None,
                   name: Optional[str] = None) -> 'Matrix':
        """The intersection of two matrices: op(x, y) where both have an entry.

        Parameters
        ----------
        other : Matrix
            A matrix of the same shape.
        op : Operator, str or callable, default 'times'
            A binary operator. Times multiplies units, others want one, and the result of an
            operator of your own has a unit of 1.
        mask : Mask, optional
            Where the result may have entries.
        name : str, optional
            What the result is called.

        Returns
        -------
        Matrix
            A matrix of the same shape.

        Raises
        ------
        TypeError
            If `other` is no matrix.
        DimensionMismatch
            If the other or the mask has another shape.
        NamesDiffer
            If the names of rows or columns differ.
        UnitsDiffer
            If the operator wants one unit, and the matrices have two.

        See Also
        --------
        ewise_add : Where either has an entry.
        apply : An operator of one matrix.

        Notes
        -----
        1 job. In the GraphBLAS GrB_eWiseMult; here `both`.

        Examples
        --------
        >>> import spmat
        >>> s = spmat.Session()
        >>> A = s.from_triples([(0, 0, 1), (0, 1, 2)], 1, 3)
        >>> B = s.from_triples([(0, 1, 30), (0, 2, 40)], 1, 3)
        >>> A.ewise_mult(B, "times").to_triples()
        [(0, 1, 60)]
        """
        return self._combine('both', op, other, mask, name)

    def ewise_add(self, other: 'Matrix', op: Op = 'plus', *, mask: MaskLike = None,
                  name: Optional[str] = None) -> 'Matrix':
        """The union of two matrices, by op(x, y) where both have an entry.

        Where one alone has an entry, the result has a copy of it.

        Parameters
        ----------
        other : Matrix
            A matrix of the same shape.
        op : Operator, str or callable, default 'plus'
            A binary operator.
        mask : Mask, optional
            Where the result may have entries.
        name : str, optional
            What the result is called.

        Returns
        -------
        Matrix
            A matrix of the same shape.

        Raises
        ------
        TypeError
            If `other` is no matrix.
        DimensionMismatch
            If the other or the mask has another shape.
        NamesDiffer
            If the names of rows or columns differ.
        UnitsDiffer
            If units differ, or the operator's result has another one than the copies; that of an
            operator of your own has a unit of 1.

        See Also
        --------
        ewise_mult : Where both have an entry.
        ewise_union : With a default for missing entries.
        align : Matrices with different names.

        Notes
        -----
        1 job. In the GraphBLAS GrB_eWiseAdd; here `union`.

        Examples
        --------
        >>> import spmat
        >>> s = spmat.Session()
        >>> A = s.from_triples([(0, 0, 1), (0, 1, 2)], 1, 3)
        >>> B = s.from_triples([(0, 1, 30), (0, 2, 40)], 1, 3)
        >>> A.ewise_add(B, "plus").to_triples()
        [(0, 0, 1), (0, 1, 32), (0, 2, 40)]
        """
        return self._combine('union', op, other, mask, name)

    def ewise_union(self: Self, other: Self, op: Op, left_default: Number, right_default: Number, *,
                    mask: MaskLike = None, name: Optional[str] = None) -> Self:
        """The union of two matrices, with a default for an entry that is missing.

        It is op(x, y) wherever one has an entry, with a default in place of the one that is
        missing: `A.ewise_union(B, "minus", 0, 0)`.

        Parameters
        ----------
        other : Matrix
            A matrix of the same shape.
        op : Operator, str or callable
            A binary operator.
        left_default : number
            What stands for this matrix's entries, where they are missing.
        right_default : number
            What stands for the other's entries, where they are missing.
        mask : Mask, optional
            Where the result may have entries.
        name : str, optional
            What the result is called.

        Returns
        -------
        Matrix
            A matrix of the same shape.

        Raises
        ------
        DimensionMismatch
            If the other or the mask has another shape.
        ValueError
            If the unit can't hold a default.

        See Also
        --------
        ewise_add : Without defaults.

        Notes
        -----
        5 jobs and 2 runs, besides those of the mask. In the GraphBLAS GxB_eWiseUnion, in
        python-graphblas the same name.

        Examples
        --------
        >>> import spmat
        >>> s = spmat.Session()
        >>> A = s.from_triples([(0, 0, 1), (0, 1, 2)], 1, 3)
        >>> B = s.from_triples([(0, 1, 30), (0, 2, 40)], 1, 3)
        >>> A.ewise_union(B, "minus", 0, 0).to_triples()
        [(0, 0, 1), (0, 1, -28), (0, 2, -40)]
        """
        defaults = (scales.to_stored(left_default, self.unit, 'default '),
                    scales.to_stored(right_default, other.unit, 'default '))
        ours = submatrices.fill(other, defaults[0], self.unit)
        theirs = submatrices.fill(self, defaults[1], other.unit)
        left, right = self.ewise_add(ours, 'first'), other.ewise_add(theirs, 'first')
        return cast(Self, left.ewise_mult(cast(Any, right), op, mask=mask, name=name))

    def isequal(self: Self, other: Self) -> bool:
        """Whether both have the same sizes, positions and values.

        Parameters
        ----------
        other : Matrix
            The matrix to compare with.

        Returns
        -------
        bool
            False also where the shapes differ.

        Raises
        ------
        TypeError
            If `other` is no matrix.
        NamesDiffer
            If names differ, so that the matrices can't be compared.
        UnitsDiffer
            If units differ, so that the matrices can't be compared.

        See Also
        --------
        isclose : Values that are nearly the same.

        Notes
        -----
        No job where sizes or numbers of entries differ; else 2 jobs and 2 runs.

        Examples
        --------
        >>> import spmat
        >>> s = spmat.Session()
        >>> A = s.from_triples([(0, 0, 1), (0, 2, -2), (1, 2, 3)], 2, 3)
        >>> A.isequal(A.dup()), A.isequal(A.T)
        (True, False)
        """
        if not isinstance(other, Matrix):
            raise not_a_matrix(other)
        if self.shape != other.shape:
            return False
        scales.common('isequal', self.unit, other.unit)
        joined(self.notes, other.notes, ELEMENTWISE)
        if self.nvals != other.nvals:
            return False
        differ = self.ewise_mult(cast('Matrix', other), 'ne')
        return bool(differ.nvals == self.nvals and differ.select('nonzero').nvals == 0)

    def isclose(self: Self, other: Self, rel_tol: float = 1e-7, abs_tol: float = 0.0) -> bool:
        """Whether both have the same sizes and positions, and values that are close.

        Values differ by at most `rel_tol` times the greater one, or by `abs_tol`, as `math.isclose`
        has it. They are what they stand for, where matrices have units.

        Parameters
        ----------
        other : Matrix
            The matrix to compare with.
        rel_tol : float, default 1e-7
            The most by which values differ, as a part of the greater one.
        abs_tol : float, default 0.0
            The most by which values differ.

        Returns
        -------
        bool
            False also where the shapes differ.

        Raises
        ------
        TypeError
            If `other` is no matrix.
        ValueError
            If a tolerance is below 0.
        NamesDiffer
            If names differ, so that the matrices can't be compared.

        See Also
        --------
        isequal : Exactly the same.

        Notes
        -----
        The client reads both where they differ. In python-graphblas the same name.

        Examples
        --------
        >>> import spmat
        >>> s = spmat.Session()
        >>> A, B = s.from_dense([[1000, 2]]), s.from_dense([[1001, 2]])
        >>> A.isclose(B, rel_tol=0.01), A.isclose(B)
        (True, False)
        """
        if not isinstance(other, Matrix):
            raise not_a_matrix(other)
        rel_tol, abs_tol = integers.real(rel_tol, 'rel_tol='), integers.real(abs_tol, 'abs_tol=')
        if rel_tol < 0 or abs_tol < 0:
            raise ValueError('tolerances are 0 or more, not %r and %r' % (rel_tol, abs_tol))
        if self.shape != other.shape:
            return False
        joined(self.notes, other.notes, ELEMENTWISE)
        if self.notes.value_names is not None or other.notes.value_names is not None:
            return self.isequal(other)
        if scales.is_whole(self.unit) and scales.is_whole(other.unit):
            scales.common('isclose', self.unit, other.unit)
        if self.nvals != other.nvals:
            return False
        (rows, columns, values), (i, j,
                                  others) = self.entries(arrays=False), other.entries(arrays=False)
        if (rows, columns) != (i, j):
            return False
        pairs = [(scales.exact_number(x) / self.unit, scales.exact_number(y) / other.unit)
                 for x, y in zip(values, others) if x != y or self.unit != other.unit]
        relative, absolute = scales.exact_number(rel_tol), scales.exact_number(abs_tol)
        return all(abs(x - y) <= max(relative * max(abs(x), abs(y)), absolute) for x, y in pairs)

    # -- parts, and updates of them

    def __getitem__(self, at: object) -> Any:
        """A value, a row, a column, a part, or a copy under a mask.

        `G[i, j]` is the value of an entry, what it stands for where there is a unit, None where
        there is none. `G[i, :]` is a row, `G[:, j]` a column, `G[rows, columns]` a part, `G[M.S]`
        or `G[~M.V]` a copy under a mask.

        Rows and columns are named as `index` has it, or counted from 0; below 0 no number is a
        position. Of a list or an array each counts, as often as it stands there; rows that have
        names are asked for once each. Lists, arrays and columns of pandas that have True and False
        alone filter, as do masks of columns: those with names are aligned by these. A column itself
        is refused, as it could be a list of rows as well. A slice of names takes both ends, as in
        pandas. One of positions leaves out the second end and counts from the end below 0, as in
        numpy. Where numbers are names, but for 0 to n - 1, a number in a slice could be either and
        is refused.

        Parameters
        ----------
        at : pair of indexes, or Mask
            The rows and the columns, each a name, a number, a list, an array, a slice or a filter.

        Returns
        -------
        Matrix, int, float or None
            A value where one row and one column are asked for, else a matrix.

        Raises
        ------
        ValueError
            If there is no such vertex, or a name stands twice.
        IndexError
            If a filter has another length.
        TypeError
            For floats and other things that are no index.

        See Also
        --------
        get : The value of one entry, or a default.
        assign : Other entries in a part.
        select : Entries by an operator.

        Notes
        -----
        1 job for the rows and 1 for the columns that are chosen; 1 job and 1 run for a value. In
        the GraphBLAS GrB_extract and GrB_Matrix_extractElement.

        Examples
        --------
        >>> import spmat
        >>> s = spmat.Session()
        >>> G = s.from_edgelist([("Ann", "Bob", 5), ("Bob", "Cid", 7)])
        >>> G["Ann", "Bob"]
        5
        >>> G["Bob", :].by_node()
        {'Cid': 7}
        >>> G[["Ann", "Bob"], ["Ann", "Bob"]].to_edgelist()
        [('Ann', 'Bob', 5)]
        """
        matrix: Any = self
        if isinstance(at, Mask):
            return matrix.dup(mask=at)
        chosen = [choose_places(matrix, index, axis) for axis, index in enumerate(pair_of(at))]
        for axis in BOTH:
            check_once(matrix, chosen[axis], axis)
        if all(one.one for one in chosen):
            return value_at(matrix, *(place for one in chosen for place in one.places or ()))
        part = matrix
        for axis in BOTH:
            places = chosen[axis].places
            part = part if places is None else take(part, axis, places, one=chosen[axis].one)
        if chosen[ROWS].places is not None and chosen[ROWS].places == chosen[COLUMNS].places:
            part.notes = part.notes._replace(directed=even(matrix.notes))
        return part

    def get(self, row: object, column: object = None, default: object = None) -> Any:
        """The value of one entry, or a default where there is none.

        `A.get(i, j, 0)` is of a matrix, `c.get(i, default=0)` of a column or a row.

        Parameters
        ----------
        row : name or int
            The row, as in `A[i, j]`; of a row its column, where `column` isn't given.
        column : name or int, optional
            The column, as in `A[i, j]`. A column or a row needs none.
        default : object, optional
            What is given where there is no entry; None, as `A[i, j]` gives, without it.

        Returns
        -------
        int, float or object
            What the stored value stands for, or `default`.

        Raises
        ------
        TypeError
            If `column` isn't given and this is neither a column nor a row, or where more than
            one entry is asked for.
        ValueError
            If there is no such vertex.

        See Also
        --------
        index : The row of a name.
        to_dict : All entries by position.

        Notes
        -----
        1 job and 1 run. In python-graphblas `get`.

        Examples
        --------
        >>> import spmat
        >>> s = spmat.Session()
        >>> G = s.from_edgelist([("Ann", "Bob", 5), ("Bob", "Cid", 7)])
        >>> G.get("Ann", "Bob")
        5
        >>> G.get("Cid", "Ann", 0)
        0
        """
        if column is None and 1 not in self.shape:
            raise TypeError('get(row, column) is of two, and this is %dx%d' % self.shape)
        if column is None and along(self.shape, self.notes) == COLUMNS:
            row, column = slice(None), row
        part = self[row, slice(None) if column is None else column]
        if not isinstance(part, Matrix):
            return default if part is None else part
        values = part.entries(arrays=False)[2]
        if part.shape != (1, 1):
            raise TypeError('get is of one entry, and %r, %r are %dx%d: write A[rows, columns]'
                            % (row, column, *part.shape))
        return scales.to_decimal(values[0], part.unit) if values else default

    def assign(self: Self, what: Union['Matrix', Number], rows: object = None,
               columns: object = None, *, accum: Optional[Op] = None, mask: MaskLike = None,
               replace: bool = False, name: Optional[str] = None) -> Self:
        """A new matrix in which a part has other entries: C<M, accum>(rows, columns) = what.

        Parameters
        ----------
        what : Matrix or number
            A matrix of the part's shape, or a number for each of its places (under a mask for each
            place of the mask). One row may also be set to a column, and one column to a row.
        rows : index, optional
            The rows of the part, as in `A[rows, columns]`; all rows without it.
        columns : index, optional
            The columns of the part, as in `A[rows, columns]`; all columns without it.
        accum : Operator, str or callable, optional
            A binary operator that joins old and new entries. Places of the part where `what` has no
            entry lose theirs, or with `accum` keep it.
        mask : Mask, optional
            A mask of this matrix's shape. Outside of it entries stay, or with `replace` go.
        replace : bool, default False
            Whether entries outside of the mask go.
        name : str, optional
            What the result is called.

        Returns
        -------
        Matrix
            A matrix of this one's shape and names.

        Raises
        ------
        DimensionMismatch
            If shapes don't fit.
        ValueError
            If a row or a column is given twice, or the unit can't hold the number.

        See Also
        --------
        update : All entries at once, with accumulation.
        concat : Tiles into one matrix.

        Notes
        -----
        Without an accumulator some rows cost 9 jobs and 5 runs, and columns as well cost 2 jobs and
        2 runs more. With one it costs 2 to 3 jobs. A mask adds what `update` takes in jobs. In the
        GraphBLAS GrB_assign, in python-graphblas `C(mask, accum)[rows, columns] << what`.

        Examples
        --------
        >>> import spmat
        >>> s = spmat.Session()
        >>> A = s.from_triples([(0, 0, 1), (0, 2, -2), (1, 2, 3)], 2, 3)
        >>> A.assign(9, 1, [0, 1]).to_triples()
        [(0, 0, 1), (0, 2, -2), (1, 0, 9), (1, 1, 9), (1, 2, 3)]
        """
        matrix: Any = self
        where = as_mask(mask)
        for other in (what, None if where is None else where.matrix):
            if isinstance(other, Matrix):
                common_session(matrix.session, other.session)
        if where is not None:
            result_metadata.check_mask(where, matrix.shape, matrix.notes)
        part = [submatrices.choose_once(matrix, index, axis)
                for axis, index in enumerate((rows, columns))]
        is_whole = all(one.places is None for one in part)
        if isinstance(what, Matrix):
            fitting = submatrices.fit_part(what, part, matrix.shape)
            if accum is None and not (is_whole and (where is None or replace)):
                scales.common('assign', matrix.unit, what.unit)
            if is_whole:
                return cast(Self, matrix.update(fitting, accum, where, replace, name=name))
            given = submatrices.spread_part(matrix, fitting, part)
        else:
            stored = scales.to_stored(what, matrix.unit, 'value ')
            given = (submatrices.repeat_number(matrix, stored, part)
                     if where is None or where.complement else submatrices.keep_part(
                         submatrices.fill(structure(where), stored, matrix.unit), part))
        last = name if where is None else None
        if accum is not None:
            whole = matrix.ewise_add(given, accum, name=last)
        elif is_whole:
            whole = given
        else:
            rest = matrix.without(submatrices.keep_part(matrix, part).S)
            whole = rest.ewise_add(given, 'first', name=last)
        return cast(Self, whole if where is None
                    else matrix.update(whole, None, where, replace, name=name))

    def update(self: Self, other: 'Matrix', accum: Optional[Op] = None, mask: MaskLike = None,
               replace: bool = False, *, name: Optional[str] = None) -> Self:
        """A new matrix, what the GraphBLAS writes C<M, accum> = other.

        Under the mask it is `other`, or with `accum` the union of both by it. Outside the mask it
        is this matrix, or nothing where `replace` is set. So `C.update(A.mxm(B), "plus")` is
        python-graphblas' `C(accum) << A.mxm(B)`, and `C.update(B, mask=M.S)` its `C(M.S) << B`;
        `assign` sets a part.

        Parameters
        ----------
        other : Matrix
            A matrix of the same shape.
        accum : Operator, str or callable, optional
            A binary operator that joins old and new entries.
        mask : Mask, optional
            Where the result is `other`; everywhere without it.
        replace : bool, default False
            Whether entries outside of the mask go.
        name : str, optional
            What the result is called.

        Returns
        -------
        Matrix
            A matrix of the same shape.

        Raises
        ------
        TypeError
            If `other` is no matrix.
        DimensionMismatch
            If the other or the mask has another shape.
        NamesDiffer
            If the names of rows or columns differ.
        UnitsDiffer
            If units differ and the result has values of both, or `accum` joins them.

        See Also
        --------
        assign : A part of a matrix.
        ewise_add : The union of two matrices.

        Notes
        -----
        Without a mask it costs 1 job and no run. With one it costs 7 jobs and 4 runs; with
        `replace` 1 and none, or 5 and 3 for a complement. `accum` is 1 job more, A.V 1 job and 1
        run more. Where an operand or the mask waits, add 1 run.

        Examples
        --------
        >>> import spmat
        >>> s = spmat.Session()
        >>> A = s.from_triples([(0, 0, 1), (0, 1, 2)], 1, 3)
        >>> B = s.from_triples([(0, 1, 30), (0, 2, 40)], 1, 3)
        >>> A.update(B, accum="plus").to_triples()
        [(0, 0, 1), (0, 1, 32), (0, 2, 40)]
        >>> A.update(B).to_triples()
        [(0, 1, 30), (0, 2, 40)]
        """
        self._check_shape('update', other, self.shape)
        where = as_mask(mask)
        if where is not None:
            common_session(self.session, where.matrix.session)
            result_metadata.check_mask(where, self.shape, self.notes)
        op = None if accum is None else of_form('union', accum)
        notes = result_metadata.of_update(self.notes, other.notes, op, where, replace)
        made: Any = None
        if where is not None:
            last = Job('union', (op or binary.first,), (self.handle, other.handle), self.shape)
            made = self._visit(last, (self, other), where, notes, name, ('update', op),
                               replace=replace)
        if made is None:
            made = self._update_by_jobs(other, accum, where, replace, name)
        made.notes = notes
        return cast(Self, made)

    def _update_by_jobs(self, other: 'Matrix', accum: Optional[Op], where: Optional[Mask],
                        replace: bool, name: Optional[str]) -> 'Matrix':
        inside = (other if accum is None
                  else self.ewise_add(other, accum, name=None if where is not None else name))
        if where is None:
            return inside if accum is not None else other.dup(name=name)
        where = Mask(structure(where), complement=where.complement)
        if replace:
            return inside.dup(mask=where, name=name)
        return self.without(where).ewise_add(inside.dup(mask=where), binary.first, name=name)

    def dup(self: Self, *, mask: MaskLike = None, name: Optional[str] = None) -> Self:
        """A copy.

        Parameters
        ----------
        mask : Mask, optional
            Which positions are copied; all without it.
        name : str, optional
            What the result is called.

        Returns
        -------
        Matrix
            A matrix of the same shape, with the entries that are copied.

        Raises
        ------
        DimensionMismatch
            If the mask has another shape.

        See Also
        --------
        update : A copy with other entries.
        adopt : A copy in another session.

        Notes
        -----
        1 job, and with a complement as its mask what `without` takes in jobs.

        Examples
        --------
        >>> import spmat
        >>> s = spmat.Session()
        >>> A = s.from_triples([(0, 0, 1), (0, 2, -2), (1, 2, 3)], 2, 3)
        >>> B = s.from_triples([(0, 0, 1)], 2, 3)
        >>> A.dup(mask=B.S).to_triples()
        [(0, 0, 1)]
        >>> A.dup().isequal(A)
        True
        """
        where = as_mask(mask)
        if where is not None and where.complement:
            return self.without(~where, name=name)
        return cast(Self, self.apply(unary.identity, mask=where, name=name))

    def without(self: Self, mask: MaskLike, *, name: Optional[str] = None) -> Self:
        """The entries outside a mask, whatever the values.

        Parameters
        ----------
        mask : Mask
            A.S or A.V. Of ~A.S or ~A.V the result is a copy under A.S or A.V.
        name : str, optional
            What the result is called.

        Returns
        -------
        Matrix
            A matrix of the same shape, with the entries that are left.

        Raises
        ------
        TypeError
            If there is no mask.
        DimensionMismatch
            If the mask has another shape.

        See Also
        --------
        S : The mask of stored positions.
        select : By an operator.

        Notes
        -----
        5 jobs and 3 runs, 1 run more where this matrix or the mask's waits, 1 job and 1 run more
        for `A.V`. 1 job of ~A.S or ~A.V.

        It makes ones for the entries here and zeros for the mask's. Their union by `zero` is 1 only
        where this matrix is alone, and a copy under those is the result.

        Examples
        --------
        >>> import spmat
        >>> s = spmat.Session()
        >>> A = s.from_triples([(0, 0, 1), (0, 2, -2), (1, 2, 3)], 2, 3)
        >>> B = s.from_triples([(0, 0, 1)], 2, 3)
        >>> A.without(B.S).to_triples()
        [(0, 2, -2), (1, 2, 3)]
        """
        where = as_mask(mask, warns=False)
        if where is None:
            raise TypeError('expected a mask')
        common_session(self.session, where.matrix.session)
        if where.complement:
            return self.dup(mask=~where, name=name)
        notes = result_metadata.under_mask(~where, self.shape, of_copy(self.notes))
        fused: Optional[Self] = self._visit(Job('apply', (unary.identity,), (self.handle,),
                                             self.shape), (self,), ~where, notes, name, ('dup',))
        if fused is not None:
            return fused
        other = structure(where)
        if self.waits or other.waits:
            self.session.backend.run()
        here, there = self.apply(unary.one), other.apply(unary.zero)
        alone = here.ewise_add(there, binary.zero).select(indexunary.nonzero)
        made = self.apply(unary.identity, mask=alone.S, name=name)
        made.notes = notes
        return cast(Self, made)

    # -- operators on each entry

    def apply(self, op: Op, right: Optional[Number] = None, *, left: Optional[Number] = None,
              mask: MaskLike = None, name: Optional[str] = None) -> 'Matrix':
        """Each entry's answer, by an operator.

        Parameters
        ----------
        op : Operator, str or callable
            Unary: f(x). Binary, with a number bound: f(x, right) or f(left, x). Index operator:
            f(x, row, column, right).
        right : number, optional
            The number that is bound. Of an index operator it is 0 unless given. Where this matrix
            has a unit, `right=0.25` meets its values, and is stored as they are. For times and
            division it is a whole factor. A date or a length of time beside values that are times,
            `unit="s"`.
        left : number, optional
            The number that is bound on the other side of a binary operator, as `right` has it.
        mask : Mask, optional
            Where the result may have entries.
        name : str, optional
            What the result is called.

        Returns
        -------
        Matrix
            A matrix of the same shape, with an entry wherever this one has one.

        Raises
        ------
        ValueError
            If the unit can't hold the number, which comparisons need not.
        DimensionMismatch
            If the mask has another shape.

        See Also
        --------
        select : Keep entries by an operator.
        ewise_mult : An operator of two matrices.
        reduce_rowwise : Fold each row.

        Notes
        -----
        1 job. A bound binary operator is sent as an index operator of one (right) or two (left)
        more instructions, once for all numbers. In the GraphBLAS GrB_apply.

        An operator of your own gets stored whole numbers, also for `right`. Its result has a unit
        of 1; set another, as in `B.unit = 100`, where you know it.

        Examples
        --------
        >>> import spmat
        >>> s = spmat.Session()
        >>> A = s.from_triples([(0, 0, 1), (0, 2, -2), (1, 2, 3)], 2, 3)
        >>> A.apply("abs").to_triples()
        [(0, 0, 1), (0, 2, 2), (1, 2, 3)]
        >>> A.apply("plus", right=10).to_triples()
        [(0, 0, 11), (0, 2, 8), (1, 2, 13)]
        >>> A.apply(lambda x: x * x).to_triples()
        [(0, 0, 1), (0, 2, 4), (1, 2, 9)]
        """
        _check_positions(op, self.notes, {})
        found, stored, unit, alike = applied(op, right, left, self.notes.unit)
        notes = result_metadata.of_applied(self.notes, found, unit, alike)
        job = Job('apply', (found,), (self.handle,), self.handle.shape, stored)
        return self._queue(job, (self,), notes, mask, name)

    def select(self, op: Op, thunk: Number = 0, *, mask: MaskLike = None,
               name: Optional[str] = None) -> 'Matrix':
        """The entries for which an index operator's answer isn't 0, with their values.

        Parameters
        ----------
        op : Operator, str or callable
            Its name may be a sign: `A.select(">=", 3)` is `A.select("valuege", 3)`.
        thunk : number, default 0
            What the operator gets beside each entry. A value to compare with is any number, also a
            fraction or infinity: `A.select(">=", 1.5)`. Beside times it is a date or a length of
            time. An operator of your own gets stored whole numbers.
        mask : Mask, optional
            Where the result may have entries.
        name : str, optional
            What the result is called.

        Returns
        -------
        Matrix
            A matrix of the same shape, with the entries that are kept.

        Raises
        ------
        ValueError
            If the thunk is NaN. Also if "rowle", "rowgt", "colle" or "colgt", which count from 0,
            meet rows or columns with other numbers for names. An Operator,
            `spmat.indexunary.rowle`, counts all the same.
        DimensionMismatch
            If the mask has another shape.

        See Also
        --------
        apply : Change values.
        V : The mask of values that aren't 0.
        top : The greatest entries.

        Notes
        -----
        1 job. In the GraphBLAS GrB_select.

        Examples
        --------
        >>> import spmat
        >>> s = spmat.Session()
        >>> A = s.from_triples([(0, 0, 1), (0, 2, -2), (1, 2, 3)], 2, 3)
        >>> A.select(">", 0).to_triples()
        [(0, 0, 1), (1, 2, 3)]
        >>> A.select("triu").to_triples()
        [(0, 0, 1), (0, 2, -2), (1, 2, 3)]
        >>> A.select(lambda x, row, column: x > row + column).to_triples()
        [(0, 0, 1)]
        """
        _check_positions(op, self.notes, COUNTING)
        found = of_form('select', op)
        found, stored, _ = of_index(found, thunk, self.notes.unit)
        notes = result_metadata.of_selected(self.notes, found, stored)
        return self._queue(Job('select', (found,), (self.handle,), self.handle.shape, stored),
                           (self,), notes, mask, name)

    # -- folds

    def reduce_rowwise(self, op: Op = 'plus', *, mask: MaskLike = None,
                       name: Optional[str] = None) -> 'Matrix':
        """The fold of each row, as a column.

        A row is folded from its first column to its last. One that is empty has no entry.

        Parameters
        ----------
        op : Operator, str or callable, default 'plus'
            A binary operator, or one of python-graphblas' aggregators. One job: "sum", "prod",
            "last", "any_value". With 1 to 3 jobs more: "count", "count_nonzero", "count_zero",
            "exists", "all", "first_index", "last_index", "sum_of_squares", "peak_to_peak". With 4
            jobs more, and a value per row that the client sends: "argmin" and "argmax", the first
            column with the least or greatest value. Also with 4 more: "mean", in millionths that
            the client makes of sums and counts; no sum wraps then.
        mask : Mask, optional
            Where the result may have entries; a mask of a column.
        name : str, optional
            What the result is called.

        Returns
        -------
        Matrix
            A column with an entry for each row that isn't empty.

        Raises
        ------
        DimensionMismatch
            If the mask is no column of this length.

        See Also
        --------
        reduce_columnwise : The fold of each column.
        reduce_scalar : The fold of all.

        Notes
        -----
        1 job. In the GraphBLAS GrB_reduce by rows.

        Examples
        --------
        >>> import spmat
        >>> s = spmat.Session()
        >>> A = s.from_triples([(0, 0, 1), (0, 2, -2), (1, 2, 3)], 2, 3)
        >>> A.reduce_rowwise("plus").to_list()
        [-1, 3]
        >>> A.reduce_rowwise("max").to_list()
        [1, 3]
        """
        if is_aggregator(op):
            return cast('Matrix', aggregate(self, cast(str, op), 1, mask, name))
        found = of_form('reduce', op)
        notes = result_metadata.derive('reduce', (found,), self.notes)
        return self._queue(Job('reduce', (found,), (self.handle,), (self.nrows, 1)), (self,), notes,
                           mask, name)

    def reduce_columnwise(self: Self, op: Op = 'plus', *, mask: MaskLike = None,
                          associative: Optional[bool] = None, name: Optional[str] = None) -> Self:
        """The fold of each column, as a row.

        A column is folded from its first row to its last, for every operator. One that is empty has
        no entry.

        Parameters
        ----------
        op : Operator, str or callable, default 'plus'
            A binary operator, or one of the aggregators that `reduce_rowwise` takes, of which
            "argmin" gives rows.
        mask : Mask, optional
            Where the result may have entries; a mask of a row.
        associative : bool, optional
            The caller's word that the operator is associative, as for `mxm`: row blocks then fold
            their own rows, and send a row each.
        name : str, optional
            What the result is called.

        Returns
        -------
        Matrix
            A row with an entry for each column that isn't empty.

        Raises
        ------
        DimensionMismatch
            If the mask is no row of this length.

        See Also
        --------
        reduce_rowwise : The fold of each row.
        reduce_scalar : The fold of all.

        Notes
        -----
        1 job and no run: a product of a row of ones with this matrix, by `second`. The session
        keeps the ones; it uploads them at the first use of a length.

        Examples
        --------
        >>> import spmat
        >>> s = spmat.Session()
        >>> A = s.from_triples([(0, 0, 1), (0, 2, -2), (1, 2, 3)], 2, 3)
        >>> A.reduce_columnwise("plus").to_list()
        [1, None, 1]
        """
        if is_aggregator(op):
            return cast(Self, aggregate(self, str(op), 0, mask, name))
        ring = Semiring(of_form('product', op), binary.second)
        ones: Any = self.session.ones(self.nrows)
        return cast(Self, ones.mxm(self, ring, mask=mask, associative=associative, name=name))

    def reduce_scalar(self, op: Op = 'plus', *, raw: bool = False) -> Any:
        """The fold of all entries, as a number.

        The folds of the rows are folded, so the operator has to be associative.

        Parameters
        ----------
        op : Operator, str or callable, default 'plus'
            A binary operator, or one of the aggregators of `reduce_rowwise` that aren't positions.
        raw : bool, default False
            Whether the stored whole number is given, also where the fold has a unit.

        Returns
        -------
        int, float or None
            An int, or where the fold has a unit a float, what it stands for; "mean" is a float.
            None where there are no entries.

        Raises
        ------
        TypeError
            Of an aggregator whose answers are positions, such as "argmin".

        See Also
        --------
        reduce_rowwise : The fold of each row.
        nvals : The number of entries.

        Notes
        -----
        At most 2 jobs and 2 runs (1 and 1 of a row or a column), and one number comes back.

        A sum or a product beyond 64 bits wraps, and a mean doesn't. Algorithms refuse where theirs
        could.

        Examples
        --------
        >>> import spmat
        >>> s = spmat.Session()
        >>> A = s.from_triples([(0, 0, 1), (0, 2, -2), (1, 2, 3)], 2, 3)
        >>> A.reduce_scalar("plus")
        2
        >>> A.reduce_scalar("min")
        -2
        """
        if is_aggregator(op):
            return aggregate_all(self, str(op), raw)
        rows = self if self.ncols == 1 else self.reduce_rowwise(op)
        made = rows if rows.nrows == 1 else rows.reduce_columnwise(op, associative=True)
        values = made.entries(arrays=False)[2]
        return scales.to_decimal(values[0], 1 if raw else made.unit) if values else None

    # -- other forms

    @property
    def T(self) -> 'Matrix':
        """The transpose.

        Returns
        -------
        Matrix
            A matrix whose rows are this one's columns. Each has names of its own, which are those
            of this matrix as it is asked for.

        See Also
        --------
        directed : Whether a graph is directed.
        reshape : Another shape with as many places.

        Notes
        -----
        No job: the text comes to the client and goes back, which takes the time of reading and
        writing it. The queue runs first where this matrix waits. While some transpose is held,
        asking again costs nothing.

        Examples
        --------
        >>> import spmat
        >>> s = spmat.Session()
        >>> A = s.from_triples([(0, 0, 1), (0, 2, -2), (1, 2, 3)], 2, 3)
        >>> A.T.shape
        (3, 2)
        >>> A.T.to_triples()
        [(0, 0, 1), (2, 0, -2), (2, 1, 3)]
        """
        backend = self.session.backend
        return make_matrix(self.session, backend.transpose(self.handle),
                           result_metadata.of_transpose(self.notes), self.is_vector)

    def diag(self: Self, k: int = 0, *, name: Optional[str] = None) -> Self:
        """The matrix with a column on a diagonal, or the diagonal of a matrix.

        Of a column or a row it is the square matrix with its entries on the k-th diagonal. Of any
        other matrix it is the column of the entries on its k-th diagonal.

        Parameters
        ----------
        k : int, default 0
            Which diagonal: it lies k columns to the right of (0, 0), or -k rows below it. A k other
            than 0 gives no names.
        name : str, optional
            What the result is called.

        Returns
        -------
        Matrix
            A square matrix, or a column.

        See Also
        --------
        identity : One value on the diagonal.
        select : With "diag", the diagonal as a matrix.

        Notes
        -----
        2 jobs and 1 run of a matrix, 1 job and 1 run more for another k than 0. Of a column or a
        row the client makes it, like `T`. In python-graphblas `Vector.diag`, `Matrix.diag`, in
        numpy `diag`.

        Examples
        --------
        >>> import spmat
        >>> s = spmat.Session()
        >>> A = s.from_triples([(0, 0, 1), (1, 1, 5)], 2, 2)
        >>> A.diag().to_list()
        [1, 5]
        >>> A.diag().diag().to_triples()
        [(0, 0, 1), (1, 1, 5)]
        """
        k = integers.whole(k, 'number of a diagonal')
        if 1 not in self.shape:
            return self._read_diagonal(k, name)
        rows, columns, values = self.entries()
        along = ROWS if self.ncols == 1 else COLUMNS
        size = integers.side(self.shape[along] + abs(k), 0, 'nrows')
        at = columns if along else rows
        made: Any = self.session.from_coo(at + max(-k, 0), at + max(k, 0), values, size, size,
                                          name=name)
        made.notes = (BY_POSITIONS._replace(unit=self.unit) if k
                      else result_metadata.on_diagonal(self.notes, along))
        return cast(Self, made)

    def _read_diagonal(self: Self, k: int, name: Optional[str]) -> Self:
        """The column of the entries on the k-th diagonal."""
        column: Any = self.select('diag', k).reduce_rowwise('first', name=name if not k else None)
        if k:
            first = max(-k, 0)
            length = max(0, min(self.nrows - first, self.ncols - max(k, 0)))
            column = take(column, ROWS, range(first, first + length), name)
            column.notes = BY_POSITIONS._replace(unit=self.unit)
        return cast(Self, column)

    def split(self: Self, row_sizes: submatrices.Sizes,
              column_sizes: Optional[submatrices.Sizes] = None) -> List[List[Self]]:
        """The parts of this matrix, as rows of tiles.

        `spmat.concat` puts them together again.

        Parameters
        ----------
        row_sizes : int or list of int
            The rows of all parts, or one number for each but the last.
        column_sizes : int or list of int, optional
            The columns of all parts, or one number for each but the last. None doesn't part the
            columns.

        Returns
        -------
        list of lists of Matrix
            The tiles, a list for each row of them.

        Raises
        ------
        ValueError
            If sizes don't add up to the rows or columns, or one size for all is below 1.

        See Also
        --------
        concat : The inverse.

        Notes
        -----
        2 jobs and 1 run a part. In python-graphblas `ss.split`.

        Examples
        --------
        >>> import spmat
        >>> s = spmat.Session()
        >>> A = s.from_triples([(0, 0, 1), (0, 2, -2), (1, 2, 3)], 2, 3)
        >>> [[part.shape for part in row] for row in A.split([1, 1], [2, 1])]
        [[(1, 2), (1, 1)], [(1, 2), (1, 1)]]
        """
        bounds = [submatrices.find_bounds(self.shape[axis], sizes, axis)
                  for axis, sizes in enumerate((row_sizes, column_sizes))]
        return [[submatrices.take_part(self, rows, columns) for columns in bounds[1]]
                for rows in bounds[0]]

    def resize(self: Self, nrows: int, ncols: int, *, nodes: NodesLike = None,
               name: Optional[str] = None) -> Self:
        """A new matrix of other sizes.

        Entries beyond them are left out. Rows or columns that grow in number have no names, unless
        `nodes` gives them some.

        Parameters
        ----------
        nrows : int
            How many rows it has.
        ncols : int
            How many columns it has.
        nodes : list or pair of lists, optional
            The names of all vertices of the result, as `from_coo` takes them.
        name : str, optional
            What the result is called.

        Returns
        -------
        Matrix
            A matrix of these sizes.

        Raises
        ------
        ValueError
            If a size is below 0, or there are more or fewer names.

        Warns
        -----
        UserWarning
            If names are lost, as rows or columns that had some grow in number.

        See Also
        --------
        reshape : Another shape with as many places.
        concat : Tiles into one matrix.

        Notes
        -----
        2 jobs and 1 run. In the GraphBLAS GrB_Matrix_resize, which changes the matrix itself.

        Examples
        --------
        >>> import spmat
        >>> s = spmat.Session()
        >>> A = s.from_triples([(0, 0, 1), (0, 2, -2), (1, 2, 3)], 2, 3)
        >>> A.resize(2, 2).to_triples()
        [(0, 0, 1)]
        """
        shape = integers.side(nrows, 0, 'nrows'), integers.side(ncols, 0, 'ncols')
        made = cast(Any, self)
        for axis, size in enumerate(shape):
            stay = range(min(size, self.shape[axis]))
            if size != self.shape[axis]:
                made = move(made, axis, stay, stay, size,
                            submatrices.resize_axis(self, axis, size, nodes is None))
        made = made.dup(name=name) if made is self or name is not None else made
        if nodes is not None:
            made.notes = made.notes.with_nodes(nodes, shape)
        submatrices.note_directed(self, made, shape[ROWS] == shape[COLUMNS])
        return cast(Self, made)

    def reshape(self: Self, nrows: int, ncols: int, order: str = 'rowwise', *,
                name: Optional[str] = None) -> Self:
        """The same entries in another shape with as many places.

        Parameters
        ----------
        nrows : int
            How many rows it has; -1 for what is left beside the columns.
        ncols : int
            How many columns it has; -1 for what is left beside the rows. One size alone may be -1.
        order : str, default 'rowwise'
            Places are counted row by row, or column by column with "columnwise". The letters of
            numpy, "C" and "F", mean the same.
        name : str, optional
            What the result is called.

        Returns
        -------
        Matrix
            A matrix of these sizes, without names.

        Raises
        ------
        DimensionMismatch
            For another number of places.
        ValueError
            If `order` is another word.

        See Also
        --------
        resize : Other sizes, with the entries in place.
        T : The transpose.

        Notes
        -----
        No job: the client makes it, like `T`. In the GraphBLAS GxB_Matrix_reshape, in numpy
        `reshape`.

        Examples
        --------
        >>> import spmat
        >>> s = spmat.Session()
        >>> A = s.from_triples([(0, 0, 1), (0, 2, -2), (1, 2, 3)], 2, 3)
        >>> A.reshape(3, 2).to_triples()
        [(0, 0, 1), (1, 0, -2), (2, 1, 3)]
        """
        nrows, ncols = (submatrices.fill_size(self, nrows, ncols),
                        submatrices.fill_size(self, ncols, nrows))
        if order not in ORDERS:
            raise ValueError('order is "rowwise" or "columnwise", not %r' % (order,))
        if nrows * ncols != self.nrows * self.ncols:
            raise refusal('J5', detail='%dx%d has %d places, and %dx%d has %d' % (
                *self.shape, self.nrows * self.ncols, nrows, ncols, nrows * ncols))
        rows, columns, values = self.entries()
        by_rows = ORDERS[order]
        width, new = (self.ncols, ncols) if by_rows else (self.nrows, nrows)
        at = rows * width + columns if by_rows else columns * width + rows
        first, second = at // max(new, 1), at % max(new, 1)
        made: Any = self.session.from_coo(first if by_rows else second,
                                          second if by_rows else first, values, nrows, ncols,
                                          name=name)
        made.notes = BY_POSITIONS._replace(unit=self.unit)
        return cast(Self, made)

    def kronecker(self: Self, other: Self, op: Op = 'times', *, name: Optional[str] = None) -> Self:
        """The Kronecker product: op(x, y) for each entry x here and y there.

        The place of y is within that of x: at (i * rows + k, j * columns + l).

        Parameters
        ----------
        other : Matrix
            The matrix that each entry here is joined with.
        op : Operator, str or callable, default 'times'
            A binary operator.
        name : str, optional
            What the result is called.

        Returns
        -------
        Matrix
            A matrix with the products of both sizes. Its names are pairs of names, where both have
            names.

        Raises
        ------
        TypeError
            If `other` is no matrix.
        TooLarge
            Above 16,777,216 pairs.

        See Also
        --------
        mxm : The product over a semiring.

        Notes
        -----
        1 job. The client reads both matrices and sends one entry for each pair of theirs twice. In
        the GraphBLAS GrB_kronecker, in numpy `kron`.

        Examples
        --------
        >>> import spmat
        >>> s = spmat.Session()
        >>> A = s.from_dense([[1, 2]])
        >>> A.kronecker(s.from_dense([[10, 100]]), "times").to_triples()
        [(0, 0, 10), (0, 1, 100), (0, 2, 20), (0, 3, 200)]
        """
        if not isinstance(other, Matrix):
            raise not_a_matrix(other)
        if self.nvals * other.nvals > MOST_SIDE:
            raise refusal('M4', detail='%d entries, of %d and of %d' % (
                self.nvals * other.nvals, self.nvals, other.nvals))
        shape = (integers.side(self.nrows * other.nrows, 0, 'nrows'),
                 integers.side(self.ncols * other.ncols, 0, 'ncols'))
        (i, j, x), (k, l, y) = self.entries(), other.entries()
        each, times = len(k), len(i)
        rows = numpy.repeat(i, each) * other.nrows + numpy.tile(k, times)
        columns = numpy.repeat(j, each) * other.ncols + numpy.tile(l, times)
        sides = [self.session.from_coo(rows, columns, many, *shape)
                 for many in (numpy.repeat(x, each), numpy.tile(y, times))]
        notes = NOTHING.with_axes(*(_pair_names(self, other, axis) for axis in BOTH))
        if any(of.notes.axis(ROWS).is_other_kind(of.notes.axis(COLUMNS)) for of in (self, other)):
            notes = notes.with_two_kinds()
        for made, of in zip(sides, (self, other)):
            made.notes = notes._replace(unit=of.unit, directed=even(of.notes))
        return cast(Self, sides[0].ewise_mult(sides[1], op, name=name))

    # -- jobs

    def _combine(self, form: str, op: Op, other: 'Matrix', mask: MaskLike,
                 name: Optional[str]) -> 'Matrix':
        """The result of a job that combines the entries of two matrices of one shape."""
        self._check_shape(form, other, self.shape)
        found = of_form(form, op)
        job = Job(form, (found,), (self.handle, other.handle), self.shape)
        return self._queue(job, (self, other), self._derive(form, (found,), other), mask, name)

    def _derive(self, form: str, operators: Tuple[Operator, ...],
                other: 'Matrix') -> Metadata:
        """What is known of the result of a job on this matrix and another."""
        one, two = self.handle, other.handle
        mirrors = (one.transposed is not None or two.transposed is not None) and one.mirrors(two)
        return result_metadata.derive(form, operators, self.notes, other.notes, same=one is two,
                                      mirrors=mirrors)

    def _queue(self, job: Job, operands: Sequence[MatrixBase], notes: Metadata,
               mask: MaskLike, name: Optional[str]) -> 'Matrix':
        """The result of a job, of which `notes` are known without the mask."""
        if mask is not None:
            return self._queue_under(job, operands, notes, mask, name)
        session: Any = self.session
        is_vector = False
        for operand in operands:
            if operand.session is not session:
                session = common_session(session, operand.session)
            if operand.is_vector:
                is_vector = 1 in job.shape and (job.shape != (1, 1) or operand.shape == (1, 1))
        try:
            handle = session.backend.submit(job, name)
        except TooLarge as fault:
            if job.is_by_parts:
                raise
            raise oversized_jobs.explained(fault, job, cast(Any, operands)) from None
        return make_matrix(session, handle, notes, is_vector, name)

    def _queue_under(self, job: Job, operands: Sequence[MatrixBase], notes: Metadata,
                     mask: MaskLike, name: Optional[str]) -> 'Matrix':
        """The same under a mask."""
        where = as_mask(mask)
        assert where is not None
        common_session(self.session, where.matrix.session)
        under = result_metadata.under_mask(where, job.shape, notes)
        made = (self._visit(job, operands, where, under, name) if where.value
                or where.complement else None)
        if made is not None:
            return cast('Matrix', made)
        if where.complement:
            return self._queue(job, operands, notes, None, None).without(~where, name=name)
        cut = structure(where)
        return self._queue(job._replace(mask=cut.handle), (*operands, cut), under, None, name)

    def _visit(self, job: Job, operands: Sequence[MatrixBase], where: Mask, notes: Metadata,
               name: Optional[str], method: Tuple[object, ...] = (), **options: object) -> Any:
        """The result of a method under a mask, of which this job is the last, where one visit to a
        session makes all of them. Else None, and the caller queues them."""
        if not self.session.backend.fuses(job):
            return None
        visit = OneVisit(where.value, where.complement, method, options)
        job = job._replace(mask=where.matrix.handle, visit=visit)
        return self._queue(job, (*operands, where.matrix), notes, None, name)

    def _check_shape(self, form: str, other: object, shape: Tuple[int, Optional[int]]) -> None:
        if not isinstance(other, Matrix):
            raise not_a_matrix(other)
        if other.session is not self.session:
            common_session(self.session, other.session)
        if other.nrows != shape[0] or shape[1] not in (None, other.ncols):
            due = ('have %d rows' % shape[0] if shape[1] is None else 'be %dx%s' % shape)
            raise refusal('J5', command=form, detail='%dx%d and %dx%d: the second has to %s%s' % (
                *self.shape, *other.shape, due, hint_of(self.notes, other.notes)))

    # -- entries by position

    def to_text(self) -> bytes:
        """The canonical Matrix Market text.

        Returns
        -------
        bytes
            Coordinate integer general, entries by ascending row and column.

        See Also
        --------
        mmwrite : Into a file.
        Session.from_text : The other way.

        Notes
        -----
        Runs the queue where this matrix waits, as all else does that tells what it holds.

        Examples
        --------
        >>> import spmat
        >>> s = spmat.Session()
        >>> A = s.from_triples([(0, 0, 1), (0, 2, -2), (1, 2, 3)], 2, 3)
        >>> print(A.to_text().decode(), end="")
        %%MatrixMarket matrix coordinate integer general
        2 3 3
        1 1 1
        1 3 -2
        2 3 3
        """
        return self.session.backend.read_text(self.handle)

    def _texts(self) -> Iterator[bytes]:
        """The text by pieces."""
        return self.session.backend.texts(self.handle)

    def entries(self, *, arrays: Optional[bool] = None,
                dtype: DType = None) -> Tuple[Any, Any, Any]:
        """Rows, columns and values, as `Matrix.to_coo` has them, also of a vector.

        Parameters
        ----------
        arrays : bool, optional
            False gives lists in place of arrays of numpy.
        dtype : type, optional
            With float, values are what the stored whole numbers stand for; else they are these
            numbers.

        Returns
        -------
        tuple of three arrays or lists
            Rows, columns and values.

        See Also
        --------
        to_coo : The same.

        Examples
        --------
        >>> import spmat
        >>> s = spmat.Session()
        >>> A = s.from_triples([(0, 0, 1), (0, 2, -2), (1, 2, 3)], 2, 3)
        >>> A.entries()
        (array([0, 0, 1]), array([0, 2, 2]), array([ 1, -2,  3]))
        """
        rows, columns, values = self.session.backend.read(self.handle)[:3]
        if arrays is False:
            rows, columns, values = rows.tolist(), columns.tolist(), values.tolist()
        if dtype is not None and scales.are_decimals(dtype):
            values = (scales.to_decimals(values, self.unit) if not scales.is_whole(self.unit)
                      else list(map(float, values)) if isinstance(values, list) else values * 1.0)
        return rows, columns, values

    def to_coo(self, *, arrays: Optional[bool] = None, dtype: DType = None) -> Tuple[Any, Any, Any]:
        """Rows, columns (from 0) and values, by ascending row and column.

        Those of a part count within the part: `from_coo(*part.to_coo(), nodes=part.nodes)` has its
        names again, and `to_edgelist` gives names.

        Parameters
        ----------
        arrays : bool, optional
            False gives lists in place of arrays of numpy.
        dtype : type, optional
            With float, values are what the stored whole numbers stand for; else they are these
            numbers.

        Returns
        -------
        tuple of three arrays or lists
            Rows, columns and values.

        See Also
        --------
        to_triples : Entries as tuples.
        to_csr : Compressed rows.
        to_dense : A numpy array.

        Notes
        -----
        Runs the queue where this matrix waits. In python-graphblas the same name.

        Examples
        --------
        >>> import spmat
        >>> s = spmat.Session()
        >>> A = s.from_triples([(0, 0, 1), (0, 2, -2), (1, 2, 3)], 2, 3)
        >>> A.to_coo()
        (array([0, 0, 1]), array([0, 2, 2]), array([ 1, -2,  3]))
        """
        return self.entries(arrays=arrays, dtype=dtype)

    def to_triples(self) -> List[Tuple[int, int, int]]:
        """(row, column, value) of each entry, by ascending row and column.

        Returns
        -------
        list of tuples
            Values are the stored whole numbers.

        See Also
        --------
        to_edgelist : With names.
        to_coo : Three arrays.

        Examples
        --------
        >>> import spmat
        >>> s = spmat.Session()
        >>> A = s.from_triples([(0, 0, 1), (0, 2, -2), (1, 2, 3)], 2, 3)
        >>> A.to_triples()
        [(0, 0, 1), (0, 2, -2), (1, 2, 3)]
        """
        return list(zip(*self.entries(arrays=False)))

    def to_dict(self) -> Dict[Tuple[int, int], int]:
        """{(row, column): value} of each entry.

        `to_dicts` has a dict for each row.

        Returns
        -------
        dict
            Values are the stored whole numbers.

        See Also
        --------
        to_dicts : A dict for each row.
        to_edgelist : With names.

        Examples
        --------
        >>> import spmat
        >>> s = spmat.Session()
        >>> A = s.from_triples([(0, 0, 1), (0, 2, -2), (1, 2, 3)], 2, 3)
        >>> A.to_dict()
        {(0, 0): 1, (0, 2): -2, (1, 2): 3}
        """
        rows, columns, values = self.entries(arrays=False)
        return dict(zip(zip(rows, columns), values))

    def to_dicts(self, order: str = 'rowwise') -> Dict[int, Dict[int, int]]:
        """{row: {column: value}} of each row that has entries.

        Parameters
        ----------
        order : str, default 'rowwise'
            With "columnwise" it is {column: {row: value}}.

        Returns
        -------
        dict of dicts
            Values are the stored whole numbers; nothing of a row without entries.

        Raises
        ------
        ValueError
            If `order` is another word.

        See Also
        --------
        to_dict : One dict.

        Notes
        -----
        Runs the queue where this matrix waits. In python-graphblas the same name.

        Examples
        --------
        >>> import spmat
        >>> s = spmat.Session()
        >>> A = s.from_triples([(0, 0, 1), (0, 2, -2), (1, 2, 3)], 2, 3)
        >>> A.to_dicts()
        {0: {0: 1, 2: -2}, 1: {2: 3}}
        """
        return to_dicts(self.entries(), order)

    def to_csr(self) -> Tuple[Any, Any, Any]:
        """Compressed rows.

        Returns
        -------
        tuple of three arrays
            For each row where its entries begin, and at last how many there are; then their columns
            and their stored values. All are arrays of numpy.

        See Also
        --------
        to_csc : Compressed columns.
        to_coo : Rows, columns and values.

        Notes
        -----
        Runs the queue where this matrix waits. In python-graphblas the same name.

        Examples
        --------
        >>> import spmat
        >>> s = spmat.Session()
        >>> A = s.from_triples([(0, 0, 1), (0, 2, -2), (1, 2, 3)], 2, 3)
        >>> indptr, columns, values = A.to_csr()
        >>> indptr.tolist(), columns.tolist(), values.tolist()
        ([0, 2, 3], [0, 2, 2], [1, -2, 3])
        """
        return to_compressed(self.entries(), self.nrows)

    def to_csc(self) -> Tuple[Any, Any, Any]:
        """Compressed columns.

        Returns
        -------
        tuple of three arrays
            For each column where its entries begin, and at last how many there are; then their rows
            and their stored values.

        See Also
        --------
        to_csr : Compressed rows.
        to_coo : Rows, columns and values.

        Notes
        -----
        Runs the queue where this matrix waits. In python-graphblas the same name.

        Examples
        --------
        >>> import spmat
        >>> s = spmat.Session()
        >>> A = s.from_triples([(0, 0, 1), (0, 2, -2), (1, 2, 3)], 2, 3)
        >>> indptr, rows, values = A.to_csc()
        >>> indptr.tolist(), rows.tolist(), values.tolist()
        ([0, 1, 1, 3], [0, 0, 1], [1, -2, 3])
        """
        return to_compressed(by_columns(self.entries()), self.ncols)

    def to_list(self, missing: object = None, dtype: DType = None) -> List[Any]:
        """The values of a column or a row.

        Parameters
        ----------
        missing : object, optional
            What stands where there is no entry; None without it.
        dtype : type, optional
            With float, values are what the stored whole numbers stand for; else they are these
            numbers.

        Returns
        -------
        list
            A value for each row of a column, for each column of a row.

        Raises
        ------
        DimensionMismatch
            For another shape.

        See Also
        --------
        by_node : By name.
        to_coo : Entries with positions.

        Notes
        -----
        Runs the queue where this matrix waits.

        Examples
        --------
        >>> import spmat
        >>> s = spmat.Session()
        >>> A = s.from_triples([(0, 0, 1), (0, 2, -2), (1, 2, 3)], 2, 3)
        >>> A.reduce_rowwise("plus").to_list()
        [-1, 3]
        >>> A[0, :].to_list()
        [1, None, -2]
        """
        count = self._vector_length('a column or a row')
        rows, columns, values = self.entries(arrays=False, dtype=dtype)
        if len(values) == count:
            return list(values)
        out = [missing] * count
        for at, value in zip(rows if self.ncols == 1 else columns, values):
            out[at] = value
        return out

    def to_dense(self, fill: Union[Exact, DType] = 0, dtype: DType = None, *,
                 fill_value: Optional[Exact] = None) -> Any:
        """An array of numpy of this shape.

        One column is an array of shape (n, 1), which refuses to become n x n beside one of shape
        (n,). A `Vector` gives the latter.

        Parameters
        ----------
        fill : number, default 0
            What stands where there is no entry. A type here is `dtype`: `to_dense(float)`.
        dtype : type, optional
            With float the array is float64, what the stored whole numbers stand for; else it is
            int64, these numbers.
        fill_value : number, optional
            Another name of `fill`.

        Returns
        -------
        numpy.ndarray
            An array of two dimensions, of int64 or float64.

        See Also
        --------
        to_coo : Without the missing entries.
        to_frame : With names.

        Notes
        -----
        Runs the queue where this matrix waits. In python-graphblas the same name.

        Examples
        --------
        >>> import spmat
        >>> s = spmat.Session()
        >>> A = s.from_triples([(0, 0, 1), (0, 2, -2), (1, 2, 3)], 2, 3)
        >>> A.to_dense(fill=0).tolist()
        [[1, 0, -2], [0, 0, 3]]
        """
        value: Any = fill if fill_value is None else fill_value
        if dtype is None and (isinstance(value, (type, str)) or hasattr(value, 'itemsize')
                              and not hasattr(value, '__float__')):
            value, dtype = 0, value
        kind = numpy.float64 if scales.are_decimals(dtype) else numpy.int64
        table = numpy.full(self.shape,
                           value if kind is numpy.float64 else integers.word(value, 'fill'),
                           kind)
        rows, columns, values = self.entries(arrays=True, dtype=dtype)
        table[rows, columns] = values
        return dense(table)

    def to_scipy_sparse(self, format: str = 'csr', dtype: DType = None) -> Any:
        """A matrix of scipy.sparse.

        Parameters
        ----------
        format : str, default 'csr'
            The format, by the name that scipy has for it.
        dtype : type, optional
            With float values are float64, what the stored whole numbers stand for; else they are
            int64, these numbers.

        Returns
        -------
        scipy.sparse matrix
            A matrix of the same shape.

        See Also
        --------
        Session.from_scipy_sparse : The other way.
        to_csr : The three arrays.

        Notes
        -----
        Runs the queue where this matrix waits. In python-graphblas `io.to_scipy_sparse`.

        Examples
        --------
        >>> import spmat
        >>> s = spmat.Session()
        >>> A = s.from_triples([(0, 0, 1), (0, 2, -2), (1, 2, 3)], 2, 3)
        >>> A.to_scipy_sparse().toarray().tolist()
        [[1, 0, -2], [0, 0, 3]]
        """
        sparse = import_extra('scipy.sparse', 'to_scipy_sparse')
        rows, columns, values = self.entries(arrays=True, dtype=dtype)
        return sparse.coo_matrix((values, (rows, columns)), self.shape).asformat(format)

    def __int__(self) -> int:
        """What the value of a matrix of one entry stands for, without its fraction.

        Returns
        -------
        int
            The value. TypeError unless the matrix is 1x1, ValueError where it has no entry.
        """
        return int(self._single('int'))

    def __float__(self) -> float:
        """What the value of a matrix of one entry stands for.

        Returns
        -------
        float
            As `int` has it.
        """
        return float(self._single('float'))

    def _single(self, kind: str) -> Any:
        """What the value of the one entry stands for, of a matrix of one row and one column."""
        if self.shape != (1, 1):
            refusing('%s() unless it is 1x1 (this is %dx%d)' % (kind, *self.shape),
                     'A.reduce_scalar(), or A.get(i, j)')(self)
        if self.notes.value_names is not None:
            raise TypeError('%s() of a vertex: A.by_node() gives its name' % kind)
        value = value_of(self)
        if value is None:
            raise ValueError(
                '%s() of a matrix without an entry: A.get(0, 0, default=0) gives a number all '
                'the same' % kind)
        return value

    # -- entries by name

    def by_node(self, *, raw: bool = False) -> Dict[Any, Any]:
        """{name: value} of a column or a row.

        It is {number: value} where it has no names. A vertex without an entry isn't there.

        Parameters
        ----------
        raw : bool, default False
            Whether values are the stored whole numbers. Else they are what stored numbers stand
            for. With a unit these are floats. Where values are vertices, as those of parents and
            components are, they are the names.

        Returns
        -------
        dict
            A value for each vertex that has an entry.

        Raises
        ------
        DimensionMismatch
            For another shape.

        See Also
        --------
        to_edgelist : All entries, with names.
        top : The greatest ones.
        to_list : Values by position.

        Notes
        -----
        Runs the queue where this matrix waits. In networkx results have this form.

        Examples
        --------
        >>> import spmat
        >>> s = spmat.Session()
        >>> G = s.from_edgelist([("Ann", "Bob", 5), ("Bob", "Cid", 7)])
        >>> G.reduce_rowwise("plus").by_node()
        {'Ann': 5, 'Bob': 7}
        """
        vertices, values = self._read_vector()
        return dict(zip(vertices, self._show_values(values, raw)))

    def sets(self) -> List[Set[Any]]:
        """The vertices of each group, of a column or a row whose values say which belong together.

        Those of one value are one set. Vertices without an entry are in none.

        Returns
        -------
        list of sets
            Sets of the vertices' names, or of their numbers where there are none. The largest comes
            first, of equals that of the first vertex.

        Raises
        ------
        DimensionMismatch
            For another shape.

        See Also
        --------
        by_node : Each vertex with its group.
        connected_components : Groups by paths.
        louvain : Groups by modularity.

        Notes
        -----
        Runs the queue where this matrix waits. In networkx functions on components and communities
        have this form.

        Examples
        --------
        >>> import spmat
        >>> s = spmat.Session()
        >>> G = s.from_edgelist([(0, 1), (2, 3)], directed=False)
        >>> spmat.algorithms.connected_components(G).sets()
        [{0, 1}, {2, 3}]
        """
        found: Dict[int, Set[Any]] = {}
        for vertex, value in zip(*self._read_vector()):
            found.setdefault(value, set()).add(vertex)
        return sorted(found.values(), key=len, reverse=True)

    def to_edgelist(self, *, raw: bool = False) -> List[Tuple[Any, Any, Any]]:
        """(row, column, value) of each entry, with names where rows and columns have them.

        Parameters
        ----------
        raw : bool, default False
            Whether values are the stored whole numbers. Else they are as `by_node` has them.

        Returns
        -------
        list of tuples
            A tuple for each entry.

        See Also
        --------
        to_triples : By position.
        to_pandas_edgelist : A table.
        write_edgelist : A file.

        Notes
        -----
        Runs the queue where this matrix waits. In networkx the same name.

        Examples
        --------
        >>> import spmat
        >>> s = spmat.Session()
        >>> G = s.from_edgelist([("Ann", "Bob", 5), ("Bob", "Cid", 7)])
        >>> G.to_edgelist()
        [('Ann', 'Bob', 5), ('Bob', 'Cid', 7)]
        """
        rows, columns, values = self.entries(arrays=False)
        first, second = self.notes.rows, self.notes.columns
        return list(zip(rows if first is None else map(first.__getitem__, rows),
                        columns if second is None else map(second.__getitem__, columns),
                        self._show_values(values, raw)))

    def top(self, k: int = 10, *, raw: bool = False) -> List[Tuple[Any, ...]]:
        """The k entries of the greatest values.

        Parameters
        ----------
        k : int, default 10
            How many, 0 or more. `A.apply("ainv").top(k)` has the least.
        raw : bool, default False
            Whether values are the stored whole numbers. Else they are as `by_node` has them.

        Returns
        -------
        list of tuples
            (name, value) of a column or a row, (name, name, value) of another matrix; numbers where
            there are no names. The greatest stands first, of equals the first.

        Raises
        ------
        ValueError
            If k is below 0.

        See Also
        --------
        by_node : All values.
        select : By a bound.

        Notes
        -----
        Of many entries the session finds those from a threshold on, by some 50 small jobs, and
        these come to the client. Where the budget has too little left, all come. In pandas
        `nlargest`.

        Examples
        --------
        >>> import spmat
        >>> s = spmat.Session()
        >>> G = s.from_edgelist([("Ann", "Bob", 5), ("Bob", "Cid", 7)])
        >>> G.top(1)
        [('Bob', 'Cid', 7)]
        >>> G.reduce_columnwise("plus").top(1)
        [('Cid', 7)]
        """
        few: Any = self
        k = integers.whole(k, 'number of entries')
        if k < 0:
            raise ValueError('top(k) gives the k greatest entries: k is 0 or more, not %d; '
                             'A.apply("ainv").top(%d) has the least' % (k, -k))
        try:
            few = find_greatest(few, k)
        except BudgetExceeded:
            pass                                   # entries can be read all the same
        if few is not self:
            few.notes = self.notes
        found: Iterable[Tuple[Any, ...]] = (few.by_node(raw=True).items() if 1 in self.shape
                                            else few.to_edgelist(raw=True))
        most = heapq.nlargest(k, found, key=lambda entry: int(entry[-1]))
        return [(*entry[:-1], shown)
                for entry, shown in zip(most, self._show_values([entry[-1] for entry in most],
                                                                raw))]

    def to_networkx(self, directed: Optional[bool] = None, weight: Optional[str] = 'weight',
                    nodes: Optional[Sequence[Vertex]] = None, *, raw: bool = False) -> Any:
        """A networkx graph of a square matrix.

        Parameters
        ----------
        directed : bool, optional
            Whether it is a DiGraph. Where it isn't given, it is a Graph if the matrix is known to
            be that of an undirected graph, else a DiGraph. A Graph that is asked for has an edge
            where one of (i, j) and (j, i) is.
        weight : str or None, default 'weight'
            The attribute of edges that has the values. They have none where it is None, or the
            matrix came from a graph without weights.
        nodes : list, optional
            The nodes of the graph; without it those of this matrix, or 0 to n - 1.
        raw : bool, default False
            Whether values are the stored whole numbers. Else they are as `by_node` has them.

        Returns
        -------
        networkx.Graph or networkx.DiGraph
            A graph with a node for each row and an edge for each entry.

        Raises
        ------
        DimensionMismatch
            If the matrix isn't square.
        ValueError
            If there are not as many nodes as rows, or an edge of a Graph has two values.

        See Also
        --------
        Session.from_networkx : The other way.
        to_edgelist : A list.

        Notes
        -----
        Runs the queue where this matrix waits. In python-graphblas `io.to_networkx`.

        Examples
        --------
        >>> import spmat
        >>> s = spmat.Session()
        >>> G = s.from_edgelist([("Ann", "Bob", 5), ("Bob", "Cid", 7)])
        >>> G.to_networkx().edges(data=True)
        OutEdgeDataView([('Ann', 'Bob', {'weight': 5}), ('Bob', 'Cid', {'weight': 7})])
        """
        networkx = import_extra('networkx', 'to_networkx')
        if self.nrows != self.ncols:
            raise refusal('J5',
                          detail='expected a square matrix, got %dx%d: `spmat.bipartite` makes '
                          'one of it' % self.shape)
        if nodes is None:
            check_one_kind(self.notes)
        given = nodes if nodes is not None else self.nodes
        labels = list(range(self.nrows) if given is None else given)
        if len(labels) != self.nrows:
            raise ValueError('%d nodes for %d rows' % (len(labels), self.nrows))
        graph = (networkx.Graph() if (self.directed if directed is None else directed) is False
                 else networkx.DiGraph())
        graph.add_nodes_from(labels)
        rows, columns, values = self.entries(arrays=False)
        named = ((labels[i], labels[j], value)
                 for i, j, value in zip(rows, columns, self._show_values(values, raw)))
        is_plain = weight is None or self.notes.weighted is False
        if not (is_plain or self.directed is False or graph.is_directed()):
            _check_both_ways(rows, columns, values, labels)
        if is_plain:
            graph.add_edges_from((u, v) for u, v, _ in named)
        else:
            graph.add_weighted_edges_from(named, weight)
        return graph

    def _read_vector(self) -> Tuple[Iterable[Any], List[int]]:
        """The names, or the numbers, of the entries of a column or a row, and their stored
        values."""
        self._vector_length('a column or a row')
        rows, columns, values = self.entries(arrays=False)
        axis = along(self.shape, self.notes)
        at, names = (rows, columns)[axis], self.notes.names(axis)
        return (at if names is None else map(names.__getitem__, at)), values

    def _show_values(self, values: Union[List[int], Array], raw: bool) -> Any:
        """Values as people are shown them: what they stand for, or with `raw` as they are
        stored."""
        return values if raw else scales.to_decimals(values, self.unit)

    def _vector_length(self, wanted: str) -> int:
        """The length of a column or a row."""
        if 1 not in (self.nrows, self.ncols):
            raise refusal('J5', detail='expected %s, got %dx%d: to_triples(), to_edgelist() and '
                          'to_dense() take any matrix' % (wanted, *self.shape))
        return self.nrows if self.ncols == 1 else self.ncols


    # -- entries in files and tables

    def to_csv(self, target: Optional[Target] = None, fields: Optional[Sequence[str]] = None, *,
               sep: str = ',', header: bool = True, scale: Optional[float] = None,
               raw: bool = False) -> Optional[str]:
        """Write a line for each entry.

        `read_graph` reads the same edges again, with `scale=` where the matrix has a unit.

        Parameters
        ----------
        target : path or file, optional
            A path, or a file open in text. Without it the text is returned.
        fields : sequence of str, optional
            What the header calls the fields: source, target and weight, or of a column or a row
            node and value, unless given.
        sep : str, default ','
            The separator of fields. Names are quoted where they need it.
        header : bool, default True
            Whether the first line names the fields.
        scale : number, optional
            Stored values are divided by it, in place of the matrix' unit.
        raw : bool, default False
            Whether the stored whole numbers are written.

        Returns
        -------
        str or None
            The text, where there is no target.

        Raises
        ------
        ValueError
            Before anything is written, for names that no list has, such as one with an end of line.

        Warns
        -----
        UserWarning
            If names come back as others, such as tuples, or '1', which `nodetype=str` reads as
            text. Also if vertices have no edge, since a list doesn't name them. `save` keeps them,
            and `read_graph(.., nodelist=G.nodes)` has them again.

        See Also
        --------
        to_parquet : A parquet file.
        write_edgelist : A list of edges.
        Session.read_graph : Reads it.

        Notes
        -----
        In pandas `to_csv`.

        Examples
        --------
        >>> import spmat
        >>> s = spmat.Session()
        >>> G = s.from_edgelist([("Ann", "Bob", 5), ("Bob", "Cid", 7)])
        >>> G.to_csv("g.csv")
        >>> print(open("g.csv").read(), end="")
        source,target,weight
        Ann,Bob,5
        Bob,Cid,7
        """
        return writers.to_csv(self, target, fields, sep, header=header, scale=scale, raw=raw)

    def write_edgelist(self, target: Target, sep: str = ' ', *, values: bool = True,
                       scale: Optional[float] = None, raw: bool = False) -> None:
        """Write a line for each edge: two names and a value.

        Parameters
        ----------
        target : path or file
            A path, or a file open in text.
        sep : str, default ' '
            The separator of fields. Names are quoted where they need it, but not beside blanks.
        values : bool, default True
            Whether values are written.
        scale : number, optional
            Stored values are divided by it, in place of the matrix' unit.
        raw : bool, default False
            Whether the stored whole numbers are written.

        Raises
        ------
        ValueError
            As `to_csv` has it. A list separated by blanks can't quote, so it has fewer names.

        Warns
        -----
        UserWarning
            As `to_csv` does.

        See Also
        --------
        to_csv : With a header.
        Session.read_edgelist : Reads it.

        Notes
        -----
        In networkx `write_weighted_edgelist`.

        Examples
        --------
        >>> import spmat
        >>> s = spmat.Session()
        >>> G = s.from_edgelist([("Ann", "Bob", 5), ("Bob", "Cid", 7)])
        >>> G.write_edgelist("g.txt")
        >>> print(open("g.txt").read(), end="")
        Ann Bob 5
        Bob Cid 7
        """
        writers.write_edgelist(self, target, sep, values, scale=scale, raw=raw)

    def to_pandas(self, *, scale: Optional[float] = None, raw: bool = False) -> Any:
        """The entries as a Series or a table of pandas.

        Parameters
        ----------
        scale : number, optional
            Stored values are divided by it, in place of the matrix' unit.
        raw : bool, default False
            Whether the values are the stored whole numbers.

        Returns
        -------
        pandas.Series or pandas.DataFrame
            Of a column or a row its values by name; of another matrix a table as
            `to_pandas_edgelist` has it.

        Raises
        ------
        ImportError
            If pandas is missing (extra `files`).

        See Also
        --------
        to_pandas_edgelist : With columns of your choice.
        to_frame : A cell for each row and column.

        Examples
        --------
        >>> import spmat
        >>> s = spmat.Session()
        >>> G = s.from_edgelist([("Ann", "Bob", 5), ("Bob", "Cid", 7)])
        >>> G.reduce_rowwise("plus").to_pandas().to_dict()
        {'Ann': 5, 'Bob': 7}
        """
        return writers.to_pandas(self, scale=scale, raw=raw)

    def to_frame(self, fill: object = 0, *, raw: bool = False) -> Any:
        """A table of pandas with a cell for each row and column, and names on both sides.

        Parameters
        ----------
        fill : object, default 0
            What stands where there is no entry.
        raw : bool, default False
            Whether values are the stored whole numbers. Else they are as `by_node` has them.

        Returns
        -------
        pandas.DataFrame
            A table of this shape; numbers name rows or columns that have no names.

        Raises
        ------
        ImportError
            If pandas is missing (extra `files`).

        See Also
        --------
        to_pandas_edgelist : A row for each entry.
        to_dense : A numpy array.

        Notes
        -----
        Runs the queue where this matrix waits. `s.from_dense(frame, missing=fill)` reads it again.
        In networkx `to_pandas_adjacency`.

        Examples
        --------
        >>> import spmat
        >>> s = spmat.Session()
        >>> G = s.from_edgelist([("Ann", "Bob", 5), ("Bob", "Cid", 7)])
        >>> G.to_frame(fill=0)
             Ann  Bob  Cid
        Ann    0    5    0
        Bob    0    0    7
        Cid    0    0    0
        """
        return writers.to_frame(self, fill, raw)

    def head(self, k: int = 5) -> Any:
        """The first entries, as `to_pandas` has them.

        Parameters
        ----------
        k : int, default 5
            How many, 0 or more.

        Returns
        -------
        pandas.Series or pandas.DataFrame
            Of a column or a row values by name; of another matrix a row for each edge.

        See Also
        --------
        describe : Statistics of the values.
        to_pandas : All entries.

        Notes
        -----
        Runs the queue where this matrix waits, and few entries come to the client. In pandas the
        same name.

        Examples
        --------
        >>> import spmat
        >>> s = spmat.Session()
        >>> G = s.from_edgelist([("Ann", "Bob", 5), ("Bob", "Cid", 7)])
        >>> G.head(1)
          source target  weight
        0    Ann    Bob       5
        """
        many = min(integers.whole(k, 'number of entries'), self.nrows * self.ncols)
        return alias(find_first(self, many), self.notes).to_pandas().head(many)

    def describe(self) -> Any:
        """The number of entries, and the mean, the spread and the quartiles of their values.

        A vertex without an entry doesn't count, as a missing value doesn't in pandas.

        Returns
        -------
        pandas.Series
            As pandas has it, of what the stored numbers stand for. Of vertices, which have no mean,
            it says how many differ, and which stands most often.

        See Also
        --------
        head : The first entries.
        to_pandas : All entries.

        Notes
        -----
        Runs the queue where this matrix waits; the values come to the client. In pandas the same
        name.

        Examples
        --------
        >>> import spmat
        >>> s = spmat.Session()
        >>> G = s.from_edgelist([("Ann", "Bob", 5), ("Bob", "Cid", 7)])
        >>> G.describe()["mean"]
        6.0
        """
        pandas = import_extra('pandas', 'describe')
        values = self._show_values(self.entries()[2], False)
        return (pandas.Series(values) if self.notes.value_names is None
                else pandas.Series(values, dtype=object)).describe()

    def to_pandas_edgelist(self, source: str = 'source', target: str = 'target',
                           edge_attr: Optional[str] = 'weight', *, scale: Optional[float] = None,
                           raw: bool = False) -> Any:
        """The entries as a table of pandas, which `from_pandas_edgelist` takes again.

        Parameters
        ----------
        source, target : str, default 'source' and 'target'
            What the columns are called that have the names of rows and columns.
        edge_attr : str, optional
            What the column of values is called; with None there is none.
        scale : number, optional
            Stored values are divided by it, in place of the matrix' unit.
        raw : bool, default False
            Whether the values are the stored whole numbers.

        Returns
        -------
        pandas.DataFrame
            A row for each entry.

        Raises
        ------
        ImportError
            If pandas is missing (extra `files`).

        See Also
        --------
        Session.from_pandas_edgelist : The other way.
        to_pandas : The entries as they are.

        Notes
        -----
        In networkx the same name.

        Examples
        --------
        >>> import spmat
        >>> s = spmat.Session()
        >>> G = s.from_edgelist([("Ann", "Bob", 5), ("Bob", "Cid", 7)])
        >>> G.to_pandas_edgelist(source="payer", target="payee", edge_attr="amount")
          payer payee  amount
        0   Ann   Bob       5
        1   Bob   Cid       7
        """
        return writers.to_pandas_edgelist(self, (source, target, edge_attr), scale=scale, raw=raw)

    def to_parquet(self, path: Path, *, scale: Optional[float] = None, raw: bool = False) -> None:
        """Write what `to_pandas` gives as a parquet file.

        Parameters
        ----------
        path : path
            The file to write.
        scale : number, optional
            Stored values are divided by it, in place of the matrix' unit.
        raw : bool, default False
            Whether the stored whole numbers are written.

        Raises
        ------
        ImportError
            If pandas, or pyarrow and fastparquet, are missing (extra `parquet`).

        Warns
        -----
        UserWarning
            Of vertices without an edge, as `to_csv` does.

        See Also
        --------
        to_csv : A text file.
        Session.read_graph : Reads it.

        Notes
        -----
        In pandas the same name.

        Examples
        --------
        >>> import spmat
        >>> s = spmat.Session()
        >>> G = s.from_edgelist([("Ann", "Bob", 5), ("Bob", "Cid", 7)])
        >>> G.to_parquet("g.parquet")                       # doctest: +SKIP
        """
        writers.to_parquet(self, path, scale=scale, raw=raw)

    def mmwrite(self, target: Source) -> None:
        """Writes the text to a path, or to a file opened in binary.

        It warns where values have a unit, which the text has not.

        Parameters
        ----------
        target : path or file
            Where the text goes.

        See Also
        --------
        to_text : The same text.
        Session.mmread : Reads it.
        Session.save : Keeps names and units, too.

        Notes
        -----
        Runs the queue where this matrix waits. In python-graphblas `io.mmwrite`.

        Examples
        --------
        >>> import spmat
        >>> s = spmat.Session()
        >>> A = s.from_triples([(0, 0, 1), (0, 2, -2), (1, 2, 3)], 2, 3)
        >>> A.mmwrite("a.mtx")
        >>> s.mmread("a.mtx").isequal(A)
        True
        """
        if self.unit != 1:
            warn_user('mmwrite writes the stored whole numbers, which are %s times what they stand '
                      'for: to_csv writes decimals, and save() keeps the unit' % self.unit,
                      UserWarning)
        if not hasattr(target, 'write'):
            with files.replacing(os.fspath(target)) as file:
                file.writelines(self._texts())
            return
        for piece in self._texts():
            target.write(piece)


Backend.matrix_type = Matrix


@functools.lru_cache(maxsize=None)
def vector_type(kind: Type[Matrix]) -> Type[Matrix]:
    """The class of vectors that are matrices of a class."""
    from .vector import Vector                     # which is a matrix
    return Vector if kind is Matrix else type(kind.__name__, (Vector, kind), {
        '__doc__': kind.__doc__, '__module__': kind.__module__})


def make_matrix(session: 'Session', handle: Handle, notes: Metadata, is_vector: bool = False,
                name: Optional[str] = None) -> Matrix:
    """The matrix that callers have of a handle, of the class that its backend wants. `notes` say
    what is known of it beside."""
    made: Matrix = session.backend.matrix_type(session, handle, name)
    if is_vector:
        made.__class__ = vector_type(type(made))
    made.notes = notes
    return made


def _check_digits(stored: Matrix, less: int, before: int, wanted: int) -> None:
    """ValueError where a stored value is no multiple of a divisor."""
    left = stored.apply('cmod', right=less).select('nonzero')
    if left.nvals:
        some = stored.dup(mask=left.S).reduce_scalar('any', raw=True)
        how = 'cuts them down' if isinstance(wanted, scales.TimeUnit) else 'rounds them'
        raise ValueError('%d of %d values would lose digits as %s, such as %s: exact=False %s' % (
            left.nvals, stored.nvals, scales.describe_unit(wanted), scales.to_text(some, before),
            how))


def _check_fits(stored: Matrix, factor: Fraction, wanted: int) -> None:
    """ValueError where a stored value times a factor is beyond 64 bits."""
    ends = (('valuelt', math.ceil(integers.LEAST / factor)),
            ('valuegt', math.floor(integers.MOST / factor)))
    # both wait, so that one run makes them
    outside = [stored.select(op, end) for op, end in ends if integers.LEAST < end < integers.MOST]
    many = sum(part.nvals for part in outside)
    if many:
        raise ValueError('%d of %d values are beyond 64 bits in %s: a coarser unit holds them'
                         % (many, stored.nvals, scales.describe_unit(wanted)))


def _rounding(more: int, less: int) -> Operator:
    """x times more / less, rounded to the nearest, halves to the even one. ValueError where this
    takes more than 64 bits."""
    if more * less >= 1 << 62:
        raise ValueError('a factor of %d/%d can not be rounded in 64 bits: rescale in two steps'
                         % (more, less))

    def nearest(x: int) -> int:
        whole = x // less
        over = (x - whole * less) * more
        found = whole * more + over // less
        rest = (over - over // less * less) * 2
        return found + ((rest > less) | ((rest == less) & (found & 1)))
    return unary(nearest, name='rescale')


def _check_positions(op: Op, first: Metadata, counting: Mapping[str, int]) -> None:
    """Looks at an operator that gets rows and columns by number, where these have other numbers for
    names. ValueError for a built-in one that counts them, and a warning for a function."""
    axes: Sequence[int] = ()
    if isinstance(op, str):
        axes = [counting[op]] if op in counting else []
    elif not isinstance(op, Operator) and kind_of_function(op) == 'index':
        axes = BOTH
    for axis in axes:
        names = first.names(axis)
        if names is None or names.are_counted or not names.numbered:
            continue
        if isinstance(op, str):
            raise ValueError(
                '"{0}" counts {1}s from 0, and here {1}s have numbers for names, such as {2!r}: '
                'write A[{3}] with a list of names, or A.select(spmat.indexunary.{0}, ..) to count '
                'them all the same'.format(op, WHAT[axis], names[0],
                                           ':, names' if axis else 'names, :'))
        warn_user('a function gets rows and columns by position, from 0, and here they have '
                  'numbers for names, such as %r: write A[names, :], or spmat.indexunary(f), '
                  'which says that positions are meant' % (names[0],), UserWarning)
        return


def _check_both_ways(rows: Sequence[int], columns: Sequence[int], values: Sequence[int],
                     labels: Sequence[Vertex]) -> None:
    """ValueError where (i, j) and (j, i) have different values, of which a graph without directions
    could keep one."""
    stored = dict(zip(zip(rows, columns), values))
    for (i, j), value in stored.items():
        other = stored.get((j, i), value)
        if other != value:
            raise ValueError(
                'the edge between %r and %r has two values, %d and %d: write A.ewise_add(A.T, '
                '"max").to_networkx(directed=False), or "plus", or weight=None for no values' % (
                    labels[i], labels[j], value, other))


def _pair_names(first: Matrix, second: Matrix, axis: int) -> Axis:
    """Names of pairs of vertices, where both have names."""
    one, other = first.notes.axis(axis), second.notes.axis(axis)
    if one.names is None and other.names is None:
        return Axis() if one.alone() == other.alone() == Axis() else Axis(None, Unnamed.POSITIONS)
    if not (one.has_names and other.has_names):
        return Axis(None, Unnamed.POSITIONS)
    return Axis(Nodes(itertools.product(one.listed(first.shape[axis]),
                                        other.listed(second.shape[axis]))))


def is_positional(op: Ring) -> bool:
    """Whether a semiring's second operator gives positions, as `any_secondi` does: rows or columns
    of the operands, from 0 or from 1."""
    mul = (op.partition('_')[2] if isinstance(op, str) else op[1] if isinstance(op, tuple)
           and len(op) == 2 else None)
    return isinstance(mul, str) and mul in POSITIONAL and mul not in binary


def multiply_positions(first: 'Matrix', second: 'Matrix', op: Ring, mask: MaskLike,
                       name: Optional[str], **options: Any) -> Any:
    """A product over a semiring of positions: the operand whose positions are meant has them in
    place of its values. Where they have names, they are vertices."""
    add, mul = op.split('_', 1) if isinstance(op, str) else cast(Tuple[Op, str], op)
    of_second, index, shift = POSITIONAL[str(mul)]
    ring = (add, 'second' if of_second else 'first')
    own = second if of_second else first
    axis = own.notes.axis(ROWS if index == 'rowindex' else COLUMNS)
    places, names = own.apply(index, right=shift), axis.names
    places.notes = places.notes._replace(
        unit=1 if names is None or names.are_counted or shift else VertexUnit(names, axis.kind))
    left, right = (first, places) if of_second else (places, second)
    return left.mxm(right, ring, mask=mask, name=name, **options)
