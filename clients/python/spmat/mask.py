"""Masks: where a result may have entries."""
from __future__ import annotations

from typing import Any, NamedTuple, NoReturn, Optional, Union

from .errors import MaskWarning, refusal, warn_user
from .matrix_base import MatrixBase, common_session


class Mask(NamedTuple):
    """Where a result may have entries: `A.S`, `A.V`, `~A.S` or `~A.V`.

    `A.S` is where A has an entry, `A.V` where it has one that isn't 0, `~A.S` and `~A.V` everywhere
    else.

    Parameters
    ----------
    matrix : Matrix
        The matrix A, by whose entries it goes.
    value : bool, default False
        Whether an entry that is 0 doesn't count: `A.V`.
    complement : bool, default False
        Whether it is everywhere else: `~A.S`, `~A.V`.

    Notes
    -----
    The server knows `A.S` alone; what the others take stands at `Matrix.S` and `Matrix.V`.

    `A.S & B.S`, `|`, `^` and `-` are masks, too. Each costs 1 job, or 5 jobs and 3 runs where
    entries of one alone are wanted (`without`). A mask by value costs 1 job and 1 run more. In
    python-graphblas the same signs.

    `and`, `or` and `not` of a mask raise TypeError, and so does == of masks of two matrices. The
    signs raise DimensionMismatch where the shapes differ, ValueError where the masks are of two
    sessions, and TypeError beside what is no mask.

    GraphBLAS: a structural mask, a value mask, and their complements.
    """
    matrix: Any
    value: bool = False
    complement: bool = False

    def __invert__(self) -> 'Mask':
        """Everywhere else.

        Returns
        -------
        Mask
            The complement.
        """
        return Mask(self.matrix, self.value, not self.complement)

    def __and__(self, other: 'Mask') -> 'Mask':
        """Where both masks are.

        Parameters
        ----------
        other : Mask
            A mask of the same shape and session.

        Returns
        -------
        Mask
            The mask of both.
        """
        _check_shapes(self, other)
        if self.complement and other.complement:
            return Mask((~self | ~other).matrix, complement=True)
        if self.complement or other.complement:
            inside, outside = (other, ~self) if self.complement else (self, ~other)
            return Mask(structure(inside).without(Mask(structure(outside))))
        return Mask(structure(self).ewise_mult(structure(other), 'pair'))

    def __or__(self, other: 'Mask') -> 'Mask':
        """Where either mask is.

        Parameters
        ----------
        other : Mask
            A mask of the same shape and session.

        Returns
        -------
        Mask
            The mask of both.
        """
        _check_shapes(self, other)
        if self.complement or other.complement:
            both = ~self & ~other
            return Mask(both.matrix, complement=not both.complement)
        return Mask(structure(self).ewise_add(structure(other), 'pair'))

    def __sub__(self, other: 'Mask') -> 'Mask':
        """Where this mask is and the other is not.

        Parameters
        ----------
        other : Mask
            A mask of the same shape and session.

        Returns
        -------
        Mask
            The mask of both.
        """
        return Mask.__and__(self, ~_as_operand(other))

    def __xor__(self, other: 'Mask') -> 'Mask':
        """Where one of both masks is alone.

        Parameters
        ----------
        other : Mask
            A mask of the same shape and session.

        Returns
        -------
        Mask
            The mask of both.
        """
        return Mask.__sub__(self | other, self & other)

    def __bool__(self) -> NoReturn:
        """A mask is neither true nor false.

        Raises
        ------
        TypeError
            Always.
        """
        raise TypeError(
            'a mask is neither true nor false: write A.S & B.S, A.S | B.S or ~A.S in place of '
            'and, or, not')

    def __eq__(self, other: object) -> bool:
        """Whether this is the same mask of the same matrix.

        Parameters
        ----------
        other : Mask
            A mask of the same matrix.

        Returns
        -------
        bool
            Whether both go by the same entries.

        Raises
        ------
        TypeError
            Of two matrices, whose entries == doesn't look at.
        """
        if isinstance(other, Mask) and self.matrix is other.matrix:
            return (self.value, self.complement) == (other.value, other.complement)
        raise TypeError(
            'a mask has no ==: write A.isequal(B) for two matrices, A.select("valueeq", 3) for '
            'some entries, A.ewise_mult(B, "eq") entry by entry, or (A.S ^ B.S).matrix.nvals == 0 '
            'for where two masks are')

    def __ne__(self, other: object) -> bool:
        """Whether this is another mask of the same matrix.

        Parameters
        ----------
        other : Mask
            A mask of the same matrix.

        Returns
        -------
        bool
            Whether both go by other entries.
        """
        return not self == other

    def __hash__(self) -> int:
        return hash((id(self.matrix), self.value, self.complement))

    def __repr__(self) -> str:
        return '%s%r.%s' % ('~' if self.complement else '', self.matrix, 'V' if self.value else 'S')


def structure(mask: Mask) -> Any:
    """A matrix whose structure is this mask's, whether it is complemented or not."""
    return mask.matrix.select('nonzero') if mask.value else mask.matrix


def _as_operand(other: object) -> Mask:
    """What stands beside a mask. TypeError where that is no mask."""
    if not isinstance(other, Mask):
        raise TypeError('beside a mask stands a mask, A.S or A.V, and not %r' % (other,))
    return other


def _check_shapes(one: Mask, other: 'Mask') -> None:
    """DimensionMismatch where two masks have other shapes, ValueError where they are of two
    sessions."""
    common_session(one.matrix.session, _as_operand(other).matrix.session)
    if _as_operand(other).matrix.shape != one.matrix.shape:
        raise refusal('J9', detail='one mask is %dx%d, the other %dx%d' % (
            *one.matrix.shape, *other.matrix.shape))


MaskLike = Union[MatrixBase, Mask, None]
"""What methods take for a mask."""


def as_mask(mask: MaskLike, warns: bool = True) -> Optional[Mask]:
    """A mask that is given as itself, or as a matrix, which is its structure; of a matrix it
    `warns`. TypeError for anything else."""
    if mask is None or isinstance(mask, Mask):
        return mask
    if isinstance(mask, MatrixBase):
        if warns:
            warn_user(
                'mask=A means A.S, the stored positions: write mask=A.S, or mask=A.V for those '
                'whose value is not 0', MaskWarning)
        return Mask(mask)
    raise TypeError('a mask is A.S, A.V, ~A.S or ~A.V, not %r' % (mask,))
