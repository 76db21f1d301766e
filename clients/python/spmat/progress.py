"""Progress bars of long work, by tqdm: in a terminal, and in a notebook."""
from __future__ import annotations

from typing import Any, Dict

from .extras import import_extra


class Bar:
    """A bar for what is done at the moment; it goes when something else begins.

    Parameters
    ----------
    **settings
        Settings of tqdm's bars, such as ``file`` or ``mininterval``.

    Raises
    ------
    ImportError
        If tqdm is missing.

    Examples
    --------
    >>> import spmat, spmat.progress
    >>> session = spmat.Session(progress=spmat.progress.Bar())
    """

    def __init__(self, **settings: object) -> None:
        self._tqdm = import_extra('tqdm.auto', 'a progress bar').tqdm
        self._settings: Dict[str, object] = {'leave': False, **settings}
        self._bar: Any = None
        self._shown = ('', 0)

    def __call__(self, what: str, done: int, of: int) -> None:
        """Show how much of something is done, as `Session(progress=)` calls it.

        Parameters
        ----------
        what : str
            What is done, such as ``'jobs'``.
        done, of : int
            How much of how much; `of` is 0 if that isn't known.
        """
        if self._bar is None or self._shown != (what, of):
            self.clear()
            self._bar = self._tqdm(total=of or None, desc=what, **self._settings)
            self._shown = what, of
        self._bar.update(done - self._bar.n)

    def clear(self) -> None:
        """Take the bar away, so that a line can begin where it was."""
        if self._bar is not None:
            self._bar.close()
            self._bar = None
