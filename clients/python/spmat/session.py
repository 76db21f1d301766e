"""Sessions: how one begins and ends, its budget, its queue, and what its server says of operators.
`io.session_importers` makes its matrices."""
from __future__ import annotations

import contextlib
from typing import TYPE_CHECKING, Any, Dict, Iterator, List, Optional, Type

from .backends.protocol import Budget, Run
from .backends.server import Limit, ServerBackend
from .errors import OperatorRefused
from .integers import whole
from .unsupported_syntax import SESSION, missing_attribute
from .io.session_importers import SessionSources
from .limits import MOST_STEPS
from .matrix import Matrix
from .operators import Operator, diagnostics
from .wire.connection import SECONDS, Connection, Progress, checked_settings
from .wire.transport import Address, Program, Timeouts

if TYPE_CHECKING:
    import ssl

CODE_RULES = ('V1', 'V2', 'V3', 'V4', 'V5', 'V6')   # of code that stands for no program


class Session(SessionSources):
    """One session of the server, which is used in a `with`, or closed.

    `Session()` starts a process `spmat run` of its own, `Session.connect(host, port)` is one of
    `spmat serve`, `Session.connect(path)` one at a socket file.

    Parameters
    ----------
    steps : number, default 2^62
        The budget, 0 to 2^62 (also 1e9).
    workers : int, default 1
        1 to 64 threads.
    program : str or sequence of str, optional
        The words that start the program. Without them the variable SPMAT says it, then the program
        that the package carries is taken, then `spmat` on the PATH.
    progress : callable, optional
        `progress(what, done, of)` is called in long work. `what` is 'reading' (bytes of a file),
        'names' (its edges), 'sent' or 'received' (bytes of one matrix text), or 'jobs'. A run tells
        0 of n jobs as it begins, n of n as it ends. What it raises amid a command ends the session.

    Attributes
    ----------
    runs, jobs, connection.commands : int
        How many of each were sent.
    backend : ServerBackend
        What takes the jobs of its matrices.

    Notes
    -----
    Methods of matrices queue jobs; what needs a result runs the queue first. Threads take turns:
    while one thread waits for a reply, others wait for it. Ctrl-C while a reply is awaited leaves
    the session as it is: the command goes on, and what comes next waits for its end. `close` ends
    it at once, with the process that was started. Where a command isn't sent whole yet, Ctrl-C
    comes when it is. A second one ends the session, with all that it held (`connection.ended` says
    so). A session belongs to the process that opened it, and can't be pickled; operators can.
    """

    _backend_type: Type[ServerBackend] = ServerBackend

    def __init__(self, steps: float = MOST_STEPS, workers: int = 1,
                 program: Optional[Program] = None, progress: Optional[Progress] = None) -> None:
        self._begin(Connection.to_child(steps, workers, program, progress), int(workers))

    @classmethod
    def connect(cls, host: str = '127.0.0.1', port: int = 7171, timeout: Optional[float] = SECONDS,
                progress: Optional[Progress] = None, tls: Optional[ssl.SSLContext] = None,
                token: Optional[str] = None, ca: Optional[str] = None,
                run_timeout: Optional[float] = None) -> Session:
        """Open a session of a server, or of a gateway.

        Parameters
        ----------
        host : str, default '127.0.0.1'
            The host of `spmat serve`. Where it has a slash, it is the socket file of `spmat.socket`
            or of another server. An address `spmat://USER@HOST:PORT`, such as
            `spmat://anna@graphs.example:7173`, is that of a gateway (docs/service.md), which speaks
            TLS.
        port : int, default 7171
            The port. A socket file and a gateway's address don't need it.
        timeout : float, optional
            How many seconds connecting may take, and then each command from its first byte to the
            last of its reply; 60 unless given. None waits for ever.
        progress : callable, optional
            `progress(what, done, of)` is called in long work, as the class has it.
        tls : ssl.SSLContext, optional
            Where TLS is spoken in front of the server; the name in its certificate has to be
            `host`. Where a gateway knows the user by a certificate, `tls` has it in place of
            `token` and `ca`.
        token : str, optional
            The user's token at a gateway; by default the variable SPMAT_TOKEN.
        ca : str, optional
            A file with who signs the gateway's certificate, where the system trusts nobody who
            does.
        run_timeout : float, optional
            How many seconds a command that runs jobs may take. It takes as long as they do, and has
            no limit unless this is given.

        Returns
        -------
        Session
            The session. Its budget and its workers are the server's.

        Raises
        ------
        OSError
            If nobody listens, or TLS is refused.
        Closed
            If the connection is closed before a first answer.
        Busy
            If the server has as many sessions as it serves.
        TimeoutError
            If a limit passes, here or in a later command; the session is closed then.
        ProtocolError
            If a reply doesn't answer its command; the session is closed then, too.
        ValueError
            If `host` is no address of a gateway though it has `://`, or there is neither a token
            nor a certificate.

        See Also
        --------
        close : End the session.
        budget : What the server grants.

        Notes
        -----
        No job. The session asks once for the budget, which says at once where there is no session.

        Examples
        --------
        >>> import spmat
        >>> s = spmat.Session.connect("localhost", 7171)       # doctest: +SKIP
        """
        session = cls.__new__(cls)
        address = (Address.of_gateway(host, token, ca, tls) if '://' in host
                   else Address(host, port, tls))
        Session._begin(session, Connection.to_server(address, Timeouts(timeout, run_timeout),
                                                     progress), None)
        return session

    def _begin(self, connection: Connection, workers: Optional[int]) -> None:
        self.connection = connection
        self._workers = workers
        self.backend = self._backend_type(self, connection, shared=workers is None)
        self._ones: Dict[int, Matrix] = {}
        self.budget()                              # says at once where there is no session

    def __enter__(self) -> Session:
        """Open a `with`, at whose end the session is closed.

        Returns
        -------
        Session
            Itself.
        """
        return self

    def __exit__(self, *_: object) -> None:
        self.close()

    if not TYPE_CHECKING:                          # which knows all attributes that there are
        def __getattr__(self, name: str) -> Any:
            raise missing_attribute('%r object' % type(self).__name__, name, SESSION)

    def __reduce__(self) -> Any:
        raise TypeError('a session belongs to the process that opened it, and can not be pickled')

    def __repr__(self) -> str:
        return '<Session, %s>' % ('%d jobs wait' % len(self.backend.queue) if self.connection.ended
                                  is None else 'ended')

    @property
    def workers(self) -> Optional[int]:
        """How many threads a batch has at most.

        Returns
        -------
        int or None
            None of a session of `spmat serve`, which doesn't say. Who knows it may set it there:
            algorithms go by it where many workers want another way than one. No answer depends on
            it.

        See Also
        --------
        budget : The steps.

        Examples
        --------
        >>> import spmat
        >>> spmat.Session(workers=2).workers
        2
        """
        return self._workers

    @workers.setter
    def workers(self, many: int) -> None:
        if not self.backend.queue.shared:
            raise AttributeError('this session started its own program, with %d workers'
                                 % (self._workers or 1))
        self._workers = checked_settings(0, many)[1]

    @property
    def is_open(self) -> bool:
        """Whether commands can be sent, as far as can be seen without sending one.

        Returns
        -------
        bool
            False after `close`, where the program has ended or the connection broke, and in a
            process that was forked off.

        See Also
        --------
        close : End the session.

        Examples
        --------
        >>> import spmat
        >>> s = spmat.Session()
        >>> s.is_open
        True
        """
        return self.connection.usable()

    @property
    def runs(self) -> int:
        """How many runs were asked for.

        Returns
        -------
        int
            Their number since the session began.

        See Also
        --------
        jobs : Jobs that were asked for.

        Examples
        --------
        >>> import spmat
        >>> s = spmat.Session()
        >>> before = s.runs
        >>> s.from_dense([[1, 2]]).apply("abs").nvals
        2
        >>> s.runs - before
        1
        """
        return self.backend.queue.runs

    @property
    def jobs(self) -> int:
        """How many jobs were asked for.

        Returns
        -------
        int
            Their number since the session began.

        See Also
        --------
        runs : Round trips.
        run : Run what waits.

        Examples
        --------
        >>> import spmat
        >>> s = spmat.Session()
        >>> before = s.jobs
        >>> A = s.from_dense([[1, 2]]).apply("abs").apply("ainv")
        >>> s.jobs - before
        2
        """
        return self.backend.jobs

    def close(self) -> None:
        """End the session.

        Its matrices are gone; jobs that wait are not run.

        See Also
        --------
        is_open : Whether commands can be sent.

        Notes
        -----
        No run. Where a reply is awaited the session ends at once; where it has ended already, this
        does nothing. GraphBLAS: `finalize`.

        Examples
        --------
        >>> import spmat
        >>> s = spmat.Session()
        >>> s.close()
        >>> s.is_open
        False
        """
        self.connection.quit()

    def budget(self) -> Budget:
        """Say what the budget holds.

        Returns
        -------
        Budget
            The steps that are `left`, those `reserved` for jobs that wait, and those `spent`. Over
            TCP the budget is one for all sessions of the server.

        Raises
        ------
        Closed
            If the session has ended.

        See Also
        --------
        limit : Bound a block of calls.
        price : The cost of a call.
        JobResult : The steps of one job.

        Notes
        -----
        No run.

        Examples
        --------
        >>> import spmat
        >>> s = spmat.Session(steps=1000)
        >>> s.from_dense([[1, 2]]).apply("abs").new().steps
        6
        >>> s.budget()
        Budget(left=994, reserved=0, spent=6)
        """
        return self.backend.budget()

    @contextlib.contextmanager
    def limit(self, steps: float) -> Iterator[Limit]:
        """Bound what the jobs take that are queued in a `with`.

        A batch whose prices are above what is left of the limit isn't run. Limits may be nested:
        each holds.

        Parameters
        ----------
        steps : number
            The most steps, also 1e9.

        Yields
        ------
        Limit
            The limit, with the steps that are `spent` and `left`.

        Raises
        ------
        BudgetExceeded
            If a batch isn't run; at the end of the `with` where what then waits is above the
            limit, and none was refused before. `partial` has what an algorithm had found by then.

        See Also
        --------
        budget : What the session has left.
        price : The cost of a call, before it runs.

        Notes
        -----
        The server tells the price of each job as it is queued, and takes none out of the queue
        again. So a batch that wasn't run still waits: where the session goes on, the next run
        behind the `with` makes it, and is paid. A session of its own with `steps=` is a limit that
        nothing passes. Jobs of all threads count that use the session meanwhile.

        No run. Each run in the `with` takes one trip to the server more, and rounds of loops aren't
        sent together. Sessions of row blocks have no limit but `steps=`.

        Examples
        --------
        >>> import spmat
        >>> s = spmat.Session()
        >>> A = s.full(100, 100)
        >>> try:
        ...     with s.limit(1000):
        ...         A.mxm(A).nvals
        ... except spmat.BudgetExceeded as refused:
        ...     print("refused")
        ...
        refused
        """
        limit, queue = Limit(whole(steps, 'number of steps')), self.backend.queue
        queue.limits.append(limit)
        try:
            yield limit
            if queue.waiting and not limit.passed:
                with self.backend.lock():
                    queue.keep_limits()
        finally:
            queue.limits.remove(limit)

    # -- matrices out

    def _named(self) -> Dict[str, Matrix]:
        return self.backend.names.named()

    def _tell(self, what: str, done: int, of: int) -> None:
        self.connection.tell(what, done, of)

    # -- operators

    def dis(self, op: Operator) -> str:
        """An operator as assembly text, however it was made.

        Parameters
        ----------
        op : operator
            The operator.

        Returns
        -------
        str
            A line for each instruction.

        Raises
        ------
        OperatorRefused
            If the operator breaks a rule.

        See Also
        --------
        code_of : The same, without a session.
        check : Whether the verifier accepts it.

        Notes
        -----
        No job. The operator is uploaded.

        Examples
        --------
        >>> import spmat
        >>> s = spmat.Session()
        >>> print(s.dis(spmat.binary.plus), end="")
        mov64 r0, r1
        add64 r0, r2
        exit
        """
        return ''.join(line + '\n' for line in self.backend.lines_of('dis', op))

    def types(self, op: Operator) -> List[str]:
        """What the verifier knows before each instruction of an operator.

        Parameters
        ----------
        op : operator
            The operator.

        Returns
        -------
        list of str
            A line for each instruction: its slot, and a letter for each of R0 to R10. `u` is unset
            on some path, `n` a number, `p` with a distance a place in the stack, `m` set
            differently. Where no path leads to it, the line is its slot and `-`.

        Raises
        ------
        OperatorRefused
            If the operator breaks a rule.

        See Also
        --------
        check : Whether the verifier accepts it.
        code_of : The same, without a session.

        Notes
        -----
        No job. The operator is uploaded.

        Examples
        --------
        >>> import spmat
        >>> s = spmat.Session()
        >>> len(s.types(spmat.binary.plus))
        3
        """
        return self.backend.lines_of('types', op)

    def check(self, op: Operator) -> diagnostics.Check:
        r"""What the verifier says of an operator.

        Parameters
        ----------
        op : operator
            The operator.

        Returns
        -------
        Check
            `accepted` says whether it is. `rows` has the instructions with what R0 to R10 hold
            before each. Where it is refused, `refusal` says why, and the rows go up to there.
            Printed, it is a table. It is true where the operator is accepted.

        See Also
        --------
        types : What the verifier knows at each instruction.
        dis : The instructions.

        Notes
        -----
        No job. The operator is uploaded. A refusal by the verifier is returned, not raised.

        Examples
        --------
        >>> import spmat
        >>> s = spmat.Session()
        >>> s.check(spmat.binary.plus).accepted
        True
        >>> refused = s.check(spmat.asm("unary", "mov64 r0, r5\nexit"))
        >>> refused.accepted
        False
        """
        try:
            lines, types = self.dis(op).splitlines(), self.types(op)
        except OperatorRefused as refused:
            known = (refused.rule.startswith('V') and refused.at is not None
                     and refused.rule not in CODE_RULES)
            return diagnostics.Check(op, refused, diagnostics.rows_before(op, refused.at or 0)
                                     if known else [])
        return diagnostics.Check(op, None, diagnostics.rows_of(lines, types))

    # -- jobs

    def run(self) -> Run:
        """Run the jobs that wait.

        Matrix methods do it where they need a result.

        Returns
        -------
        Run
            A list of the jobs that were settled, in order. Each has the `matrix` of its result, or
            None where nobody holds it any more, and its `form`. It has its `price`, the most steps
            that it could have taken, and the `steps` that it took.

        Raises
        ------
        OutOfMemory
            Where the server has no memory for the run.
        NoThread
            Where the server has no thread for the run.

        See Also
        --------
        Matrix.new : Run up to one result.
        jobs : How many were asked for.

        Notes
        -----
        Where the run is refused the queue is empty all the same, and each result of it raises
        NotMade from then on.

        1 run, and none where no job waits. GraphBLAS: `wait`.

        Examples
        --------
        >>> import spmat
        >>> s = spmat.Session()
        >>> A = s.from_dense([[1, 2]]).apply("abs")
        >>> [(job.form, job.price, job.steps) for job in s.run()]
        [('apply', 8, 6)]
        """
        return self.backend.run()
