"""What is counted since the start, for Prometheus."""
from __future__ import annotations

from prometheus_client import CollectorRegistry, Counter, Histogram, ProcessCollector

from .ledger import Outcome


class Metrics:
    """Counters, and numbers that are asked for."""

    def __init__(self) -> None:
        self.registry = CollectorRegistry()

        def counter(name: str, words: str, *labels: str) -> Counter:
            return Counter('spmat_gateway_' + name, words, labels, registry=self.registry)
        self._begun = counter('sessions', 'Sessions that began', 'user')
        self._ended = counter('sessions_ended', 'Sessions that ended, by their cause', 'cause')
        self._refusals = counter('refusals', 'Clients that were turned away, by what they read',
                                 'reply')
        self._steps = counter('steps', 'Steps that sessions spent', 'user')
        self._bytes = counter('bytes', 'Bytes of sessions that ended', 'direction')
        self._processor = counter('processor_seconds', 'Processor time of sessions that ended',
                                  'user')
        self._logins = Histogram('spmat_gateway_login_seconds',
                                 'From a connection to the begin of its session',
                                 registry=self.registry)
        ProcessCollector(registry=self.registry)   # its memory, descriptors and processor time
        self.ledger_faults = counter('ledger_faults', 'Times that the ledger did not answer')

    def begin(self, user: str, seconds: float) -> None:
        """A session has begun, so long after its client has connected."""
        self._begun.labels(user).inc()
        self._logins.observe(seconds)

    def spend(self, user: str, steps: int) -> None:
        """A run has ended."""
        self._steps.labels(user).inc(steps)

    def end(self, user: str, outcome: Outcome) -> None:
        """A session has ended."""
        self._ended.labels(outcome.cause).inc()
        self._bytes.labels('in').inc(outcome.bytes_in)
        self._bytes.labels('out').inc(outcome.bytes_out)
        self._processor.labels(user).inc(outcome.processor)

    def refuse(self, reply: str) -> None:
        """A client was turned away."""
        self._refusals.labels(reply.partition(' ')[2]).inc()
