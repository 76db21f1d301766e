"""The gate: which connections may wait for their login, by the networks that they come from.

Who hasn't logged in may take a place for some seconds, and places are few. The more of them a
network takes, the more of its next connections are dropped, by chance. While many wait, those of
addresses are dropped, too, whose connections have often ended without a login.
"""
from __future__ import annotations

import ipaddress
import logging
import random
import socket
import struct
import threading
import time
from collections import Counter
from typing import Dict, Optional, Sequence, Tuple

FULL = 256                                         # connections before their login
CROWDED = FULL // 4                                # from here on it counts who behaved badly
SECONDS_OF_PATIENCE = 30.0                         # of blame that an address may have in a crowd
MOST_BLAME, MOST_SOURCES = 600.0, 4_096
SIGNATURE = b'\r\n\r\n\x00\r\nQUIT\n'              # of PROXY, version 2
FAMILIES = {0x11: (socket.AF_INET, 4), 0x21: (socket.AF_INET6, 16)}
log = logging.getLogger('spmat-gateway')


class Place:
    """One connection's place, until `leave`; from `enter` on it isn't one of those that wait."""

    def __init__(self, gate: 'Gate', source: str, network: str) -> None:
        self._gate, self.source, self.network = gate, source, network
        self.began, self.is_waiting = time.monotonic(), True

    def enter(self) -> None:
        """Its user is known."""
        self._gate.pass_by(self, is_gone=False)

    def leave(self) -> None:
        """It has closed. Without a login its address is blamed for as long as it waited."""
        self._gate.pass_by(self, is_gone=True)


class Gate:
    """All places."""

    def __init__(self) -> None:
        self._lock = threading.Lock()
        self._by_source: Counter[str] = Counter()
        self._waiting: Counter[str] = Counter()
        self._dropped: Counter[str] = Counter()
        self._blame: Dict[str, float] = {}         # the time until which a source is blamed
        self._told = float('-inf')
        self.count = 0

    def take(self, address: str, per_address: int) -> Optional[Place]:
        """A place for a connection; None where it is to be dropped. A balancer, which is to name
        its client, has no address, and neither has a socket file."""
        source, network = _networks_of(address) if address else ('', '')
        now = time.monotonic()
        with self._lock:
            chance = _ramp(self.count, FULL // 2, FULL)
            if address:
                chance = max(chance, _ramp(self._waiting[network], FULL // 4, FULL // 2))
                if self._by_source[source] >= per_address or (
                        self.count >= CROWDED
                        and self._blame.get(source, now) - now > SECONDS_OF_PATIENCE):
                    chance = 1.0
            if random.random() < chance:
                self._dropped[network or 'balancers and sockets'] += 1
                return None
            self._by_source[source] += 1
            self._waiting[network] += 1
            self.count += 1
            return Place(self, source, network)

    def pass_by(self, place: Place, is_gone: bool) -> None:
        """A place ends to be one of those that wait, or at all."""
        now = time.monotonic()
        with self._lock:
            if place.is_waiting:
                self.count -= 1
                self._waiting -= Counter({place.network: 1})  # keeps what is more than 0
                if is_gone and place.source:
                    self._judge(place, now)
            if is_gone:
                self._by_source -= Counter({place.source: 1})
            place.is_waiting = False

    def _judge(self, place: Place, now: float) -> None:
        if len(self._blame) >= MOST_SOURCES:
            self._blame.clear()
        until = max(now, self._blame.get(place.source, now)) + now - place.began + 1
        self._blame[place.source] = min(until, now + MOST_BLAME)

    def tell(self) -> None:
        """Writes a line into the log for each minute in which connections were dropped."""
        now = time.monotonic()
        with self._lock:
            if not self._dropped or now - self._told < 60:
                return
            dropped, self._told = self._dropped, now
            self._dropped = Counter()
        log.warning('dropped connections=%d waiting=%d most=%s', sum(dropped.values()), self.count,
                    ','.join('%s:%d' % pair for pair in dropped.most_common(3)))


def is_named(address: str, networks: Sequence[str]) -> bool:
    """Whether an address is in one of these networks."""
    own = _plain(address)
    return any(own in ipaddress.ip_network(network) for network in networks)


def read_proxy(connection: socket.socket, until: float) -> Optional[Tuple[str, int]]:
    """Who a balancer says that its client is, by PROXY version 2; None for the balancer itself.
    OSError where the connection begins with anything else."""
    head = _receive(connection, 16, until)
    if head[:12] != SIGNATURE or head[12] >> 4 != 2:
        raise OSError('no PROXY of version 2 from an address that `proxies` names')
    rest = _receive(connection, int.from_bytes(head[14:16], 'big'), until)
    if head[12] & 15 == 0 or head[13] not in FAMILIES:
        return None
    family, size = FAMILIES[head[13]]
    return (socket.inet_ntop(family, rest[:size]),
            struct.unpack_from('>H', rest, 2 * size)[0])


def _receive(connection: socket.socket, size: int, until: float) -> bytes:
    data = b''
    while len(data) < size:
        connection.settimeout(max(0.001, until - time.monotonic()))
        piece = connection.recv(size - len(data))
        if not piece:
            raise OSError('the connection ended within its PROXY header')
        data += piece
    return data


def _plain(address: str) -> 'ipaddress.IPv4Address | ipaddress.IPv6Address':
    own = ipaddress.ip_address(address.partition('%')[0])
    return getattr(own, 'ipv4_mapped', None) or own


def _networks_of(address: str) -> Tuple[str, str]:
    """Whom to blame: an address of IPv4, or a /64 of IPv6; and the network that it is in."""
    own = _plain(address)
    near, wide = (32, 24) if own.version == 4 else (64, 48)
    return (str(ipaddress.ip_network((own, near), strict=False)),
            str(ipaddress.ip_network((own, wide), strict=False)))


def _ramp(value: float, low: float, high: float) -> float:
    """0 up to `low`, 1 from `high` on."""
    return min(1.0, max(0.0, (value - low) / (high - low)))
