"""Ports of the loopback, for servers that tests start."""
import socket

LOOPBACK = '127.0.0.1'


def free_port() -> int:
    """A port that nobody listens on now, from the system."""
    with socket.socket() as asked:
        asked.bind((LOOPBACK, 0))
        return int(asked.getsockname()[1])
