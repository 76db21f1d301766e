"""What systemd is told by a gateway that it has started: sd_notify(3)."""
from __future__ import annotations

import os
import socket


def tell(*lines: str) -> None:
    """Tells systemd, as `READY=1`; nothing without it."""
    path = os.environ.get('NOTIFY_SOCKET', '')
    if path:
        with socket.socket(socket.AF_UNIX, socket.SOCK_DGRAM) as connection:
            connection.sendto('\n'.join(lines).encode(), path.replace('@', '\0', 1)
                              if path.startswith('@') else path)
