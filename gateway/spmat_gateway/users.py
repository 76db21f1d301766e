"""Who connects: names, tokens, and the first line that a client with a token sends.

A token is 32 random bytes that the gateway draws, so nobody guesses one, and a single SHA-256 with
a salt is a hash for it.
"""
from __future__ import annotations

import hashlib
import hmac
import pwd
import re
import secrets
import socket
import struct
from typing import NamedTuple, Optional

NAME = re.compile(r'[a-z0-9_][a-z0-9_.-]{0,31}')
GROUP_MARK = '@'                                   # a group is an account whose name begins with it
LONGEST_LOGIN = 256
NOBODY = 65534                                     # also whoever PrivateUsers= of a unit hides
WRONG = 'sha256$00$' + '0' * 64  # what a token is compared with where there is no user


class Login(NamedTuple):
    """Who a client is: a name with a token; or `is_proved` by a certificate or by the kernel, a
    name or a certificate's fingerprint."""
    name: str = ''
    token: str = ''
    fingerprint: str = ''
    is_proved: bool = False


def is_name(name: str) -> bool:
    """Whether a user may be called so. A name is a word of commands and of units, so it begins with
    no dash."""
    return NAME.fullmatch(name) is not None


def is_account(name: str) -> bool:
    """Whether this is a user's name, or `@` and a group's."""
    return is_name(name[1:] if name.startswith(GROUP_MARK) else name)


def new_token() -> str:
    """A new token, which nobody can guess."""
    return secrets.token_urlsafe(32)


def hash_token(token: str) -> str:
    """What is stored of a token."""
    salt = secrets.token_hex(16)
    return 'sha256$%s$%s' % (salt, hashlib.sha256((salt + token).encode()).hexdigest())


def is_right(stored: Optional[str], token: str) -> bool:
    """Whether a token is the one whose hash is stored, in a time that doesn't tell."""
    kind, salt, digest = (stored or WRONG).split('$')
    given = hashlib.sha256((salt + token).encode()).hexdigest()
    return hmac.compare_digest(given, digest) and bool(stored) and kind == 'sha256'


def parse_login(line: bytes) -> Optional[Login]:
    """The line `login USER TOKEN`, None for any other."""
    words = line.decode('ascii', 'replace').split()
    if len(words) != 3 or words[0] != 'login' or not is_name(words[1]):
        return None
    return Login(words[1], words[2])


def login_by_kernel(connection: socket.socket) -> Optional[Login]:
    """Whose process has connected to a socket file of this machine; None for other connections."""
    if connection.family != socket.AF_UNIX:
        return None
    _, user, _ = struct.unpack('3i', connection.getsockopt(socket.SOL_SOCKET, socket.SO_PEERCRED,
                                                           12))
    try:
        return Login(pwd.getpwuid(user).pw_name if user != NOBODY else '', is_proved=True)
    except KeyError:
        return Login(is_proved=True)
