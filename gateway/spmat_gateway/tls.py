"""TLS: the gateway's own certificate, the certificates of clients, and a connection's end."""
from __future__ import annotations

import calendar
import contextlib
import hashlib
import re
import socket
import ssl
import time
from typing import Optional, Union

from .config import ConfigError, Tls
from .users import Login, is_name

TIME = re.compile(rb'(?:\x17\x0d|\x18\x0f)(\d{12,14})Z')  # in DER, of two digits or four of a year
Client = Union[socket.socket, ssl.SSLSocket]


def make_context(tls: Tls) -> Optional[ssl.SSLContext]:
    """What speaks TLS as the file says; None where it names no certificate.

    Raises
    ------
    ConfigError
        Where a certificate or a key can't be used.
    """
    if not tls.certificate:
        return None
    context = ssl.SSLContext(ssl.PROTOCOL_TLS_SERVER)
    context.minimum_version = (ssl.TLSVersion.TLSv1_3 if tls.least == '1.3'
                               else ssl.TLSVersion.TLSv1_2)
    context.set_ciphers('ECDHE+AESGCM:ECDHE+CHACHA20')  # of TLS 1.2; those of 1.3 are all right
    # an end without TLS' own word for it is a client that has gone, and no end of its input
    context.options &= ~getattr(ssl, 'OP_IGNORE_UNEXPECTED_EOF', 0)
    what = 'certificate %s with its key %s' % (tls.certificate, tls.key or 'in the same file')
    try:
        context.load_cert_chain(tls.certificate, tls.key or None)
        if tls.clients:
            what = 'clients ' + tls.clients
            context.verify_mode = ssl.CERT_OPTIONAL
            context.load_verify_locations(tls.clients)
    except OSError as fault:
        raise ConfigError('[tls] %s: %s' % (what, fault.strerror or fault)) from None
    return context


def end_of(tls: Tls) -> float:
    """When the gateway's certificate ends, in seconds since 1970; 0 where there is none."""
    if not tls.certificate:
        return 0.0
    with open(tls.certificate, encoding='ascii', errors='replace') as file:
        found = TIME.findall(_first_of(file.read()))
    end = found[1].decode()                        # the first is its begin
    form = '%y%m%d%H%M%S' if len(end) == 12 else '%Y%m%d%H%M%S'
    return float(calendar.timegm(time.strptime(end, form)))


def fingerprint_of(certificate: bytes) -> str:
    """The SHA-256 of a certificate in DER, as `openssl x509 -fingerprint -sha256` has it, without
    colons."""
    return hashlib.sha256(certificate).hexdigest()


def fingerprint_of_text(text: str) -> str:
    """The fingerprint of the first certificate of a PEM text."""
    return fingerprint_of(_first_of(text))


def _first_of(text: str) -> bytes:
    """The first certificate of a PEM text, in DER."""
    begin = text.find('-----BEGIN CERTIFICATE-----')
    end = text.find('-----END CERTIFICATE-----')
    if begin < 0 or end < begin:
        raise ValueError('no certificate in PEM format')
    return ssl.PEM_cert_to_DER_cert(text[begin:end] + '-----END CERTIFICATE-----\n')


def shake_hands(connection: socket.socket, context: Optional[ssl.SSLContext],
                until: float) -> Client:
    """The connection with TLS spoken on it. OSError where that fails or takes too long."""
    connection.settimeout(max(0.001, until - time.monotonic()))
    if context is None or connection.family == socket.AF_UNIX:
        return connection
    return context.wrap_socket(connection, server_side=True, suppress_ragged_eofs=False)


def login_by_certificate(client: Client, names: str) -> Optional[Login]:
    """Who the client is by its certificate; None where it has shown none."""
    if not isinstance(client, ssl.SSLSocket):
        return None
    certificate = client.getpeercert(True)
    if not certificate:
        return None
    subject = (client.getpeercert() or {}).get('subject', ())
    common = [value for part in subject for key, value in part  # type: ignore[misc]
              if key == 'commonName']
    by_name = names == 'common-name' and len(common) == 1 and is_name(str(common[0]))
    return Login(name=str(common[0]) if by_name else '', fingerprint=fingerprint_of(certificate),
                 is_proved=True)


def close(client: Client, seconds: float) -> None:
    """Ends a connection so that the last bytes arrive: what the client still sends is read, as a
    reset would drop them."""
    deadline = time.monotonic() + seconds
    try:
        client.setblocking(False)
        if isinstance(client, ssl.SSLSocket):
            with contextlib.suppress(OSError, ValueError):  # the client's word may come later
                client.unwrap()
        client.shutdown(socket.SHUT_WR)
        while (left := deadline - time.monotonic()) > 0:
            client.settimeout(left)
            if not client.recv(1 << 16):
                break
    except OSError:                                # also where the time passes
        pass
    finally:
        client.close()
