"""Encryption of what passes between people and the installation, by Python's own library."""
from __future__ import annotations

from typing import Any
import ssl

from gathjumli.cli import FILE_FAILED, Failure, UsageError


def tls_of(certificate: Any, key: Any) -> Any:
    """The context of connections that are encrypted, or None."""
    if bool(certificate) != bool(key):
        raise UsageError("--certificate and --key go together")
    if not certificate:
        return None
    context = ssl.SSLContext(ssl.PROTOCOL_TLS_SERVER)
    context.minimum_version = ssl.TLSVersion.TLSv1_2
    load_certificate(context, certificate, key)
    return context


def load_certificate(context: ssl.SSLContext, certificate: str, key: str) -> None:
    """Has the next handshakes of a context use the certificate and key of these files, or leaves it as it was."""
    try:
        # a pair that does not fit would leave the context with half of it
        for found in (ssl.SSLContext(ssl.PROTOCOL_TLS_SERVER), context):
            found.load_cert_chain(certificate, key)
    except (OSError, ssl.SSLError) as error:
        raise Failure(
            FILE_FAILED, f"{certificate}, {key}: {error.strerror or error.reason}"
        ) from None
