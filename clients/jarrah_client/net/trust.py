"""Certificates: whom a client believes, and what it shows of itself."""

from __future__ import annotations

import ssl
from dataclasses import dataclass
from functools import cached_property

ALERTS = {
    "CERTIFICATE_REQUIRED": "it asks for a certificate: `--cert FILE` and `--key FILE` show one",
    "HANDSHAKE_FAILURE": "it doesn't take what this client offers; it may ask for `--cert FILE`",
    "UNKNOWN_CA": "it doesn't take the certificate: it knows nobody who signed it",
    "BAD_CERTIFICATE": "it doesn't take the certificate",
    "CERTIFICATE_EXPIRED": "it doesn't take the certificate: that has expired",
    "CERTIFICATE_UNKNOWN": "it doesn't take the certificate",
    "CERTIFICATE_REVOKED": "it doesn't take the certificate: that was revoked",
    "UNSUPPORTED_CERTIFICATE": "it doesn't take a certificate of this kind",
    "WRONG_VERSION_NUMBER": "it doesn't speak TLS there",
    "HTTP_REQUEST": "it doesn't speak TLS there",
}
"""What the names of faults mean, by their ends."""


class Untrusted(Exception):
    """A file of a certificate, or of a key, that is none."""


@dataclass(frozen=True)
class Trust:
    """The files of a client's certificate and its key, and of those who sign servers' ones."""

    cert: str | None = None
    key: str | None = None
    ca: str | None = None

    @cached_property
    def context(self) -> ssl.SSLContext:
        """What a connection by TLS is made with; a key with a password is asked for it once."""
        try:
            made = ssl.create_default_context(cafile=self.ca)
        except (OSError, ValueError) as fault:
            raise Untrusted(f"`--ca` {self.ca}: {file_words(fault)}") from None
        if self.key and not self.cert:
            raise Untrusted(f"`--key` {self.key} wants `--cert FILE`, the certificate")
        if self.cert:
            try:
                made.load_cert_chain(self.cert, self.key)
            except (OSError, ValueError) as fault:
                places = f"{self.cert} and {self.key}" if self.key else self.cert
                raise Untrusted(f"`--cert` {places}: {file_words(fault)}") from None
        return made

    def __bool__(self) -> bool:
        return bool(self.cert or self.key or self.ca)


NO_TRUST = Trust()
"""Whom this machine trusts, and no certificate of one's own."""


def file_words(fault: Exception) -> str:
    """Why a file of certificates can't be used, in words."""
    if not isinstance(fault, ssl.SSLError):
        return getattr(fault, "strerror", None) or str(fault)
    if fault.reason == "KEY_VALUES_MISMATCH":
        return "the key isn't that of the certificate"
    return "it has no certificate, or no key that fits it"


def tls_words(fault: ssl.SSLError) -> str:
    """Why a connection by TLS can't be had, in words."""
    if isinstance(fault, ssl.SSLCertVerificationError):
        why = fault.verify_message
        return f"its certificate isn't trusted: {why}; `--ca FILE` says who signs it"
    name = fault.reason or ""
    known = (words for end, words in ALERTS.items() if name.endswith(end))
    return next(known, f"TLS fails: {name.lower().replace('_', ' ') or fault.strerror}")
