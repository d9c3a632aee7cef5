"""RSA keys and their signatures, by `cryptography`, which nothing else here needs."""

import warnings

from cryptography.exceptions import InternalError, InvalidSignature, UnsupportedAlgorithm
from cryptography.hazmat.primitives import hashes
from cryptography.hazmat.primitives.asymmetric import padding, rsa
from cryptography.hazmat.primitives.asymmetric.utils import Prehashed
from cryptography.hazmat.primitives.serialization import load_der_public_key

from signed import Malformed

# (of small keys `cryptography` warns)
warnings.filterwarnings("ignore", module="cryptography")
PADDING, PREHASHED = padding.PKCS1v15(), Prehashed(hashes.SHA256())


def load_key(encoded):
    """The key of these octets, for `has_signed`."""
    try:
        key = load_der_public_key(encoded)
    except (ValueError, TypeError, OverflowError, UnsupportedAlgorithm):
        key = None
    if not isinstance(key, rsa.RSAPublicKey):
        raise Malformed("the key isn't one of RSA")
    return key


def has_signed(key, digest, signature):
    """Whether the signature is good by the key over what has that SHA-256 digest (RFC 8017 8.2.2, RFC 7935 2)."""
    try:
        key.verify(signature, digest, PADDING, PREHASHED)
    except (InvalidSignature, ValueError, InternalError):
        # (a value error: the key is too short for any signature)
        return False
    return True
