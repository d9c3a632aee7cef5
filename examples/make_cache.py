#!/usr/bin/env python3
"""Writes cache, cache.lines and cache.json: a validator's cache of a small repository, what it means, and the same for routers.

    python3 examples/make_cache.py

A registry stands under the trust anchor, and an operator under the registry; all keys are RSA keys that this script throws
away. Three of the operator's objects are none to rely on: a ROA whose certificate is revoked, one whose signature has a
changed octet, and one for addresses that the operator doesn't hold. The lines are stated here. What certificates and objects
look like is written in bench/repository.py, which needs Python's `cryptography`.
"""

import ipaddress
import pathlib
import shutil
import sys

HERE = pathlib.Path(__file__).resolve().parent
sys.dont_write_bytecode = True
sys.path.insert(0, str(HERE.parent / "bench"))

from repository import Authority, Held, Key, base64  # noqa: E402

NAME = "example"
CACHE = HERE / "cache"
LINES = """\
roa AS64496 192.0.2.0/24 24
roa AS64497 198.51.100.0/24 26
roa AS64496 2001:db8::/32 48
aspa AS64496 AS64497 AS64498
refused rsync://rpki.example/repository/operator/changed.roa object
refused rsync://rpki.example/repository/operator/others.roa object
refused rsync://rpki.example/repository/operator/revoked.roa object
"""
ROUTES = """\
{
  "metadata": {
    "tool": "rpki_check",
    "buildtime": "2025-01-01T00:00:00Z",
    "generated": 1735689600,
    "vrps": 3,
    "uniquevrps": 3,
    "vaps": 1,
    "uniquevaps": 1,
    "refused": {"object": 3}
  },
  "roas": [
    { "asn": 64496, "prefix": "192.0.2.0/24", "maxLength": 24, "ta": "example", "expires": 1735776000 },
    { "asn": 64497, "prefix": "198.51.100.0/24", "maxLength": 26, "ta": "example", "expires": 1735776000 },
    { "asn": 64496, "prefix": "2001:db8::/32", "maxLength": 48, "ta": "example", "expires": 1735776000 }
  ],
  "aspas": [
    { "customer_asid": 64496, "expires": 1735776000, "providers": [64497, 64498] }
  ],
  "provider_authorizations": {
    "ipv4": [
      { "customer_asid": 64496, "expires": 1735776000, "providers": [64497, 64498] }
    ],
    "ipv6": [
      { "customer_asid": 64496, "expires": 1735776000, "providers": [64497, 64498] }
    ]
  }
}
"""


def key():
    return Key([])


def networks(*texts):
    return [ipaddress.ip_network(text) for text in texts]


def operator_below(registry):
    """The operator, with all that it publishes but its revocation list and manifest."""
    held = Held(networks("192.0.2.0/24", "2001:db8::/32"), [(64496, 64496)])
    operator = Authority("operator", key(), held, registry)
    (v4,), (v6,), (others,) = map(networks, ("192.0.2.0/24", "2001:db8::/32", "203.0.113.0/24"))
    operator.add_origin("v4.roa", key(), 64496, v4)
    operator.add_origin("v6.roa", key(), 64496, v6, 48)
    operator.add_origin("others.roa", key(), 64496, others)
    operator.add_origin("revoked.roa", key(), 64499, v4)
    operator.revoked.append(operator.serial)
    operator.add_origin("changed.roa", key(), 64500, v4)
    octets = bytearray(operator.files["changed.roa"])
    # (the last octet of a signed object is one of its signature)
    octets[-1] ^= 1
    operator.files["changed.roa"] = bytes(octets)
    operator.add_customer("providers.asa", key(), 64496, [64497, 64498])
    return operator


def repository():
    """All objects by URI, and the text of the trust anchor's locator (RFC 8630 2.2)."""
    top = Held(networks("0.0.0.0/0", "::/0"), [(0, 2**32 - 1)])
    anchor = Authority("ta", key(), top)
    held = Held(networks("192.0.2.0/24", "198.51.100.0/24", "2001:db8::/32"), [(64496, 64511)])
    registry = Authority("registry", key(), held, anchor)
    (prefix,) = networks("198.51.100.0/24")
    registry.add_origin("own.roa", key(), 64497, prefix, 26)
    operator = operator_below(registry)
    registry.files["operator.cer"] = operator.own_cert()
    anchor.files["registry.cer"] = registry.own_cert()
    objects = {anchor.at: anchor.own_cert()}
    for authority in (operator, registry, anchor):
        objects |= authority.publish(key())
    return objects, f"{anchor.at}\n\n{base64.encodebytes(anchor.key.encoded).decode()}"


def place(uri):
    """Where the cache has an object, as `routinator dump` lays it out: the operator's came by RRDP."""
    host, _, path = uri.removeprefix("rsync://").partition("/")
    if "/operator/" in uri:
        return CACHE / "store" / "rrdp" / host / "5f2a" / "rsync" / host / path
    start = CACHE / "ta" if uri.endswith("/ta.cer") else CACHE / "store"
    return start / "rsync" / host / path


def write(path, octets):
    path.parent.mkdir(parents=True, exist_ok=True)
    path.write_bytes(octets)


def main():
    objects, locator = repository()
    shutil.rmtree(CACHE, ignore_errors=True)
    for uri, octets in objects.items():
        write(place(uri), octets)
    write(CACHE / "tals" / f"{NAME}.tal", locator.encode())
    write(HERE / "cache.lines", LINES.encode())
    write(HERE / "cache.json", ROUTES.encode())


if __name__ == "__main__":
    main()
