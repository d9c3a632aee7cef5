"""Reads origins and customers of what validators write: JSON of rpki-client, Routinator, FORT and this repository; CSV of
the same."""

import calendar
import collections
import csv
import json
import socket
import time

MOST_AS = 2**32 - 1
FAMILIES = {4: (socket.AF_INET, 32), 6: (socket.AF_INET6, 128)}
# The columns of CSV by the names that validators give them.
COLUMNS = {
    "asn": "asn",
    "ip prefix": "prefix",
    "prefix": "prefix",
    "max length": "greatest",
    "max prefix length": "greatest",
    "uri": "uri",
}


class BadRoutes(Exception):
    """What is none of these forms; the text says what was expected."""


class Origin(collections.namedtuple("Origin", "version address length greatest asn")):
    """An origin: its prefix's version and address as a number, its length and greatest length, its AS number."""

    def __str__(self):
        family, size = FAMILIES[self.version]
        address = socket.inet_ntop(family, self.address.to_bytes(size // 8, "big"))
        return f"roa AS{self.asn} {address}/{self.length} {self.greatest}"


class Customer(collections.namedtuple("Customer", "asn providers")):
    """A customer with its providers, which ascend."""

    def __str__(self):
        return f"aspa AS{self.asn}" + "".join(f" AS{provider}" for provider in self.providers)


class Routes:
    """What a file says: its origins, each with the URIs that it names as sources; its customers with their providers, or
    None where it tells of none; when it was made, in seconds since 1970, and the digest of its bundle, where it says so."""

    def __init__(self, form):
        self.form = form
        self.origins, self.customers = {}, None
        self.made = self.bundle = None

    def add_origin(self, asn, prefix, greatest, sources=()):
        self.origins.setdefault(origin_of(asn, prefix, greatest), set()).update(sources)

    def add_customer(self, asn, providers):
        self.customers = {} if self.customers is None else self.customers
        self.customers.setdefault(number_of(asn), set()).update(map(number_of, providers))

    def all_customers(self):
        return {Customer(asn, tuple(sorted(found))) for asn, found in (self.customers or {}).items()}


def number_of(value):
    """An AS number, which some write with AS before it."""
    text = str(value)
    digits = text[2:] if text[:2].upper() == "AS" else text
    if not (digits.isascii() and digits.isdigit()) or isinstance(value, bool) or int(digits) > MOST_AS:
        raise BadRoutes(f"{value!a} is no AS number")
    return int(digits)


def origin_of(asn, prefix, greatest):
    """An origin of a prefix's text; where there is no greatest length, it is the prefix's own."""
    address, _, length = str(prefix).partition("/")
    version = 6 if ":" in address else 4
    family, size = FAMILIES[version]
    try:
        value = int.from_bytes(socket.inet_pton(family, address), "big")
        length = int(length)
        greatest = length if greatest in ("", None) else int(greatest)
    except (OSError, ValueError, TypeError):
        raise BadRoutes(f"{prefix!a} up to {greatest!a} is no prefix") from None
    if not 0 <= length <= greatest <= size or value & ((1 << (size - length)) - 1):
        raise BadRoutes(f"{prefix!a} up to {greatest!a} is no prefix")
    return Origin(version, value, length, greatest, number_of(asn))


def sources_of(row):
    """The URIs of objects that a row of Routinator's extended form names."""
    return [one["uri"] for one in row.get("source") or () if isinstance(one, dict) and isinstance(one.get("uri"), str)]


def customers_of(made):
    """The rows of customers: one list of all, or one of each family (rpki-client 8.2)."""
    if "aspas" in made:
        return made["aspas"]
    if "provider_authorizations" in made:
        families = made["provider_authorizations"]
        return [row for family in ("ipv4", "ipv6") for row in families.get(family) or ()]
    return None


def moment_of(metadata):
    """When a file says that it was made: rpki-client's `buildtime`, Routinator's `generated`."""
    if isinstance(metadata.get("buildtime"), str):
        try:
            return calendar.timegm(time.strptime(metadata["buildtime"], "%Y-%m-%dT%H:%M:%SZ"))
        except ValueError:
            return None
    return metadata["generated"] if isinstance(metadata.get("generated"), int) else None


def of_json(text):
    try:
        made = json.loads(text)
    except ValueError as why:
        raise BadRoutes(f"no JSON: {why}") from None
    if not isinstance(made, dict) or not isinstance(made.get("roas"), list):
        raise BadRoutes("JSON without a list `roas`")
    metadata = made.get("metadata") if isinstance(made.get("metadata"), dict) else {}
    routes = Routes("JSON")
    routes.made, routes.bundle = moment_of(metadata), metadata.get("bundle")
    try:
        for row in made["roas"]:
            routes.add_origin(row["asn"], row["prefix"], row.get("maxLength"), sources_of(row))
        rows = customers_of(made)
        routes.customers = None if rows is None else {}
        for row in rows or ():
            routes.add_customer(row["customer_asid" if "customer_asid" in row else "customer"], row["providers"])
    except (KeyError, TypeError, AttributeError) as why:
        raise BadRoutes(f"a row isn't of a form that is known: {type(why).__name__} {why}") from None
    return routes


def of_csv(text):
    rows = csv.reader(text.splitlines())
    head = [COLUMNS.get(name.strip().lower()) for name in next(rows, [])]
    if not {"asn", "prefix", "greatest"} <= set(head):
        raise BadRoutes("neither JSON nor CSV with columns of AS number, prefix and greatest length")
    routes = Routes("CSV")
    for count, row in enumerate(rows, 2):
        found = {name: value.strip() for name, value in zip(head, row) if name}
        if len(row) < len(head):
            raise BadRoutes(f"line {count} has too few columns")
        sources = [found["uri"]] if found.get("uri") else []
        routes.add_origin(found["asn"], found["prefix"], found["greatest"], sources)
    return routes


def read(path):
    """The routes of a file."""
    with open(path, encoding="utf-8", errors="replace") as file:
        text = file.read()
    try:
        return of_json(text) if text.lstrip()[:1] == "{" else of_csv(text)
    except BadRoutes as why:
        raise BadRoutes(f"{path}: {why}") from None
