#!/usr/bin/env python3
"""An operator's own exceptions from what was proved, by RFC 8416: filters take lines away, and then assertions add some.

    slurm.py FILE < LINES > LINES

LINES are those of `rpki_check check`, and stay in their order. FILE is JSON of version 1, with rules for prefixes and for BGPsec
keys, or of version 2, which has those for ASPAs, too (draft-ietf-sidrops-aspa-slurm). Lines tell of no BGPsec keys: their rules
are read, counted as not used, and change nothing. A member that isn't known, one that stands twice or is missing, and a value
that is none make FILE one that isn't used (RFC 8416 3.1). How many lines each rule changed is told on standard error.

An origin that a filter matches goes: its prefix is the filter's or stands in it, and its AS number is the filter's, each where
the filter has one. A customer that a filter names goes with all its providers. What is asserted of a customer joins what is
proved of it, where no filter takes that away. What is asserted is never filtered.

Exit status: 0; 1 where FILE isn't such a file or can't be read, or a line is none of `rpki_check`'s; 2 for other arguments.

As a module: `rules = read(path)`, then `counts = apply(lines_in, lines_out, rules)` over open files of octets.
"""

import argparse
import base64
import collections
import ipaddress
import json
import re
import socket
import sys

sys.dont_write_bytecode = True

import lines_to  # noqa: E402

# The octets of a subject key identifier (RFC 6487 4.8.2).
KEY_OCTETS = 20
SIZES = {4: 32, 6: 128}
# So many rules of a kind are told one by one.
MOST_TOLD = 20
FILTERS, ASSERTIONS = "validationOutputFilters", "locallyAddedAssertions"
# The lists of each version.
PARTS = {1: ("prefix", "bgpsec"), 2: ("prefix", "bgpsec", "aspa")}
# What a customer and its providers are called in rules: by the draft, and by StayRTR.
SPELLINGS = (("customerAsn", "providerAsns"), ("customer_asid", "provider_set"))


class BadSlurm(Exception):
    """What is wrong about a file of exceptions."""


class Place(collections.namedtuple("Place", "version address length greatest asn")):
    """An origin by which lines are sorted: 4 or 6, the address as a number, lengths, and the AS number."""

    def line(self):
        return f"roa AS{self.asn} {address_text(self.version, self.address)}/{self.length} {self.greatest}\n".encode()


class Rule:
    """A filter or an assertion: how it is told, its comment or None, and how many lines it changed."""

    def __init__(self, told, comment):
        self.told, self.comment, self.lines = told, comment, 0

    def as_dict(self):
        return {"rule": self.told, "comment": self.comment, "lines": self.lines}


class Rules:
    """What a file says: its filters and assertions as they stand there, how many rules it has for BGPsec keys, and the same
    as they are looked up: filters of origins by AS number alone, and by version and length of a prefix; filters by customer;
    assertions of origins and of customers."""

    def __init__(self, version):
        self.version, self.filters, self.assertions, self.unused = version, [], [], 0
        self.numbers, self.prefixes, self.customers = {}, {}, {}
        self.origins, self.providers = {}, {}

    def matching(self, place):
        """The filters that match an origin."""
        yield from self.numbers.get(place.asn, ())
        for version, length in self.prefixes:
            if version == place.version and length <= place.length:
                bits = SIZES[version] - length
                for asn, rule in self.prefixes[version, length].get(place.address >> bits, ()):
                    if asn in (None, place.asn):
                        yield rule


class Counts(collections.namedtuple("Counts", "version removed added filters assertions unused")):
    """What the rules changed: how many lines went and how many came or have more providers, the rules with their numbers of
    lines, and how many rules for BGPsec keys weren't used."""

    def as_dict(self):
        """As JSON has it."""
        rows = {name: [rule.as_dict() for rule in getattr(self, name)] for name in ("filters", "assertions")}
        return {**self._asdict(), **rows}

    def text(self):
        """What is told, line by line."""
        yield f"exceptions (SLURM version {self.version}): {self.removed:,} lines filtered, {self.added:,} asserted"
        for name, rules in (("filter", self.filters), ("assertion", self.assertions)):
            for rule in rules[:MOST_TOLD]:
                comment = f" ({rule.comment!a})" if rule.comment else ""
                yield f"{name} {rule.told}: {rule.lines:,} lines{comment}"
            if rules[MOST_TOLD:]:
                yield f".. {len(rules[MOST_TOLD:]):,} more of {name}s, {sum(rule.lines for rule in rules[MOST_TOLD:]):,} lines"
        if self.unused:
            yield f"rules for BGPsec keys, which aren't used: {self.unused:,}"


# What a file says.


def read(path):
    """The rules of a file; raises BadSlurm, or OSError where it can't be read."""
    with open(path, "rb") as file:
        octets = file.read()
    try:
        made = json.loads(octets.decode("utf-8"), object_pairs_hook=members_once, parse_constant=refused_constant)
        return rules_of(made)
    except RecursionError:
        raise BadSlurm(f"{path}: it is too deep") from None
    except (BadSlurm, ValueError) as why:
        raise BadSlurm(f"{path}: {why}") from None


def members_once(pairs):
    """A JSON object, of which no member stands twice."""
    found = dict(pairs)
    if len(found) < len(pairs):
        raise BadSlurm("a member stands twice")
    return found


def refused_constant(text):
    raise BadSlurm(f"{text} is no number")


def rules_of(made):
    """The rules of a file's JSON (RFC 8416 3.2)."""
    whole = members("the file", made, ("slurmVersion", FILTERS, ASSERTIONS))
    version = whole["slurmVersion"]
    if type(version) is not int or version not in PARTS:
        raise BadSlurm("slurmVersion is neither 1 nor 2")
    rules = Rules(version)
    for name, ending, adders in ((FILTERS, "Filters", FILTER), (ASSERTIONS, "Assertions", ASSERT)):
        parts = members(name, whole[name], [part + ending for part in PARTS[version]])
        for part in PARTS[version]:
            rows = parts[part + ending]
            if not isinstance(rows, list):
                raise BadSlurm(f"{part}{ending} is no list")
            for count, row in enumerate(rows, 1):
                adders[part](rules, f"{part}{ending}, row {count}", row)
    return rules


def members(what, value, wanted, optional=()):
    """A JSON object with each of the members that are wanted, and none but these and those that may be there."""
    if not isinstance(value, dict):
        raise BadSlurm(f"{what} is no object")
    if missing := [name for name in wanted if name not in value]:
        raise BadSlurm(f"{what} has no member {missing[0]}")
    if others := value.keys() - set(wanted) - set(optional):
        raise BadSlurm(f"{what} has a member {min(others)!a}, which isn't known there")
    return value


def comment_of(what, row):
    if not isinstance(row.get("comment", ""), str):
        raise BadSlurm(f"{what}: the comment is no text")
    return row.get("comment")


def asn_of(what, value):
    if type(value) is not int or not 0 <= value <= lines_to.MOST_AS:
        raise BadSlurm(f"{what}: {json.dumps(value)[:80]} is no AS number")
    return value


def prefix_of(what, value):
    """The network of a prefix's text, whose address has no bits behind its length."""
    try:
        if not (isinstance(value, str) and re.fullmatch(r"[0-9A-Fa-f:.]+/(0|[1-9][0-9]{0,2})", value)):
            raise ValueError
        return ipaddress.ip_network(value)
    except ValueError:
        raise BadSlurm(f"{what}: {json.dumps(value)[:80]} is no prefix") from None


def octets_of(what, name, value, length=None):
    """Octets in base 64 for URLs, without padding (RFC 4648 5)."""
    if isinstance(value, str) and re.fullmatch(r"[A-Za-z0-9_-]+", value) and len(value) % 4 != 1:
        octets = base64.urlsafe_b64decode(value + "=" * (-len(value) % 4))
        if length in (None, len(octets)) and base64.urlsafe_b64encode(octets).rstrip(b"=").decode() == value:
            return octets
    raise BadSlurm(f"{what}: {name} isn't in base 64, or not of its length")


def filter_prefix(rules, what, row):
    """RFC 8416 3.3.1."""
    members(what, row, (), ("prefix", "asn", "comment"))
    if not row.keys() & {"prefix", "asn"}:
        raise BadSlurm(f"{what} has neither prefix nor asn")
    network = prefix_of(what, row["prefix"]) if "prefix" in row else None
    asn = asn_of(what, row["asn"]) if "asn" in row else None
    told = [text for text in (network and prefix_text(network), asn is not None and f"AS{asn}") if text]
    rule = Rule(" ".join(told), comment_of(what, row))
    rules.filters.append(rule)
    if network is None:
        rules.numbers.setdefault(asn, []).append(rule)
        return
    of_length = rules.prefixes.setdefault((network.version, network.prefixlen), {})
    bits = SIZES[network.version] - network.prefixlen
    of_length.setdefault(int(network.network_address) >> bits, []).append((asn, rule))


def filter_key(rules, what, row):
    """RFC 8416 3.3.2."""
    members(what, row, (), ("asn", "SKI", "comment"))
    if not row.keys() & {"asn", "SKI"}:
        raise BadSlurm(f"{what} has neither asn nor SKI")
    for name, value in row.items():
        if name == "asn":
            asn_of(what, value)
        elif name == "SKI":
            octets_of(what, name, value, KEY_OCTETS)
    comment_of(what, row)
    rules.unused += 1


def spelling_of(row):
    """How a row about a customer names its members."""
    return next((names for names in SPELLINGS if isinstance(row, dict) and names[0] in row), SPELLINGS[0])


def filter_customer(rules, what, row):
    """draft-ietf-sidrops-aspa-slurm 3.2."""
    customer, _ = spelling_of(row)
    members(what, row, (customer,), ("comment",))
    asn = asn_of(what, row[customer])
    rule = Rule(f"customer AS{asn}", comment_of(what, row))
    rules.filters.append(rule)
    rules.customers.setdefault(asn, []).append(rule)


def assert_prefix(rules, what, row):
    """RFC 8416 3.4.1."""
    members(what, row, ("prefix", "asn"), ("maxPrefixLength", "comment"))
    network, asn = prefix_of(what, row["prefix"]), asn_of(what, row["asn"])
    greatest = row.get("maxPrefixLength", network.prefixlen)
    if type(greatest) is not int or not network.prefixlen <= greatest <= network.max_prefixlen:
        raise BadSlurm(f"{what}: maxPrefixLength isn't from {network.prefixlen} to {network.max_prefixlen}")
    place = Place(network.version, int(network.network_address), network.prefixlen, greatest, asn)
    rule = Rule(f"AS{asn} {prefix_text(network)} {greatest}", comment_of(what, row))
    rules.assertions.append(rule)
    rules.origins.setdefault(place, []).append(rule)


def assert_key(rules, what, row):
    """RFC 8416 3.4.2."""
    members(what, row, ("asn", "SKI", "routerPublicKey"), ("comment",))
    asn_of(what, row["asn"])
    octets_of(what, "SKI", row["SKI"], KEY_OCTETS)
    octets_of(what, "routerPublicKey", row["routerPublicKey"])
    comment_of(what, row)
    rules.unused += 1


def assert_customer(rules, what, row):
    """draft-ietf-sidrops-aspa-slurm 3.3."""
    customer, providers = spelling_of(row)
    members(what, row, (customer, providers), ("comment",))
    asn, numbers = asn_of(what, row[customer]), row[providers]
    if not isinstance(numbers, list) or not numbers:
        raise BadSlurm(f"{what}: {providers} is no list with a number")
    numbers = sorted({asn_of(what, value) for value in numbers})
    if asn in numbers:
        raise BadSlurm(f"{what}: AS{asn} is a provider of its own")
    rule = Rule(f"customer AS{asn} providers {' '.join(f'AS{one}' for one in numbers)}", comment_of(what, row))
    rules.assertions.append(rule)
    rules.providers.setdefault(asn, []).append((numbers, rule))


FILTER = {"prefix": filter_prefix, "bgpsec": filter_key, "aspa": filter_customer}
ASSERT = {"prefix": assert_prefix, "bgpsec": assert_key, "aspa": assert_customer}


# What becomes of lines.


def address_text(version, address):
    """An address as `rpki_check` prints it: RFC 5952, with a dotted end only of those that stand for IPv4."""
    if version == 6 and address >> 32 == 0xFFFF:
        return f"::ffff:{ipaddress.IPv4Address(address & 0xFFFFFFFF)}"
    return (ipaddress.IPv4Address if version == 4 else ipaddress.IPv6Address)(address).compressed


def prefix_text(network):
    return f"{address_text(network.version, int(network.network_address))}/{network.prefixlen}"


def place_of(origin):
    """Where an origin of a line stands."""
    address = origin.prefix.partition("/")[0]
    version, family = (6, socket.AF_INET6) if ":" in address else (4, socket.AF_INET)
    number = int.from_bytes(socket.inet_pton(family, address), "big")
    return Place(version, number, origin.length, origin.greatest, origin.asn)


class Changing:
    """Lines while the rules are applied to them: `origins` and `customers` are what is asserted and hasn't been written yet,
    the last first."""

    def __init__(self, rules, out):
        self.rules, self.out, self.removed, self.added = rules, out, 0, 0
        self.origins = sorted(rules.origins.items(), key=lambda pair: pair[0], reverse=True)
        self.customers = sorted(rules.providers.items(), key=lambda pair: pair[0], reverse=True)
        self.before = ()

    def in_order(self, place, line):
        """Refuses a line that doesn't stand behind the one before, by whose order what is asserted finds its place."""
        if place <= self.before:
            raise lines_to.BadLine(f"{line.decode('ascii').rstrip()} isn't in its place")
        self.before = place

    def filtered(self, rules):
        """Counts a line that these filters match; whether there are any."""
        for rule in rules:
            rule.lines += 1
        self.removed += bool(rules)
        return bool(rules)

    def origin(self, one, line):
        place = place_of(one)
        self.in_order((0, place), line)
        self.assert_origins(place)
        if not self.filtered(list(self.rules.matching(place))):
            self.out.write(line)
            # (an assertion of the same is none more)
            if self.origins and self.origins[-1][0] == place:
                self.origins.pop()

    def assert_origins(self, before=None):
        """Writes what is asserted of origins in front of a place; all that is left, where there is none."""
        while self.origins and (before is None or self.origins[-1][0] < before):
            place, rules = self.origins.pop()
            self.out.write(place.line())
            self.added += 1
            rules[0].lines += 1

    def customer(self, one, line):
        self.in_order((1, one.asn), line)
        self.assert_origins()
        self.assert_customers(one.asn)
        is_asserted = bool(self.customers) and self.customers[-1][0] == one.asn
        if self.filtered(self.rules.customers.get(one.asn, ())):
            return
        if is_asserted:
            self.assert_customer(one.providers)
        else:
            self.out.write(line)

    def assert_customers(self, before=None):
        while self.customers and (before is None or self.customers[-1][0] < before):
            self.assert_customer()

    def assert_customer(self, proved=()):
        """Writes the next customer that is asserted, with what is proved of it."""
        asn, rows = self.customers.pop()
        providers = set(proved)
        for numbers, rule in rows:
            rule.lines += not providers.issuperset(numbers)
            providers.update(numbers)
        self.added += len(providers) > len(proved)
        self.out.write(f"aspa AS{asn} {' '.join(f'AS{one}' for one in sorted(providers))}\n".encode())

    def refusal(self, line):
        self.end()
        self.before = (2,)
        self.out.write(line)

    def end(self):
        """Writes what is asserted and hasn't found its place."""
        self.assert_origins()
        self.assert_customers()


def apply(lines_in, lines_out, rules):
    """Writes the lines with the rules applied, in their order: both are open files of octets, and each line is as `rpki_check
    check` prints it. Returns the Counts; raises lines_to.BadLine, when a part may be written. Memory grows with the rules
    alone."""
    for rule in (*rules.filters, *rules.assertions):
        rule.lines = 0
    lines = Changing(rules, lines_out)
    for octets in lines_in:
        one = lines_to.parsed(octets)
        if isinstance(one, lines_to.Origin):
            lines.origin(one, octets)
        elif isinstance(one, lines_to.Customer):
            lines.customer(one, octets)
        else:
            lines.refusal(octets)
    lines.end()
    return Counts(rules.version, lines.removed, lines.added, rules.filters, rules.assertions, rules.unused)


def main():
    parser = argparse.ArgumentParser(description=__doc__, formatter_class=argparse.RawDescriptionHelpFormatter)
    parser.add_argument("file", metavar="FILE", help="exceptions by RFC 8416")
    given = parser.parse_args()
    try:
        counts = apply(sys.stdin.buffer, sys.stdout.buffer, read(given.file))
        sys.stdout.flush()
    except lines_to.BadLine as why:
        print(f"slurm.py: not lines of rpki_check: {why}", file=sys.stderr)
        return 1
    except (BadSlurm, OSError) as why:
        print(f"slurm.py: {why}", file=sys.stderr)
        return 1
    for text in counts.text():
        print(text, file=sys.stderr)
    return 0


if __name__ == "__main__":
    sys.exit(main())
