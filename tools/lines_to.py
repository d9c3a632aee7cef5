#!/usr/bin/env python3
"""Turns the lines that `rpki_check check` prints into what routers' software takes.

    lines_to.py json|openbgpd|csv [--moment YYYYMMDDHHMMSSZ] [--lifetime SECONDS] [--name NAME] [--no-aspa] < LINES

  json      what StayRTR serves to routers, in rpki-client's form: `metadata`, `roas` with `asn`, `prefix`, `maxLength`,
            `ta` and `expires`, and customers with their providers, twice: as `aspas`, and as `provider_authorizations` by
            family, which rpki-client 8.2 writes and StayRTR 0.5 reads
  openbgpd  a part of bgpd.conf: `roa-set` and `aspa-set` (OpenBGPD 8.0 and later; --no-aspa leaves the latter out)
  csv       `ASN,Prefix,Max prefix length`, as FORT has it; with --name `ASN,IP Prefix,Max Length,Trust Anchor`, as
            Routinator has it; attestations of providers have no form there

Lines don't tell when they hold. --moment does: the moment of their bundle, which becomes the JSON's `buildtime`. StayRTR
starts with no file that has none, or one that is more than a day ago; once it runs, it and OpenBGPD go on serving what they
have, but for lines whose `expires` has come: --lifetime after the moment (a day unless it is given; 0 for none). A line
doesn't tell its trust anchor either, so --name (`rpki_check` unless it is given) stands in its place. Refusals are counted
by cause, in the JSON and on standard error.

Lines are copied to a temporary file and read as often as the form wants, so that memory doesn't grow with them.

Exit status: 0; 1 where a line is none of `rpki_check`'s, with its number, and then nothing was written, or where a file
can't be written; 2 for other arguments.
"""

import argparse
import calendar
import collections
import hashlib
import json
import re
import shutil
import socket
import sys
import tempfile
import time

ORIGIN = re.compile(r"roa AS(0|[1-9][0-9]{0,9}) ([0-9a-f.:]+)/(0|[1-9][0-9]{0,2}) (0|[1-9][0-9]{0,2})")
PROVIDERS = re.compile(r"aspa AS(0|[1-9][0-9]{0,9})((?: AS(?:0|[1-9][0-9]{0,9}))+)")
REFUSAL = re.compile(r"refused (\S+) (tal|anchor|point|object|loop|depth)")
MOST_AS = 2**32 - 1
TOOL = "rpki_check"
# So many characters are gathered before they are written.
PIECE = 1 << 16
# So long lines are told after their moment, in seconds: as long as StayRTR takes a file that it starts with.
LIFETIME = 86_400
# What may stand in the place of a trust anchor's name, in JSON, in a row of CSV and in a comment.
NAME = re.compile(r"[A-Za-z0-9][A-Za-z0-9 ._:/()+-]*\Z")


class BadLine(Exception):
    """A line that `rpki_check` doesn't print."""


# An origin: the AS number, the prefix's text and length, the greatest length.
Origin = collections.namedtuple("Origin", "asn prefix length greatest")
# A customer with its providers.
Customer = collections.namedtuple("Customer", "asn providers")
# What is refused, by its name, and the cause.
Refusal = collections.namedtuple("Refusal", "name cause")


class How(collections.namedtuple("How", "name moment lifetime aspa more", defaults=(None, None, 0, True, {}))):
    """How lines are written: the trust anchor's name or None, the moment as YYYYMMDDHHMMSSZ or None, for how many seconds
    after it they are told, whether attestations of providers are, and what else the JSON's metadata has."""

    def seconds(self):
        """The moment in seconds since 1970."""
        return calendar.timegm(time.strptime(self.moment, "%Y%m%d%H%M%SZ"))

    def expiry(self):
        """When the lines are to be told no longer, in seconds since 1970; None where they have no end."""
        return self.seconds() + self.lifetime if self.moment and self.lifetime else None


class Counts(collections.namedtuple("Counts", "path origins customers causes locators")):
    """What a file of lines has: how many origins and customers, how many refusals of each cause, and of refusals with the
    causes `tal` and `anchor` each locator's name and the cause."""

    def each(self, kind):
        """The origins or the customers of the file, one after another: `kind` is Origin or Customer."""
        start = b"roa " if kind is Origin else b"aspa "
        with open(self.path, "rb") as file:
            yield from (known(octets) for octets in file if octets.startswith(start))


def number(text):
    if int(text) > MOST_AS:
        raise BadLine(f"AS{text}")
    return int(text)


def origin_of(asn, address, length, greatest):
    """An AS number, a prefix and its greatest length; the prefix's text is kept as it was printed."""
    family, size = (socket.AF_INET6, 128) if ":" in address else (socket.AF_INET, 32)
    try:
        value = int.from_bytes(socket.inet_pton(family, address), "big")
    except OSError:
        raise BadLine(f"the address {address}") from None
    if int(length) > size or value & ((1 << (size - int(length))) - 1):
        raise BadLine(f"the prefix {address}/{length}")
    if not int(length) <= int(greatest) <= size:
        raise BadLine(f"the greatest length {greatest} of {address}/{length}")
    return Origin(number(asn), f"{address}/{length}", int(length), int(greatest))


def parsed(octets):
    """What a line says, which ends in LF: an Origin, a Customer or a Refusal."""
    if not octets.endswith(b"\n"):
        raise BadLine("the last line has no end")
    try:
        line = octets[:-1].decode("ascii")
    except UnicodeDecodeError:
        raise BadLine(f"{octets[:80]!r} isn't ASCII") from None
    if found := ORIGIN.fullmatch(line):
        return origin_of(*found.groups())
    if found := PROVIDERS.fullmatch(line):
        return Customer(number(found[1]), [number(text.removeprefix("AS")) for text in found[2].split()])
    if found := REFUSAL.fullmatch(line):
        return Refusal(*found.groups())
    raise BadLine(line)


def known(octets):
    """What a line says that was read before and is no refusal."""
    kind, asn, *rest = octets.decode("ascii").split()
    if kind == "roa":
        return Origin(int(asn[2:]), rest[0], int(rest[0].partition("/")[2]), int(rest[1]))
    return Customer(int(asn[2:]), [int(text[2:]) for text in rest])


def count(path):
    """Reads a file of lines once; raises BadLine, with the number of the line that is none."""
    kinds, causes, locators = collections.Counter(), collections.Counter(), []
    with open(path, "rb") as file:
        for place, octets in enumerate(file, 1):
            try:
                one = parsed(octets)
            except BadLine as why:
                raise BadLine(f"line {place}: {why}") from None
            kinds[type(one)] += 1
            if isinstance(one, Refusal):
                causes[one.cause] += 1
                locators += [one] if one.cause in ("tal", "anchor") else []
    return Counts(path, kinds[Origin], kinds[Customer], dict(sorted(causes.items())), locators)


def write(form, counts, how, out):
    """Writes the lines that were counted in a form to a binary file; the SHA-256 digest of what was written, in hexadecimal.
    The memory that it takes doesn't grow with the lines."""
    digest = hashlib.sha256()
    for octets in gathered(FORMS[form](counts, how)):
        digest.update(octets)
        out.write(octets)
    return digest.hexdigest()


def gathered(pieces):
    """Pieces of text as fewer pieces of octets."""
    part, size = [], 0
    for piece in pieces:
        part.append(piece)
        size += len(piece)
        if size >= PIECE:
            yield "".join(part).encode("ascii")
            part, size = [], 0
    yield "".join(part).encode("ascii")


def is_moment(text):
    """Whether a text is a real moment as a bundle has it."""
    try:
        return bool(re.fullmatch(r"[0-9]{14}Z", text) and time.strptime(text, "%Y%m%d%H%M%SZ"))
    except ValueError:
        return False


def metadata(counts, how):
    """What the JSON tells of itself: the moment of validation twice, and counts, by rpki-client's names."""
    times = {}
    if how.moment:
        built = time.strftime("%Y-%m-%dT%H:%M:%SZ", time.gmtime(how.seconds()))
        times = {"buildtime": built, "generated": how.seconds()}
    numbers = {"vrps": counts.origins, "uniquevrps": counts.origins}
    if how.aspa:
        numbers |= {"vaps": counts.customers, "uniquevaps": counts.customers}
    return {"tool": TOOL, **times, **numbers, "refused": counts.causes, **how.more}


def enclosed(rows, depth, ends="[]"):
    """A JSON list or object with a row on each line, piece by piece."""
    indent, before = "\n" + "  " * depth, ends[0]
    for row in rows:
        yield f"{before}{indent}{row}"
        before = ","
    yield ends if before != "," else indent[:-2] + ends[1]


def to_json(counts, how):
    name, expiry = json.dumps(how.name or TOOL), how.expiry()
    ends = f', "expires": {expiry}' if expiry else ""
    told = (f"{json.dumps(key)}: {json.dumps(value)}" for key, value in metadata(counts, how).items())
    origins = (
        f'{{ "asn": {one.asn}, "prefix": "{one.prefix}", "maxLength": {one.greatest}, "ta": {name}{ends} }}'
        for one in counts.each(Origin)
    )
    yield '{\n  "metadata": '
    yield from enclosed(told, 2, "{}")
    yield ',\n  "roas": '
    yield from enclosed(origins, 2)
    if how.aspa:
        yield ',\n  "aspas": '
        yield from enclosed(customers_in_json(counts, ends), 2)
        yield ',\n  "provider_authorizations": {\n    "ipv4": '
        yield from enclosed(customers_in_json(counts, ends), 3)
        yield ',\n    "ipv6": '
        yield from enclosed(customers_in_json(counts, ends), 3)
        yield "\n  }"
    yield "\n}\n"


def customers_in_json(counts, ends):
    for one in counts.each(Customer):
        yield f'{{ "customer_asid": {one.asn}{ends}, "providers": {one.providers} }}'


def to_openbgpd(counts, how):
    ends = f" expires {how.expiry()}" if how.expiry() else ""
    moment = f", {how.moment}" if how.moment else ""
    yield f"# {how.name or TOOL}{moment}\nroa-set {{\n"
    for one in counts.each(Origin):
        most = f" maxlen {one.greatest}" if one.greatest != one.length else ""
        yield f"\t{one.prefix}{most} source-as {one.asn}{ends}\n"
    yield "}\n"
    if how.aspa:
        yield "\naspa-set {\n"
        for one in counts.each(Customer):
            yield f"\tcustomer-as {one.asn}{ends} provider-as {{ {' '.join(map(str, one.providers))} }}\n"
        yield "}\n"


def to_csv(counts, how):
    yield "ASN,IP Prefix,Max Length,Trust Anchor\n" if how.name else "ASN,Prefix,Max prefix length\n"
    end = f",{how.name}\n" if how.name else "\n"
    for one in counts.each(Origin):
        yield f"AS{one.asn},{one.prefix},{one.greatest}{end}"


FORMS = {"json": to_json, "openbgpd": to_openbgpd, "csv": to_csv}


def unsaid(form, counts, how):
    """What the form leaves out, a line each."""
    if form == "json" and not how.moment:
        yield "no --moment: StayRTR doesn't start with a file that has no build time"
    if counts.customers and (form == "csv" or not how.aspa):
        yield f"attestations of providers left out: {counts.customers}"


def name(text):
    """A name as an argument."""
    if not NAME.match(text):
        raise argparse.ArgumentTypeError("a name has letters, digits and ' ._:/()+-' alone, and begins with one of the first")
    return text


def moment(text):
    if not is_moment(text):
        raise argparse.ArgumentTypeError("a moment is YYYYMMDDHHMMSSZ of a real date")
    return text


def seconds(text):
    if not re.fullmatch(r"[0-9]{1,9}", text):
        raise argparse.ArgumentTypeError("seconds are a number of at most nine digits")
    return int(text)


def add_arguments(parser):
    """How lines are written, as arguments."""
    parser.add_argument("--moment", type=moment, metavar="YYYYMMDDHHMMSSZ", help="the moment that the lines hold at")
    parser.add_argument("--lifetime", type=seconds, default=LIFETIME, help="seconds after it, a day unless given; 0: no end")
    parser.add_argument("--name", type=name, help="the name in the place of a trust anchor's")
    parser.add_argument("--no-aspa", action="store_true", help="no attestations of providers")


def main():
    parser = argparse.ArgumentParser(description=__doc__, formatter_class=argparse.RawDescriptionHelpFormatter)
    parser.add_argument("form", choices=FORMS)
    add_arguments(parser)
    given = parser.parse_args()
    how = How(given.name, given.moment, given.lifetime, not given.no_aspa)
    try:
        with tempfile.NamedTemporaryFile() as lines:
            shutil.copyfileobj(sys.stdin.buffer, lines)
            lines.flush()
            counts = count(lines.name)
            write(given.form, counts, how, sys.stdout.buffer)
            sys.stdout.flush()
    except (BadLine, OSError) as why:
        is_line = isinstance(why, BadLine)
        print(f"lines_to.py: {'not lines of rpki_check: ' if is_line else ''}{why}", file=sys.stderr)
        return 1
    for text in unsaid(given.form, counts, how):
        print(text, file=sys.stderr)
    for cause, number_of in counts.causes.items():
        print(f"refused, {cause}: {number_of}", file=sys.stderr)
    return 0


if __name__ == "__main__":
    sys.exit(main())
