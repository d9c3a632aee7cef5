#!/usr/bin/env python3
"""Asks tools/slurm.py what an operator's exceptions make of lines (RFC 8416, draft-ietf-sidrops-aspa-slurm).

    exceptions.py [COUNT]        (COUNT rounds by chance, 200 unless it is given)

The file of RFC 8416 3.5 is applied to lines whose answer is written here; rules by chance to lines by chance, beside a
reading of the rules that looks at each rule for each line, with Python's own networks. Files that deviate in one place have to
be refused, with nothing written. Exits with 1 at the first answer that differs.
"""

import copy
import io
import ipaddress
import json
import os
import random
import subprocess
import sys
import tempfile

TOP = os.path.join(os.path.dirname(os.path.abspath(__file__)), os.pardir, os.pardir)
TOOL = os.path.join(TOP, "tools", "slurm.py")
sys.dont_write_bytecode = True
sys.path.insert(0, os.path.join(TOP, "tools"))

import slurm  # noqa: E402

ran = 0
KEY = "q83vEjRWeJCrze8SNFZ4kKvN7xI"
# RFC 8416 3.5, with keys in the places of its placeholders.
WHOLE = {
    "slurmVersion": 1,
    "validationOutputFilters": {
        "prefixFilters": [
            {"prefix": "192.0.2.0/24", "comment": "All VRPs encompassed by prefix"},
            {"asn": 64496, "comment": "All VRPs matching ASN"},
            {"prefix": "198.51.100.0/24", "asn": 64497, "comment": "All VRPs encompassed by prefix, matching ASN"},
        ],
        "bgpsecFilters": [
            {"asn": 64496, "comment": "All keys for ASN"},
            {"SKI": KEY, "comment": "Key matching Router SKI"},
            {"asn": 64497, "SKI": KEY, "comment": "Key for ASN 64497 matching Router SKI"},
        ],
    },
    "locallyAddedAssertions": {
        "prefixAssertions": [
            {"asn": 64496, "prefix": "198.51.100.0/24", "comment": "My other important route"},
            {"asn": 64496, "prefix": "2001:DB8::/32", "maxPrefixLength": 48, "comment": "My other important de-aggregated routes"},
        ],
        "bgpsecAssertions": [
            {"asn": 64496, "comment": "My known key for my important ASN", "SKI": KEY, "routerPublicKey": "MAA"},
        ],
    },
}
LINES = """\
roa AS64498 192.0.0.0/16 24
roa AS64498 192.0.2.0/24 24
roa AS64498 192.0.2.128/25 32
roa AS64498 192.0.3.0/24 24
roa AS64496 198.51.0.0/16 24
roa AS64497 198.51.0.0/16 24
roa AS64497 198.51.100.0/24 24
roa AS64498 198.51.100.0/24 24
roa AS64497 198.51.100.0/25 25
roa AS64496 2001:db8::/32 48
roa AS64499 2001:db8::/32 48
aspa AS64496 AS64497
refused rsync://rpki.example/x object
"""
ANSWER = """\
roa AS64498 192.0.0.0/16 24
roa AS64498 192.0.3.0/24 24
roa AS64497 198.51.0.0/16 24
roa AS64496 198.51.100.0/24 24
roa AS64498 198.51.100.0/24 24
roa AS64496 2001:db8::/32 48
roa AS64499 2001:db8::/32 48
aspa AS64496 AS64497
refused rsync://rpki.example/x object
"""
# Customers: version 2, in either spelling.
SECOND = """\
aspa AS64496 AS64500
aspa AS64497 AS64500 AS64502
aspa AS64498 AS64501
aspa AS64499 AS0
refused t tal
"""
SECOND_ANSWER = """\
aspa AS1 AS4294967295
aspa AS64497 AS64500 AS64501 AS64502
aspa AS64498 AS1 AS2 AS64501
aspa AS64499 AS64500
refused t tal
"""
# What the example's rules make of the lines of the example's cache.
EXAMPLE = """\
roa AS64511 10.0.0.0/8 24
roa AS64496 192.0.2.0/24 24
roa AS64496 2001:db8::/32 48
aspa AS64496 AS64497 AS64498
aspa AS64511 AS64496 AS64497
refused rsync://rpki.example/repository/operator/changed.roa object
refused rsync://rpki.example/repository/operator/others.roa object
refused rsync://rpki.example/repository/operator/revoked.roa object
"""


def same(what, got, wanted):
    global ran
    if got != wanted:
        sys.exit(f"{what}: {got!r} in place of {wanted!r}")
    ran += 1


def of_version_2(customer, providers):
    """Filters take AS64496 and AS64499 away; the second is asserted anew, AS64498 twice, and AS1 and AS64497 once."""
    made = copy.deepcopy(WHOLE) | {"slurmVersion": 2}
    made["validationOutputFilters"] = {"prefixFilters": [], "bgpsecFilters": [], "aspaFilters": [
        {customer: 64496, "comment": "gone"}, {customer: 64499}, {customer: 64511}]}
    rows = ((64499, [64500]), (1, [4294967295]), (64498, [2, 1]), (64498, [1]), (64497, [64501, 64500]))
    asserted = [{customer: asn, providers: numbers} for asn, numbers in rows]
    made["locallyAddedAssertions"] = {"prefixAssertions": [], "bgpsecAssertions": [], "aspaAssertions": asserted}
    return made


def run(path, made, lines):
    with open(path, "w") as file:
        file.write(made if isinstance(made, str) else json.dumps(made))
    return subprocess.run([sys.executable, TOOL, path], input=lines, capture_output=True, text=True)


def worked(path):
    """The RFC's own file; customers; files that have no rules."""
    done = run(path, WHOLE, LINES)
    same("RFC 8416 3.5", (done.returncode, done.stdout), (0, ANSWER))
    for text in ("exceptions (SLURM version 1): 6 lines filtered, 2 asserted\n", "filter 192.0.2.0/24: 2 lines",
                 "filter AS64496: 2 lines", "filter 198.51.100.0/24 AS64497: 2 lines", "'My other important route'",
                 "assertion AS64496 2001:db8::/32 48: 1 lines", "BGPsec keys, which aren't used: 4\n"):
        same(f"told: {text}", text in done.stderr, True)
    for names in (("customerAsn", "providerAsns"), ("customer_asid", "provider_set")):
        done = run(path, of_version_2(*names), SECOND)
        same(f"{names[0]}", (done.returncode, done.stdout), (0, SECOND_ANSWER))
        for text in ("(SLURM version 2): 2 lines filtered, 4 asserted", "customer AS64511: 0 lines",
                     "customer AS64498 providers AS1: 0 lines", "customer AS64498 providers AS1 AS2: 1 lines"):
            same(f"told: {text}", text in done.stderr, True)
    none = {"slurmVersion": 1, "validationOutputFilters": {"prefixFilters": [], "bgpsecFilters": []},
            "locallyAddedAssertions": {"prefixAssertions": [], "bgpsecAssertions": []}}
    for lines in ("", LINES, SECOND):
        done = run(path, none, lines)
        same("no rules", (done.returncode, done.stdout), (0, lines))
    texts = []
    for name in ("slurm.json", "cache.lines"):
        with open(os.path.join(TOP, "examples", name)) as file:
            texts.append(file.read())
    same("the example", run(path, *texts).stdout, EXAMPLE)
    done = run(path, WHOLE, "")
    asserted = "roa AS64496 198.51.100.0/24 24\nroa AS64496 2001:db8::/32 48\n"
    same("no lines", (done.returncode, done.stdout), (0, asserted))


FILTERS, ASSERTIONS = "validationOutputFilters", "locallyAddedAssertions"
# Where a file of version 1 deviates: the way to a value, and what stands there in its place; none: the member isn't there.
DEVIATIONS = (
    *((["slurmVersion"], value) for value in (0, 3, "1", 1.0, True, None, ...)),
    *(([name], value) for name in (FILTERS, ASSERTIONS) for value in ([], None, {}, ...)),
    *(([FILTERS, name], value) for name in ("prefixFilters", "bgpsecFilters") for value in ({}, None, "", ...)),
    *(([ASSERTIONS, name], value) for name in ("prefixAssertions", "bgpsecAssertions") for value in ({}, None, "", ...)),
    (["more"], 1), ([FILTERS, "aspaFilters"], []), ([ASSERTIONS, "aspaAssertions"], []),
    *(([FILTERS, "prefixFilters", 0], value) for value in ([], {}, {"comment": "x"}, 1)),
    *(([FILTERS, "prefixFilters", 0, "prefix"], value) for value in (
        "192.0.2.1/24", "192.0.2.0", "192.0.2.0/33", "192.0.2.0/024", "192.0.2/24", "192.0.02.0/24", "2001:db8::1/32", "::/129",
        "192.0.2.0/255.255.255.0", " 192.0.2.0/24", "fe80::%1/64", "", 1, None, ["192.0.2.0/24"])),
    *(([FILTERS, "prefixFilters", 1, "asn"], value) for value in ("64496", "AS64496", -1, 2**32, 1.5, True, None, [1])),
    *(([FILTERS, "prefixFilters", 1, "comment"], value) for value in (1, None, [])),
    ([FILTERS, "prefixFilters", 1, "maxPrefixLength"], 24),
    *(([FILTERS, "bgpsecFilters", 0], value) for value in ({}, {"comment": "x"}, {"asn": 1, "prefix": "::/0"})),
    *(([FILTERS, "bgpsecFilters", 1, "SKI"], value) for value in ("", "AA", KEY + "=", KEY + "A", KEY[:-1] + "J", "+" + KEY[1:], 1)),
    *(([ASSERTIONS, "prefixAssertions", 1, name], ...) for name in ("asn", "prefix")),
    *(([ASSERTIONS, "prefixAssertions", 1, "maxPrefixLength"], value) for value in (31, 129, "48", 48.0, None, True)),
    ([ASSERTIONS, "prefixAssertions", 0, "maxPrefixLength"], 33),
    ([ASSERTIONS, "prefixAssertions", 0, "SKI"], KEY),
    *(([ASSERTIONS, "bgpsecAssertions", 0, name], ...) for name in ("asn", "SKI", "routerPublicKey")),
    ([ASSERTIONS, "bgpsecAssertions", 0, "routerPublicKey"], "MAA="),
)
SECOND_DEVIATIONS = (
    (["slurmVersion"], 1), ([FILTERS, "aspaFilters"], ...), ([ASSERTIONS, "aspaAssertions"], ...),
    ([FILTERS, "aspaFilters", 0, "customerAsn"], ...), ([FILTERS, "aspaFilters", 0, "customer_asid"], 1),
    ([FILTERS, "aspaFilters", 0, "providerAsns"], [1]),
    *(([ASSERTIONS, "aspaAssertions", 0, "providerAsns"], value) for value in ([], [64499], ["1"], [2**32], 1, None, {}, ...)),
    ([ASSERTIONS, "aspaAssertions", 0, "provider_set"], [1]), ([ASSERTIONS, "aspaAssertions", 0, "customerAsn"], "1"),
)
TEXTS = ("", "[]", "1", "{}", "{", json.dumps(WHOLE)[:-1], json.dumps(WHOLE) + "x", '{"slurmVersion": 1, ' + json.dumps(WHOLE)[1:],
         json.dumps(WHOLE).replace('"slurmVersion": 1', '"slurmVersion": NaN'), "[" * 100_000, "\ufeff" + json.dumps(WHOLE))


def deviating(path):
    """Files that deviate in one place: none of them is used."""
    files = [(f"{way} {value!r}", changed(WHOLE, way, value)) for way, value in DEVIATIONS]
    second = of_version_2("customerAsn", "providerAsns")
    files += [(f"version 2, {way} {value!r}", changed(second, way, value)) for way, value in SECOND_DEVIATIONS]
    files += [(text[:40], text) for text in TEXTS]
    for what, made in files:
        with open(path, "w") as file:
            file.write(made if isinstance(made, str) else json.dumps(made))
        try:
            slurm.read(path)
        except slurm.BadSlurm as why:
            same(what, str(why).startswith(f"{path}: "), True)
        else:
            sys.exit(f"{what}: it is taken")
    for made in (WHOLE | {"slurmVersion": 4}, "{"):
        done = run(path, made, LINES)
        same("refused", (done.returncode, done.stdout, "Traceback" in done.stderr), (1, "", False))
    os.remove(path)
    done = subprocess.run([sys.executable, TOOL, path], input=LINES, capture_output=True, text=True)
    same("no file", (done.returncode, done.stdout, "Traceback" in done.stderr), (1, "", False))
    same("no argument", subprocess.run([sys.executable, TOOL], capture_output=True).returncode, 2)
    for lines in ("x\n", "roa AS1 192.0.2.0/24 24", "roa AS1 10.0.0.0/8 8\nroa AS1 9.0.0.0/8 8\n", "refused t tal\nroa AS1 9.0.0.0/8 8\n",
                  "aspa AS1 AS2\nroa AS1 9.0.0.0/8 8\n", "roa AS1 9.0.0.0/8 8\nroa AS1 9.0.0.0/8 8\n"):
        done = run(path, WHOLE, lines)
        same(f"no lines: {lines!r}", (done.returncode, "Traceback" in done.stderr), (1, False))


def changed(made, way, value):
    """A file with another value at one place."""
    made = copy.deepcopy(made)
    at = made
    for step in way[:-1]:
        at = at[step]
    if value is ...:
        del at[way[-1]]
    else:
        at[way[-1]] = value
    return made


# Rules and lines by chance.


def prefix(chance):
    """One of a few prefixes near each other, so that they meet."""
    kind, address, lengths = chance.choice((
        (ipaddress.IPv4Network, 0x0A000000, (8, 9, 16, 17, 24, 31, 32)),
        (ipaddress.IPv4Network, 0, (0, 1, 8)),
        (ipaddress.IPv6Network, 0x20010DB8 << 96, (16, 31, 32, 33, 48, 64, 128)),
        (ipaddress.IPv6Network, 0xFFFF << 32, (0, 1, 80, 96, 97, 127, 128)),
    ))
    most, length = kind((0, 0)).max_prefixlen, chance.choice(lengths)
    address ^= chance.choice((0, 0, 1, 1 << (most - 9), 1 << (most - 17), 1 << (most - 33) if most > 32 else 0))
    return kind((address, length), strict=False)


def printed(network):
    """A prefix as lines have it; addresses in ::ffff:0:0/96 have a dotted end."""
    mapped = network.network_address.ipv4_mapped if network.version == 6 else None
    return f"::ffff:{mapped}/{network.prefixlen}" if mapped else str(network)


def origin(chance):
    network = prefix(chance)
    return network, chance.choice((network.prefixlen, network.max_prefixlen)), chance.choice((0, 1, 2, 2**32 - 1))


def order(one):
    network, greatest, asn = one
    return network.version, int(network.network_address), network.prefixlen, greatest, asn


def rules_by_chance(chance):
    """A file's JSON, its filters of prefixes, its assertions, its filters of customers, its assertions of these."""
    filters = [(chance.choice((None, prefix(chance))), chance.choice((None, 0, 1, 2))) for _ in range(chance.randrange(4))]
    filters = [pair for pair in filters if pair != (None, None)]
    asserted = [origin(chance) for _ in range(chance.randrange(4))]
    gone = [chance.randrange(6) for _ in range(chance.randrange(3))]
    customers = [(chance.randrange(6), chance.sample(range(6, 12), chance.randrange(1, 4))) for _ in range(chance.randrange(4))]
    rows = []
    for network, asn in filters:
        row = {} if network is None else {"prefix": str(network)}
        rows.append(row | ({} if asn is None else {"asn": asn}))
    made = {
        "slurmVersion": 2,
        FILTERS: {"prefixFilters": rows, "bgpsecFilters": [], "aspaFilters": [{"customerAsn": asn} for asn in gone]},
        ASSERTIONS: {
            "prefixAssertions": [{"prefix": str(one), "asn": asn, "maxPrefixLength": most} for one, most, asn in asserted],
            "bgpsecAssertions": [],
            "aspaAssertions": [{"customerAsn": asn, "providerAsns": numbers} for asn, numbers in customers],
        },
    }
    return made, filters, asserted, gone, customers


def is_filtered(one, filters):
    network, _, asn = one
    return any(
        (by is None or (by.version == network.version and network.subnet_of(by))) and number in (None, asn)
        for by, number in filters
    )


def by_chance(path, count):
    for seed in range(count):
        chance = random.Random(seed)
        origins = {order(one): one for one in (origin(chance) for _ in range(chance.randrange(12)))}
        customers = {chance.randrange(6): set(chance.sample(range(6, 12), chance.randrange(1, 4))) for _ in range(chance.randrange(4))}
        made, filters, asserted, gone, attested = rules_by_chance(chance)
        with open(path, "w") as file:
            json.dump(made, file)
        out = io.BytesIO()
        counts = slurm.apply(io.BytesIO(text_of(origins, customers)), out, slurm.read(path))
        left = {key: one for key, one in origins.items() if not is_filtered(one, filters)}
        right = left | {order(one): one for one in asserted}
        kept = {asn: numbers for asn, numbers in customers.items() if asn not in gone}
        both = {asn: set(numbers) for asn, numbers in kept.items()}
        for asn, numbers in attested:
            both.setdefault(asn, set()).update(numbers)
        same(f"chance {seed}", out.getvalue(), text_of(right, both))
        removed = len(origins) - len(left) + len(customers) - len(kept)
        added = len(right) - len(left) + sum(kept.get(asn) != numbers for asn, numbers in both.items())
        same(f"chance {seed}: counts", (counts.removed, counts.added), (removed, added))
        matched = [sum(is_filtered(one, [pair]) for one in origins.values()) for pair in filters]
        same(f"chance {seed}: filters", [rule.lines for rule in counts.filters], matched + [int(asn in customers) for asn in gone])


def text_of(origins, customers):
    lines = [f"roa AS{asn} {printed(network)} {most}\n" for _, (network, most, asn) in sorted(origins.items())]
    lines += [f"aspa AS{asn} {' '.join(f'AS{one}' for one in sorted(numbers))}\n" for asn, numbers in sorted(customers.items())]
    return "".join([*lines, "refused a object\nrefused b point\n"]).encode()


def main():
    with tempfile.TemporaryDirectory() as folder:
        path = os.path.join(folder, "exceptions")
        worked(path)
        deviating(path)
        by_chance(path, int(sys.argv[1]) if sys.argv[1:] else 200)
    print(f"{ran} passed, 0 failed")


if __name__ == "__main__":
    main()
