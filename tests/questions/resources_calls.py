"""Questions about single calls, behind the word `call`: prefixes and AS numbers, blocks, chains, addresses, sets of one family, lists.

The answers come from Python's own integers and sets, and `ipaddress`.
"""

import ipaddress
import itertools

from resources_parts import (
    ADDRESSES, as_bits, as_text, asn, block_texts, both_texts, difference, intersection, is_in, LAST, length_of, listed, maximal,
    neighbours, order, overlaps, parsed, printed, read_block, rng, some_addresses, some_blocks, some_runs, some_set, spelled_as,
    spelled_asn, text_of, total, union, V6_LAST, width, word,
)


# Strict prefixes.


def around(version, number, length):
    host = width(version) - length
    return number >> host << host


def facts(version, number, length):
    last = number | (1 << width(version) - length) - 1
    shown = text_of(version, number)
    return [f"{shown}/{length}", length, version == 4, version == 6, shown, shown, text_of(version, last)]


TOO_LONG, HOST = "prefix length exceeds the address", "host bits are set"


def made(version, number, length):
    """A prefix that is strict, and the one around the address."""
    if length > width(version):
        return [[TOO_LONG] * 3] * 2
    start = around(version, number, length)
    relaxed = facts(version, start, length)
    return [relaxed if start == number else [HOST] * 3, relaxed]


def prefixes(q):
    for text in some_addresses(20):
        version, number = parsed(text)
        for length in {0, 1, 7, 8, 24, 31, 32, 33, 48, 63, 64, 65, 112, 127, 128, 129, 255, rng.randrange(129)}:
            if length in (33, 128, 129, 255) or rng.random() < 0.4:
                strict, relaxed = made(version, number, length)
                q.call(strict + relaxed + strict + relaxed, "prefix", "made", text, str(length))
    read = (
        ("10.0.0.0/8", "10.0.0.0/8", None),
        ("10.0.0.0/+08", "10.0.0.0/8", None),
        ("0.0.0.0/0", "0.0.0.0/0", None),
        ("192.0.2.1/24", None, "192.0.2.0/24"),
        ("192.0.2.1/32", "192.0.2.1/32", None),
        ("2001:DB8:0::/32", "2001:db8::/32", None),
        ("::1/0", None, "::/0"),
        ("::ffff:192.0.2.0/120", "::ffff:192.0.2.0/120", None),
        ("::FFFF:C000:0201/120", None, "::ffff:192.0.2.0/120"),
    )
    for text, strict, relaxed in read:
        q.call([strict or f"invalid prefix: {HOST}", relaxed or strict], "prefix", "read", text)
    address, digit = "invalid address: invalid IP address syntax", "invalid prefix length: invalid digit found in string"
    for text, refusal in (
        ("", "empty text"),
        ("10.0.0.0", "missing prefix length"),
        (" ", "missing prefix length"),
        ("/8", address),
        ("10.0.0/8", address),
        ("10.0.0.00/8", address),
        (" 10.0.0.0/8", address),
        ("10.0.0.0 /8", address),
        ("2001:db8/32", address),
        ("10.0.0.0/8/8", digit),
        ("10.0.0.0/-1", digit),
        ("10.0.0.0/8 ", digit),
        ("10.0.0.0/x", digit),
        ("10.0.0.0/", "invalid prefix length: cannot parse integer from empty string"),
        ("10.0.0.0/256", "invalid prefix length: number too large to fit in target type"),
        ("10.0.0.0/33", f"invalid prefix: {TOO_LONG}"),
        ("10.0.0.1/33", f"invalid prefix: {TOO_LONG}"),
        ("::/129", f"invalid prefix: {TOO_LONG}"),
    ):
        q.call([refusal, refusal], "prefix", "read", text)
    pairs_of_prefixes(q)


def place(text):
    """By family, last address, and longer before shorter."""
    network = ipaddress.ip_network(text)
    return network.version, int(network.broadcast_address), -network.prefixlen


def pairs_of_prefixes(q):
    texts = "10.0.0.0/12 10.128.0.0/32 10.128.0.0/12 10.192.0.0/12 10.128.0.0/9 10.0.0.0/8 0.0.0.0/0 2001:db8::/33".split()
    texts += "2001:db8:c000::/64 2001:db8:8000::/33 2001:db8::/32 ::/0 ::a00:0/104 10.255.255.255/32".split()
    for one in texts:
        for other in texts:
            a, b = ipaddress.ip_network(one), ipaddress.ip_network(other)
            covers = a.version == b.version and b.subnet_of(a)
            q.call([order(place(one), place(other)), True, a == b, covers, a == b], "prefix", "pair", one, other)


def with_max(text, length):
    network = ipaddress.ip_network(text)
    shown = text_of(network.version, int(network.network_address))
    prefix = f"{shown}/{network.prefixlen}"
    whole = prefix if length is None else f"{prefix}-{length}"
    return [whole, prefix, shown, network.prefixlen, length, network.prefixlen if length is None else length]


def greatest_lengths(q):
    above, below = "maximum length exceeds the address", "maximum length is below the prefix length"
    for text in ("10.0.0.0/8", "192.0.2.1/32", "0.0.0.0/0", "2001:db8::/32", "::/0", "::1/128"):
        network = ipaddress.ip_network(text)
        least, most = network.prefixlen, network.max_prefixlen
        for length in (None, 0, 7, 8, 24, 31, 32, 33, 48, 127, 128, 129, 255):
            nearest = length if length is None else min(max(length, least), most)
            refusal = above if length is not None and length > most else below if length is not None and length < least else None
            new = [refusal] * 3 if refusal else with_max(text, length)
            q.call(new + with_max(text, nearest) + with_max(text, None), "max", "made", text, word(length))
            if length is not None and not refusal:
                q.call(with_max(text, length), "max", "read", f"{text}-{length}")
        q.call(with_max(text, None), "max", "read", text)
    digit = "invalid maximum length: invalid digit found in string"
    for text, refusal in (
        ("", "empty text"),
        ("-8", "empty text"),
        ("10.0.0.0-24", "missing prefix length"),
        ("x", "missing prefix length"),
        ("x/8", "invalid address: invalid IP address syntax"),
        ("10.0.0.0/x", "invalid prefix length: invalid digit found in string"),
        ("10.0.0.0/33", f"invalid prefix: {TOO_LONG}"),
        ("10.0.0.1/8-24", f"invalid prefix: {HOST}"),
        ("10.0.0.1/8-x", f"invalid prefix: {HOST}"),
        ("10.0.0.0/8-", "invalid maximum length: cannot parse integer from empty string"),
        ("10.0.0.0/8-x", digit),
        ("10.0.0.0/8-24-24", digit),
        ("10.0.0.0/8-256", "invalid maximum length: number too large to fit in target type"),
        ("10.0.0.0/8-33", f"invalid maximum length: {above}"),
        ("2001:db8::/32-129", f"invalid maximum length: {above}"),
        ("10.0.0.0/8-7", f"invalid maximum length: {below}"),
    ):
        q.call(refusal, "max", "read", text)
    ordered = "10.0.0.0/9 10.128.0.0/9-9 10.128.0.0/9-32 10.0.0.0/8 10.0.0.0/8-8 10.0.0.0/8-24 2001:db8::/32".split()
    for i, one in enumerate(ordered):
        for j, other in enumerate(ordered):
            q.call([order(i, j), True, i == j, i == j], "max", "pair", one, other)


# AS numbers.


def asn_facts(number):
    return [asn(number), number, number, *number.to_bytes(4, "big"), asn(number), asn(number)]


def are_new(there, others):
    """Whether each number is new, as it is added after those before it."""
    return [number not in there | set(others[:i]) for i, number in enumerate(others)]


def asns(q):
    numbers = [0, 1, 255, 256, 64496, 0x01020304, 2**31, LAST - 1, LAST] + [rng.randrange(2**32) for _ in range(20)]
    for number in numbers:
        q.call(asn_facts(number), "asn", "read", spelled_asn(number))
    q.call(asn_facts(0) + asn_facts(LAST), "asn", "ends")
    for text in ("", "A", "AS", "S1", "AS 1", " AS1", "AS1 ", "ASAS1", "AS-1", "AS4294967296", "AS1.5", "é1"):
        q.call("invalid AS number", "asn", "read", text)
    for one in numbers[:9]:
        for other in numbers[:9]:
            total = [asn(one + other)] if one + other <= LAST else []
            q.call([order(one, other), one == other, one == other] + total, "asn", "pair", asn(one), asn(other))
    sets = [[5, 1, LAST, 3, 1, 5], [3, 4, 0, 5], [], [2, 1], [LAST, 0], [7]]
    sets += [[rng.randrange(12) for _ in range(rng.randrange(9))] for _ in range(20)]
    for one in sets:
        for other in [rng.choice(sets) for _ in range(4)] + [one, []]:
            a, b = set(one), set(other)
            texts = [",".join(map(asn, one)), ",".join(map(asn, other))]
            q.call([part for some in (a | b, a & b, a - b, a ^ b) for part in [*map(asn, sorted(some)), ";"]], "asn", "sets", *texts)
            each = [*map(asn, sorted(a)), ";"]
            q.call([len(a), not a, *each, *each, *(number in a for number in sorted(b))], "asn", "members", *texts)
            q.call([len(a), *each, *are_new(a, other), *map(asn, sorted(a | b)), ";"], "asn", "added", *texts)
    q.call([0, True, False, "AS0", "AS7", asn(LAST), ";"], "asn", "sorted")


# Blocks of AS numbers.


def as_blocks(q):
    runs = some_runs(LAST)
    maybe = lambda number: None if number is None else asn(number)
    for run in runs:
        first, last = run
        each = [asn(n) for n in range(first, min(last, first + 3) + 1)]
        whole = [as_text(run), asn(first), asn(last), last - first + 1, run == (0, LAST)]
        beside = [maybe(n) for n in neighbours(run, LAST)]
        q.call(whole + each + each[:2] + beside, "as", "block", spelled_as(run))
        ranged = [f"AS{first}-AS{last}", asn(first), asn(last), last - first + 1]
        q.call(ranged + [as_text(run), asn(first), as_text(run), f"AS{first}-AS{last}"] + beside, "as", "range", asn(first), asn(last))
        for other in rng.sample(runs, 7) + [run]:
            low = (other[0], last) if other[0] <= last else run
            high = (first, other[1]) if first <= other[1] else run
            both = total(run, other)
            answer = [run == other, overlaps(run, other), is_in(run, other), run == other, is_in((other[0],) * 2, run)]
            q.call(answer + [both and as_text(both), as_text(low), as_text(high)], "as", "pair", as_text(run), as_text(other))
            joined = maximal([run, other])
            texts = [as_text(it) for it in joined]
            in_it = any(a <= LAST <= b for a, b in joined)
            q.call([", ".join(texts), True, True, True, True, in_it, *texts], "as", "set", as_text(run), as_text(other))
    q.call("no range", "as", "range", "AS2", "AS1")
    whole = f"AS0-AS{LAST}"
    q.call([whole, 2**32, False, whole, True, whole, 2**32, True, True, True], "as", "ends")
    for one, other in [(some_set(4), some_set(4)) for _ in range(30)] + [([], []), ([(0, LAST)], [(0, 0), (LAST, LAST)])]:
        text = ", ".join(map(as_text, intersection(maximal(one), maximal(other))))
        q.call(["=", text], "as", "common", listed(one), listed(other))


def chains(q):
    # The chains of the worked case `codec-values`.
    five = listed([(7, 9), (3, 4), (5, 6), (20, 22), (0, 1)])
    q.call(printed([(0, 1), (3, 9), (20, 22)]) + [True] * 4 + [False] * 4 + [True], "chain", "made", five)
    worked = ([(10, 15), (20, 25)], [(12, 15), (22, 23), (50, 70)])
    assert intersection(*worked) == [(12, 15), (22, 23)]
    rows = [worked, ([], []), ([(0, LAST)], [(0, 0), (LAST, LAST)])]
    rows += [([(0, 5), (LAST - 1, LAST)], [(5, 7), (LAST, LAST)]), ([(1, 2), (4, 5)], [(0, 9)])]
    rows += [(some_set(5), some_set(5)) for _ in range(60)]
    for one, other in rows:
        a, b = maximal(one), maximal(other)
        q.call(printed(a) + [True] * 4 + [a == []] * 4 + [True], "chain", "made", listed(one))
        kept = printed(intersection(a, b)) if difference(a, b) else ["nothing trimmed;"]
        ends = [any(f <= n <= l for f, l in a) for run in b for n in run]
        sets = printed(intersection(a, b)) + printed(difference(a, b)) + printed(union(a, b)) + kept
        q.call(sets + [difference(a, b) == [], a == [], a == b] + ends, "chain", "sets", listed(one), listed(other))
        claims(q, a, b, listed(one), listed(other))
    q.call([f"AS0-AS{LAST}", ";", ";"], "chain", "unchecked")
    paths(q)
    q.call([True, True, True, "inherited resources", "inherit", "inherit"], "chain", "choice", "inherit")
    q.call(["false false true ;", "", ""], "chain", "choice", "missing")
    q.call(["false true true", *printed([(7, 7), (9, 11)]), 2, 2], "chain", "choice", "AS9-AS10,AS7,AS11")
    q.call(["false true true", ";", 0, 0], "chain", "choice", "")
    q.call([True], "chain", "lent")
    inherited = "inherited resources; inherited AS resources; inherited IP resources;"
    q.call(f"{inherited} out of memory; out of memory; out of memory; overclaimed resources; out of memory", "chain", "texts")


def claims(q, issuer, claim, *texts):
    held, outside = intersection(claim, issuer), difference(claim, issuer)
    refused = ["outside", *printed(outside)] if outside else None
    q.call((refused or printed(held)) + printed(held) + (refused or ["covered"]), "chain", "claim", *texts)
    q.call(printed(issuer) * 2 + ["covered"], "chain", "claim", texts[0], "inherit")
    q.call([";", ";", "covered"], "chain", "claim", texts[0], "missing")


def paths(q):
    # 10.0.0.0/8 along (10.0.0.0/9 and 11.0.0.0/8, Trim), (inherit, Refuse) is 10.0.0.0/9, as numbers.
    ten, low, eleven = (10 << 24, (11 << 24) - 1), (10 << 24, (10 << 24) + 2**23 - 1), (11 << 24, (12 << 24) - 1)
    q.call(printed([low]), "chain", "path", as_text(ten), "trim", listed([eleven, low]), "refuse", "inherit")
    q.call(printed([ten]), "chain", "path", as_text(ten))
    # The second certificate is the first that overclaims; the third would too.
    q.call(["outside", *printed([(6, 7)])], "chain", "path", "AS1-AS9", "refuse", "AS2-AS5", "refuse", "AS4-AS7", "refuse", "AS20")
    for _ in range(60):
        root = maximal(some_set(4)) or [(0, 9)]
        held, words, answer = root, [], None
        for _ in range(rng.randrange(1, 5)):
            policy, kind = rng.choice(["trim", "refuse"]), rng.choice(["inherit", "missing", "listed", "listed", "listed", "listed"])
            runs = [(f + rng.randrange(2), l) for f, l in held if f < l] + rng.choice([[], [], some_set(1)])
            words += [policy, listed(runs) if kind == "listed" else kind]
            if kind == "inherit":
                continue
            runs = maximal(runs) if kind == "listed" else []
            if answer is None and policy == "refuse" and difference(runs, held):
                answer = ["outside", *printed(difference(runs, held))]
            held = intersection(runs, held)
        q.call(answer or printed(held), "chain", "path", listed(root), *words)


# Addresses as numbers of 128 bits.


def addr_facts(value):
    v4, v6 = both_texts(value)
    return [value, value, v4, v6, v4, v6, v4, v6, *value.to_bytes(16, "big")]


def prefix_facts(first, length, last):
    v4, v6 = both_texts(first)
    return [first, length, first, last, f"{v4}/{length}", f"{v6}/{length}"]


def addresses(q):
    for text in some_addresses(15):
        version, number = parsed(text)
        value = as_bits(version, number)
        q.call(addr_facts(value) + [True] * 4, "addr", "made", text)
        for length in (0, 1, 31, 32, 33, 64, 127, 128, 200, 255, rng.randrange(129)):
            host = (1 << max(0, 128 - length)) - 1
            q.call([value & ~host, value | host], "addr", "cut", text, str(length))
            around = prefix_facts(value & ~host, length, value | host) if length <= 128 else []
            q.call(around, "addr", "around", text, str(length))
        is_v4 = version == 4
        own = "none" if is_v4 else value
        q.call([value if is_v4 else "none", own, value, 4 if ":" not in text else 6, 32 if ":" not in text else 128], "addr", "read", text)
        for other in rng.sample(ADDRESSES, 3) + [text]:
            b = as_bits(*parsed(other))
            q.call([order(value, b), value == b, value == b], "addr", "pair", text, other)
    for text in ("", "x", "1.2.3", "1.2.3.4.5", "01.2.3.4", "1.2.3.256", " 1.2.3.4", "10.0.0.0/8"):
        q.call("none none none 4 32", "addr", "read", text)
    for text in (":", ":::", "1::2::3", "12345::", "::g", "1:2:3:4:5:6:7:8:9", "::1/64", "::1.2.3"):
        q.call("none none none 6 128", "addr", "read", text)
    prefix_texts(q)


def prefix_texts(q):
    missing, address, length = "missing separator", "invalid address", "invalid prefix length"
    for text in ("192.0.2.255/24", "10.0.0.0/0", "10.1.2.3/32", "255.255.255.255/1", "0.0.0.0/08", "10.0.0.0/+8"):
        network = ipaddress.ip_network(text.replace("/08", "/8").replace("/+", "/"), strict=False)
        start, last = as_bits(4, int(network.network_address)), as_bits(4, int(network.broadcast_address)) + 2**96 - 1
        q.call([*prefix_facts(start, network.prefixlen, last), address], "addr", "prefix", text)
    for text in ("2001:db8::1/32", "::/0", "::1/128", "::ffff:192.0.2.9/120", "8000::/1", "2001:db8::/+32"):
        network = ipaddress.ip_network(text.replace("/+", "/"), strict=False)
        start, last = int(network.network_address), int(network.broadcast_address)
        q.call([address, *prefix_facts(start, network.prefixlen, last)], "addr", "prefix", text)
    for text, v4, v6 in (
        ("10.0.0.0", missing, missing),
        ("", missing, missing),
        ("10.0.0/8", address, address),
        ("10.0.0.0/33", length, address),
        ("10.0.0.0/", length, address),
        ("10.0.0.0/8/9", length, address),
        ("10.0.0.0/256", length, address),
        ("2001:db8::/129", address, length),
        ("2001:db8::/", address, length),
        ("/8", address, address),
    ):
        q.call([v4, v6], "addr", "prefix", text)


# Ranges and blocks of addresses.


def blocks(q):
    texts = some_blocks(30)
    for text in texts:
        version, first, last = read_block(text)
        shown = block_texts(first, last)
        whole = first % 2**96 == 0 and (last + 1) % 2**96 == 0
        slash_zero = (first, last) == (0, V6_LAST)
        beside = neighbours((first, last), V6_LAST)
        q.call([first, last, True, True, *shown, *shown, slash_zero, whole, *beside], "block", "tell", text)
        wrong = "invalid address"
        answer = [first, last, wrong, first, last] if version == 4 else [wrong, first, last, first, last]
        q.call(answer, "block", "read", text)
        if "-" in text:
            q.call(answer, "range", "read", text)
            covers(q, text, first, last)
        length = length_of(first, last)
        v4, v6 = [f"{a}-{b}" for a, b in zip(both_texts(first), both_texts(last))]
        made = [first, last, v4, v6, *([length, True] if length is not None else [True]), *beside]
        low, high = text_of(6, first), text_of(6, last)
        q.call(made + [first == last, slash_zero, True, True, True, True], "range", "between", low, high)
        for other in rng.sample(texts, 5) + [text]:
            pair(q, text, other, (first, last), read_block(other)[1:])
    q.call("no range", "range", "between", "::2", "::1")
    refused_blocks(q)


def pair(q, text, other, one, two):
    both = total(one, two)
    answer = [one == two, overlaps(one, two), is_in(one, two), one == two, is_in((two[0],) * 2, one)]
    q.call(answer + (list(both) if both else [None]), "block", "pair", text, other)
    low = (two[0], one[1]) if two[0] <= one[1] else one
    high = (one[0], two[1]) if one[0] <= two[1] else one
    if "-" in text and "-" in other:
        q.call([*low, *high], "range", "set", text, other)


def covers(q, text, first, last):
    shown = lambda prefix: f"{text_of(prefix.version, int(prefix.network_address))}/{prefix.prefixlen}"
    v4 = map(shown, ipaddress.summarize_address_range(ipaddress.IPv4Address(first >> 96), ipaddress.IPv4Address(last >> 96)))
    v6 = map(shown, ipaddress.summarize_address_range(ipaddress.IPv6Address(first), ipaddress.IPv6Address(last)))
    q.call([*v4, ";", *itertools.islice(v6, 3)], "range", "covers", text)


def refused_blocks(q):
    missing, address, length = "missing separator", "invalid address", "invalid prefix length"
    mixed, order_ = "addresses of different families", "invalid range"
    for text, refusal in (
        ("10.0.0.0", missing),
        ("", missing),
        ("2001:db8::", missing),
        ("10.0.0/8", address),
        ("10.0.0.0-", address),
        ("-10.0.0.0", address),
        ("10.0.0.0-10.0.0.9-10.0.0.19", address),
        ("10.0.0.0 - 10.0.0.9", address),
        ("10.0.0.0/33", length),
        ("10.0.0.0/", length),
        ("10.0.0.0/8/9", length),
        ("10.0.0.9-10.0.0.0", order_),
    ):
        v6 = missing if refusal == missing else address
        q.call([refusal, v6, refusal], "block", "read", text)
    wrong = (("2001:db8:/32", address), ("2001:db8::/129", length), ("2001:db8::/", length), ("2001:db8::9-2001:db8::1", order_))
    for text, refusal in wrong:
        q.call([address, refusal, refusal], "block", "read", text)
    _, first, last = read_block("10.0.0.0/+8")
    q.call([first, last, address, first, last], "block", "read", "10.0.0.0/+8")
    for text in ("10.0.0.0-2001:db8::", "2001:db8::-10.0.0.0"):
        q.call([address, address, mixed], "block", "read", text)
        q.call([address, address, mixed], "range", "read", text)
    q.call([missing, missing, missing], "range", "read", "10.0.0.0/8")
    texts = (address, length, missing, mixed, "invalid list of blocks", order_, "out of memory")
    q.call([f"{text};" for text in texts], "block", "texts")


def families(q):
    whole = ["0.0.0.0/0", 0, V6_LAST, True, "0.0.0.0/0", "::/0", 0, V6_LAST, True, "::/0"]
    q.call(whole + ["0.0.0.0/0", "::/0", True, True], "family", "ends")
    for text in some_blocks(20):
        version, first, last = read_block(text)
        shown = block_texts(first, last)[0 if version == 4 else 1]
        own = f"v{version}"
        q.call([shown, first, last, (first, last) == (0, V6_LAST), shown], "family", f"{own}-block", text)
        q.call("invalid address", "family", "v6-block" if version == 4 else "v4-block", text)
    for own, text, one, other in (
        ("v4", "10.0.0.0/9,10.128.0.0/9", "10.128.0.0/9", "10.0.0.0/9"),
        ("v4", "10.0.0.17/32, 10.0.0.38-10.0.0.49, 10.0.0.46-10.0.0.49", "10.0.0.38-10.0.0.49", "10.0.0.17/32"),
        ("v4", "0.0.0.0/1,128.0.0.0/1", "0.0.0.0/0", "10.0.0.0/8"),
        ("v4", "", "0.0.0.0/0", "10.0.0.0/8"),
        ("v6", "2001:db8::/33, 2001:db8:8000::/33", "2001:db8:8000::/33", "2001:db8::/33"),
        ("v6", "2001:db8::32-2001:db8::40,2001:db8::11/128", "2001:db8::11/128", "2001:db8::32-2001:db8::40"),
        ("v6", "::/1,8000::/1", "::/0", "::1/128"),
        ("v6", "", "::/0", "::1/128"),
    ):
        at = 0 if own == "v4" else 1
        shown = lambda runs: ", ".join(block_texts(*run)[at] for run in runs)
        listed_ = maximal([read_block(piece.strip())[1:] for piece in text.split(",") if piece])
        joined = maximal([read_block(piece)[1:] for piece in (one, other)])
        is_like = [listed_ == joined, listed_ == [], listed_ == [(0, V6_LAST)]]
        q.call([f"[{shown(listed_)}]", shown(joined), *is_like, True, True, True], "family", f"{own}-sets", text, one, other)
    for own, text in (("v4", "2001:db8::/32"), ("v6", "10.0.0.0/8")):
        q.call("addresses of different families", "family", f"{own}-sets", text, "10.0.0.0/8", "10.0.0.0/8")


# Orders of lists, places, and what sets have.


def by_start(text):
    network = ipaddress.ip_network(text)
    return network.version, int(network.network_address), network.prefixlen


def wide_run(text):
    return read_block(text)[1:]


PREFIXES = (
    "0.0.0.0/0 0.0.0.0/32 10.0.0.0/8 10.0.0.0/9 10.128.0.0/9 10.0.0.0/32 255.255.255.255/32 ::/0 ::/128 ::a00:0/104 "
    "2001:db8::/32 2001:db8::/33 2001:db8:8000::/33 ::ffff:10.0.0.0/104 ffff:ffff:ffff:ffff:ffff:ffff:ffff:ffff/128"
).split()


def orders(q):
    for one in PREFIXES:
        for other in PREFIXES:
            q.call(order(by_start(one), by_start(other)), "list", "starts", one, other)
    origins = [(p, n, a) for p in PREFIXES[1::3] for n in (8, 24) for a in (0, 7, LAST)]
    for one in origins:
        for other in rng.sample(origins, 4) + [one]:
            words = [str(n) if isinstance(n, int) and i == 1 else asn(n) if i == 2 else n for it in (one, other) for i, n in enumerate(it)]
            key = lambda it: (by_start(it[0]), it[1], it[2])
            q.call(order(key(one), key(other)), "list", "origins", *words)


def looked_up(q):
    orders(q)
    sets_ = [[], [(0, LAST)], [(0, 0), (LAST, LAST)], [(0, 5), (LAST - 1, LAST)]] + [some_set(9, 60) for _ in range(35)]
    for one in sets_:
        runs = maximal(one)
        for block in [(0, 0), (LAST, LAST), (0, LAST)] + [tuple(sorted(rng.randrange(60) for _ in range(2))) for _ in range(4)] + runs[:2]:
            place_ = next((i for i, (f, l) in enumerate(runs) if f <= block[0] <= l), None)
            q.call([place_, True, any(is_in(block, run) for run in runs)], "list", "chain", listed(one), spelled_as(block))
    for text in PREFIXES:
        version, first, last = read_block(text)
        length = length_of(first, last)
        v4, v6 = both_texts(first)
        q.call([first, length, f"{v4}/{length}" if length <= 32 else None, f"{v6}/{length}"], "list", "widened", text)
    sets_ = ("", "0.0.0.0/0", "::/0", "10.0.0.0/8", "10.0.0.0/9, 10.128.0.0/9", "10.0.0.1-10.255.255.255", "2001:db8::/32, ::/128")
    for set_ in (*sets_, "::ffff:10.0.0.0/103"):
        runs = maximal([read_block(piece.strip())[1:] for piece in set_.split(",") if piece])
        for text in PREFIXES:
            is_had = any(is_in(wide_run(text), run) for run in runs)
            q.call([is_had] * 3, "list", "within", set_, text)
    thousand(q)
    halved(q)


def thousand(q):
    """The chain of the worked case `probes`: 0, 2, .., 1998. Each number is found by 10 looks at most, or missed."""
    chain = listed([(2 * i, 2 * i) for i in range(1000)])
    for number in (0, 1, 2, 998, 999, 1000, 1001, 1996, 1997, 1998, 1999, LAST):
        is_even = number < 2000 and number % 2 == 0
        q.call([number // 2 if is_even else None, True, is_even], "list", "chain", chain, asn(number))


def halved(q):
    """Rows of 2^n - 1 multiples of three. The first look is at the one in the middle, with 2^(n - 1) - 1 on each side; so the one in
    place k takes as many looks fewer than n as k + 1 is divisible by 2, and any other number takes n."""
    for digits in (0, 1, 2, 3, 4, 16, 32):
        size = 2**digits - 1
        places = set(range(min(size, 15))) | {place for place in (size // 2, size - 2, size - 1) if 0 <= place < size}
        for place in sorted(places):
            q.call([place, digits - ((place + 1) & -(place + 1)).bit_length() + 1], "list", "row", str(size), str(3 * place))
            q.call([None, digits], "list", "row", str(size), str(3 * place + 1 + place % 2))
        for number in (3 * size, 2**64 - 1):
            q.call([None, digits], "list", "row", str(size), str(number))


def ask(q):
    """Asks about each topic of single calls."""
    for part in (prefixes, greatest_lengths, asns, as_blocks, chains, addresses, blocks, families, looked_up):
        part(q)
