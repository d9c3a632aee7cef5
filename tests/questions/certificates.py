#!/usr/bin/env python3
"""Questions about certificates, their parts and revocation lists: tests/questions/certificates.py PROGRAM

Here stand those about URIs, keys and extensions that name URIs; the topics of the imports below have the others. The answers
come from the rules as these scripts have them in their own words, and from examples. Revocation lists are read by the grammar in
Python's words, over the reader of X.690 in certificates_x690.py, and put together octet by octet; the worked cases have their
answers by hand.
"""

import hashlib
import itertools
import pathlib
import random
import re
import sys

sys.dont_write_bytecode = True
sys.path.insert(0, str(pathlib.Path(__file__).resolve().parents[1] / "lib"))

import asking  # noqa: E402
from certificates_entries import entries  # noqa: E402
from certificates_lists import lists  # noqa: E402
from certificates_made import made  # noqa: E402
from certificates_names import names, serials  # noqa: E402
from certificates_roles import roles  # noqa: E402
from certificates_signed import signed  # noqa: E402
from certificates_times import moments, validities  # noqa: E402
from certificates_x690 import MODES, Refused, bits_of, content_of, need, parts_of, value  # noqa: E402
from rpki_repositories import NULL, bits, seq, tlv  # noqa: E402

rng = random.Random(5781)


# URIs. A text is octets; a host is any octets 21 to 7E but a slash, at least one.

URIS = {
    "rsync": re.compile(rb"(?i:rsync)://([!-.0-~]+)/([!-.0-~]+)(/[!-~]*)?"),
    "https": re.compile(rb"(?i:https)://([!-.0-~]+)(/[!-~]*)?"),
}


def is_uri(scheme, text):
    return URIS[scheme].fullmatch(text) is not None


def key(text):
    scheme, _, rest = text.partition(b"://")
    host, slash, path = rest.partition(b"/")
    return scheme.lower() + b"://" + host.lower() + slash + path


def join(text, name):
    return (text if text.endswith(b"/") else text + b"/") + name


def parent(text):
    """None where the module has no path behind it."""
    segments = text.split(b"/")  # "rsync:", "", host, module, and the path's
    if len(segments) < 5 or segments[4:] == [b""]:
        return None
    if segments[-1] == b"":
        segments = segments[:-1]
    return b"/".join(segments[:-1]) + b"/"


def less(text):
    return text.removesuffix(b"/")


def general_name(mode, text):
    """[6] IMPLICIT IA5String (X.690 8.14, 8.23, 9.2)."""
    if mode != "cer" or len(text) <= 1000:
        return tlv(0x86, text)
    pieces = [text[at : at + 1000] for at in range(0, len(text), 1000)]
    return b"\xa6\x80" + b"".join(tlv(0x04, piece) for piece in pieces) + b"\x00\x00"


def word(text):
    plain = all(0x20 <= octet < 0x7F for octet in text) and not text.startswith(b"hex:")
    return text.decode() if plain and text else "hex:" + text.hex()


GOOD = {
    "rsync": [
        b"rsync://h/m", b"rsync://h/m/", b"rsync://h/m//", b"rsync://h/m/p", b"rsync://h/m/p/", b"rsync://h/m/p//",
        b"rsync://h/m/p/q", b"rsync://h/m//p", b"rsync://h/m///", b"rsync://h/m/p//q/", b"rsync://h/m/./p", b"rsync://h/m/../p",
        b"RSYNC://h/m/p", b"rSyNc://h/m/p", b"rsync://H.Example:873/Mod/Path", b"rsync://h/M/p", b"rsync://user@h/m/p",
        b"rsync://[::1]/m/p", b"rsync://h/m/a%20b", b"rsync://h/m/?q#f", b"rsync://?/#", b"rsync://%/%", b"rsync://~/!",
        b"rsync://h/m/" + b"p/" * 40, b"rsync://" + b"h" * 300 + b"/m/x.cer",
        b"rsync://repository.example/repo/CA-1/ca.mft", b"rsync://h/m/rsync://H/M",
    ],
    "https": [
        b"https://h", b"https://h/", b"https://h//", b"https://h/p", b"https://h/p/", b"HTTPS://h/p", b"hTTps://H.Example:443/P",
        b"https://u:p@h/p", b"https://[::1]", b"https://h?q", b"https://h#f", b"https://h/p?q=/x", b"https://~", b"https://h/" + b"x" * 400,
        b"https://rrdp.example/notification.xml", b"https://https://h",
    ],
}

BAD = [
    b"", b"r", b"rsync", b"rsync:", b"rsync:/", b"rsync:/h/m", b"rsync://", b"rsync:///", b"rsync:///m", b"rsync:////", b"rsync://h",
    b"rsync://h/", b"rsync://h//", b"rsync://h//p", b"rsync://h//m/p", b"rsync:// h/m", b"rsync://h/ m", b"rsync://h/m/ ", b"rsync://h/m/a b",
    b"rsync://h/m\n", b"rsync://h/m/\r", b"rsync://h/m/p\0", b"\0rsync://h/m", b"rsync://h/m/\x7f", b"rsync://h/m/\x80", b"rsync://h\xff/m",
    b"rsync://h/m\t", b" rsync://h/m", b"rsyncs://h/m", b"rsyn://h/m", b"rsync:/\\h/m", b"rsync:\\\\h\\m", b"xrsync://h/m", b"rsync//h/m",
    b"rsync;//h/m", b"rsynd://h/m", b"qsync://h/m", b"r\x73ync:/ /h/m", b"\x12sync://h/m", b"rsync://\xc3\xa9/m", b"http://h/p", b"https:/h",
    b"https:", b"https:/", b"https://", b"https:///", b"https:///p", b"https:// ", b"https://h ", b"https://h\x7f", b"https://h/\x80", b"httpsx//h",
    b"HTTP://h", b"ftp://h/m", b"https:\\\\h", b"\xe8ttps://h", b"https://\n", b"://h/m", b"//h/m", b"/h/m", b"h/m",
    b"rsync://rsync://h/m", b"https:////h",
]


def uris(q):
    texts = [*GOOD["rsync"], *GOOD["https"], *BAD]
    for _ in range(150):
        scheme = rng.choice([b"rsync", b"https", b"RSync", b"HTTPS", b"rsyncx", b"http"])
        texts.append(scheme + b"://" + bytes(rng.choice(b"/////ab.HM~!") for _ in range(rng.randrange(12))))
    for scheme, text in itertools.product(URIS, texts):
        assert not (text in GOOD[scheme] and not is_uri(scheme, text)) and not (text in BAD and is_uri(scheme, text))
        good = is_uri(scheme, text)
        printed = text.decode("latin-1")
        q.ask(f"{printed} {printed} {text.hex()} true" if good else "refused: bad URI", "uri", scheme, "read", word(text))
        q.ask(key(text).decode() if good else "refused: bad URI", "uri", scheme, "key", word(text))
    for octet in range(256):
        for scheme, text in (("rsync", b"rsync://h/m/%c"), ("rsync", b"rsync://%ch/m"), ("https", b"https://h%c")):
            text = text % octet
            printed = text.decode("latin-1")
            good = is_uri(scheme, text)
            q.ask(f"{printed} {printed} {text.hex()} true" if good else "refused: bad URI", "uri", scheme, "read", word(text))
    rsync = [text for text in texts if is_uri("rsync", text)]
    https = [text for text in texts if is_uri("https", text)]
    for text in rsync:
        folder = parent(text)
        q.ask("none" if folder is None else folder.decode(), "uri", "rsync", "parent", word(text))
    names = [b"a.roa", b"", b"/", b"/a", b"a/", b"a/b", b"..", b"%00", b"~", b"!", b" ", b"a b", b"a\n", b"\x7f", b"\x80", b"a\xff", b"\0"]
    for text, name in itertools.product(rsync[:24], names):
        good = all(0x21 <= octet <= 0x7E for octet in name)
        q.ask(join(text, name).decode() if good else "refused: bad URI", "uri", "rsync", "join", word(text), word(name))
    sames(q, rsync)
    general_names(q, rsync, https)
    orders(q, rsync, https)


def sames(q, rsync):
    pairs = list(itertools.product(rsync[:20], repeat=2))
    for text in rsync:
        pairs += [(text, text + b"/"), (text + b"/", text), (text, key(text)), (key(text), less(text)) if is_uri("rsync", less(text)) else (text, text)]
        pairs += [(text, text.swapcase()), (text, text + b"//"), (text.upper(), text)]
    for one, other in pairs:
        same = less(key(one)) == less(key(other))
        q.ask("true" if same else "false", "uri", "rsync", "same", word(one), word(other))
    # The rules' own example: the folder of a manifest is the repository, with a slash or without one.
    q.ask("true", "uri", "rsync", "same", "rsync://h/m/p", "RSYNC://H/m/p/")
    q.ask("false", "uri", "rsync", "same", "rsync://h/m/p", "rsync://h/M/p")
    q.ask("false", "uri", "rsync", "same", "rsync://h/m/p", "rsync://h/m/p//")


def general_names(q, rsync, https):
    long = [b"rsync://h/m/" + b"x" * (size - 12) for size in (127, 128, 255, 256, 999, 1000, 1001, 2000, 2001)]
    for text in [*rsync[:12], *long]:
        for mode in MODES:
            q.ask(general_name(mode, text).hex(), "uri", "rsync", "name", mode, word(text))
    for text in [*https[:6], b"https://h/" + b"y" * 1500]:
        for mode in MODES:
            q.ask(general_name(mode, text).hex(), "uri", "https", "name", mode, word(text))
    # RFC 5280 4.2.1.6: tag [6], primitive.
    q.ask("860b7273796e633a2f2f682f6d", "uri", "rsync", "name", "der", "rsync://h/m")


def orders(q, rsync, https):
    for scheme, some in (("rsync", rsync[:16]), ("https", https[:12])):
        for one, other in itertools.product(some, repeat=2):
            order = "Equal" if one == other else "Less" if one < other else "Greater"
            q.ask(f"{order} {'true' if one == other else 'false'}", "uri", scheme, "order", word(one), word(other))


# Keys (RFC 5280 4.1.2.7, RFC 7935 3, RFC 8608 3.1).

RSA = bytes.fromhex("2a864886f70d010101")
EC = bytes.fromhex("2a8648ce3d0201")
CURVE = bytes.fromhex("2a8648ce3d030107")


def format_of(item):
    parts = parts_of(item, 16)
    need(parts)
    kind, behind = content_of(parts[0], 6), [(part.tag, part.content) for part in parts[1:]]
    if kind == RSA and behind in ([], [((0, 5), b"")]):
        return "Rsa"
    need(kind == EC and behind == [((0, 6), CURVE)])
    return "Ecdsa"


def read_key(mode, text):
    """The format, the count of unused bits and the octets of the key in front."""
    parts = parts_of(value(text, mode)[0], 16)
    need(len(parts) == 2)
    kind, content = format_of(parts[0]), bits_of(parts[1], mode)
    return kind, content[0], content[1:]


def cleared(unused, octets):
    return octets[:-1] + bytes([octets[-1] >> unused << unused]) if octets else octets


def format_der(kind):
    return seq(tlv(0x06, RSA), NULL) if kind == "Rsa" else seq(tlv(0x06, EC), tlv(0x06, CURVE))


def key_der(kind, unused, octets):
    return seq(format_der(kind), bits(cleared(unused, octets), unused))


def key_shown(key):
    kind, unused, octets = key
    digest = hashlib.sha1(octets).hexdigest()
    allowed = "true false" if kind == "Rsa" else "false true"
    return f"{kind} {allowed} {octets.hex()} {key_der(*key).hex()} {digest}"


def key_name(key):
    """A commonName, 2.5.4.3, that is a PrintableString of the identifier's digits."""
    digits = hashlib.sha1(key[2]).hexdigest().encode()
    return tlv(0x30, tlv(0x31, tlv(0x30, tlv(0x06, b"\x55\x04\x03") + tlv(0x13, digits))))


def key_written(mode, key):
    kind, unused, octets = key
    if mode == "der":
        return key_der(*key).hex()
    padded = octets if mode == "ber" else cleared(unused, octets)
    if mode == "ber":
        return seq(format_der(kind), bits(padded, unused)).hex()
    if len(octets) >= 1000:
        return "refused: no form in CER"
    inside = format_der(kind)[2:]
    wrap = lambda content: b"\x30\x80" + content + b"\0\0"
    return wrap(wrap(inside) + bits(padded, unused)).hex()


def point():
    """A point of secp256r1 (SEC 2 2.4.2), uncompressed: its generator times a number."""
    p = 2**256 - 2**224 + 2**192 + 2**96 - 1
    g = (0x6B17D1F2E12C4247F8BCE6E563A440F277037D812DEB33A0F4A13945D898C296, 0x4FE342E2FE1A7F9B8EE7EB4A7C0F9E162BCE33576B315ECECBB6406837BF51F5)

    def add(a, b):
        if a is None or b is None:
            return a or b
        if a[0] == b[0] and (a[1] + b[1]) % p == 0:
            return None
        slope = (3 * a[0] ** 2 - 3) * pow(2 * a[1], -1, p) if a == b else (b[1] - a[1]) * pow(b[0] - a[0], -1, p)
        x = (slope**2 - a[0] - b[0]) % p
        return x, (slope * (a[0] - x) - a[1]) % p

    total, power, times = None, g, rng.getrandbits(255)
    while times:
        if times & 1:
            total = add(total, power)
        power, times = add(power, power), times >> 1
    return b"\x04" + total[0].to_bytes(32, "big") + total[1].to_bytes(32, "big")


def rsa_bits(size):
    """RSAPublicKey (RFC 8017 A.1.1) with a number of so many bits."""
    number = rng.getrandbits(size) | 1 << size - 1 | 1
    octets = number.to_bytes(size // 8 + 1, "big")
    return tlv(0x30, tlv(0x02, octets) + tlv(0x02, b"\x01\0\x01"))


def key_texts():
    null, curve = NULL, tlv(0x06, CURVE)
    small = bits(b"\x01\x02")
    rsa, ec = tlv(0x06, RSA), tlv(0x06, EC)
    alg = key = seq
    good = [
        key(alg(rsa, null), bits(rsa_bits(2048))), key(alg(rsa, null), bits(rsa_bits(1024))), key(alg(rsa), bits(rsa_bits(2048))),
        key(alg(ec, curve), bits(point())), key(alg(ec, curve), bits(point())),
        key(alg(rsa, null), small), key(alg(rsa), small), key(alg(ec, curve), small),
        key(alg(rsa, null), bits(b"")), key(alg(ec, curve), bits(b"")), key(alg(rsa), bits(b"\xfe", 1)), key(alg(ec, curve), bits(b"\x01\x80", 7)),
    ]
    # Lengths about each border of X.690 8.1.3, and of CER (9.2).
    for size in (101, 102, 103, 104, 106, 107, 108, 109, 126, 127, 231, 232, 233, 234, 236, 237, 238, 239, 254, 255, 998, 999, 1000):
        good.append(key(alg(rsa if size % 2 else ec, *(() if size % 2 else (curve,))), bits(bytes(size))))
    good.append(key(alg(rsa), bits(bytes(65535 - 19))))
    bad = [
        b"", b"\x30", b"\x30\x80", b"\0\0", key(), key(alg(rsa, null)), key(small), key(alg(rsa, null), small, b"\0\0"),
        key(alg(rsa, null), small, null), key(alg(rsa, null, null), small), key(alg(rsa, curve), small), key(alg(ec, null), small), key(alg(ec), small),
        key(alg(ec, curve, null), small), key(alg(ec, null, curve), small), key(alg(), small), key(alg(null), small), key(alg(null, rsa), small),
        key(alg(curve), small), key(alg(ec, tlv(0x06, CURVE[:-1] + b"\x06")), small), key(alg(ec, tlv(0x06, CURVE[:-1])), small), key(alg(ec, tlv(0x06, b"")), small),
        key(alg(tlv(0x06, RSA[:-1] + b"\x0b"), null), small), key(alg(tlv(0x06, RSA[:-1]), null), small), key(alg(tlv(0x06, RSA + b"\x01"), null), small),
        key(alg(tlv(0x06, b""), null), small), key(alg(tlv(0x06, RSA[:-1] + b"\x81"), null), small), key(alg(rsa, tlv(0x05, b"\0")), small),
        key(alg(rsa, null), tlv(0x03, b"")), key(alg(rsa, null), bits(b"", 1)), key(alg(rsa, null), bits(b"\0", 8)), key(alg(rsa, null), bits(b"\0", 255)),
        key(alg(rsa, null), tlv(0x23, small)), key(alg(rsa, null), tlv(0x04, b"\0\x01")), key(small, alg(rsa, null)), alg(rsa, null) + small,
    ]
    padding = [key(alg(rsa, null), bits(b"\x01", 1)), key(alg(ec, curve), bits(b"\xff\xff", 7)), key(alg(rsa), bits(b"\x80", 7))]
    wrap = lambda content: b"\x30\x80" + content + b"\0\0"
    loose = [
        wrap(wrap(rsa + null) + small), wrap(wrap(ec + curve) + small), wrap(wrap(rsa) + small), wrap(alg(rsa, null) + small), key(wrap(rsa + null), small),
        wrap(wrap(rsa + null) + small)[:-1], wrap(wrap(rsa + null) + small)[:-2], wrap(wrap(rsa + null) + small + null),
        b"\x30\x81" + key(alg(rsa, null), small)[1:], key(b"\x30\x81" + alg(rsa, null)[1:], small), key(alg(b"\x06\x81" + rsa[1:], null), small),
        key(alg(rsa, b"\x05\x81\0"), small), key(alg(rsa, null), b"\x03\x81\x03\0\x01\x02"), key(alg(rsa, null), b"\x03\x82\0\x03\0\x01\x02"),
        wrap(wrap(rsa) + bits(bytes(998))), wrap(wrap(rsa) + bits(bytes(999))), wrap(wrap(rsa) + bits(bytes(1000))), wrap(wrap(rsa) + bits(b"\x01", 1)),
    ]
    return good, bad, padding + loose


def keys(q):
    good, bad, others = key_texts()
    texts = [*good, *bad, *others, *(text + b"\0" for text in good[:6]), *(text + text for text in good[:6])]
    for text in (good[0], good[5], good[6], good[7], good[3]):
        for at in range(len(text)):
            if at < 40 or at > len(text) - 4:
                texts.append(text[:at])
    for text in (good[5], good[7]):
        for at in range(len(text)):
            for other in (0x00, 0x01, 0x03, 0x04, 0x05, 0x06, 0x30, 0x31, 0x80, 0xFF):
                texts.append(text[:at] + bytes([other]) + text[at + 1 :])
    for mode, text in itertools.product(MODES, texts):
        try:
            key = read_key(mode, text)
            answer = key_shown(key)
        except Refused:
            key, answer = None, "refused: content"
        assert not (mode == "der" and text in bad and key) and not (mode == "der" and text in good and not key)
        long = len(text) > 2000
        if not long or mode == "der":
            q.ask(answer, "key", "read", mode, text.hex())
        if mode == "der" and not long:
            q.ask(answer, "key", "decode", text.hex())
        if mode == "ber" and key and not long:
            for to in MODES:
                q.ask(key_written(to, key), "key", "write", to, text.hex())
            q.ask(answer, "key", "clone", text.hex())
            q.ask(key_name(key).hex(), "key", "name", text.hex())
    for one, other in itertools.product((*good[5:8], *bad[5:12]), repeat=2):
        # What is read behind a refusal is refused, and so is the whole.
        both = one in good and other in good
        q.ask("true true" if both else "refused: content", "key", "forgotten", "der", (one + other).hex())
    identifiers(q)


def identifiers(q):
    twenty = [bytes(range(20)), bytes(20), b"\xff" * 20, hashlib.sha1(b"").digest(), b"0123456789abcdefghij"]
    for octets in [*twenty, b"", b"\0", bytes(19), bytes(21), bytes(40)]:
        long = len(octets) == 20
        q.ask(octets.hex() if long else "refused: no identifier", "key", "identifier", "slice", octets.hex())
        for mode in MODES:
            q.ask(octets.hex() if long else "refused: content", "key", "identifier", "read", mode, tlv(0x04, octets).hex())
            q.ask(octets.hex() if long else "refused: content", "key", "identifier", "tagged", mode, tlv(0x80, octets).hex())
            for tag in (0x03, 0x05, 0x0C, 0x24, 0x30, 0x80, 0x84, 0xA0):
                q.ask("refused: content", "key", "identifier", "read", mode, tlv(tag, octets).hex())
            for tag in (0x04, 0x81, 0x40, 0xC0):
                q.ask("refused: content", "key", "identifier", "tagged", mode, tlv(tag, octets).hex())
        if long:
            for mode in MODES:
                q.ask(f"{tlv(0x04, octets).hex()} {tlv(0x80, octets).hex()}", "key", "identifier", "write", mode, tlv(0x04, octets).hex())
    # In segments, which BER has at will (X.690 8.7.3), and CER of more than 1000 octets alone (9.2).
    octets = twenty[0]
    for cut in (0, 1, 10, 20):
        pieces = tlv(0x04, octets[:cut]) + tlv(0x04, octets[cut:])
        for head, name in ((0x24, "read"), (0xA0, "tagged")):
            for text in (tlv(head, pieces), bytes([head, 0x80]) + pieces + b"\0\0", tlv(head, tlv(0x24, pieces))):
                for mode in MODES:
                    q.ask(octets.hex() if mode == "ber" else "refused: content", "key", "identifier", name, mode, text.hex())
    for at in range(22):
        for mode in MODES:
            q.ask("refused: content", "key", "identifier", "read", mode, tlv(0x04, octets)[:at].hex())
    for one, other in itertools.product(twenty, repeat=2):
        order = "Less" if one < other else "Greater" if one > other else "Equal"
        q.ask(f"{order} {str(one == other).lower()}", "key", "identifier", "order", tlv(0x04, one).hex(), tlv(0x04, other).hex())
# Extensions that name URIs (RFC 6487 4.8.6, 4.8.7), as octets.

CA_ISSUERS = bytes.fromhex("06082b06010505073002")


def crl_points(*names):
    return seq(seq(tlv(0xA0, tlv(0xA0, b"".join(names)))))


def issuers(*names):
    return seq(seq(CA_ISSUERS, *names))


def name(text):
    return tlv(0x86, text)


def accesses(q):
    """Each list of names, in both extensions: the one rsync URI among them, if there is one alone."""
    uri, other = b"rsync://h/m/x.crl", b"rsync://other.example/m/y"
    lists = [
        [uri], [other], [b"RSYNC://H/M/p"], [b"https://h/x", uri], [uri, b"https://h/x"], [b"", uri], [uri, b"rsync://h"], [b"x y", uri, b"rsync://"],
        [b"https://h/%d" % i for i in range(40)] + [uri], [uri, uri], [uri, other], [uri, b"https://h", other], [b"https://h/x"], [], [b"rsync://h"],
        [b"rsync:// h/m"], [uri + b"\x80"], [b"\xff", uri], [uri, b"\x80"], [b"rsync://h/m\x7f", uri], [b"rsync://h/" + b"m" * 300],
    ]
    made = {"crl": crl_points, "authority": issuers}
    for kind, texts in itertools.product(made, lists):
        ascii = all(octet < 0x80 for text in texts for octet in text)
        found = [text for text in texts if is_uri("rsync", text)]
        answer = found[0].decode() if ascii and len(found) == 1 else "refused: content"
        octets = made[kind](*map(name, texts))
        for mode in ("der", "ber"):
            q.ask(answer, "access", kind, mode, octets.hex())
        q.ask(answer, "access", kind, "der", (octets + b"\x00\xff").hex())  # octets behind the value aren't looked at
        q.ask("refused: content", "access", kind, "der", octets[:-1].hex())
    good = name(uri)
    segments = tlv(0xA6, tlv(0x04, uri[:5]) + tlv(0x04, uri[5:]))
    bad = {
        "crl": [
            b"", seq(), seq(seq()), seq(seq(tlv(0xA0, b""))), seq(seq(tlv(0xA0, tlv(0xA0, good))), seq(tlv(0xA0, tlv(0xA0, good)))),
            seq(seq(tlv(0xA0, tlv(0xA0, good)), tlv(0x81, b"\x01\x06"))), seq(seq(tlv(0xA0, tlv(0xA0, good)), tlv(0xA2, good))),
            seq(seq(tlv(0xA0, tlv(0xA0, good), ) , good)), seq(seq(tlv(0xA0, tlv(0xA1, good)))), seq(seq(tlv(0xA1, tlv(0xA0, good)))),
            seq(tlv(0x31, tlv(0xA0, tlv(0xA0, good)))), tlv(0x31, seq(tlv(0xA0, tlv(0xA0, good)))), seq(seq(tlv(0xA0, tlv(0xA0, good) + tlv(0xA0, good)))),
            crl_points(good, tlv(0x82, b"h")), crl_points(tlv(0x16, uri)), crl_points(tlv(0x06, uri)), crl_points(good, b"\x05\x00"), crl_points(good, b"\x00\x00"),
            seq(seq(tlv(0x80, name(uri)))), good,
        ],
        "authority": [
            b"", seq(), seq(seq()), seq(seq(CA_ISSUERS)), seq(seq(good)), seq(seq(good, CA_ISSUERS)), seq(seq(CA_ISSUERS, good), seq(CA_ISSUERS, good)),
            seq(seq(bytes.fromhex("06082b06010505073001"), good)), seq(seq(bytes.fromhex("06082b06010505073005"), good)), seq(seq(bytes.fromhex("0600"), good)),
            seq(seq(bytes.fromhex("06092b0601050507300200"), good)), seq(seq(bytes.fromhex("06072b060105050730"), good)), seq(CA_ISSUERS, good),
            seq(tlv(0x31, CA_ISSUERS + good)), tlv(0x31, seq(CA_ISSUERS, good)), issuers(good, tlv(0x82, b"h")), issuers(tlv(0xA6, good)), issuers(tlv(0x16, uri)),
            issuers(good, b"\x05\x00"), issuers(good, b"\x00\x00"), issuers(CA_ISSUERS, good), CA_ISSUERS + good,
        ],
    }
    for kind, rows in bad.items():
        for octets in rows:
            q.ask("refused: content", "access", kind, "der", octets.hex())
        # A constructed name is read in BER alone, and so is an indefinite length.
        q.ask("refused: content", "access", kind, "der", made[kind](segments).hex())
        q.ask(uri.decode(), "access", kind, "ber", made[kind](segments).hex())
        octets = made[kind](good)
        open_ended = b"\x30\x80" + octets[2:] + b"\x00\x00"
        q.ask("refused: content", "access", kind, "der", open_ended.hex())
        q.ask(uri.decode(), "access", kind, "ber", open_ended.hex())
        q.ask("refused: content", "access", kind, "der", (b"\x30\x81" + octets[1:]).hex())
        q.ask(uri.decode(), "access", kind, "ber", (b"\x30\x81" + octets[1:]).hex())


def questions():
    """All of them."""
    q = asking.Questions("certificates")
    for ask in (uris, signed, keys, accesses, names, serials, moments, validities, lists, entries, made, roles):
        ask(q)
    return q.rows


if __name__ == "__main__":
    asking.main(questions)
