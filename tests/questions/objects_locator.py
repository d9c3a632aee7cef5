"""Questions about trust anchor locators, for tests/questions/objects.py (RFC 8630 2.2)."""

import base64
import random
import re

from certificates_signed import RSA
from certificates_x690 import Refused, bits_of, content_of, need, parts_of, value
from rpki_repositories import seq, tlv

rng = random.Random(8630)

EC, CURVE = bytes.fromhex("2a8648ce3d0201"), bytes.fromhex("2a8648ce3d030107")
URI = re.compile(rb"(?i:rsync)://[!-.0-~]+/[!-.0-~]+(/[!-~]*)?|(?i:https)://[!-.0-~]+(/[!-~]*)?")
EOF, BAD_URI, BAD_ENCODING, BAD_KEY = "unexpected end of file", "bad trust anchor URI", "bad key info encoding", "bad key info"


class Fault(Exception):
    pass


def key_of(data):
    """The DER of the key in front, with NULL behind rsaEncryption."""
    item, _ = value(data, "der")
    parts = parts_of(item, 16)
    need(len(parts) == 2)
    kind = parts_of(parts[0], 16)
    need(1 <= len(kind) <= 2)
    name = content_of(kind[0], 6)
    if name == RSA:
        need(len(kind) == 1 or content_of(kind[1], 5) == b"")
        written = seq(tlv(6, RSA), tlv(5, b""))
    else:
        need(name == EC and len(kind) == 2 and content_of(kind[1], 6) == CURVE)
        written = seq(tlv(6, EC), tlv(6, CURVE))
    return seq(written, tlv(3, bits_of(parts[1], "der")))


def line_of(text):
    """The first line, and what is behind it."""
    line, end, rest = text.partition(b"\n")
    if not end:
        raise Fault(EOF)
    return line.removesuffix(b"\r"), rest


def octets_of(text):
    """Base 64 with full padding, nothing left over, and no bits set that are cut off."""
    text = bytes(octet for octet in text if octet not in b"\t\n\f\r ")
    try:
        octets = base64.b64decode(text, validate=True)
    except ValueError:
        raise Fault(BAD_ENCODING) from None
    if base64.b64encode(octets) != text:
        raise Fault(BAD_ENCODING)
    return octets


def locator_of(text):
    uris = []
    while text.startswith(b"#"):
        _, text = line_of(text)
    while True:
        line, text = line_of(text)
        if not line:
            break
        if not URI.fullmatch(line):
            raise Fault(BAD_URI)
        uris.append(line)
    if not uris:
        raise Fault(BAD_URI)
    octets = octets_of(text)
    try:
        return uris, key_of(octets)
    except Refused:
        raise Fault(BAD_KEY) from None


def told(name, uris, key):
    ordered = [uri for uri in uris if uri[:5].lower() == b"https"] + [uri for uri in uris if uri[:5].lower() != b"https"]
    words = [f"{uri.decode()} {'false true' if uri[:5].lower() == b'https' else 'true false'}" for uri in uris + ordered]
    return " ".join([name, "x" + key.hex(), *words])


def answer_of(text):
    try:
        return told("name", *locator_of(text))
    except Fault as fault:
        return str(fault)


def ask(q, text, expected=None):
    answer = answer_of(text)
    assert expected is None or answer == expected, (text, answer, expected)
    q.ask(answer, "locator", "name", text.hex())


ROOM = 8
PLAIN = seq(seq(tlv(6, RSA), tlv(5, b"")), tlv(3, bytes(ROOM)))
RSYNC, HTTPS = b"rsync://h.example/m/ta.cer", b"https://h.example/ta.cer"


def encodings(q):
    """The key's part: white space in each place, what isn't base 64, and octets that are no key."""
    front = RSYNC + b"\n\n"
    text = base64.b64encode(PLAIN)
    good = told("name", [RSYNC], PLAIN)
    ask(q, front + text, good)
    for behind in (b"\n", b"\r\n", b"\n\n\n", b" ", b"\t\f\r\n ", b"\r"):
        ask(q, front + text + behind, good)
        ask(q, front + behind + text, good)
    for octet in b"\t\n\f\r ":
        ask(q, front + bytes([octet]).join(bytes([letter]) for letter in text), good)
    for octet in range(256):
        ask(q, front + text[:7] + bytes([octet]) + text[7:])
        ask(q, front + text + bytes([octet]))
        ask(q, front + bytes([octet]) + text)
    for at in range(len(text) + 1):
        ask(q, front + text[:at])
        ask(q, front + text[:at] + b"=" + text[at:])
        ask(q, front + text[:at] + b" \n\t" + text[at:], good)
        ask(q, front + text[:at] + b"\x0b" + text[at:], BAD_ENCODING)
    for length in range(4):  # of each count of octets behind the key: padding, and its bits
        octets = PLAIN + bytes(length)
        text = base64.b64encode(octets)
        ask(q, front + text, good)
        ask(q, front + text.rstrip(b"="))
        ask(q, front + text + b"=", BAD_ENCODING)
        ask(q, front + text + b"====", BAD_ENCODING)
        ask(q, front + text + text)
        for letter in b"ABCDEFGHIJKLMNOPQRSTUVWXYZabcdefghijklmnopqrstuvwxyz0123456789+/-_":
            padding = len(text) - len(text.rstrip(b"="))
            ask(q, front + text[: len(text) - padding - 1] + bytes([letter]) + b"=" * padding)
    for wrong in (b"", b"AAAA", b"AA==", b"=", b"====", b"A", b"AB==", b"A===", b"AAAA====", b"AA=A", b"!!!!", b"-_-_", b"MAA=", b"MA", b"MIAAAA=="):
        ask(q, front + wrong)
    for key in (b"", b"\x30\0", seq(seq(tlv(6, RSA), tlv(5, b""))), seq(seq(tlv(6, EC), tlv(5, b"")), tlv(3, b"\0")), seq(seq(tlv(6, RSA), tlv(5, b"")), tlv(3, b"")),
                seq(seq(tlv(6, RSA), tlv(5, b"")), tlv(3, b"\1\xff")), b"\x30\x84\xff\xff\xff\xff", b"\x30\x80" + PLAIN[2:] + b"\0\0", b"\x30\x81" + PLAIN[1:],
                PLAIN[:-1], seq(PLAIN), seq(seq(tlv(6, RSA), tlv(5, b"\0")), tlv(3, b"\0")), seq(seq(tlv(6, EC), tlv(6, CURVE), tlv(5, b"")), tlv(3, b"\0"))):
        ask(q, front + base64.b64encode(key), BAD_KEY)
    for key in (seq(seq(tlv(6, RSA)), tlv(3, bytes(ROOM))), seq(seq(tlv(6, EC), tlv(6, CURVE)), tlv(3, b"\0\4\1\2")), seq(seq(tlv(6, RSA)), tlv(3, b"\4\xf0")),
                seq(seq(tlv(6, RSA)), tlv(3, b"\0")), PLAIN + b"\0\xff\x30"):
        ask(q, front + base64.b64encode(key))
    deep = b""
    for _ in range(10000):
        deep = tlv(0x30, deep)
    q.ask(BAD_KEY, "locator", "name", (front + base64.b64encode(deep)).hex())
    q.ask(BAD_KEY, "locator", "name", (front + base64.b64encode(b"\x30\x80" * 10000)).hex())


def lines(q):
    """Lines: every one missing, other line ends, URIs that are none."""
    key = base64.b64encode(PLAIN)
    rows = [b"# a comment", b"#", RSYNC, HTTPS, b"", key]
    good = told("name", [RSYNC, HTTPS], PLAIN)
    for end in (b"\n", b"\r\n"):
        ask(q, end.join(rows), good)
        ask(q, end.join(rows) + end, good)
        for at in range(len(rows)):
            ask(q, end.join(rows[:at] + rows[at + 1 :]))
            ask(q, end.join(rows[: at + 1] + rows[at:]))
            ask(q, end.join(rows[:at] + [b""] + rows[at:]))
            ask(q, end.join(rows[:at] + [b"# x"] + rows[at:]))
            ask(q, end.join(rows[:at] + [b" "] + rows[at:]))
            ask(q, end.join(rows[:at]))
            ask(q, end.join(rows[:at]) + end)
            for other in (b"\n", b"\r\n", b"\r", b"\n\r", b"\r\r\n", b"\n\n", b"\x0b", b"\0", b"\x85", b" \n", b"\t\r\n"):
                ask(q, end.join(rows[:at]) + other + end.join(rows[at:]))
    whole = b"\r\n".join(rows)
    for at in range(len(whole)):
        ask(q, whole[:at])
        ask(q, whole[:at] + bytes([whole[at] ^ rng.choice([1, 2, 4, 8, 16, 32, 64, 128])]) + whole[at + 1 :])
    ask(q, b"", EOF)
    ask(q, b"\nAAAA", BAD_URI)
    ask(q, b"\r\nAAAA", BAD_URI)
    ask(q, b"ftp://x\n\n", BAD_URI)
    ask(q, b"# x", EOF)
    ask(q, b"# x\n", EOF)
    ask(q, b"# x\n\n", BAD_URI)
    ask(q, RSYNC, EOF)
    ask(q, RSYNC + b"\n", EOF)
    ask(q, RSYNC + b"\r", EOF)
    ask(q, RSYNC + b"\n\n", BAD_KEY)
    ask(q, b"ftp://x", EOF)
    ask(q, b"#\xff\0\r \n" + RSYNC + b"\n\n" + key, told("name", [RSYNC], PLAIN))
    for uri in (b"rsync://h/m", b"rsync://h/m/", b"RSYNC://H/M//", b"https://h", b"HTTPS://h/", b"https://h//x", b"rsync://h", b"rsync://h/", b"rsync:///m", b"https://", b"http://h/",
                b"ftp://h/m", b"rsync://h/m/ x", b" " + RSYNC, RSYNC + b" ", b"rsync://h/m/\x80", b"rsync://h/m/\x7f", b"file:///x", b"x", b"https:/h", b"rsync://h/m#x", b"#" + RSYNC):
        ask(q, uri + b"\n\n" + key)
        ask(q, HTTPS + b"\n" + uri + b"\n\n" + key)
    kinds = [RSYNC, HTTPS, b"RSYNC://h/m", b"HTTPS://H", RSYNC]
    for _ in range(60):
        some = [rng.choice(kinds) for _ in range(rng.randrange(1, 7))]
        ask(q, b"".join(uri + rng.choice([b"\n", b"\r\n"]) for uri in some) + b"\n" + key, told("name", some, PLAIN))
    ask(q, b"".join(b"https://h/%d\n" % at for at in range(300)) + RSYNC + b"\n\n" + key)
    for name in ("", "A name with spaces", "\u00e9\u4e16"):
        q.ask(told(name, [RSYNC], PLAIN).lstrip(" ") if name else told("", [RSYNC], PLAIN)[1:], "locator", name, (RSYNC + b"\n\n" + key).hex())


def one_uri(q):
    """One URI, by each call that makes one."""
    good = (RSYNC, HTTPS, b"rsync://h/m", b"rsync://h/m/", b"RSYNC://H/M//", b"rSyNc://h/m/a/../b", b"https://h", b"HTTPS://h/", b"https://h//x", b"https://h?q#f")
    wrong = (b"", b"rsync://h", b"rsync://h/", b"rsync:///m", b"rsync://h//", b"https://", b"https:///", b"http://h/", b"ftp://h/m", b"rsync://h/m/ x", b" " + RSYNC,
             RSYNC + b" ", RSYNC + b"\n", b"rsync://h/m/\x7f", b"https://h/\0", b"file:///x", b"x", b"https:/h", b"rsync:h/m")
    for text in (*good, *wrong):
        assert bool(URI.fullmatch(text)) == (text in good), text
        is_rsync = text[:5].lower() == b"rsync"
        told = f"{text.decode()} {text.decode()} {'true false' if is_rsync else 'false true'}" if text in good else "bad URI"
        for call in ("slice", "bytes", "string"):
            q.ask(told, "locator", "uri", call, text.hex())
    for call in ("slice", "bytes"):
        q.ask("bad URI", "locator", "uri", call, b"rsync://h/m/\x80".hex())


def locators(q):
    """Asks all questions."""
    lines(q)
    encodings(q)
    one_uri(q)
