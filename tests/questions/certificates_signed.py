"""Questions about algorithms and signed data, for tests/questions/certificates.py.

What octets begin with is compared with the grammar of RFC 5280 4.1.1.2, RFC 5652 10.1 and RFC 5754 2.
"""

import random

from certificates_x690 import Refused, bits_of, content_of, identifier, need, parts_of, value
from rpki_repositories import tlv

rng = random.Random(4711)

RSA, SHA256_RSA, SHA256 = (
    bytes.fromhex(digits) for digits in ("2a864886f70d010101", "2a864886f70d01010b", "608648016503040201")
)


def has_null(item, kinds):
    """Whether NULL stands in the algorithm, which is one of these."""
    parts = parts_of(item, 16)
    need(1 <= len(parts) <= 2 and content_of(parts[0], 6) in kinds)
    need(len(parts) == 1 or content_of(parts[1], 5) == b"")
    return len(parts) == 2


def around(tag, content, mode):
    return bytes([tag, 128]) + content + b"\0\0" if mode == "cer" else tlv(tag, content)


def algorithm(kind, null, mode):
    return around(0x30, tlv(6, kind) + (tlv(5, b"") if null else b""), mode)


def told(*facts):
    return " ".join({True: "true", False: "false"}.get(fact, fact) for fact in facts)


def answer_of(topic, mode, data):
    mode = "der" if topic == "front" else mode
    if topic == "opt-digest" and (not data or identifier(data)[0] != (0, 16)):
        return "false"
    item, _ = value(data, mode)
    if topic == "x509":
        null = has_null(item, [SHA256_RSA])
        return told(null, null, algorithm(SHA256_RSA, null, mode).hex())
    if topic == "cms":
        null = has_null(item, [RSA, SHA256_RSA])
        return told(null, null, algorithm(RSA, True, mode).hex())
    if topic in ("digest", "opt-digest"):
        has_null(item, [SHA256])
        return "true" if topic == "opt-digest" else algorithm(SHA256, False, mode).hex()
    if topic == "digests":
        algorithms = parts_of(item, 17)
        need(len(algorithms) == 1)
        has_null(algorithms[0], [SHA256])
        return around(0x31, algorithm(SHA256, False, mode), mode).hex()
    if topic == "new":
        return made_of(item.octets, mode)
    fields = parts_of(item, 16)
    need(len(fields) == 3)
    message = fields[0].octets
    null = has_null(fields[1], [SHA256_RSA])
    bits = bits_of(fields[2], mode)
    written = around(0x30, message + algorithm(SHA256_RSA, null, mode) + tlv(3, bits), mode)
    return told(message.hex(), null, str(bits[0]), bits[1:].hex(), written.hex())


def made_of(message, mode):
    """Signed data that is put together: a value, the algorithm with NULL, and the value's octets as signature."""
    written = around(0x30, message + algorithm(SHA256_RSA, True, mode) + tlv(3, b"\0" + message), mode)
    return told(message.hex(), True, "0", message.hex(), written.hex())


def signed(q):
    """Asks all questions: of each kind of algorithm and of signed data, in each mode."""

    def ask(topic, mode, data):
        try:
            answer = answer_of(topic, mode, data)
        except Refused:
            answer = "refused: content"
        q.ask(answer, "signed", topic, mode, data.hex())

    def cut_and_changed(topic, mode, data):
        """Itself, cut off at each octet, and with each octet changed."""
        ask(topic, mode, data)
        for end in range(1, len(data)):
            ask(topic, mode, data[:end])
        for at in range(len(data)):
            ask(topic, mode, data[:at] + bytes([data[at] ^ rng.choice([1, 2, 4, 32, 128])]) + data[at + 1 :])

    for topic in ("x509", "cms", "digest", "opt-digest"):
        for kind in (RSA, SHA256_RSA, SHA256):
            for null in (True, False):
                for mode in ("ber", "cer", "der"):
                    ask(topic, mode, algorithm(kind, null, mode))
            for behind in (tlv(5, b"\0"), tlv(5, b"") * 2, tlv(4, b""), bytes.fromhex("2500")):
                ask(topic, "der", tlv(0x30, tlv(6, kind) + behind))
        ask(topic, "ber", bytes.fromhex("30800609") + SHA256_RSA + bytes.fromhex("05000000"))
        ask(topic, "der", bytes.fromhex("30800609") + SHA256_RSA + bytes.fromhex("05000000"))
        ask(topic, "ber", bytes.fromhex("30810f060a") + SHA256_RSA + bytes.fromhex("0500"))
        ask(topic, "ber", bytes.fromhex("30810d06810a") + SHA256_RSA)
        ask(topic, "der", bytes.fromhex("30810d0609") + SHA256_RSA + bytes.fromhex("0500"))
        ask(topic, "ber", bytes.fromhex("30810d0609") + SHA256_RSA + bytes.fromhex("0500"))
        ask(topic, "der", tlv(0x30, b""))
        ask(topic, "der", tlv(0x31, tlv(6, SHA256)))
        ask(topic, "der", algorithm(SHA256, True, "der") + b"\xff")
    cut_and_changed("x509", "der", algorithm(SHA256_RSA, True, "der"))
    cut_and_changed("cms", "der", algorithm(RSA, True, "der"))
    cut_and_changed("digest", "der", algorithm(SHA256, False, "der"))

    for mode in ("ber", "cer", "der"):
        one = algorithm(SHA256, True, mode)
        for inner in (b"", one, one + one, algorithm(SHA256, False, mode), algorithm(RSA, True, mode)):
            ask("digests", mode, around(0x31, inner, mode))
            ask("digests", mode, around(0x30, inner, mode))

    messages = [b"\5\0", tlv(4, b"abc"), tlv(0x30, tlv(2, b"\1") + tlv(4, b"")), tlv(0xA3, tlv(2, b"\0\1"))]
    values = [b"\0", b"\0\xaa\xbb", b"\4\xab\xc0", b"\4\xab\xcf", b"\1", b"\x08\0", b"", b"\7\x80"]
    for mode in ("ber", "der"):
        for message in messages:
            for bits in values:
                data = tlv(0x30, message + algorithm(SHA256_RSA, rng.random() < 0.5, mode) + tlv(3, bits))
                ask("data", mode, data)
                ask("data", mode, data + b"\0\0")
    long_message = bytes.fromhex("3080020105040130") + bytes.fromhex("24800401610401620000") + b"\0\0"
    for bits in values:
        for null in (True, False):
            behind = algorithm(SHA256_RSA, null, "ber") + tlv(3, bits)
            ask("data", "ber", tlv(0x30, long_message + behind))
            ask("data", "ber", bytes.fromhex("3080") + long_message + behind + b"\0\0")
            ask("data", "der", tlv(0x30, long_message + behind))
            ask("data", "cer", around(0x30, tlv(4, b"a") + algorithm(SHA256_RSA, null, "cer") + tlv(3, bits), "cer"))
    for size in (999, 1000):
        ask("data", "cer", around(0x30, tlv(5, b"") + algorithm(SHA256_RSA, True, "cer") + tlv(3, bytes(size + 1)), "cer"))
    ask("data", "der", tlv(0x30, tlv(5, b"") + algorithm(RSA, True, "der") + tlv(3, b"\0")))
    ask("data", "der", tlv(0x30, algorithm(SHA256_RSA, True, "der") + tlv(3, b"\0")))
    ask("data", "der", tlv(0x30, tlv(5, b"") + algorithm(SHA256_RSA, True, "der") + tlv(4, b"\0")))
    ask("data", "der", tlv(0x30, tlv(5, b"") + algorithm(SHA256_RSA, True, "der") + tlv(3, b"\0") * 2))
    ask("data", "der", tlv(0x31, tlv(5, b"") + algorithm(SHA256_RSA, True, "der") + tlv(3, b"\0")))
    whole = tlv(0x30, tlv(4, b"ab") + algorithm(SHA256_RSA, True, "der") + tlv(3, b"\0\1"))
    cut_and_changed("data", "der", whole)
    for behind in (b"", b"\0", b"\xff\xff", whole):
        ask("front", "der", whole + behind)
    ask("front", "ber", tlv(0x30, long_message + algorithm(SHA256_RSA, True, "der") + tlv(3, b"\0")))
    for message in [*messages, long_message, whole, b"", b"\5\0\5", tlv(4, bytes(995)), b"\x30\x81\x02\5\0", around(0x30, tlv(5, b""), "cer")]:
        for mode in ("ber", "cer", "der"):
            ask("new", mode, message)
    for octets in (b"", b"\0", b"\xff" * 256, whole):
        q.ask(octets.hex(), "signed", "kept", "der", octets.hex())
