"""What the scripts of the codec's questions share: how values are spelled, after X.690, and how the program tells of them."""

MODES = ("ber", "cer", "der")
CLASSES = {"universal": "UNIVERSAL ", "application": "APPLICATION ", "context": "", "private": "PRIVATE "}

# The types of numbers, in the order of the program's answers.
TYPES = {f"u{bits}": (0, 2**bits - 1) for bits in (8, 16, 32, 64, 128)}
TYPES |= {f"i{bits}": (-(2 ** (bits - 1)), 2 ** (bits - 1) - 1) for bits in (8, 16, 32, 64, 128)}

# Numbers at which the types end, and some between.
POWERS = [2**bits for bits in (0, 3, 7, 8, 15, 16, 31, 32, 63, 64, 127, 128)]
EDGES = sorted({side * power + more for power in POWERS for side in (-1, 1) for more in (-1, 0, 1)})
BETWEEN = [
    -334417701879575162822179293, -52085378452949, -43883, -200, 5, 134, 200, 4726532, 2527735899, 841211299636,
    30127687741899281, 16965468190689869663101771337707505, 28755828868781886256752477068922679584,
]  # fmt: skip

# Texts and content octets, as OpenSSL's `asn1parse -genstr` and pyasn1 write them.
IDENTIFIERS = {
    "0.0": "00", "0.39": "27", "1.0": "28", "1.39": "4f", "2.0": "50", "2.39": "77", "2.40": "78", "2.47": "7f",
    "2.48": "8100", "2.999": "8837", "2.4294967295": "908080804f", "1.2.4294967295": "2a8fffffff7f",
    "1.2.16383.16384": "2aff7f818000", "2.5.4.3": "550403", "2.5.29.19": "551d13", "1.3.6.1.5.5.7.1.11": "2b0601050507010b",
    "1.3.6.1.5.5.7.1.28": "2b0601050507011c", "1.3.6.1.5.5.7.14.2": "2b06010505070e02",
    "1.3.6.1.5.5.7.48.13": "2b0601050507300d", "1.2.840.113549": "2a864886f70d", "1.2.840.113549.1.1.11": "2a864886f70d01010b",
    "1.2.840.10045.3.1.7": "2a8648ce3d030107", "2.16.840.1.101.3.4.2.1": "608648016503040201",
    "1.2.840.113549.1.7.2": "2a864886f70d010702", "1.2.840.113549.1.9.5": "2a864886f70d010905",
    "1.2.840.113549.1.9.16.1.24": "2a864886f70d0109100118", "1.2.840.113549.1.9.16.1.49": "2a864886f70d0109100131",
    "1.2.840.113549.1.9.16.2.46": "2a864886f70d010910022e",
}  # fmt: skip

# What is told of values that can't be written in CER.
CER_UNSUPPORTED = "Err(CerUnsupported) Err(CerUnsupported) x"


def unhex(text):
    """The octets of hexadecimal digits, with spaces anywhere."""
    return bytes.fromhex(text)


def told(octets):
    """Octets as the program prints them."""
    return "x" + octets.hex()


def truth(flag):
    return "true" if flag else "false"


def listed(items):
    return "[" + ", ".join(map(str, items)) + "]"


def some(value):
    return "None" if value is None else f"Some({value})"


def sign(one, other):
    return "<" if one < other else ">" if one > other else "="


def identifier(kind, number, constructed):
    """Identifier octets (X.690 8.1.2)."""
    first = list(CLASSES).index(kind) << 6 | (0x20 if constructed else 0)
    if number < 31:
        return bytes([first | number])
    octets = [number % 128]
    while number >= 128:
        number //= 128
        octets.append(128 + number % 128)
    return bytes([first | 31, *reversed(octets)])


def length(size):
    """The shortest length octets (X.690 10.1)."""
    octets = size.to_bytes((size.bit_length() + 7) // 8, "big")
    return bytes([size]) if size < 128 else bytes([128 + len(octets)]) + octets


def tlv(first, content):
    return bytes([first]) + length(len(content)) + content


def constructed(mode, first, content):
    """A constructed value: of indefinite length in CER (X.690 9.1)."""
    return bytes([first, 0x80]) + content + b"\0\0" if mode == "cer" else tlv(first, content)


def segments(octets):
    """Segments of 1000 octets and a last one (X.690 9.2)."""
    return b"".join(tlv(4, octets[at : at + 1000]) for at in range(0, len(octets), 1000))


def string(mode, tag, octets):
    """A string's value: in CER in segments where it has more than 1000 octets."""
    if mode == "cer" and len(octets) > 1000:
        return constructed(mode, 0x20 | tag, segments(octets))
    return tlv(tag, octets)


def integer(number):
    """Content octets: the shortest two's complement (X.690 8.3)."""
    size = number.bit_length() // 8 + 1
    octets = number.to_bytes(size, "big", signed=True)
    return octets[1:] if size > 1 and octets[0] == 255 and octets[1] >= 128 else octets


def as_integer(octets):
    """The number of content octets; None where these aren't the shortest."""
    if octets == b"":
        return None
    number = int.from_bytes(octets, "big", signed=True)
    return number if integer(number) == octets else None


def fits(number, kind):
    least, most = TYPES[kind]
    return number is not None and least <= number <= most


def content(q, answer, mode, octets, *steps):
    """Asks of a content, step by step; its octets are hexadecimal digits."""
    q.ask(answer, "content", mode, unhex(octets).hex(), *steps)


def front(q, answer, mode, kind, octets):
    """Asks of the value in front of octets."""
    q.ask(answer, "front", mode, kind, unhex(octets).hex())


def write(q, answer, mode, kind, word, room=9999):
    """Asks what is written of a value; its octets are hexadecimal digits or octets."""
    if isinstance(word, bytes) or kind == "bits":
        word = (unhex(word) if isinstance(word, str) else word).hex()
    q.ask(answer, "write", mode, str(room), kind, word)


def whole(octets):
    """What is told of values that are written as these octets."""
    return f"Ok({len(octets)}) Ok(()) {told(octets)}"


def wholes(first, content):
    """What is told of a content, of its value, and of the value with the tag [1]."""
    return f"{told(content)} {whole(tlv(first, content))} {whole(tlv(0x81, content))}"
