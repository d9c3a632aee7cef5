"""A reader of values after X.690 8.1 to 8.14, 9 and 10, in each mode, for the questions about certificates."""

MODES = ("der", "ber", "cer")


class Refused(Exception):
    pass


class Value:
    def __init__(self, tag, parts, content, octets):
        self.tag, self.parts, self.content, self.octets = tag, parts, content, octets


def need(fact):
    if not fact:
        raise Refused


def identifier(data):
    """Tag, whether it is constructed, and what is behind it."""
    need(data)
    first, rest = data[0], data[1:]
    number = first & 31
    if number == 31:
        number, count = 0, 0
        while True:
            need(rest and count < 3 and not (count == 0 and rest[0] == 0x80))
            octet, rest, count = rest[0], rest[1:], count + 1
            number = number << 7 | octet & 127
            if octet < 128:
                break
        need(number >= 31)
    tag = (first >> 6, number)
    need(tag != (0, 0))
    return tag, bool(first & 32), rest


def length(data, mode):
    """The length, None where it is indefinite, and what is behind it."""
    need(data)
    first, rest = data[0], data[1:]
    if first < 128:
        return first, rest
    if first == 128:
        return None, rest
    count = first - 128
    need(count <= 4 and len(rest) >= count)
    size = int.from_bytes(rest[:count], "big")
    need(mode == "ber" or (size >= 128 and rest[0] != 0))
    return size, rest[count:]


def value(data, mode):
    """The value in front, and what is behind it."""
    tag, constructed, rest = identifier(data)
    size, rest = length(rest, mode)
    parts = content = None
    if size is None:
        need(constructed and mode != "der")
        parts = []
        while rest[:2] != b"\0\0":
            part, rest = value(rest, mode)
            parts.append(part)
        rest = rest[2:]
    else:
        need(len(rest) >= size and not (constructed and mode == "cer"))
        content, rest = rest[:size], rest[size:]
        if constructed:
            parts, inner = [], content
            while inner:
                part, inner = value(inner, mode)
                parts.append(part)
            content = None
    return Value(tag, parts, content, data[: len(data) - len(rest)]), rest


def parts_of(item, number):
    need(item.tag == (0, number) and item.parts is not None)
    return item.parts


def content_of(item, number):
    need(item.tag == (0, number) and item.content is not None)
    return item.content


def bits_of(item, mode):
    content = content_of(item, 3)
    need(content and content[0] <= 7 and (len(content) > 1 or content[0] == 0))
    need(mode == "ber" or len(content) == 1 or content[-1] % 2 ** content[0] == 0)
    need(mode != "cer" or len(content) <= 1000)
    return content
