"""Questions about what is written of signed objects, for tests/questions/objects.py.

Objects are made and read by objects_signed.py. What is written of them is put together here from the parts that were
read, by the grammar of RFC 5652 3 and 5: what is signed as it stood, all else in DER. Objects in DER whose algorithms have NULL
where they are written with it are written as the very octets that were read.
"""

import ipaddress

import objects_signed as signed
import rpki_readers as der
import rpki_repositories as world
from objects_contents import NAME, answer_of
from objects_signed import KINDS, Object, Refused, front, header, made, need, respelled
from rpki_repositories import NULL, RSA, SHA256, bits, integer, oid, seq, tlv


def are_der(octets):
    """Whether octets are values in DER, one after the other."""
    try:
        while octets:
            octets = octets[front(octets, False).end :]
    except Refused:
        return False
    return True


def are_pieces(attributes):
    """Whether each string of octets is one piece, as in DER."""
    return not any(node.constructed and node.tag == (0, 4) for node in signed.nodes(front(tlv(0xA0, attributes), False)))


def with_zeros(octets, unused):
    """A BIT STRING in DER, where the bits that aren't used are 0 (X.690 11.2.1)."""
    return bits(octets[:-1] + bytes([octets[-1] >> unused << unused]) if octets else octets, unused)


class Parts:
    """The parts of an object that is read, as they stand."""

    def __init__(self, octets, ber):
        self.read = Object(octets, ber)
        data = der.only(der.counted(front(octets, ber), 2)[1], 0, der.CONTEXT)
        _, _, info, carried, signers = der.counted(data, 5)
        self.cert, self.signer = der.only(carried, 0, der.CONTEXT), der.only(signers, 17)
        self.kind, self.content, self.ber = self.read.kind, self.read.content, ber
        self.tbs, outer, said = der.counted(self.cert, 3)
        self.algorithm = world.ALGORITHM if der.algorithm(outer, der.SHA256_RSA) else seq(oid("1.2.840.113549.1.1.11"))
        self.cert_signature = signed.bit_string(said, ber)
        _, sid, _, attributes, _, signature = der.counted(self.signer, 6)
        self.sid, self.signature = signed.string(sid, ber, (2, 0)), signed.string(signature, ber)
        self.attributes = attributes.inner()
        self.digest = self.read.signer(self.signer, ber)[3]

    def written(self):
        """The octets in DER, or None where what was signed doesn't stand in DER."""
        if not (are_der(self.attributes) and are_der(self.tbs.octets())):
            return None
        cert = seq(self.tbs.octets(), self.algorithm, with_zeros(*self.cert_signature))
        signer = seq(integer(3), tlv(0x80, self.sid), SHA256, tlv(0xA0, self.attributes), RSA, tlv(4, self.signature))
        info = seq(tlv(6, self.kind), tlv(0xA0, tlv(4, self.content)))
        data = seq(integer(3), tlv(0x31, SHA256), info, tlv(0xA0, cert), tlv(0x31, signer))
        return seq(oid("1.2.840.113549.1.7.2"), tlv(0xA0, data))


class Questions:
    def __init__(self, q):
        self.ask, self.messages = q.ask, set()

    def parts(self, how, octets):
        try:
            return Parts(octets, how == "relaxed")
        except Refused:
            return None

    def again(self, how, kind, octets, same=None):
        """Asks what is written of an object; `same` where it has to be the octets that were read."""
        parts = self.parts(how, octets)
        if parts and kind != "any" and (parts.kind != KINDS[kind] or answer_of(kind, parts.content) == "refused"):
            parts = None
        if parts is None:
            answer = "refused"
        else:
            text = parts.written()
            assert not same or text == octets
            # What was read strictly is read again, strictly, and a second time nothing changes.
            assert how == "relaxed" or Parts(text, False).written() == text
            answer = f"x{text.hex()} same same unsupported" if text else "unsupported x unsupported"
        self.ask(answer, "again", how, kind, octets.hex())
        return answer

    def attributes(self, how, octets):
        parts = self.parts(how, octets)
        if parts is None:
            return self.ask("refused", "attributes", how, octets.hex())
        digest = f"x{parts.digest.hex()} x{tlv(4, parts.digest).hex()}"
        if not are_der(parts.attributes):
            return self.ask(f"unsupported unsupported {digest}", "attributes", how, octets.hex())
        kept, message = tlv(0xA0, parts.attributes), tlv(0x31, parts.attributes)
        told = f"x{kept.hex()} x{message.hex()} {digest}"
        self.ask(told, "attributes", how, octets.hex())
        # What is signed is read in DER, where the digest is one piece.
        if message not in self.messages:
            self.messages.add(message)
            told = told if are_pieces(parts.attributes) else "refused"
            self.ask(told, "message", message.hex())
            self.ask("refused", "message", kept.hex())

    def content(self, how, octets):
        parts = self.parts(how, octets)
        if parts is None:
            return self.ask("refused", "content", how, octets.hex())
        try:
            first = f"x{front(parts.content, False).octets().hex()}"
        except Refused:
            first = "refused"
        self.ask(f"{first} x{SHA256.hex()}", "content", how, octets.hex())

    def uris(self, base, octets, files):
        folder = base if base.endswith("/") else base + "/"
        told = "".join(f"{folder}{name.decode()} x{digest.hex()} " for name, digest in files)
        self.ask(f"{told}end x{SHA256.hex()}", "uris", base, octets.hex())


def objects(q):
    for what in signed.CONTENTS:
        octets = made(what)
        for kind in ("any", *KINDS):
            for how in ("strict", "relaxed"):
                q.again(how, kind, octets, kind in ("any", what))
                q.again(how, kind, octets + b"behind")
                q.again(how, kind, respelled(octets))
        # In BER around parts that stand in DER, and with all lengths indefinite.
        parts = Parts(octets, False)
        kept = {node.start for part in (parts.tbs, parts.signer.members[3]) for node in signed.nodes(part)}
        kept.discard(parts.signer.members[3].start)
        for form in ("open", 1, 4):
            way = signed.spelled(front(octets, False), lambda node: ("shortest" if node.start in kept else form, None))
            answer = q.again("relaxed", what, way)
            assert answer.split()[0] == "x" + octets.hex(), form
            q.again("strict", what, way)
            assert q.again("relaxed", what, signed.spelled(front(octets, False), lambda node: (form, None))).startswith("unsupported")
        for _ in range(10):
            q.again("relaxed", what, respelled(octets, signed.by_chance))
        for how in ("strict", "relaxed"):
            q.attributes(how, octets)
            q.attributes(how, respelled(octets))
            q.content(how, octets)
            q.content(how, respelled(octets))
    changed(q)


def changed(q):
    """Each part changed, as it is read and written."""
    for changes in (signed.objects_changed(), signed.certificates_changed()):
        for change in changes:
            octets = made("roa", **change)
            for how in ("strict", "relaxed"):
                if q.parts(how, octets):
                    q.again(how, "any", octets)
                    q.attributes(how, octets)
    for octets in (b"", b"\x30\x80", seq(), world.roa(1, "10.0.0.0/8") + b"behind", world.roa(1, "10.0.0.0/8")[:-1]):
        for how in ("strict", "relaxed"):
            q.content(how, made("roa", content=tlv(4, octets)))


def messages(q):
    """What isn't the message of a signer."""
    parts = Parts(made("roa"), False)
    for octets in (b"", tlv(0x31), tlv(0x11, parts.attributes), tlv(0x30, parts.attributes), tlv(0x31, parts.attributes[:-1]), tlv(0x31, parts.attributes, NULL),
                   b"\x31\x80" + parts.attributes + b"\0\0", tlv(0x31, parts.attributes * 2), tlv(0x31, tlv(0x31, parts.attributes))):
        q.ask("refused", "message", octets.hex())


def files(q):
    digest = bytes(range(32))
    updates = (b"20261123000000Z", b"20261124000000Z")
    some = [(b"a.roa", digest), (b"B_-9.crl", digest[::-1]), (b"-.cer", b""), (b"a.roa", b"\0"), (b"x" * 300 + b".asa", digest * 3)]
    for base in ("rsync://a.example/m", "rsync://a.example/m/", "rsync://A.EXAMPLE/m/b//", "RSYNC://h/m/p.q"):
        for listed in ([], some[:1], some, some[::-1], [(b"f%d.roa" % at, digest) for at in range(300)]):
            q.uris(base, world.manifest(7, updates, listed), listed)
    for octets in (b"", world.manifest(7, updates, [(b"a/b.roa", digest)]), world.manifest(7, updates, some)[:-1]):
        q.ask("refused", "uris", "rsync://a.example/m/", octets.hex())


def made_manifests(q):
    digest = bytes(range(32))

    def make(number, updates, files):
        good = all(NAME.fullmatch(name) for name, _ in files)
        answer = "x" + world.manifest(number, updates, files).hex() if good else "invalid file name"
        q.ask(answer, "make", str(number), *(text.decode() for text in updates), *(f"{name.hex()}={hash.hex()}" for name, hash in files))

    updates = (b"20261123000000Z", b"20261124000000Z")
    some = [(b"a.roa", digest), (b"B_-9.crl", digest[::-1]), (b"a.roa", bytes(32))]
    for number in (0, 127, 128, 2**63, 2**64 - 1):
        make(number, updates, some)
    for moments in (updates, updates[::-1], (b"00000101000000Z", b"99991231235959Z"), (b"20491231235959Z", b"19500101000000Z")):
        for listed in ([], some[:1], some, [(b"f%d.cer" % at, digest) for at in range(200)]):
            make(7, moments, listed)
    for name in (b"", b".roa", b"a/b.roa", b"a.roas", b"a", b"\xc3\xa9.roa", b"a.r0a", b"-.cer"):
        for listed in ([(name, digest)], some + [(name, digest)], [(name, digest)] + some):
            make(7, updates, listed)


def addresses(q):
    """The addresses of each family: prefixes with their greatest lengths, if any; None for a family that isn't there."""

    def entry(text):
        prefix, _, most = text.partition("-")
        return seq(world.prefix_bits(ipaddress.ip_network(prefix)), integer(int(most)) if most else b"")

    def ask(*families):
        lists = [seq(*map(entry, texts or [])) for texts in families]
        blocks = [seq(tlv(4, kind), some) for kind, texts, some in zip(world.FAMILIES.values(), families, lists) if texts is not None]
        content = seq(integer(64496), seq(*blocks))
        good = answer_of("roa", content) != "refused"
        told = [f"x{some.hex()}" for some in lists]
        for some in families:
            nets = [ipaddress.ip_network(text.partition("-")[0]) for text in some or []]
            told += [f"{'true' if net.version == 4 else 'false'} {net}" for net in nets]
        answer = " ".join(told) if good else "refused"
        digest = signed.attribute("4", tlv(4, world.Fips.sha256(content)))
        q.ask(answer, "addresses", made("roa", content=tlv(4, content), digest=digest).hex())

    v4 = ["192.0.2.0/24", "192.0.2.128/25-26", "0.0.0.0/0", "198.51.100.7/32-32", "10.0.0.0/8", "192.0.2.0/24"]
    v6 = ["2001:db8::/32-48", "::/0-0", "2001:db8::/33", "2001:db8::1/128", "2001:db8:8000::/33-128"]
    for families in (([], None), (None, []), ([], [])):
        ask(*families)
    # With no greatest length, with its own, with that of an address, and with one more.
    for prefix in ("10.0.0.0/8", "0.0.0.0/0", "203.0.113.255/32"):
        for most in dict.fromkeys(("", "-" + prefix.split("/")[1], "-32", "-33")):
            ask([prefix + most], None)
    for prefix in ("2001:db8::/32", "::/0", "2001:db8::ffff/128"):
        for most in dict.fromkeys(("", "-" + prefix.split("/")[1], "-128", "-129")):
            ask(None, [prefix + most])
    for families in ((v4, None), (None, v6), (v4, v6), (v4[::-1], v6[::-1]), (v4[:1], []), ([], v6[:1]), (["10.0.0.0/8-7"], v6)):
        ask(*families)
    ask([f"10.{at}.0.0/16" for at in range(256)], [f"2001:db8:{at:x}::/48-64" for at in range(256)])


def written(q):
    """Asks all."""
    signed.rng.seed(6488)
    q = Questions(q)
    objects(q)
    messages(q)
    files(q)
    made_manifests(q)
    addresses(q)
