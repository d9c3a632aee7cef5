"""Questions about revocation lists that are built, cloned, read from within others or refused, for tests/questions/certificates.py.

Lists are put together here from DER by hand, field by field (RFC 5280 5.1, RFC 6487 5). Where Python's `cryptography` is
there, it reads each list that is built, and has to find the same fields.
"""

import datetime
import random

import rpki_repositories as world
from certificates_entries import content, forms, moment, pair_words, recoded, serial_word
from certificates_lists import (
    AKI, ALGORITHM, AUTHORITY, COMMON, CRL_NUMBER, ISSUER, KEY, NUMBER, PLAIN, crl, entry, extended, extension, fields_of, fields_told,
)
from certificates_x690 import MODES, value
from rpki_repositories import integer, seq, tlv

rng = random.Random(5280)


class List:
    """A list to be built, and what it has to be."""

    def __init__(self, algorithm=ALGORITHM, issuer=ISSUER, this="20261123000000Z", following="20261124000000Z", key=KEY, number=3, entries=()):
        self.algorithm, self.issuer, self.this, self.following = algorithm, issuer, this, following
        self.key, self.number, self.entries = key, number, entries

    def words(self, mode="der"):
        fields = [self.algorithm.hex(), f"{mode} {self.issuer.hex()}", self.this, self.following, self.key.hex(), serial_word(self.number)]
        return fields + pair_words(self.entries)

    def but(self, **changed):
        """The list with other parts."""
        return List(**{**vars(self), **changed})

    def fields(self):
        entries = seq(*(entry(n, moment(date)) for n, date in self.entries)) if self.entries else b""
        both = tlv(0xA0, seq(extension(AUTHORITY, seq(tlv(0x80, self.key))), extension(NUMBER, integer(self.number))))
        return seq(integer(1), self.algorithm, self.issuer, moment(self.this), moment(self.following), entries, both)

    def der(self):
        """The list, whose signature is what was signed."""
        return seq(self.fields(), self.algorithm, tlv(3, b"\0" + self.fields()))

    def told(self):
        """What is told of the fields."""
        serials = [n for n, _ in self.entries]
        return fields_told(self.algorithm == ALGORITHM, self.this, self.following, self.number, self.key, self.issuer, serials)


def moment_read(text):
    return datetime.datetime.strptime(text, "%Y%m%d%H%M%SZ").replace(tzinfo=datetime.timezone.utc)


def read_elsewhere(made):
    """Another reader finds the same fields, where there is one; it knows no years below 1950, and before its version 42 no UTC."""
    try:
        from cryptography import x509
    except ImportError:
        return
    found = x509.load_der_x509_crl(made.der())
    if not hasattr(found, "last_update_utc"):
        return
    assert found.tbs_certlist_bytes == made.fields() == found.signature
    assert found.last_update_utc == moment_read(made.this) and found.next_update_utc == moment_read(made.following)
    assert [(one.serial_number, one.revocation_date_utc) for one in found] == [(n, moment_read(date)) for n, date in made.entries]
    assert found.extensions.get_extension_for_class(x509.CRLNumber).value.crl_number == made.number
    assert found.extensions.get_extension_for_class(x509.AuthorityKeyIdentifier).value.key_identifier == made.key
    assert not any(one.critical for one in found.extensions) and len(found.extensions) == 2


DATES = ("20261123000000Z", "19500101000000Z", "20491231235959Z", "20500101000000Z", "99991231235959Z")
SERIALS = (0, 1, 127, 128, 255, 256, 2**64, 2**128 - 1, 2**128, 2**159, 2**160 - 1)


def some_lists():
    """One part after another in its forms, and many entries."""
    yield from (List(), List(algorithm=PLAIN), List(issuer=seq()), List(key=bytes(20)), List(key=b"\xff" * 20))
    yield List(entries=[(12, DATES[0]), (42, DATES[0])])
    yield List(entries=[(42, DATES[0]), (12, DATES[1]), (42, DATES[2])])
    yield List(issuer=seq(*(tlv(0x31, seq(tlv(6, COMMON), tlv(19, b"a" * size))) for size in (1, 130, 300))))
    for date in DATES:
        yield from (List(this=date), List(following=date), List(entries=[(5, date)]))
    for n in SERIALS:
        yield from (List(number=n), List(entries=[(n, DATES[0])]))
    for count in (3, 4, 7, 8, 200, 700):
        yield List(entries=[(rng.choice(SERIALS + (rng.randrange(2**64),)), rng.choice(DATES)) for _ in range(count)])


def of_both(q, answer, kind, words):
    """Each question is asked of a list over the octets of its entries, and of one over a vector of entries."""
    q.ask(answer, "made", kind, *words)
    q.ask(answer, "made", "gathered", kind, *words)


def built(q):
    """Lists with their signatures, the signer's refusals, and fields in each mode."""
    for made in some_lists():
        read_elsewhere(made)
        text = "x" + made.der().hex()
        of_both(q, f"{text} {text}", "build", made.words())
        for mode in ("der", "ber"):
            q.ask("x" + made.fields().hex(), "made", "fields", mode, *made.words())
        q.ask("no form in CER", "made", "fields", "cer", *made.words())
        of_both(q, "key not found", "lost", made.words())
        of_both(q, "no pen", "refuse", made.words())
    # Years that the other reader doesn't know, and a name that was read in BER, of which nothing is written in DER: the
    # signer isn't asked.
    for date in ("00000101000000Z", "19491231235959Z"):
        made = List(this=date, following=date, entries=[(1, date)])
        text = "x" + made.der().hex()
        of_both(q, f"{text} {text}", "build", made.words())
    for made in (List(), List(entries=[(12, DATES[0])])):
        for kind in ("build", "lost", "refuse"):
            of_both(q, "a value that is too long", kind, made.words("ber"))
        q.ask("no form in CER", "made", "fields", "der", *made.words("ber"))
        q.ask("x" + made.fields().hex(), "made", "fields", "ber", *made.words("ber"))


def lent(q):
    """Entries that are put in place of others where a list lent them."""
    rows = [[], [(12, DATES[0])], [(42, DATES[0]), (12, DATES[3]), (42, DATES[4])], [(n, DATES[0]) for n in SERIALS]]
    for before in rows:
        for entries in rows:
            made = List(entries=before, number=rng.choice(SERIALS))
            words = made.words()
            q.ask(made.but(entries=entries).told(), "made", "lent", str(len(words)), *words, *pair_words(entries))


FIELDS = {"signature": "algorithm", "issuer": "issuer", "this": "this", "next": "following", "key": "key", "number": "number", "revoked": "entries"}


def set_fields(q):
    """One field that is set to another list's."""
    some = List()
    other = List(PLAIN, seq(), "19500101000000Z", "20500101000000Z", bytes(20), 2**160 - 1, [(42, DATES[0]), (12, DATES[3])])
    for one, two in ((some, other), (other, some), (some, List(this=some.following, following=some.this)), (List(entries=other.entries), List(entries=[(42, DATES[0])]))):
        for word, field in FIELDS.items():
            words = one.words()
            q.ask(one.but(**{field: getattr(two, field)}).told(), "made", "set", word, str(len(words)), *words, *two.words())


def within(q):
    """Lists in each mode, among other values, and under a tag; and what is signed of them by itself."""
    more = tlv(5, b"")
    for some in (crl(entries=seq(entry(12), entry(42))), crl(), crl(issuer=seq(), inner=PLAIN, outer=PLAIN)):
        for data, modes in forms(some):
            for mode in MODES:
                answer = "3" if mode in modes else "refused"
                for after in (b"", more, some):
                    q.ask(answer, "within", "taken", mode, (data + after).hex())
                    q.ask(answer, "within", "next", mode, (data + after).hex())
                q.ask("none", "within", "next", mode, (more + data).hex())
                q.ask("refused", "within", "taken", mode, (more + data).hex())
        for data, modes in forms(tlv(0xA1, content(some))):
            for mode in MODES:
                q.ask("3" if mode in modes else "refused", "within", "tagged", mode, data.hex())
        for data in (tlv(0xA0, content(some)), tlv(0xA1, some), tlv(0xA1, content(some) + more), tlv(0xA1, b""), tlv(0x81, content(some)), b""):
            for form, _ in forms(data) if data else [(data, ())]:
                for mode in MODES:
                    q.ask("refused", "within", "tagged", mode, form.hex())
        fields(q, value(some, "der")[0].parts[0].octets)
    for mode in MODES:
        for data in (b"", more, tlv(0x31, content(crl()))):
            q.ask("none", "within", "next", mode, data.hex())
    for wrong in (seq(), seq(crl()), crl(version=integer(0)), crl(outer=PLAIN), crl(inner=PLAIN), crl(after=more), crl(more=more), crl(extensions=tlv(0xA0, seq(AKI)))):
        for data in (wrong, wrong[:-1], recoded(wrong), recoded(wrong)[:-1], recoded(wrong, True)):
            for mode in MODES:
                for kind in ("taken", "next"):
                    q.ask("refused", "within", kind, mode, data.hex())


def fields(q, der):
    """What is signed, in each mode; parts of it are left out."""
    for data, modes in forms(der):
        for mode in MODES:
            answer = "refused"
            if mode in modes:
                item = value(data, mode)[0]
                answer = fields_told(*fields_of(item))
            q.ask(answer, "within", "fields", mode, data.hex())
            q.ask(answer, "within", "fields", mode, (data + tlv(5, b"")).hex())
    parts = value(der, "der")[0].parts
    for at in range(len(parts)):
        rest = [part.octets for part in parts[:at] + parts[at + 1 :]]
        if parts[at].tag != (0, 16) or at != len(parts) - 2:
            for data, _ in forms(seq(*rest)):
                for mode in MODES:
                    q.ask("refused", "within", "fields", mode, data.hex())
    for mode in MODES:
        for data in (b"", tlv(5, b""), tlv(0x31, content(der)), der[:-1]):
            q.ask("refused", "within", "fields", mode, data.hex())


def cloned(q):
    """Whether a clone has a serial number, and where it is among those that are kept aside, if any are."""
    row = [3 * at for at in range(100)]
    rng.shuffle(row)
    for serials in ([], [12, 42], [42, 12, 42], row):
        kept = sorted(set(serials))
        for serial in (12, 13, 42, 0, 297, 298, 2**160 - 1):
            held, place = ("true", kept.index(serial)) if serial in kept else ("false", "-")
            data = crl(entries=seq(*map(entry, serials)) if serials else b"")
            q.ask(f"{held} no cache {held} {place}", "within", "cloned", data.hex(), serial_word(serial))


def dotted(octets):
    """The components with dots between them; of those above 2^32 - 1 none is told (X.690 8.19)."""
    numbers, number = [], 0
    for octet in octets:
        number = number << 7 | octet & 127
        if octet < 128:
            numbers.append(number)
            number = 0
    first = min(numbers[0] // 40, 2)
    parts = [first, numbers[0] - 40 * first, *numbers[1:]]
    return ".".join(str(part) if part < 2**32 else "(not implemented)" for part in parts)


def invalid(q):
    """Extensions that a list doesn't have: the first one is told, wherever it stands, whatever its value."""
    names = ["2.5.29.21", "2.5.29.28", "2.5.29.31", "1.2.840.113549.1.9.16.2.47", "0.0", "0.39.127", "1.0.128", "2.999.1", "2.5.29", "2.5.29.20.1",
             "2.5.29.35.4294967295", "2.5.29.35.4294967296", "1.2.18446744073709551615.3"]
    for name in names:
        kind = world.oid(name)[2:]
        text = f"invalid extension {dotted(kind)}"
        assert text == f"invalid extension {name}" or "4294967296" in name or "18446744073709551615" in name
        for other in (extension(kind, b""), extension(kind, seq(), tlv(1, b"\xff")), extension(kind, integer(3), tlv(1, b"\0"))):
            for rest in ([AKI, CRL_NUMBER], [CRL_NUMBER, AKI], [AKI], [CRL_NUMBER], []):
                for place in range(len(rest) + 1):
                    q.ask(text, "crl", "told", extended(*rest[:place], other, *rest[place:]).hex())
    first, second = (extension(world.oid(name)[2:], b"") for name in ("1.3.1", "1.3.2"))
    q.ask("invalid extension 1.3.1", "crl", "told", extended(AKI, first, second, CRL_NUMBER).hex())
    q.ask("invalid extension 1.3.2", "crl", "told", extended(second, AKI, first, CRL_NUMBER).hex())
    q.ask("read", "crl", "told", extended(CRL_NUMBER, AKI).hex())


def ca_cert(maker, key, issuer):
    """A certificate of an authority with a key, below that of another."""
    extensions = [
        world.basic(),
        maker.subject_key(key),
        maker.authority_key(issuer),
        world.usage(True),
        world.crl_point(b"rsync://h/m/a.crl"),
        world.issuer_at(b"rsync://h/m/a.cer"),
        world.access((5, b"rsync://h/m/"), (10, b"rsync://h/m/a.mft")),
        world.policies(False),
        *world.claims_of(world.INHERITS),
    ]
    return maker.cert(key, issuer, extensions)


def claimed(q):
    """Lists and certificates of keys, of which some are the same: names aren't compared, nor are signatures."""
    maker = world.World()
    keys = (1, 2, 77)
    for key in keys:
        for issuer in keys:
            cert = ca_cert(maker, key, issuer)
            for other in keys:
                identifier = maker.identifier(other)
                for name in (ISSUER, maker.name(key)):
                    data = crl(issuer=name, extensions=tlv(0xA0, seq(extension(AUTHORITY, seq(tlv(0x80, identifier))), CRL_NUMBER)))
                    q.ask("claimed" if other == key else "authority key identifier of another key", "crl", "claims", data.hex(), cert.hex())
            near = maker.identifier(key)[:-1] + bytes([maker.identifier(key)[-1] ^ 1])
            data = crl(extensions=tlv(0xA0, seq(extension(AUTHORITY, seq(tlv(0x80, near))), CRL_NUMBER)))
            q.ask("authority key identifier of another key", "crl", "claims", data.hex(), cert.hex())


def verified(q):
    """Signatures that are what was signed are good to the verifier, and no others; it tells by which key it was asked."""
    maker = world.World()
    for key in (1, 2):
        cert = ca_cert(maker, key, key)
        asked = f"1 x{world.encoded(key).hex()}"
        for made in (List(), List(algorithm=PLAIN), List(entries=[(12, DATES[0])])):
            null = "true" if made.algorithm == ALGORITHM else "false"
            q.ask(f"good {asked} {null}", "crl", "verified", made.der().hex(), cert.hex())
            for signature in (b"", b"\xaa\xbb", made.fields()[:-1], made.fields() + b"\0", made.fields()[::-1]):
                data = seq(made.fields(), made.algorithm, tlv(3, b"\0" + signature))
                q.ask(f"bad signature {asked} {null}", "crl", "verified", data.hex(), cert.hex())


def made(q):
    """Asks all questions."""
    built(q)
    lent(q)
    set_fields(q)
    verified(q)
    within(q)
    cloned(q)
    invalid(q)
    claimed(q)
