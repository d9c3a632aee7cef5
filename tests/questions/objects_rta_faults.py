"""Documents that are made from good ones by one change each, for tests/questions/objects_rta_valid.py: what each lacks, by words
of tests/lib/rpki_validation.py, is known by hand. Some lack nothing.
"""

import hashlib

import rpki_repositories as world
from objects_rta_read import attribute
from objects_rta_documents import ALONE, ANCHOR, APART, BOTH, CA, EARLY, EMPTY_ALGORITHM, HIGH, ITSELF, LATE, LOW, MAKER, ONE
from objects_rta_documents import OTHER_CA, SHORT, SOMEBODY, TREE, TWO, WIDE, Base, anchor, authority, certificate, chain, folder_of
from objects_rta_documents import holder, revocations, ring
from rpki_readers import KINDS
from rpki_repositories import FIRST, HOST, LAST, MOMENT, bits, encoded, integer, key_bits, oid, seq, time, tlv


def of_keys():
    """Subject keys and signers."""
    yield "keys", TREE, {"keys": [ONE]}
    yield "keys", TREE, {"keys": [TWO]}
    yield "keys", TREE, {"keys": []}
    yield "keys", TREE, {"keys": [ONE, TWO, SOMEBODY]}
    yield "keys", TREE, {"keys": [ONE, SOMEBODY]}
    yield "keys", TREE, {"keys": [ONE, TWO, CA]}
    yield "keys", TREE, {"keys": [ONE, ONE, TWO]}
    yield "keys", TREE, {"keys": [ONE, TWO, TWO]}
    yield "keys", TREE, {"more_signers": [(ONE, {})]}
    yield "keys", TREE, {"more_signers": [(TWO, {})], "keys": [ONE, TWO, TWO]}
    yield "keys", ALONE, {"keys": [ONE, ONE], "more_signers": [(ONE, {})]}
    yield "keys", ALONE, {"keys": [CA]}
    yield "keys certificates lists", TREE, {"without": [TWO], "keys": [ONE, TWO]}
    yield "keys paths", TREE, {"more_signers": [(SOMEBODY, {})]}
    yield "", TREE, {"keys": [TWO, ONE]}
    yield "", TREE, {"order": -1}


def of_paths():
    """Certificates that are missing, or carried twice, or of one key."""
    one, other, top = (certificate(**TREE.certs[name]) for name in ("one", "ca", "anchor"))
    yield "paths", TREE, {"keys": [ONE, TWO, SOMEBODY], "more_signers": [(SOMEBODY, {})]}
    yield "paths certificates lists", TREE, {"without": ["one"]}
    yield "paths", TREE, {"more_certs": [one]}
    yield "paths", TREE, {"more_certs": [other]}
    yield "paths", TREE, {"more_certs": [top]}
    yield "paths", ALONE, {"more_certs": [certificate(**{**ALONE.certs["one"], "serial": 5})]}
    yield "paths", TREE, {"more_certs": [certificate(**{**TREE.certs["one"], "issuer": OTHER_CA})]}
    yield "paths", TREE, {"more_certs": [certificate(**{**TREE.certs["ca"], "serial": 5})]}
    yield "paths", TREE, {"more_certs": [certificate(**{**TREE.certs["ca"], "issuer": OTHER_CA})]}
    yield "paths", TREE, {"more_certs": [certificate(**anchor(CA, WIDE))]}
    yield "paths", TREE, {"more_certs": [certificate(**{**TREE.certs["anchor"], "authority": b""})]}
    # an authority's certificate of a signer's key makes two paths of that one
    yield "paths", TREE, {"more_certs": [certificate(**authority(ONE, CA, LOW))]}
    # a key's certificate that is no authority's continues no path
    yield "certificates", TREE, {"more_certs": [certificate(**holder(CA, ANCHOR, LOW))]}
    # without an authority in the middle the path ends below it
    yield "certificates lists", Base(
        {**SHORT.certs, "ca": authority(CA, ANCHOR, WIDE)}, {**SHORT.lists, "ca list": {"key": CA}}, (ONE,), LOW
    ), {"certs": {"one": {"issuer": SOMEBODY}}}
    for size in (2, 3, 7):
        yield "", ring(size), {}
    # a key of a ring that has a second certificate
    yield "paths", ring(3), {"more_certs": [certificate(**authority(20, 22, WIDE))]}
    yield "paths", ring(2), {"more_certs": [certificate(**anchor(21, WIDE))]}
    for size in (1, 2, 3, 100):
        yield "", chain(size) if size > 1 else ITSELF, {}
    yield "paths", chain(100), {"more_certs": [certificate(**authority(150, 151, WIDE))]}


def of_contents():
    """What a signer signs (RFC 6488 3)."""
    wrong = tlv(4, hashlib.sha256(b"other").digest())
    for base in (TREE, ALONE):
        for at in base.signers:
            yield "content", base, {"signers": {at: {"digest": attribute("4", wrong)}}}
            yield "content", base, {"signers": {at: {"digest": attribute("4", tlv(4))}}}
            yield "content", base, {"signers": {at: {"signature": tlv(4, bytes(32))}}}
            yield "content", base, {"signers": {at: {"signature": tlv(4)}}}
            yield "content", base, {"signers": {at: {"others": attribute("5", time(LATE))}}}
    content = TREE.content()
    by_other = {"sid": tlv(0x80, MAKER.identifier(ONE))}
    yield "content", TREE, {"without": [ONE], "keys": [ONE, TWO], "more_signers": [(TWO, by_other)]}
    changed = content[:-1] + bytes([content[-1] ^ 1])
    of_first = {"digest": attribute("4", tlv(4, hashlib.sha256(content).digest()))}
    yield "content", TREE, {"content": changed, "signers": {ONE: of_first}}
    for others in (
        attribute("5", time(LAST)),
        attribute("5", tlv(0x18, EARLY)),
        attribute("16.2.46", integer(2**64 - 1)),
        attribute("16.2.46", integer(0)) + attribute("5", time(FIRST)),
    ):
        yield "", TREE, {"signers": {ONE: {"others": others}}}
        yield "", ALONE, {"signers": {ONE: {"others": others}}}


def of_profiles():
    """Each certificate by its role (RFC 6487 4)."""
    long_name = seq(tlv(0x31, seq(oid("2.5.4.10"), tlv(0x13, b"a"))))
    utf8 = seq(tlv(0x31, seq(oid("2.5.4.3"), tlv(0x0C, b"a"))))
    purposes = world.extension("2.5.29.37", seq(oid("1.3.6.1.5.5.7.3.30")))
    curve = seq(seq(oid("1.2.840.10045.2.1"), oid("1.2.840.10045.3.1.7")), bits(key_bits(ONE)))
    for name in ("one", "ca", "anchor"):
        for part in (
            {"outer": EMPTY_ALGORITHM},
            {"issuer_name": long_name},
            {"subject_name": long_name},
            {"subject_name": seq()},
            {"subject_name": utf8},
            {"purposes": purposes},
        ):
            yield "profile", TREE, {"certs": {name: part}}
    yield "profile", TREE, {"certs": {"one": {"basic": world.basic(False)}}}
    yield "profile", TREE, {"certs": {"one": {"usage": world.usage(True)}}}
    yield "profile", TREE, {"certs": {"one": {"crl": b""}}}
    yield "profile", TREE, {"certs": {"one": {"sia": world.access((5, folder_of(ONE)))}}}
    yield "profile", TREE, {"certs": {"one": {"sia": world.access((10, folder_of(ONE) + b"a.mft"))}}}
    yield "profile content", TREE, {"certs": {"one": {"key_info": encoded(SOMEBODY)}}}
    yield "profile", TREE, {"certs": {"one": {"key_info": curve}}}
    # what stands apart may name where an object lies
    yield "", TREE, {"certs": {"one": {"sia": world.access((11, folder_of(ONE) + b"a.sig"))}}}
    yield "profile", TREE, {"certs": {"one": {"basic": world.basic()}}}
    for name, key in (("ca", CA), ("anchor", ANCHOR)):
        folder, file = (5, folder_of(key)), (10, folder_of(key) + b"a.mft")
        for places in (
            [folder],
            [file],
            [folder, (10, folder_of(SOMEBODY) + b"a.mft")],
            [folder, (10, folder_of(key) + b"b/a.mft")],
            [folder, file, (11, folder_of(key) + b"a.sig")],
        ):
            yield "profile", TREE, {"certs": {name: {"sia": world.access(*places)}}}
        yield "profile", TREE, {"certs": {name: {"usage": world.usage(False)}}}
        yield "profile", TREE, {"certs": {name: {"sia": b""}}}
        yield "", TREE, {"certs": {name: {"sia": world.access((5, folder_of(key).upper().replace(b"/M/", b"/m/")), file)}}}
    yield "profile", TREE, {"certs": {"ca": {"crl": b""}}}
    yield "profile", TREE, {"certs": {"anchor": {"crl": world.crl_point(HOST + b"a.crl")}}}
    yield "profile", TREE, {"certs": {"anchor": {"aia": world.issuer_at(HOST + b"a.cer")}}}
    yield "", TREE, {"certs": {"anchor": {"authority": b""}}}
    # one that isn't an authority's continues no path
    for basic in (b"", world.basic(False)):
        yield "certificates lists", TREE, {"certs": {"ca": {"basic": basic}}}
        yield "certificates lists", TREE, {"certs": {"anchor": {"basic": basic}}}
    # one that signs by itself has to stand apart, too
    yield "profile", ITSELF, {"certs": {"one": {"role": "anchor"}}}
    yield "profile", ITSELF, {"certs": {"one": {"crl": b""}}}
    yield "profile", SHORT, {"certs": {"other": {"crl": b""}}}
    # an authority in a holder's place
    yield "profile", ALONE, {"certs": {"one": {"role": "authority"}}}


def of_times():
    for name in ("one", "ca", "anchor"):
        yield "time", TREE, {"certs": {name: {"validity": (b"20250101000001Z", LAST)}}}
        yield "time", TREE, {"certs": {name: {"validity": (FIRST, b"20241231235959Z")}}}
        yield "time", TREE, {"certs": {name: {"validity": (LAST, FIRST)}}}
        yield "", TREE, {"certs": {name: {"validity": (MOMENT, MOMENT)}}}
    yield "time", ALONE, {"certs": {"one": {"validity": (FIRST, b"20241231235959Z")}}}
    yield "time", SHORT, {"certs": {"other": {"validity": (b"20250101000001Z", b"20600101000000Z")}}}


def of_issuers():
    for name in ("one", "ca"):
        yield "issued", TREE, {"certs": {name: {"aia": b""}}}
        yield "issued", TREE, {"certs": {name: {"signed_by": SOMEBODY}}}
    yield "issued", TREE, {"certs": {"one": {"signed_by": OTHER_CA}}}
    yield "issued", TREE, {"certs": {"one": {"signed_by": ANCHOR}}}
    yield "issued", TREE, {"certs": {"ca": {"signed_by": CA}}}
    # names aren't compared
    yield "", TREE, {"certs": {"one": {"issuer_name": MAKER.name(SOMEBODY)}, "ca": {"issuer_name": MAKER.name(ONE)}}}
    # whose authority key identifier is missing ends its path by itself
    yield "end certificates lists", TREE, {"certs": {"one": {"authority": b""}}}
    yield "profile end", SHORT, {"without": ["other", "other list"], "certs": {"one": {"authority": b"", "crl": b""}}}
    yield "issued", ring(2), {"certs": {"ca 0": {"signed_by": SOMEBODY}}}
    yield "issued", ring(2), {"certs": {"one": {"signed_by": 21}}}
    # whoever ends a path isn't asked by whom it is issued
    yield "", ring(2), {"certs": {"ca 1": {"signed_by": SOMEBODY, "aia": b""}}}
    yield "", ALONE, {"certs": {"one": {"signed_by": SOMEBODY}}}
    yield "", ALONE, {"certs": {"one": {"aia": b""}}}


def of_lists():
    """Revocation lists (RFC 6487 5)."""
    for name, serial in (("ca list", 100 + ONE), ("other list", 100 + TWO), ("anchor list", 100 + CA)):
        key = TREE.lists[name]["key"]
        yield "revoked", TREE, {"without": [name]}
        yield "revoked", TREE, {"lists": {name: {"revoked": [serial]}}}
        yield "revoked", TREE, {"lists": {name: {"revoked": [5, serial, 6]}}}
        yield "revoked", TREE, {"lists": {name: {"updates": (FIRST, b"20241231235959Z")}}}
        yield "revoked", TREE, {"lists": {name: {"signed_by": SOMEBODY}}}
        yield "revoked lists", TREE, {"lists": {name: {"key": SOMEBODY}}}
        yield "revoked lists", TREE, {"lists": {name: {"key": SOMEBODY, "signed_by": key}}}
        yield "", TREE, {"lists": {name: {"updates": (FIRST, MOMENT)}}}
        yield "", TREE, {"lists": {name: {"updates": (LAST, MOMENT)}}}
        yield "", TREE, {"lists": {name: {"revoked": [5, serial + 200]}}}
        # one list that has it all is enough
        for other in (
            {"revoked": [serial]},
            {"updates": (FIRST, FIRST)},
            {"signed_by": SOMEBODY},
            {"number": 2},
        ):
            yield "", TREE, {"more_lists": [revocations(key, **other)]}
            yield "", TREE, {"more_lists": [revocations(key, **other)], "order": -1}
    # no one list has it all
    for first, second in (
        ({"revoked": [100 + ONE]}, {"updates": (FIRST, FIRST)}),
        ({"signed_by": SOMEBODY}, {"revoked": [100 + ONE]}),
        ({"updates": (FIRST, FIRST)}, {"signed_by": SOMEBODY}),
    ):
        yield "revoked", TREE, {"lists": {"ca list": first}, "more_lists": [revocations(CA, **second)]}
    # an anchor isn't looked up on its own list
    yield "", TREE, {"lists": {"anchor list": {"revoked": [100 + ANCHOR]}}}
    # two lists, each with the certificate of another one below
    yield "", Base(
        {"one": holder(ONE, ANCHOR, LOW), "two": holder(TWO, ANCHOR, HIGH), "anchor": anchor(ANCHOR, WIDE)},
        {"a": {"key": ANCHOR, "revoked": [100 + ONE]}, "b": {"key": ANCHOR, "revoked": [100 + TWO]}},
        (ONE, TWO),
        BOTH,
    ), {}
    yield "revoked", SHORT, {"lists": {"other list": {"revoked": [100 + ONE]}}}
    yield "", SHORT, {"lists": {"other list": {"revoked": [100 + OTHER_CA]}}}
    yield "revoked", ring(2), {"without": ["list 1"]}
    yield "revoked", ring(2), {"lists": {"list 1": {"revoked": [120]}}}
    yield "", ring(2), {"lists": {"list 0": {"revoked": [121]}}}
    yield "revoked", chain(100), {"lists": {"list 60": {"revoked": [259]}}}


def of_ends():
    """Anchors by themselves."""
    yield "end", TREE, {"certs": {"anchor": {"signed_by": SOMEBODY}}}
    yield "end", TREE, {"certs": {"anchor": {"signed_by": SOMEBODY, "authority": b""}}}
    for kind in KINDS:
        yield "end", TREE, {"certs": {"anchor": {"claims": {**WIDE, kind: "inherit"}}}}
        yield "", TREE, {"certs": {"ca": {"claims": {**WIDE, kind: "inherit"}}}}
        yield "end", ITSELF, {"certs": {"one": {"claims": {**LOW, kind: "inherit"}}}}
    yield "end content profile", ITSELF, {"certs": {"one": {"key_info": encoded(SOMEBODY)}}}
    yield "end", ITSELF, {"certs": {"one": {"signed_by": SOMEBODY}}}
    yield "end", APART, {"certs": {"b": {"signed_by": ANCHOR}}}
    yield "", ITSELF, {"certs": {"one": {"authority": b""}}}


def of_what_is_carried():
    """A certificate, or a list, that no path uses."""
    others = {
        "a holder's": certificate(**holder(SOMEBODY, CA, LOW)),
        "an authority's": certificate(**authority(SOMEBODY, CA, LOW)),
        "an anchor's": certificate(**anchor(SOMEBODY, WIDE)),
        "one that is no authority's": certificate(**holder(ANCHOR, ANCHOR, LOW)),
        "with nothing good": certificate(**{**holder(SOMEBODY, SOMEBODY, LOW), "signed_by": 5, "outer": EMPTY_ALGORITHM}),
    }
    for other in others.values():
        yield "certificates", TREE, {"more_certs": [other]}
        yield "certificates", TREE, {"more_certs": [other], "order": -1}
        yield "certificates", ALONE, {"more_certs": [other]}
    yield "certificates", SHORT, {"more_certs": [certificate(**authority(OTHER_CA + 50, OTHER_CA, LOW))]}
    for key in (SOMEBODY, ONE, TWO):
        yield "lists", TREE, {"more_lists": [revocations(key)]}
        yield "lists", TREE, {"more_lists": [revocations(key, signed_by=CA)], "order": -1}
    # a list of somebody who isn't carried
    for key in (CA, ONE, SOMEBODY):
        yield "lists", ALONE, {"more_lists": [revocations(key)]}
    yield "lists", SHORT, {"more_lists": [revocations(CA)]}
    yield "lists", ITSELF, {"more_lists": [revocations(ONE)]}
    yield "certificates lists", SHORT, {"more_certs": [certificate(**holder(SOMEBODY, CA, LOW))], "more_lists": [revocations(CA)]}


TOPICS = (of_keys, of_paths, of_contents, of_profiles, of_times, of_issuers, of_lists, of_ends, of_what_is_carried)
