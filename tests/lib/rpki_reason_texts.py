"""What `rpki_ask refusals` and `rpki_ask why` print of the second reading's reasons: lines for people, JSON for programs."""

import json
import re

# Subjects by how the words of their reasons begin, the longest ones first: for programs, and in lines.
SUBJECTS = (
    ("BadText", "locator", "locator"),
    ("NoneHeld", "anchor", "anchor"),
    ("NoCert", "anchor", "anchor"),
    ("BadAnchor", "anchor", "anchor"),
    ("ManifestFails ManifestCert", "manifest-certificate", "certificate of the manifest"),
    ("ListFails NotOnList", "manifest-certificate", "certificate of the manifest"),
    ("ListFails ManifestClaim", "manifest-certificate", "certificate of the manifest"),
    ("NoManifest", "manifest", "manifest"),
    ("BadManifest", "manifest", "manifest"),
    ("ManifestFails", "manifest", "manifest"),
    ("BadList", "list", "revocation list"),
    ("ListFails", "list", "revocation list"),
    ("BadCer", "certificate", "certificate"),
    ("CerFails", "certificate", "certificate"),
    ("Loop", "certificate", "certificate"),
    ("Depth", "certificate", "certificate"),
    ("BadObject", "object", "object"),
    ("ObjectFails ObjectContent", "object", "object"),
    ("ObjectFails PrefixHeld", "object", "object"),
    ("ObjectFails CustomerHeld", "object", "object"),
    ("ObjectFails", "object-certificate", "certificate of the object"),
)

# Faults of all but inspections by the last word of their reasons: for programs, in lines, and the key of what is named.
FAULTS = {
    "UnexpectedEof": ("unexpected-eof", "unexpected end of file"),
    "BadUri": ("bad-uri", "bad trust anchor URI"),
    "BadKeyInfoEncoding": ("bad-key-info-encoding", "bad key info encoding"),
    "BadKeyInfo": ("bad-key-info", "bad key info"),
    "NoneHeld": ("missing", "missing at the locator's URIs"),
    "NoCert": ("unreadable", "not a certificate"),
    "SameKey": ("other-key", "another key than the locator's"),
    "NotYetValid": ("not-yet-valid", "not yet valid"),
    "Expired": ("expired", "expired"),
    "AuthorityKeyMissing": ("authority-key-missing", "missing authority key identifier"),
    "AuthorityKeyMismatch": ("authority-key-mismatch", "authority key identifier of another key"),
    "AiaMissing": ("aia-missing", "missing URI of the issuer"),
    "BadSignature": ("bad-signature", "bad signature"),
    "InheritedV4": ("inherited-ipv4", "inherited IPv4 addresses"),
    "InheritedV6": ("inherited-ipv6", "inherited IPv6 addresses"),
    "InheritedAs": ("inherited-as", "inherited AS numbers"),
    "Digest": ("message-digest", "message digest of another content"),
    "SigningTime": ("signing-time", "signed after the certificate expired"),
    "Signature": ("bad-signature", "bad signature"),
    "NoManifest": ("missing", "missing"),
    "BadManifest": ("unreadable", "unreadable"),
    "ThisUpdate": ("this-update", "this update is after the moment"),
    "NextUpdate": ("next-update", "next update is before the moment"),
    "NamesDiffer": ("name-twice", "lists a name twice"),
    "FileHeld": ("file-missing", "missing file", "file"),
    "FileHash": ("file-changed", "changed file", "file"),
    "ListListed": ("list-unlisted", "doesn't list the revocation list"),
    "BadList": ("unreadable", "unreadable"),
    "ListAuthority": ("other-authority", "of another authority"),
    "ListThisUpdate": ("this-update", "this update is after the moment"),
    "ListNextUpdate": ("next-update", "next update is before the moment"),
    "ListSignature": ("bad-signature", "bad signature"),
    "NotOnList": ("revoked", "revoked"),
    "ManifestClaim": ("overclaim", "overclaims", "unheld"),
    "CerClaim": ("overclaim", "overclaims", "unheld"),
    "ObjectClaim": ("overclaim", "overclaims", "unheld"),
    "NamesList": ("list-unnamed", "names no revocation list"),
    "SameList": ("other-list", "names another revocation list"),
    "NotRevoked": ("revoked", "revoked"),
    "BadCer": ("unreadable", "unreadable"),
    "Loop": ("loop", "its key is on the chain already"),
    "Depth": ("depth", "the chain has as many certificates as it may"),
    "BadObject": ("unreadable", "unreadable"),
    "PrefixHeld": ("unheld-prefix", "unheld prefix", "prefix"),
    "CustomerHeld": ("unheld-customer", "unheld customer", "customer"),
}

# Inspections (RFC 6487 4) in lines; for programs their words are in small letters, with hyphens between.
INSPECTIONS = {
    "AlgorithmMismatch": "signature algorithm mismatch in certificate",
    "BadIssuer": "invalid issuer",
    "BadSubject": "invalid subject",
    "KeyAlgorithm": "public key algorithm not allowed for RPKI certificates",
    "KeyIdMismatch": "Subject Key Identifier extension doesn't match public key",
    "AuthorityKeyMismatch": "Authority Key Identifier doesn't match Subject Key Identifier",
    "ExtendedKeyUsagePresent": "Extended Key Usage extension not allowed in RPKI certificates",
    "CrlMissing": "missing CRL Distribution Points extension in certificate",
    "CrlPresent": "CRL Distribution Points extension not allowed in trust anchor certificate",
    "AiaPresent": "Authority Information Access extension not allowed in trust anchor certificate",
    "BasicConstraintsPresent": "Basic Constraints extension not allowed in end entity certificate",
    "BasicConstraintsMissing": "missing Basic Constraints extension in CA certificate",
    "NotCa": "cA flag in Basic Constraints extension set to false",
    "WrongKeyUsage": "invalid Key Usage extension in certificate",
    "RepositoryMissing": "missing id-ad-caRepository SIA instance in CA certificate",
    "RepositoryPresent": "id-ad-caRepository SIA instance not allowed in end entity certificate",
    "ManifestMissing": "missing id-ad-rpkiManifest SIA instance in CA certificate",
    "ManifestPresent": "id-ad-rpkiManifest SIA instance not allowed in end entity certificate",
    "ManifestNotChild": "id-ad-rpkiManifest is not a child of id-ad-caRepository",
    "SignedObjectMissing": "missing id-ad-signedObject SIA instance in signed object end entity certificate",
    "SignedObjectPresent": "id-ad-signedObject SIA instance not allowed in CA certificate",
}


def subject(words):
    """The subject of a reason, for programs and in lines."""
    text = " ".join(words)
    return next((word, said) for start, word, said in SUBJECTS if text.startswith(start))


def fault(words):
    """Of a reason the fault, for programs and in lines, and what it names, if anything, with its key."""
    if "Inspection" in words:
        word = words[-1]
        return "-".join(re.findall("[A-Z][a-z]*", word)).lower(), INSPECTIONS[word], None, None
    at = next(at for at, word in enumerate(words) if word in FAULTS)
    word, said, *key = FAULTS[words[at]]
    if not key:
        return word, said, None, None
    named = "AS" + words[-1] if key == ["customer"] else words[-1]
    return word, f"{said} {named}", key[0], named


def in_order(rows):
    return sorted(rows, key=lambda row: (row[0], row[1], row[3][:1] or (row[0],), row[3][1:]))


def way(row):
    """The locator's name and the chain's lookup keys."""
    locator, *chain = row[3] or (row[0],)
    return locator.decode(), [key.decode() for key in chain]


def line(row):
    """A row of rpki_reasons.py as a line."""
    name, cause, words, _ = row
    locator, chain = way(row)
    said = f"refused {name.decode()} {cause.decode()}: {subject(words)[1]}: {fault(words)[1]}"
    return f"{said}; by {' '.join([locator, *chain])}"


def value(row):
    """A row as JSON has it."""
    name, cause, words, _ = row
    locator, chain = way(row)
    word, _, key, named = fault(words)
    found = {"name": name.decode(), "cause": cause.decode(), "reason": f"{subject(words)[0]}-{word}"}
    if key:
        found[key] = named
    return {**found, "locator": locator, "chain": chain}


def lines(rows):
    return [line(row) for row in in_order(rows)]


def json_text(value):
    """A value as the program writes it, without spaces."""
    return json.dumps(value, separators=(",", ":"))


def refusals_object(rows):
    return json_text({"refused": [value(row) for row in in_order(rows)]})
