"""All reasons that a line can be refused for, as the sources have them, and those that can't come.

A reason is the names of its variants from the outside in, with spaces between; of numbers that aren't held the kind stands
behind them. Files, prefixes and customers are left out.
"""

import functools
import pathlib
import re

CRATES = pathlib.Path(__file__).resolve().parents[2] / "crates"
# Where the enums are, for whoever copies what the scripts stand on.
SOURCES = ("rpki_rules/src/reason", "certs_extension/src/forms.rt", "objects_payload/src/locator/error.rt")
TOPS = ("LocatorReason", "PointReason", "FileReason")
ADDRESSES = ("ipv4", "ipv6")
# What variants hold that are no reasons themselves, by the words that are told of it.
HELD = {"Overclaimed": (*ADDRESSES, "as"), "AddressFamily": ADDRESSES, "ListedFile": ("",), "Asn": ("",)}
VARIANT = re.compile(r"^    (\w+)(?:\((\w+).*\))?,$", re.MULTILINE)

# The parts of reasons that never come, and why.
ANCHORS_OWN = "AuthorityKeyMismatch|CrlPresent|AiaPresent"
AUTHORITIES_OWN = "BasicConstraintsMissing|NotCa|RepositoryMissing|ManifestMissing|ManifestNotChild|SignedObjectPresent"
OBJECTS_OWN = "BasicConstraintsPresent|RepositoryPresent|ManifestPresent|SignedObjectMissing"
NEVER = (
    ("BadText Io", "the text is in the bundle, and is read to its end"),
    ("BadText Memory", "where memory is short there is no answer"),
    (
        ".* Inspection (ExtendedKeyUsageMissing|NotRouterUsage|SiaPresent|IpResourcesPresent|AsResources.*)",
        "routers' certificates aren't inspected",
    ),
    (f"BadAnchor .* Inspection (CrlMissing|{OBJECTS_OWN})", "it isn't asked of an anchor"),
    (f"CerFails .* Inspection ({ANCHORS_OWN}|{OBJECTS_OWN})", "it isn't asked of an authority below an anchor"),
    (
        f"(ManifestFails|ObjectFails) .* Inspection ({ANCHORS_OWN}|{AUTHORITIES_OWN})",
        "it isn't asked of a signed object's certificate",
    ),
    ("CerFails .* Inspection (BasicConstraintsMissing|NotCa)", "a `cer` that isn't an authority's is passed over"),
    ("(CerFails|ObjectFails) .* Inspection CrlMissing", "that a list is named is tested before, as `NamesList`"),
    ("ManifestFails ListNamed", "that a list is named is tested before, as `CrlMissing` of the manifest's certificate"),
    ("ManifestFails Folder", "the authority was accepted, which has a folder (`RepositoryMissing`)"),
    ("BadAnchor .* Verification (AuthorityKey.*|AiaMissing)", "an anchor has no issuer but itself"),
    ("(ManifestFails|CerFails|ObjectFails) .* Verification Inherited.*", "numbers may be inherited below an issuer"),
    (".* Verification Overclaim.*", "claims are tested apart, as `ManifestClaim`, `CerClaim` and `ObjectClaim`"),
)


@functools.cache
def enums():
    """Of each enum of the sources the variants, each with the first type that it holds, or none."""
    found = {}
    for source in SOURCES:
        path = CRATES / source
        for file in sorted(path.rglob("*.rt")) if path.is_dir() else [path]:
            for name, body in re.findall(r"^pub enum (\w+) \{\n(.*?)^\}", file.read_text(), re.MULTILINE | re.DOTALL):
                found[name] = VARIANT.findall(body)
    return found


def words_of(name):
    """The reasons of an enum, or what is told of a type."""
    if name in HELD:
        return HELD[name]
    return [f"{variant} {more}".strip() for variant, held in enums()[name] for more in (words_of(held) if held else ("",))]


def every_reason():
    return [words for top in TOPS for words in words_of(top)]


def why_never(words):
    """Why a reason can't come, or none."""
    return next((why for pattern, why in NEVER if re.fullmatch(pattern, words)), None)


def bare(words):
    """A reason without the files, numbers, prefixes and customers that it names."""
    names = any(word.endswith(("Claim", "PrefixHeld", "FileHeld", "FileHash", "CustomerHeld")) for word in words)
    return " ".join(words[:-1] if names else words)


def shortfalls(counts, least=2):
    """What is wrong with how often each reason was shown: too few, or one that can't come."""
    every = every_reason()
    yield from (f"{words}: no such reason" for words in sorted(set(counts) - set(every)))
    for words in every:
        why, count = why_never(words), counts.get(words, 0)
        if why and count:
            yield f"{words}: shown {count} times, though {why}"
        elif not why and count < least:
            yield f"{words}: shown {count} times"
