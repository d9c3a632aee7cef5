#!/usr/bin/env python3
"""Shows how the libraries' calls answer where growths of memory are refused.

    calls_growths.py PROGRAM [--member MEMBER].. [--few] [--only WORD]

PROGRAM is a build of tests/program. A row of the table below names calls, and the questions of a member that ask them, which the
member's script in tests/questions has; of five worked cases walks, judges, reaches, chains and points are asked, too, whose answers are
those of the second reading (`rpki_model.py`). Some questions of each kind of each row are asked, and one for each setting, one a run,
with each growth of memory refused in turn, alone and with all that come after it (with --few, one question of each kind, and each growth
alone), by `refuse_growth.c`, which is preloaded. With --member only these members' rows are asked.

The answer has to be the right one, or a front of its words and then that memory is lacking, or that something is refused for lack of
memory; or the program ends with that fault and no answer. A word of an answer that finds no memory is left out, and octets of a
question that find none are taken for none. So growths of the answer itself and those that hold a question's octets are spared, but for
the first of the answer's, and of its parts', which can't be told from others: where one of these is refused, a word goes, or its first
sign. Where a member tells less (it answers `unreadable`, whatever the error), those words are taken for an answer of it.

Prints the runs of each row, a line for each run that wasn't right, and `N passed, M failed`, a run being one test.
"""

import argparse
import collections
import concurrent.futures
import importlib
import os
import re
import string
import sys
import tempfile
import typing

sys.dont_write_bytecode = True
sys.path.insert(0, os.path.join(os.path.dirname(os.path.abspath(__file__)), os.pardir, "lib"))

import rpki_model  # noqa: E402
import rpki_relaxed  # noqa: E402
import rpki_walks  # noqa: E402
from outcomes import TOP  # noqa: E402
from refusals import compiled, refusals, run  # noqa: E402

LONGEST = 9000  # octets of a question
SPARED = 30_000  # octets of the answer that tell its own growth, at most
FIXED = "invalid extension"
OCTETS = re.compile(r"\bx[0-9a-f]+")
DIGITS = re.compile(r"([0-9a-f]{2})+")
SETTING = re.compile(r"(?<![^ ;\t])[a-z]\w*=[a-z]*")
MORE = 4  # growths of a word whose first sign alone, or nothing, is told
WORD = re.compile(r"[^][(),]+")  # (what stands in brackets is no word of an answer by itself)
GREAT = "(not implemented)"  # how a component of an identifier is told that is no number of 32 bits, within a word
MEMORY = re.compile(r"(?:out of |no )?memory", re.IGNORECASE)
SIGNS = string.whitespace + string.punctuation.replace("_", "")
# What questions of a member are answered where something that they need first can't be read, whatever the error; of the validator's that
# is so but for a few topics. (The others tell each error.)
UNTOLD = {
    "resources": re.compile(r"refused: no (AS resources|IP resources|family)"),
    "validator": re.compile(r"no (anchor|authority|certificate|chain)|unreadable( asked 0)?"),
}
TOLD = ("ask", "walk", "witnesses", "judge", "reach", "naming")
NOTHING = re.compile(r"(?!)")


class Row(typing.NamedTuple):
    """A member, the first words of questions to it, the calls that they ask, how many questions are asked, and what else is answered
    where a growth is refused, as a pattern: how lack of memory is said, or that a writer of the program's own is full. Where words such as
    `v4=listed` set something by calls of their own, one question more is asked of each that no other one sets.

    Of the words `*` is any, and `+` is any, too, and says what is asked: so many questions are asked of each. The calls are types with
    their calls behind them, and functions, as `tests/tools/growing.py` reads them; what is named otherwise it passes over."""

    member: str
    words: str
    calls: str
    most: int = 2
    others: str = ""
    is_set: bool = False

    def kind(self, words):
        """What a question of these words asks, by the words at each `+`; none where it isn't of the row."""
        pattern = self.words.split()
        if len(words) < len(pattern) or any(want not in ("*", "+", word) for want, word in zip(pattern, words)):
            return None
        return tuple(word for want, word in zip(pattern, words) if want == "+")


ROWS = (
    # Values that are read, gone past, captured and written.
    Row(
        "codec",
        "front * +",
        "Constructed: take_primitive_if, take_bool, take_null, take_u8, take_u64, skip_one, capture_one; Primitive: to_i8, "
        "to_i64, to_u128; Integer, Unsigned, Oid, BitString, OctetString, RestrictedString: take_from; Decode: decode",
    ),
    Row(
        "codec",
        "content * * +",
        "Constructed: take_.., skip_.., capture_.., capture; Content: primitive, constructed; Primitive: to_u8, to_null, "
        "skip_all, take_all; Captured: decode, decode_partial; read_front, request_all, take_front",
    ),
    Row("codec", "constructed +", "Constructed: decode", 1),
    Row("codec", "walks +", "Constructed: skip_one, capture_one"),
    Row("codec", "skip visits", "Constructed: skip"),
    Row("codec", "skip refused", "Constructed: skip"),
    Row("codec", "tagged +", "Constructed: take_value, take_value_if; Content: to_.., skip_u8_if"),
    Row(
        "codec",
        "source +",
        "Source: request, bytes, skip, take_u8, take_opt_u8; LimitedSource: skip_all, take_all, exhausted; CaptureSource: "
        "into_bytes; BytesSource: split_to; Primitive: to_bool, to_null, to_u16, to_u32, skip_u8_if, skip_all, take_all",
    ),
    Row(
        "codec",
        "write * * +",
        "Values, PrimitiveContent: encoded_len, write_encoded, write_known; CapturedBuilder: new, with_capacity, from_captured, "
        "extend, freeze; total_encoded_len, write_header, write_octets",
    ),
    # Integers, identifiers, strings.
    Row(
        "codec",
        "number + *",
        "Primitive: to_..; Integer: i8_from_primitive, i16_from_primitive, i32_from_primitive, i64_from_primitive, "
        "i128_from_primitive, u8_from_primitive, u16_from_primitive, u32_from_primitive, u64_from_primitive, "
        "u128_from_primitive; Unsigned: u8_from_primitive, u16_from_primitive, u32_from_primitive, u64_from_primitive, "
        "u128_from_primitive",
        4,
    ),
    Row("codec", "integer +", "Integer: from_primitive, from_..; Primitive: decode_slice", 3),
    Row("codec", "integer from +", "Integer: from_.., each type"),
    Row("codec", "unsigned +", "Unsigned: from_primitive, from_slice, from_bytes, from_..", 3),
    Row("codec", "unsigned from +", "Unsigned: from_.., each type"),
    Row(
        "codec",
        "oid +",
        "Oid: take_from, take_opt_from, skip_in, skip_opt_in, skip_if, skip_primitive, from_primitive, from_str",
        3,
    ),
    Row("codec", "bits +", "BitString: take_from, skip_in, from_content, octet_bytes", 3),
    Row("codec", "octets +", "OctetString: take_from, take_opt_from, from_content, to_bytes", 3),
    Row("codec", "string * +", "RestrictedString: take_from, take_opt_from, from_content, from_str, from_string, to_bytes"),
    # Sets of numbers.
    Row(
        "resources",
        "as +",
        "AsBlocks: from_str, from_resources, union, intersection, difference, verify_issued, verify_covered, verify_path, "
        "take_from, clone; AsResources: take_from, to_blocks, from_str; AsBlock, Asn: take_opt_from, skip_opt_in, skip_in; "
        "Chain: trim",
    ),
    Row(
        "resources",
        "v4 +",
        "IpBlocks, of IPv4: from_str, from_resources, union, intersection, difference, verify_issued, verify_covered, "
        "verify_path, clone; IpResources: to_blocks",
    ),
    Row("resources", "v6 +", "IpBlocks, of IPv6: the same"),
    Row(
        "resources",
        "ip +",
        "IpResources: take_families_from, take_from; IpBlocks: take_from; IpBlock, AddressRange, Prefix, AddressFamily: "
        "take_from, take_opt_from, skip_opt_in",
    ),
    Row("resources", "all +", "ResourceSet: from_strs, from_resources, to_as_resources, union, intersection, difference"),
    Row("resources", "call prefix +", "Prefix: from_v4_str, from_v6_str, from_family_str"),
    Row("resources", "call max +", "prefixes with a greatest length: from_str"),
    Row("resources", "call addr +", "Addr, Prefix: from_family_str, from_v4_str, from_v6_str"),
    Row("resources", "call range +", "AddressRange: from_v4_str, from_v6_str, from_family_str"),
    Row("resources", "call block +", "IpBlock: from_v4_str, from_v6_str, from_family_str"),
    Row("resources", "call asn +", "SmallAsnSet: new, from_iter, insert; OwnedChain: from_vec"),
    Row("resources", "call as +", "AsBlocks: all, from_iter, intersection_assign; AsBlocksBuilder: new, push, finalize"),
    Row(
        "resources",
        "call chain +",
        "Chain: trim, difference, intersection, union; OwnedChain: empty, from_vec, from_iter; SharedChain: from_owned, "
        "from_iter, verify_issued, verify_covered, verify_path, clone; ResourcesChoice: to_blocks",
    ),
    Row("resources", "call family +", "FamilyBlocks: all, from_iter, from_str, to_ip_resources; IpBlocks: all"),
    Row("resources", "call list +", "orders of lists, places in chains"),
    Row(
        "resources",
        "resources +",
        "AsResourcesBuilder, IpResourcesBuilder: blocks, finalize; AsBlocks, IpBlocks: all, from_iter, from_resources, "
        "intersection_assign; IpBlocksBuilder: new, push, finalize",
        # (what is outside is told where the claim is refused for it alone)
        others="false",
    ),
    Row(
        "resources",
        "set +",
        "ResourceSet: all, to_as_resources, to_ip_resources_v4, to_ip_resources_v6, from_strs; AsBlocks, FamilyBlocks: "
        "check_str",
    ),
    Row(
        "resources",
        "der +",
        "Asn: take_from, take_opt_from, skip_in; AsBlock: take_opt_from, skip_opt_in; AsBlocks, AsResources, IpBlocks, "
        "IpResources: take_from; IpResources: take_families_from; AddressFamily: take_from, take_opt_from, skip_opt_in; "
        "AddressRange, Prefix: take_from, take_opt_from; IpBlock: take_opt_from",
    ),
    # Names, keys, moments, algorithms.
    Row(
        "certificates",
        "uri + +",
        "Rsync: from_bytes, from_slice, join, parent, lookup_key; Https: from_bytes, from_slice, lookup_key; lookup_key",
    ),
    Row("certificates", "access +", "the URIs of each general name", 3),
    Row("certificates", "name +", "Name: take_from, from_key_identifier", 3),
    Row("certificates", "serial +", "Serial: take_from, from_primitive, from_slice", 3),
    Row("certificates", "time +", "Time: take_from, take_generalized_from; Validity: take_from; Verify: verify_validity", 3),
    Row("certificates", "key +", "PublicKey: decode, take_from, to_subject_name, clone; KeyIdentifier: take_from, from_content", 4),
    Row(
        "certificates",
        "signed +",
        "SignedData: decode, take_from, from_constructed; SignatureAlgorithm: x509_take_from; RpkiSignatureAlgorithm: "
        "cms_take_from; DigestAlgorithm: take_from, take_opt_from, take_set_from; Signature: into_value",
        3,
    ),
    # Certificates.
    Row("certificates", "cert read +", "Cert: decode, to_captured, clone", 4),
    Row("certificates", "cert within +", "Cert: take_from, take_opt_from, from_constructed; TbsCert: from_constructed"),
    Row("certificates", "cert inspect +", "each inspect_.."),
    Row("certificates", "cert anchor +", "Validate: validate_ta_at, validate_ta; Verify: verify_ta_at, verify_ta; TalInfo: into_rc"),
    Row(
        "certificates",
        "cert issued * +",
        "Validate: validate_ca_at, validate_ca, validate_ee_at, validate_ee, validate_detached_ee_at, validate_detached_ee, "
        "validate_router_at, validate_router; Verify: verify_..",
    ),
    Row(
        "certificates",
        "cert built +",
        "TbsCert: new, build_.., v4_resources_from_iter, v6_resources_from_iter, as_resources_from_iter, clone; "
        "ExtendedKeyUsage: create_router, take_from; BuildCert: into_cert; Signer: get_key_info, sign, sign_one_off",
        8,
        is_set=True,
    ),
    # Revocation lists.
    Row(
        "certificates",
        "crl +",
        "Crl: decode, cache_serials, verify_issuer_claim, verify_signature, to_captured, clone; SignedData: verify_signature; "
        "SignedDataValues: in_der; SerialCache: new; RevokedCertificates: serials; InvalidExtension: to_content_error",
        4,
    ),
    Row("certificates", "store +", "CrlStore: new, push, clone"),
    Row("certificates", "entry +", "CrlEntry: take_from, take_opt_from, from_constructed", 3),
    Row("certificates", "listed +", "RevokedCertificates: take_from, take_opt_from, from_entries, clone", 3),
    Row(
        "certificates",
        "made +",
        "TbsCertList: into_crl, into_revoked, clone; IntoRevoked: into_revoked; RevokedCertificates: from_entries; Signer: sign",
        3,
    ),
    Row("certificates", "made set +", "TbsCertList: each set_..", 1),
    Row("certificates", "within +", "Crl: take_from, take_opt_from, from_constructed, clone; TbsCertList: take_from", 3),
    # Signed objects, contents, locators.
    Row(
        "objects",
        "object strict +",
        "SignedObject: decode, take_from; SignerInfo, SignedAttrs: take_from, from_constructed; EncodeAttributes: "
        "message_digest",
    ),
    Row("objects", "object relaxed +", "the same, in BER"),
    Row("objects", "again strict +", "EncodeObject: to_captured, encode_ref"),
    Row("objects", "again relaxed +", "the same, in BER"),
    Row("objects", "attributes +", "EncodeAttributes: encode_ref, encode_verify, message_digest"),
    Row("objects", "message", "EncodeAttributes: take_from_signed_message; SignedAttrs: take_from"),
    Row("objects", "content +", "DecodeContent: decode_content"),
    Row("objects", "manifest +", "ManifestContent: take_from, decode; FileList: take_from", 4),
    Row("objects", "roa", "RouteOriginAttestation: take_from, decode; RoaIpAddresses: take_from; RoaIpAddress: take_opt_from", 4),
    Row("objects", "aspa", "AsProviderAttestation: take_from, decode, as_resources; ProviderAsSet: take_from, to_set", 4),
    Row("objects", "uris", "ManifestFiles: iter_uris", 3),
    Row("objects", "make", "ManifestBuilder: new, push, to_content", 3),
    Row("objects", "addresses", "RoaIpAddresses: encode_ref", 3),
    Row("objects", "locator +", "Tal: read_named, from_text; TalUri: from_bytes, from_string, from_slice", 4),
    # Objects that are built.
    Row(
        "objects",
        "built +",
        "SignedObjectBuilder: finalize, build_..; RoaBuilder: new, push_.., extend_v4_from_slice, extend_v6_from_slice, "
        "to_attestation; RoaIpAddresses: empty; RoaIpAddressesBuilder: new, push, push_addr, extend_from_slice, to_addresses; "
        "ToIpResources: to_resources; FinalizeRoa: finalize; IntoManifest: into_manifest; AspaBuilder: empty, add_provider, "
        "as_resources, finalize, to_octets; Signer: get_key_info, sign_one_off; signed_attributes, signed_message",
        4,
        is_set=True,
    ),
    # Signed checklists.
    Row("objects", "rsc content", "ResourceSignedChecklist: take_from, decode", 4),
    Row("objects", "rsc object", "Signed: decode", 3),
    Row("objects", "rsc process", "Signed: process_at", 3),
    Row("objects", "rsc process-clock", "Signed: process", 1),
    Row("objects", "rsc sound", "Signed: verify_content", 1),
    # Resource tagged attestations.
    Row(
        "objects",
        "rta read +",
        "Rta: decode; MultiSignedObject: take_from; ResourceTaggedAttestation: take_from; take_opt_signer",
        6,
    ),
    Row("objects", "rta multi +", "MultiSignedObject: decode, decode_content", 4),
    Row("objects", "rta content", "ResourceTaggedAttestation: decode", 6),
    Row("objects", "rta signer +", "EncodeSigner: take_opt_from", 3),
    Row(
        "objects",
        "rta again +",
        "EncodeMulti: encode_ref, to_captured; EncodeAttestation: encode_ref, to_captured; EncodeSigner: encode_ref",
        4,
    ),
    Row("objects", "rta valid +", "Validation: new_at, supply_ca, finalize", 20),
    Row("objects", "rta clock +", "Validation: new", 4),
    Row("objects", "rta built", "AttestationBuilder: new, push_key, push_as, push_v4, push_v6, into_attestation", 8),
    Row("objects", "rta signed", "AttestationBuilder: into_rta_builder; RtaBuilder: from_attestation, push_cert, push_crl, sign", 12),
    # Bundles, points, validated objects.
    Row("validator", "decode", "Bundle: decode", 3),
    Row("validator", "again", "Bundle: decode, encode", 3),
    Row("validator", "parts", "Bundle: from_parts, from_parts_v1", 4),
    Row("validator", "upgrade +", "Bundle: upgrade"),
    Row("validator", "uri", "lookup_key", 2),
    Row("validator", "manifest +", "Manifest: validate_at, validate; Signed: decode, verify_content; SignedContent: from_content"),
    Row("validator", "roa +", "Signed: decode, verify_content, process_at, process"),
    Row("validator", "aspa +", "Signed: decode, verify_content, process_at, process"),
    Row("validator", "object +", "ProcessObject: validate_at, validate_detached_at, process_at, validate, validate_detached, process"),
    Row("validator", "sound +", "verify_content; SignedObject: verify_content", others="unsound: out of memory asked 0"),
    Row("validator", "typed +", "DecodeIfType: decode_if_type"),
    Row("validator", "written +", "EncodeManifest, EncodeRoa: to_octets", 3),
    # Walks, and the programs' commands.
    Row("validator", "ask +", "judge, reach, naming_chains, cost, through rpki_ask", 2, r"2 \[\] \[(out of memory|write fault)\|\]"),
    Row("validator", "ask refusals", "diagnose; Path: of_locator", 6, r"2 \[\] \[(out of memory|write fault)\|\]"),
    # (what asks these is made below)
    Row("validator", "walk", "walk, walk_lines, run, read_bundle, render; Bundle: decode_shared; Report, Path: new, longer", 4, "write fault "),
    Row("validator", "witnesses", "walk; Report: new", 4),
    Row("validator", "judge", "judge, judge_by", 4),
    Row("validator", "reach", "reach", 4),
    Row("validator", "naming", "naming_chains", 4),
    Row("validator", "point", "point", 4),
    Row("validator", "unheld", "point_unheld", 4),
)

CASES = {
    "single-roa": lambda: rpki_walks.single()[0],
    "two-aspas": rpki_walks.customers,
    "two-parents": rpki_walks.parents,
    "trimmed-ca": rpki_walks.trimmed,
    "ber-roa": lambda: rpki_relaxed.ber_roa(True),
}


# Questions.


def walks(octets, few):
    """Walks, witnesses, judges of each witness, reaches of each object, or of a few, and the chains that name it."""
    found = rpki_model.walk(octets)
    yield "walk", ("walk", "fips", octets.hex()), rpki_walks.outcome(octets)
    rows = sorted((file, locator, chain) for locator, chain, file in found.witnesses)
    said = " ".join(" ".join(part.decode() for part in (b"good", file, locator, *chain)) for file, locator, chain in rows)
    yield "witnesses", ("witnesses", octets.hex()), said
    for locator, chain, file in sorted(found.witnesses):
        words = (locator.decode(), b",".join(chain).decode(), file.decode(), octets.hex())
        yield "judge", ("judge", *words), f"yes {len(chain)}"
    for uri in sorted(found.held)[:: 4 if few else 1]:
        yield "reach", ("reach", uri.decode(), octets.hex()), rpki_walks.reach_text(found.reach([uri]))
        yield "naming", ("naming", uri.decode(), octets.hex()), rpki_walks.naming_text(found, [uri])


def points(octets, _few):
    """Points of each chain, by what it holds and whatever that is."""
    import rpki_points

    for words, answer, (topic, _) in rpki_points.asked(octets):
        if topic in ("point", "unheld"):
            yield topic, tuple(word.decode() if isinstance(word, bytes) else word for word in words), answer


# What is asked of the bundles of the worked cases, by the member.
OF_CASES = {"validator": (points, walks)}
# What worlds are told line by line needs the lines before.
BY_LINES = "world"


def written(member):
    """The questions that a member's script has with their answers, but for the long ones."""
    for question, answer in importlib.import_module(member).questions():
        named, _, words = question.partition("\t")
        if named != member:
            raise ValueError(f"tests/questions/{member}.py asks {question[:100]!r}")
        if len(words) < LONGEST and not words.startswith(BY_LINES):
            yield question, answer


def spread(found, most):
    """So many of the answers, of all lengths, the longest among them; of each answer its question."""
    answers = sorted(found, key=len, reverse=True)
    places = {at * len(answers) // most for at in range(most)} if answers else ()
    return [(found[answers[at]], answers[at]) for at in sorted(places)]


def settings_left(shortest, asked):
    """For each setting that no question has which is asked, the shortest question that has it. (Two ways to set the same have the
    same answer.)"""
    has = {setting for question, _ in asked for setting in SETTING.findall(question)}
    return dict.fromkeys(one for setting, one in shortest.items() if setting not in has)


def questions(member, few):
    """By row the questions that are asked, with their answers."""
    rows = [row for row in ROWS if row.member == member]
    found = {row: collections.defaultdict(dict) for row in rows}
    shortest = {row: {} for row in rows if row.is_set}
    for question, answer in written(member):
        words = question.split("\t")[1:]
        for row in rows:
            kind = row.kind(words)
            if kind is not None:
                found[row][kind].setdefault(answer, question)
                for setting in SETTING.findall(question) if row.is_set else ():
                    one = question, answer
                    shortest[row][setting] = min(shortest[row].get(setting, one), one, key=lambda pair: len(pair[0]))
    asked = {row: [it for kind in found[row].values() for it in spread(kind, 1 if few else row.most)] for row in rows}
    for row in shortest:
        asked[row] += settings_left(shortest[row], asked[row])
    for make in CASES.values() if member in OF_CASES else ():
        octets = make().bundle()
        for topic, words, answer in (it for of_case in OF_CASES[member] for it in of_case(octets, few)):
            row = next(row for row in rows if row.words == topic)
            asked[row].append(("\t".join((member, *words)), answer))
    return asked


# Runs.


def front_of(line):
    """What stands in front of the words that memory is lacking, or that something is refused for lack of it; none where it isn't told.
    (One pattern for all of it would take a time that grows with the cube of the signs that stand in a row.)"""
    found = MEMORY.search(line)
    return None if found is None else line[: found.start()].rstrip(SIGNS).removesuffix("refused").rstrip(SIGNS)


def is_right(outcome, answer, row):
    """Whether a run with a refused growth was answered as it should be."""
    status, told, fault = outcome
    if status != 0:
        return status == 1 and told == b"" and b"memory" in fault.lower()
    line = told.decode(errors="replace").removesuffix("\n")
    if line in (answer, OCTETS.sub("x", answer)) or (line == FIXED and answer.startswith(FIXED + " ")):
        return True
    untold = NOTHING if row.words.split()[0] in TOLD else UNTOLD.get(row.member, NOTHING)
    if untold.fullmatch(line) or (row.others and re.fullmatch(row.others, line)):
        return True
    front = front_of(line)
    return front is not None and answer.startswith(front)


def is_short(outcome, answer):
    """Whether a word of the answer is left out, or its first sign, or the start of the first word."""
    status, told, _ = outcome
    line = told.decode(errors="replace").removesuffix("\n")
    if status != 0:
        return False
    line, answer = line.replace(GREAT, "-"), answer.replace(GREAT, "-")
    words = answer.split(" ")
    fewer = (" ".join(words[:at] + lost + words[at + 1 :]) for at, word in enumerate(words) for lost in ([], [""], [word[1:]]) if WORD.fullmatch(word))
    # (a bundle is told by a number, a word and a digest with nothing between)
    glued = answer.replace("octets", "", 1)
    return answer.strip().endswith(line.strip()) or line in fewer or (glued != answer and line != "" and glued.startswith(line))


def try_question(program, shim, row, question, answer, few):
    """How many runs there were, and the ones that weren't right."""
    sizes = ",".join(str(len(word) // 2) for word in question.split("\t") if DIGITS.fullmatch(word))
    octets, spare = f"{question}\n".encode(), {"SPARE": answer[:SPARED], "SPARE_SIZES": sizes}
    outcome, growths = run(program, shim, [], octets, spare)
    if outcome != (0, f"{answer}\n".encode(), b""):
        return 1, [("nothing refused", outcome)]
    runs, wrong, shorts = 1, [], collections.Counter()
    for refusal, _ in refusals(len(growths)):
        way = next(iter(refusal))
        if few and way != "REFUSE_AT":
            continue
        runs += 1
        outcome, _ = run(program, shim, [], octets, {**spare, **refusal})
        if not is_right(outcome, answer, row):
            shorts[way] += is_short(outcome, answer)
            # (after that growth all that come later may be refused, too)
            if not is_short(outcome, answer) or (way == "REFUSE_AT" and shorts[way] > len(answer.split(" ")) + MORE):
                wrong.append((refusal, outcome))
    return runs, wrong


def try_row(pool, program, shim, row, asked, few):
    """How many runs of a row were right, and how many were not."""
    runs = failed = 0
    tries = [pool.submit(try_question, program, shim, row, question, answer, few) for question, answer in asked]
    for (question, answer), done in zip(asked, tries):
        count, wrong = done.result()
        runs, failed = runs + count, failed + len(wrong)
        for outcome, times in collections.Counter(outcome for _, outcome in wrong).items():
            first = next(refusal for refusal, one in wrong if one == outcome)
            status, told, fault = outcome
            print(f"  {question[:100]!r}, {first} and {times - 1} others: status {status}, {told[:200]!r} {fault[:200]!r}")
        if wrong:
            print(f"  {answer[:200]!r} is right", flush=True)
    print(f"{row.member} {row.words} ({row.calls}): {len(asked)} questions, {runs} runs, {failed} wrong", flush=True)
    return runs - failed, failed or int(not asked)


def main():
    members = list(dict.fromkeys(row.member for row in ROWS))
    parser = argparse.ArgumentParser(description=__doc__, formatter_class=argparse.RawDescriptionHelpFormatter)
    parser.add_argument("program", metavar="PROGRAM")
    parser.add_argument("--member", action="append", choices=members, dest="members", default=[])
    parser.add_argument("--few", action="store_true")
    parser.add_argument("--only", default="", metavar="WORD")
    given = parser.parse_args()
    sys.path.append(os.path.join(TOP, "tests", "questions"))
    program, counts = os.path.abspath(given.program), []
    with tempfile.TemporaryDirectory() as folder, concurrent.futures.ThreadPoolExecutor(len(os.sched_getaffinity(0))) as pool:
        shim = compiled(folder)
        for member in given.members or members:
            for row, asked in questions(member, given.few).items():
                if given.only in row.words:
                    counts.append(try_row(pool, program, shim, row, asked, given.few))
    passed, failed = map(sum, zip(*counts))
    print(f"{passed} passed, {failed} failed")
    sys.exit(1 if failed else 0)


if __name__ == "__main__":
    main()
