#!/usr/bin/env python3
"""Compares the public calls of the faces that can lack memory with the table of tests/outside/calls_growths.py.

    growing.py [--list]

Such a call is given an allocator, or answers an error that can be lack of memory. A row of the table names calls: types with their
calls behind a colon, or functions alone, and semicolons between; of a name that ends with two dots each call is meant that begins
so. What a row names has to be called in the member's sources in tests/program, or in what members share there, by its name, or by
that of the call that asks it, which stands in the table below. Prints each call that no row names, and each that isn't called, and
exits with 1 where there is one. With --list each call is printed with the first words of the questions that ask it.
"""

import argparse
import collections
import functools
import pathlib
import re
import sys

TOP = pathlib.Path(__file__).resolve().parents[2]
sys.dont_write_bytecode = True
sys.path[:0] = [str(TOP / "tests" / part) for part in ("lib", "tools", "outside")]

import calling  # noqa: E402
import calls  # noqa: E402
import calls_growths  # noqa: E402
import programs  # noqa: E402

FACES = (*calling.FACES, "rpki_bundle")
GROWTHS = ("AllocError", "AllocFailed", "Memory")
NAME = re.compile(r"\w+(?:\.\.)?")
SHARED = "answers"
# Calls that are asked by others alone, which call them.
WITHIN = {
    "SignerInfo::from_constructed": "decode",
    "SignedContent::from_content": "decode",
    "Values::write_known": "write_encoded",
    "write_octets": "write_header",
    "read_front": "decode_partial",
    "request_all": "from_primitive",
    "take_front": "from_primitive",
    "Addr::from_family_str": "from_v4_str",
    "AddressRange::from_family_str": "from_v4_str",
    "IpBlock::from_family_str": "from_v4_str",
    "Prefix::from_family_str": "from_v4_str",
    "Signer::sign": "into_cert",
    "Signer::sign_one_off": "finalize",
    "SignedDataValues::in_der": "to_captured",
    "Serial::from_primitive": "take_from",
    "InvalidExtension::to_content_error": "decode",
    "signed_attributes": "finalize",
    "signed_message": "finalize",
    "Tal::from_text": "read_named",
    "ResourceSignedChecklist::take_from": "decode",
    "RoaBuilder::to_attestation": "finalize",
    "read_bundle": "run",
    "walk_lines": "run",
    "judge_by": "judge",
    "Bundle::decode_shared": "run",
    "cost": "ask",
    "diagnose": "ask",
    "Path::of_locator": "ask",
}


@functools.cache
def errors():
    """The types of the repository's sources by their names, each with the types that its parts have."""
    found = collections.defaultdict(list)
    for path in sorted((TOP / "crates").glob("*/src/**/*.rt")):
        for it in calls.errors_of(path.relative_to(TOP).parts[1], path, path.read_text()):
            found[it.name].append(it)
    return found


@functools.cache
def can_lack(written, seen=frozenset()):
    """Whether an error of that type can be lack of memory."""
    for word in re.findall(r"\w+", written):
        if word in GROWTHS:
            return True
        for error in errors()[word] if word not in seen else ():
            if any(name in GROWTHS or any(can_lack(kind, seen | {word}) for kind in kinds) for name, kinds in error.parts):
                return True
    return False


def growing(call):
    """Whether a call of a face can lack memory."""
    head = re.split(r"\n\s*(?:requires|ensures)\b", calls.COMMENT.sub("", call.text))[0]
    answer, _ = calls.head_of(head, re.search(r"\bfn \w+", head).end())
    parts = calls.split_list(answer[7:-1]) if answer.startswith("Result<") else []
    return re.search(r"\balloc: ", head) is not None or bool(parts) and can_lack(parts[-1])


def asked():
    """Of each type, and of functions under no name, the names that rows have, each with the row's first words."""
    found = collections.defaultdict(dict)
    for row in calls_growths.ROWS:
        for part in row.calls.split(";"):
            owners, colon, names = part.rpartition(":")
            for owner in NAME.findall(owners) or [""]:
                for name in NAME.findall(names):
                    found[owner].setdefault(name, f"{row.member} {row.words}")
    return found


def words_of(names, call):
    return next((words for name, words in names.items() if name == call or (name.endswith("..") and call.startswith(name[:-2]))), None)


@functools.cache
def sources(member):
    """What the program of tests/program has for a member, and what members share."""
    paths = (path for part in (member, SHARED) for path in (programs.ASKED / f"{part}.rt.in", *(programs.ASKED / part).rglob("*.rt.in")))
    return "\n".join(calls.COMMENT.sub("", path.read_text()) for path in paths)


def is_called(member, name):
    """Whether a member's sources have a call of that name."""
    return re.search(rf"\b{name}\s*(?:::<[^()]*>)?\(|::{name}\b", sources(member)) is not None


def main():
    parser = argparse.ArgumentParser(description=__doc__, formatter_class=argparse.RawDescriptionHelpFormatter)
    parser.add_argument("--list", action="store_true")
    given = parser.parse_args()
    rows, lacking, count = asked(), {}, 0
    for face in FACES:
        for key, place in calling.public_items(face).items():
            is_call = calling.source(*key[:2]).items[key[2]] == "fn"
            for call in filter(growing, calling.calls_of(key)):
                count += 1
                words = words_of(rows["" if is_call else key[2]], call.name) or words_of(rows["" if is_call else place[-1]], call.name)
                name = "::".join([face, *place] + ([] if is_call else [call.name]))
                label = call.name if is_call else f"{key[2]}::{call.name}"
                if given.list:
                    print(f"{name}: {words}")
                elif words is None:
                    lacking[name] = "no row of tests/outside/calls_growths.py names it"
                elif not is_called(words.split()[0], WITHIN.get(label, call.name)):
                    lacking[name] = f"the questions `{words}` don't call it"
    for name, why in lacking.items():
        print(f"{name} can lack memory, and {why}")
    print(f"{count - len(lacking)} calls that can lack memory are asked, {len(lacking)} are not")
    sys.exit(1 if lacking else 0)


if __name__ == "__main__":
    main()
