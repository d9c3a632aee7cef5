"""Reads of the sources the public calls that answer a `Result` or an exit status, their clauses, and the variants of error types."""

import dataclasses
import pathlib
import re

COMMENT = re.compile(r"//[^\n]*")
ITEM = re.compile(r"^([ ]*)(?:(pub )?(?:unsafe )?(?:const )?fn (\w+)|(?:pub )?(impl|pub trait)\b([^{;]*))", re.M)
ERROR = re.compile(r"^pub (enum|struct) (\w+)", re.M)
# Types of what a growth that is refused answers, which have nothing to tell apart.
GROWTHS = ("AllocError", "AllocFailed", "Infallible")


@dataclasses.dataclass
class Call:
    """A call: where it stands, its name among the crate's, the error type as it is written, or of an exit status those that aren't
    0, with a bar between them, and its clauses."""

    crate: str
    path: pathlib.Path
    line: int
    owner: str
    name: str
    error: str
    clauses: list

    def label(self):
        return f"{self.crate} {'::'.join(part for part in (self.owner, self.name) if part)}"


def balanced(text, at, left, right):
    """The place behind the bracket that closes the one at `at`."""
    depth = 0
    for place in range(at, len(text)):
        if text[place] == left:
            depth += 1
        elif text[place] == right and text[place - 1] not in "-=":
            depth -= 1
            if not depth:
                return place + 1
    raise ValueError("a bracket isn't closed")


def split_list(text):
    """The parts of a list that commas divide, outside brackets."""
    found, depth, start = [], 0, 0
    for at, sign in enumerate(text):
        depth += (sign in "(<[{") - (sign in ")]}" or (sign == ">" and text[at - 1] not in "-="))
        if sign == "," and not depth:
            found.append(text[start:at])
            start = at + 1
    return [part.strip() for part in [*found, text[start:]] if part.strip()]


def head_of(text, at):
    """What a call answers, and its clauses, from behind its name."""
    if text[at] == "<":
        at = balanced(text, at, "<", ">")
    at = balanced(text, at, "(", ")")
    answer, at = answer_at(text, at)
    clauses = []
    while True:
        match = re.compile(r"\s*(requires|ensures)\b\s*(\w+)?\s*(?=\{)").match(text, at)
        if not match:
            return answer, clauses
        end = balanced(text, match.end(), "{", "}")
        if match[1] == "ensures":
            clauses.append((match[2] or "", text[match.end() + 1:end - 1]))
        at = end


def answer_at(text, at):
    match = re.compile(r"\s*->\s*").match(text, at)
    if not match:
        return "", at
    depth, place = 0, match.end()
    while place < len(text):
        sign = text[place]
        depth += (sign in "(<[") - (sign in ")]" or (sign == ">" and text[place - 1] not in "-="))
        if not depth and (sign in "{;" or re.match(r"\s(requires|ensures|where)\b", text[place:place + 12])):
            break
        place += 1
    answer = text[match.end():place].strip()
    where = re.compile(r"\s*where\b.*?(?=\s(?:requires|ensures)\b|\{|;)", re.S).match(text, place)
    return answer, where.end() if where else place


def owner_of(head):
    """The type or trait of a block, and whether it is an impl of a trait: `impl<..> Trait for Type`."""
    text = head.strip()
    if text.startswith("<"):
        text = text[balanced(text, 0, "<", ">"):].strip()
    text = re.split(r"\bwhere\b", text)[0].strip()
    trait, found, kind = text.partition(" for ")
    name = re.match(r"&?(?:mut )?(?:'\w+ )?(\w+(?:::\w+)*)", (kind if found else trait).strip())
    return (name[1].split("::")[-1] if name else text), (re.match(r"[\w:]+", trait)[0] if found else None)


def given_by(text, name):
    """What an impl of the standard library's trait says of a call by a ghost member: a relation of what is given and the answer."""
    match = re.search(rf"ghost {name}_gives = (?=\{{)", text)
    if not match:
        return []
    end = balanced(text, match.end(), "{", "}")
    return [("gives", f"({text[match.end() + 1:end - 1]}) given result")]


def statuses_of(clauses):
    """The exit statuses but 0 that a clause `status` names, in their order."""
    return "|".join(number for name, text in clauses if name == "status" for number in re.findall(r"result ≡ (\d+)", text) if number != "0")


def calls_of(crate, path, text, traits):
    """The public calls of a file that answer a `Result` or an exit status: functions and methods that are `pub`, methods of public traits, and
    of traits that none of the libraries declares, where they have a contract."""
    bare = COMMENT.sub(lambda found: " " * len(found[0]), text)
    block = ("", "", None, 0)
    for match in ITEM.finditer(bare):
        margin, public, name, kind, head = match.groups()
        if kind:
            block = block if margin else (kind, *owner_of(head), match.start())
            continue
        kind, owner, trait, start = block if margin else ("", "", None, 0)
        foreign = kind == "impl" and trait and trait.split("::")[-1] not in traits
        if not (public or kind == "pub trait" or foreign):
            continue
        answer, clauses = head_of(bare, match.end())
        clauses += given_by(bare[start:match.start()], name) if foreign else []
        error = split_list(answer[7:-1])[-1] if answer.startswith("Result<") else statuses_of(clauses)
        if error and (clauses or not foreign):
            yield Call(crate, path, text.count("\n", 0, match.start()) + 1, owner, name, error, clauses)


@dataclasses.dataclass
class Error:
    """An error type: its variants, or its fields, each with the types that it has."""

    crate: str
    path: pathlib.Path
    name: str
    is_enum: bool
    parts: list


def errors_of(crate, path, text):
    """The public types of a file: enums by variants, structs by fields."""
    bare = COMMENT.sub("", text)
    for match in ERROR.finditer(bare):
        at = match.end()
        if bare[at:at + 1] == "<":
            at = balanced(bare, at, "<", ">")
        rest = re.compile(r"\s*(?:where[^{;(]*)?([{(;])").match(bare, at)
        if not rest or rest[1] == ";":
            yield Error(crate, path, match[2], match[1] == "enum", [])
            continue
        end = balanced(bare, rest.end() - 1, rest[1], {"{": "}", "(": ")"}[rest[1]])
        body = re.sub(r"#\[[^\n]*\]\s*\n", "", bare[rest.end():end - 1])
        yield Error(crate, path, match[2], match[1] == "enum", parts_of(body, match[1] == "enum"))


def parts_of(body, is_enum):
    found = []
    for part in split_list(re.sub(r"\bghost [^;]*;", "", body)):
        part = re.sub(r"^(?:#\[.*?\]\s*)*", "", part, flags=re.S).strip()
        if is_enum:
            match = re.match(r"(\w+)\s*(?:\((.*)\)|\{(.*)\})?", part, re.S)
            if match:
                types = split_list(match[2] or "") if match[2] else [it.split(":", 1)[1].strip() for it in split_list(match[3] or "")]
                found.append((match[1], types))
        else:
            name, colon, kind = re.sub(r"^pub(\([a-z]+\))? ", "", part).partition(":")
            found.append((name.strip(), [kind.strip()]) if colon else ("0", [part]))
    return found
