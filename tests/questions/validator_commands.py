"""Questions about commands, for tests/questions/validator.py: what `check` prints of bundles, and says of octets that are none; readers and
writers that give and take little, and fail; words, texts and digests; locators that a reader gives.

Of bundles is printed what tests/lib/rpki_model.py says, a second reading of the rules in Python, and what is stated of the worked cases
(validator_asked.py); digests are `hashlib`'s.
"""

import hashlib
import random

import rpki_walks
from rpki_bundles import read
from validator_asked import EMPTY, EMPTY_LOCATOR, MANY, NOT_YET, SEED, WORKED, all_octets, long_ones, outcome


def checks(q):
    """What is printed of bundles, and what is said of octets that are none."""
    for octets, wanted in WORKED:
        assert outcome(octets) == wanted, octets.hex()
        q.check(octets, wanted=wanted)
    for octets in all_octets(random.Random(SEED)):
        q.check(octets)
    for octets, word in long_ones():
        status, lines, faults = outcome(octets)
        q.ask(f"{status} [{lines}] [{faults}]", "check", word, MANY, MANY, MANY, MANY, "fails", MANY)
        q.ask("1 [] [not a bundle|]", "check", word[:-2] + "05", MANY, MANY, MANY, MANY, "fails", MANY)


def streams(q):
    """The case moments-and-faults from its second part on, and other readers and writers."""
    ok, line = (MANY, MANY), "refused x tal|"
    run = lambda answer, reader, writer: q.ask(answer, "run", EMPTY_LOCATOR.hex(), *reader, *writer)
    all_of_it = (MANY, MANY, "fails")
    run(f"ok {line} 0 0", ok, all_of_it)
    run(f"ok {line} 0 0", ("1", MANY), ("1", "14", "fails"))
    run("write fault refus 0 1", ok, ("100", "5", "fails"))
    run("write fault refus 0 1", ok, ("100", "5", "full"))
    run("read fault  1 0", (MANY, "1"), all_of_it)
    run("read fault  1 0", ("20", "1"), all_of_it)
    run("read fault  1 0", (MANY, "0"), all_of_it)
    run("read fault  1 0", ("1", "38"), all_of_it)
    run(f"ok {line} 0 0", ("1", "39"), all_of_it)
    q.ask("not a bundle  0 0", "run", EMPTY[:-1].hex(), *ok, *all_of_it)
    q.ask("ok refused x tal| 0 0", "run", NOT_YET.hex(), *ok, *all_of_it)
    for room in range(15):
        wanted = (0, line, "") if room == 14 else (1, line[:room], "write fault|")
        for most in ("1", "100"):
            for end in ("fails", "full"):
                q.check(EMPTY_LOCATOR, writer=(most, str(room), end), wanted=wanted)
    for reads in range(3):
        wanted = (0, line, "") if reads == 2 else (1, "", "read fault|")
        q.check(EMPTY_LOCATOR, reader=(MANY, str(reads)), wanted=wanted)
    q.check(EMPTY_LOCATOR, reader=("1", MANY))
    # The status says what can't be told.
    q.check(b"", room="0", wanted=(1, "", ""))
    q.check(b"", room="3", wanted=(1, "", "not"))
    for room in range(15):
        octets = b"refused x tal\n"
        whole = "true" if room == 14 else "false"
        for end in ("fails", "full"):
            q.ask(f"{whole} {octets[:room].hex()} {int(room < 14)}", "write", octets.hex(), "3", str(room), end)
    q.ask("true  0", "write", "", "1", "0", "fails")
    q.ask("0 true 1 true 2 true 3", "counts")
    q.ask("3 0 0 1 true 1", "counts", "full")


def texts(q):
    run = "read fault; not a bundle; write fault; out of memory;"
    q.ask(f"{run} not a bundle; out of memory; tal anchor point object loop depth", "texts")
    q.ask("check", "command", "p", "check")
    q.ask("bundle x", "command", "p", "bundle", "x")
    q.ask("bundle ", "command", "p", "bundle", "")
    q.ask("check", "command", "", "check")
    for wrong in ((), ("p",), ("check",), ("p", ""), ("p", "Check"), ("p", "check "), ("p", "bundle")):
        q.ask("1", "command", *wrong)
    for wrong in (("p", "bundle", "x", "y"), ("p", "check", "check"), ("p", "Bundle", "x"), ("bundle", "x")):
        q.ask("1", "command", *wrong)
    # The examples of FIPS 180-4, and others.
    abc = hashlib.sha256(b"abc").hexdigest(), hashlib.sha1(b"abc").hexdigest()
    assert abc == ("ba7816bf8f01cfea414140de5dae2223b00361a396177a9cb410ff61f20015ad", "a9993e364706816aba3e25717850c26c9cd0d89d")
    for octets in (b"abc", b"", b"a" * 55, b"a" * 56, b"a" * 64, bytes(range(256)) * 3):
        q.ask(f"{hashlib.sha256(octets).hexdigest()} {hashlib.sha1(octets).hexdigest()}", "digests", octets.hex())


def locators(q):
    """Locators whose text a reader gives, which fails, or gives none in the end; and how many of its calls failed."""
    (_, text), *_ = read(rpki_walks.single()[0].bundle())[0]
    uris = len(text.split(b"\n\n")[0].splitlines())
    for most, wanted in ((MANY, 2), ("1", len(text) + 1)):
        for calls in (0, 1, wanted - 1, wanted):
            said = f"{uris} 0" if calls == wanted else "the text can't be read to its end 1"
            q.ask(said, "locator", text.hex(), most, str(calls))


def questions(q):
    """Asks all questions."""
    for part in (streams, texts, checks, locators):
        part(q)
