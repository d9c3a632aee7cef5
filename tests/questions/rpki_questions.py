"""Questions to what `rpki_ask` is made of, for tests/questions/validator.py: why something is attested or refused, all that is refused,
what a judge says, what is reached, what a walk costs, and wrong words.

What is right is stated here or comes of tests/lib/rpki_model.py and, of what is refused, of tests/lib/rpki_reasons.py. Each reason that
can come is shown twice at least.
"""

import collections

import rpki_model
import rpki_refused
from rpki_facts import fact_object, fact_rows, reasons_of, refusal_rows, refusals_object
from rpki_reason_words import bare, shortfalls
from rpki_repositories import HOST
from rpki_walks import OTHER, cycle, overclaiming, parents, refused_authorities, second, single, text, trimmed


def asks(q, world, status, said, *words):
    """Asks in these words: the exit status, and what is written."""
    q.ask(f"{status} [{said}] []", "ask", *words, world.bundle().hex())


def whys(q, world, name, stated=None):
    """Asks of a name or a URI in both forms; the facts are the stated ones, where there are some stated."""
    found = rpki_model.walk(world.bundle())
    rows = fact_rows(found, name)
    assert stated is None or rows == stated, (name, rows)
    asks(q, world, int(not rows), text(rows), "why", name.decode())
    asks(q, world, int(not rows), fact_object(found, name) + "|", "--json", "why", name.decode())


def way(*uris):
    """The locator t and URIs, as a row has them."""
    return b" ".join((b"t", *uris)).decode()


def facts(q):
    """Refusals, good objects and chains of the worked cases."""
    (world, _), a, ta = single(), HOST + b"ta/a.roa", HOST + b"ta.cer"
    good = f"good {a.decode()} {way(ta)}"
    whys(q, world, a, [good, f"chain {way(ta)}"])
    whys(q, world, ta, [good])
    whys(q, world, HOST + b"ta/ta.mft", [f"chain {way(ta)}"])
    whys(q, world, b"RSYNC://R.example/m/ta/ta.crl", [f"chain {way(ta)}"])
    for name in (b"t", b"x", HOST + b"none"):
        whys(q, world, name, [])
    overclaim = "certificate of the manifest: overclaims AS64500"
    whys(q, overclaiming(), ta, [f"refused {ta.decode()} point: {overclaim}; by {way(ta)}"])
    whys(q, overclaiming(), a, [f"chain {way(ta)}"])
    whys(q, second(), OTHER + b"ta/b.cer")
    whys(q, second(), HOST + b"ta/ta.mft")
    y, ca = HOST + b"ca/y.roa", HOST + b"ta/ca.cer"
    whys(q, trimmed(), y, [f"refused {y.decode()} object: object: unheld prefix 11.1.0.0/16; by {way(ta, ca)}", f"chain {way(ta, ca)}"])
    c = HOST + b"c/c.roa"
    first, last = (way(ta, HOST + b"ta/" + by + b".cer", HOST + by + b"/c.cer") for by in (b"a", b"b"))
    refused = f"refused {c.decode()} object: object: unheld prefix 10.200.0.0/16; by {first}"
    whys(q, parents(), c, [refused, f"good {c.decode()} {last}", f"chain {first}", f"chain {last}"])
    for name in sorted(cycle(3).objects)[:8]:
        whys(q, cycle(3), name)


def refusals(q, world, json=False, stated=None):
    """Asks of all that is refused; the rows."""
    found = rpki_model.walk(world.bundle())
    rows = refusal_rows(found)
    assert stated is None or rows == stated, rows
    said = refusals_object(found) + "|" if json else text(rows)
    asks(q, world, int(not rows), said, *(["--json"] if json else []), "refusals")
    return reasons_of(found)


def reasons(q):
    """All reasons: with one fault a line in text, with two of them as JSON; some by themselves."""
    counts = collections.Counter()
    for json, worlds in ((False, rpki_refused.alone()), (True, rpki_refused.beside())):
        for name, world in worlds:
            told = {row[0]: bare(row[2]) for row in refusals(q, world, json)}
            assert told == world.stated, (name, told)
            counts.update(told.values())
    lacking = list(shortfalls(counts))
    assert not lacking, "\n".join(lacking)
    for world in rpki_refused.single_ones():
        ((refused, _),) = world.stated.items()
        refusals(q, world)
        whys(q, world, refused)
    chain = way(*(HOST + uri for uri in (b"ta.cer", b"ta/a.cer", b"a/c.cer")))
    unheld = f"refused {(HOST + b'c/c.roa').decode()} object: object: unheld prefix 10.200.0.0/16; by {chain}"
    for world, stated in ((single()[0], []), (parents(), [unheld]), (overclaiming(), None), (second(), None), (cycle(3), None)):
        refusals(q, world, stated=stated)
        refusals(q, world, True, stated)
    q.ask("2 [] [not a bundle|]", "ask", "refusals", "3000")


def others(q):
    """What a judge says, what is reached, and words that ask nothing."""
    (world, _), a, ta = single(), (HOST + b"ta/a.roa").decode(), (HOST + b"ta.cer").decode()
    none = (HOST + b"none").decode()
    asks(q, world, 0, "yes|points 1|", "judge", "t", a, ta)
    asks(q, world, 0, '{"good":true,"points":1}|', "--json", "judge", "t", a, ta)
    asks(q, overclaiming(), 1, "no|points 1|", "judge", "t", a, ta)
    for refused in refused_authorities():
        asks(q, refused, 1, "no|points 2|", "judge", "t", (HOST + b"ca/x.roa").decode(), ta, (HOST + b"ta/ca.cer").decode())
    asks(q, world, 1, '{"good":false,"points":0}|', "--json", "judge", "t", a, none)
    asks(q, world, 0, "as |ipv4 192.0.2.0/24|ipv6 |", "reach", a)
    asks(q, world, 0, '{"locator":false,"as":"","ipv4":"192.0.2.0/24","ipv6":""}|', "--json", "reach", "x", a)
    asks(q, world, 0, "locator|", "reach", ta)
    asks(q, world, 0, '{"locator":true}|', "--json", "reach", ta)
    asks(q, world, 1, "as |ipv4 |ipv6 |", "reach", "x")
    wrong_refusals = ["refusals", "x"], ["--json", "refusals", "x"], ["refusals", "--json"]
    for words in ([], ["why"], ["why", "x", "y"], ["judge", "t", a], ["reach"], ["--json"], ["told", "x"], *wrong_refusals):
        q.ask("usage", "ask", *words, world.bundle().hex())
    q.ask("2 [] [not a bundle|]", "ask", "why", "x", "3000")


def costs(q):
    """How many chains go on below each authority: of no chain, of two parents with one child, and of a cycle."""
    (world, _), ta = single(), (HOST + b"ta.cer").decode()
    asks(q, world, 0, "exactly|", "cost")
    asks(q, world, 0, '{"exact":true,"below":[]}|', "--json", "cost", "1")
    asks(q, world, 1, "at least|", "cost", "0")
    asks(q, world, 1, '{"exact":false,"below":[]}|', "--json", "cost", "0")
    rows = [(4, ta), *((1, (HOST + b"ta/" + by + b".cer").decode()) for by in (b"a", b"b"))]
    said = "exactly|" + text(f"{number} {uri}" for number, uri in rows)
    for words in ((), ("5",), ("18446744073709551615",)):
        asks(q, parents(), 0, said, "cost", *words)
    below = ",".join(f'{{"chains":{number},"authority":"{uri}"}}' for number, uri in rows)
    asks(q, parents(), 0, f'{{"exact":true,"below":[{below}]}}|', "--json", "cost")
    found = rpki_model.walk(cycle(3).bundle()).chains_below()
    asks(q, cycle(3), 0, "exactly|" + text(f"{number} {uri.decode()}" for number, uri in found), "cost")
    for words in (["x"], ["-1"], [""], ["1", "2"], ["18446744073709551616"]):
        q.ask("usage", "ask", "cost", *words, world.bundle().hex())


def questions(q):
    """Asks all questions."""
    facts(q)
    reasons(q)
    others(q)
    costs(q)
