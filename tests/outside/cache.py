#!/usr/bin/env python3
"""Asks tools/verdicts.py and tools/lines_to.py on a repository that bench/repository.py makes.

    cache.py [PROGRAM [ASKER]]

What is compared comes from what was made: how many signatures there are, which of them are good after one octet was
changed, which objects lie where in each layout. With PROGRAM, a built `rpki_check`, the folder that verdicts.py wrote is
made a bundle too, and what is printed of it compared with the lines that the repository means; with ASKER, a built `rpki_ask`, the
reasons of what is refused, too. Exits with 1 at the first answer that differs.
"""

import hashlib
import json
import os
import shutil
import subprocess
import sys
import tempfile

HERE = os.path.dirname(os.path.abspath(__file__))
TOOLS = os.path.join(HERE, os.pardir, os.pardir, "tools")
sys.dont_write_bytecode = True
sys.path.insert(0, os.path.join(HERE, os.pardir, os.pardir, "bench"))

import repository  # noqa: E402

AUTHORITIES, ORIGINS, CUSTOMERS = 2, 3, 1
# Of each authority and of the anchor: certificate, list, and two of the manifest; of each object two.
SIGNATURES = 4 * (AUTHORITIES + 1) + 2 * AUTHORITIES * (ORIGINS + CUSTOMERS)


def run(*words, **how):
    return subprocess.run([sys.executable, *words], capture_output=True, text=True, **how)


def same(what, got, wanted):
    if got != wanted:
        sys.exit(f"{what}: {got!r} in place of {wanted!r}")
    print(f"{what}: ok")


def lay(folder, objects, place):
    """Writes each object where the layout has it; `place` makes a path of scheme, host and path."""
    for uri, octets in objects.items():
        scheme, _, rest = uri.partition("://")
        host, _, path = rest.partition("/")
        repository.write(os.path.join(folder, place(scheme, host, path)), octets)


def verdicts(cache, out, tals, *words):
    """What the tool said, and how many verdicts it wrote."""
    shutil.rmtree(out, ignore_errors=True)
    done = run(os.path.join(TOOLS, "verdicts.py"), cache, out, "--tals", tals, "--moment", repository.MOMENT, *words)
    if done.returncode:
        return done, None
    with open(os.path.join(out, "verdicts")) as file:
        return done, len(file.read().splitlines())


LAYOUTS = {
    "plain": lambda scheme, host, path: f"{scheme}/{host}/{path}",
    "rpki-client": lambda scheme, host, path: f".rrdp/0123/{host}/{path}",
    "fort": lambda scheme, host, path: f"rrdp/4567/{host}/{path}",
    "routinator": lambda scheme, host, path: f"store/rrdp/{host}/89ab/rsync/{host}/{path}",
}


def layouts(made, room, tals):
    for name, place in LAYOUTS.items():
        cache, out = os.path.join(room, name), os.path.join(room, "out")
        lay(cache, made.objects, place)
        done, count = verdicts(cache, out, tals)
        same(f"{name}: told", f"layout {name}: " in done.stderr, True)
        same(f"{name}: verdicts", count, SIGNATURES)
        for uri, octets in made.objects.items():
            with open(os.path.join(out, *uri.replace("://", "/").split("/")), "rb") as file:
                if file.read() != octets:
                    sys.exit(f"{name}: {uri} has other octets")


def changed(made, room, tals):
    """One octet of a ROA's content and one of a list's signature are changed."""
    cache, out = os.path.join(room, "changed"), os.path.join(room, "out")
    objects = dict(made.objects)
    host = f"rsync://{repository.HOST}/repository/"
    lay(cache, objects, LAYOUTS["plain"])
    list_of, roa_of = host + "a0/a0.crl", host + "a0/o0.roa"
    octets = bytearray(objects[list_of])
    octets[-1] ^= 1
    objects[list_of] = bytes(octets)
    # (the last octet of a signed object is of its signature)
    octets = bytearray(objects[roa_of])
    octets[-1] ^= 1
    objects[roa_of] = bytes(octets)
    objects[host + "a1/o1.roa"] = b"\x30\x80\x00\x00"
    lay(cache, objects, LAYOUTS["plain"])
    done, count = verdicts(cache, out, tals)
    same("changed: verdicts", count, SIGNATURES - 4)
    for line in (".crl: 2", "crl: a bad signature: 1", "roa: a bad signature: 1", "roa: a length isn't in DER: 1"):
        same(f"changed: {line}", line in done.stderr, True)


def formats(made, room, tals):
    """The verdict of the trust anchor's own signature, by digests that are made here; moment and depth."""
    out = os.path.join(room, "out")
    verdicts(os.path.join(room, "plain"), out, tals, "--depth", "7")
    cert = made.objects[made.anchor.at]
    head = 4  # 30 82 and two octets of length
    size = int.from_bytes(cert[head + 2 : head + 4], "big") + 4
    parts = (made.anchor.key.encoded, cert[head : head + size], cert[-256:])
    line = " ".join(hashlib.sha256(part).hexdigest() for part in parts)
    with open(os.path.join(out, "verdicts")) as file:
        lines = file.read().splitlines()
    same("the anchor's verdict", line in lines, True)
    same("verdicts ascend", lines, sorted(set(lines)))
    for name, text in (("moment", repository.MOMENT), ("depth", "7")):
        with open(os.path.join(out, name)) as file:
            same(name, file.read(), text + "\n")


def refusals(room, tals):
    cache, out = os.path.join(room, "plain"), os.path.join(room, "out")
    same("an OUT that is there", run(os.path.join(TOOLS, "verdicts.py"), cache, out, "--tals", tals).returncode, 1)
    for words in (["--moment", "20251301000000Z"], ["--depth", "0"], ["--layout", "other"]):
        same(f"{words}", verdicts(cache, out, tals, *words)[0].returncode, 2)
    empty = os.path.join(room, "empty")
    os.mkdir(empty)
    same("an empty cache", verdicts(empty, out, tals)[0].returncode, 1)


LINES = "roa AS64496 192.0.2.0/24 24\nroa AS64497 2001:db8::/32 48\naspa AS15562 AS2914 AS8283\nrefused x tal\n"
BGPD = (
    "# n\nroa-set {\n\t192.0.2.0/24 source-as 64496\n\t2001:db8::/32 maxlen 48 source-as 64497\n}\n\n"
    "aspa-set {\n\tcustomer-as 15562 provider-as { 2914 8283 }\n}\n"
)
TABLE = "ASN,IP Prefix,Max Length,Trust Anchor\nAS64496,192.0.2.0/24,24,n\nAS64497,2001:db8::/32,48,n\n"


def lines_to(form, text):
    return run(os.path.join(TOOLS, "lines_to.py"), form, "--name", "n", input=text)


def to_routers():
    made = json.loads(lines_to("json", LINES).stdout)
    same("json: origins", made["roas"][1], {"asn": 64497, "prefix": "2001:db8::/32", "maxLength": 48, "ta": "n"})
    same("json: customers", made["aspas"], [{"customer_asid": 15562, "providers": [2914, 8283]}])
    same("openbgpd", lines_to("openbgpd", LINES).stdout, BGPD)
    same("csv", lines_to("csv", LINES).stdout, TABLE)
    for line in ("roa AS1 192.0.2.1/24 24", "roa AS4294967296 192.0.2.0/24 24", "roa AS1 192.0.2.0/24 33",
                 "roa AS01 192.0.2.0/24 24", "aspa AS1", "refused x why", ""):
        done = lines_to("csv", line + "\n")
        same(f"refused {line!r}", (done.returncode, done.stdout), (1, ""))
    same("no line end", lines_to("json", LINES[:-1]).returncode, 1)


def printed(program, out):
    """What `check` prints of the bundle of a folder."""
    done = subprocess.run([program, "bundle", out], capture_output=True)
    same("a bundle", (done.returncode, done.stdout[:1]), (0, b"\x30"))
    done = subprocess.run([program, "check"], input=done.stdout, capture_output=True)
    return done.returncode, done.stdout.decode(), done.stderr.decode()


def told(asker, program, out):
    """What `refusals` prints of the bundle of a folder."""
    octets = subprocess.run([program, "bundle", out], capture_output=True).stdout
    done = subprocess.run([asker, "refusals"], input=octets, capture_output=True)
    return done.returncode, done.stdout.decode(), done.stderr.decode()


def bundle(made, room, tals, program, asker=None):
    """From a cache to lines; and of the one with changed octets, where one authority's list and another's ROA are bad."""
    out = os.path.join(room, "out")
    verdicts(os.path.join(room, "plain"), out, tals)
    same("its lines", printed(program, out), (0, made.lines(), ""))
    verdicts(os.path.join(room, "changed"), out, tals)
    place = f"rsync://{repository.HOST}/repository/ta/"
    refused = "".join(f"refused {place}a{number}.cer point\n" for number in range(AUTHORITIES))
    same("lines of changed octets", printed(program, out), (0, refused, ""))
    if asker:
        chain = f"by example {made.anchor.at}"
        reasons = "".join(
            f"refused {place}{name}.cer point: manifest: changed file {file}; {chain} {place}{name}.cer\n"
            for name, file in (("a0", "a0.crl"), ("a1", "o1.roa"))
        )
        same("reasons of changed octets", told(asker, program, out), (0, reasons, ""))
        verdicts(os.path.join(room, "plain"), out, tals)
        same("no reasons", told(asker, program, out), (1, "", ""))


def main():
    made = repository.Repository(AUTHORITIES, ORIGINS, CUSTOMERS, 2)
    with tempfile.TemporaryDirectory() as room:
        tals = os.path.join(room, "tals")
        repository.write(os.path.join(tals, "example.tal"), made.locator().encode())
        layouts(made, room, tals)
        changed(made, room, tals)
        formats(made, room, tals)
        refusals(room, tals)
        if sys.argv[1:]:
            bundle(made, room, tals, *sys.argv[1:])
    to_routers()


if __name__ == "__main__":
    main()
