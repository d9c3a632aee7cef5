#!/usr/bin/env python3
"""What a router gets: tools/lines_to.py, validate.py and compare.py, beside the field's own programs.

    routers.py [PROGRAM [ASKER]]        (crates/rpki_check/out/rpki_check and crates/rpki_ask/out/rpki_ask)

Stored lines become JSON that the real StayRTR serves with its defaults (but on loopback) to rtrdump and rtrclient, a part of
a configuration that `bgpd -n` takes, and CSV; tools/slurm.py is compared with StayRTR over one file of exceptions. With PROGRAM, a repository with RSA signatures that is valid now is validated by
validate.py, rpki-client and FORT, and compare.py compares them; with ASKER it gives reasons. What isn't installed (Debian:
stayrtr, rtr-tools, openbgpd, rpki-client, fort-validator, systemd) is skipped, and so told. Servers listen on 127.0.0.1 and
end by themselves. Exits with 1 at the first answer that differs.
"""

import calendar
import ipaddress
import json
import os
import shutil
import socket
import subprocess
import sys
import tempfile
import time

HERE = os.path.dirname(os.path.abspath(__file__))
TOP = os.path.join(HERE, os.pardir, os.pardir)
sys.dont_write_bytecode = True
sys.path.insert(0, os.path.join(TOP, "bench"))

import repository  # noqa: E402

# A server or a validator ends after so many seconds, whatever becomes of this script.
SECONDS = 300
NAME = "example"
# Prefixes and numbers at the edges, several origins of a prefix, and as many providers as rtrdump 0.5.1 reads.
EDGES = (
    "roa AS0 0.0.0.0/0 0\nroa AS4294967295 0.0.0.0/0 32\nroa AS64496 192.0.2.0/24 24\nroa AS64497 192.0.2.0/24 24\n"
    "roa AS64496 192.0.2.0/24 32\nroa AS64496 255.255.255.255/32 32\nroa AS64496 ::/0 128\nroa AS1 ::1.2.3.4/128 128\n"
    "roa AS64496 2001:db8::/32 48\nroa AS64496 2001:db8:0:1::/64 64\n"
    "aspa AS1 AS0\naspa AS64496" + "".join(f" AS{number}" for number in range(65536, 65536 + 508)) + "\n"
    "aspa AS4294967295 AS1 AS4294967294\nrefused rsync://rpki.example/x object\n"
)
counts = {"ran": 0, "skipped": 0}


def same(what, got, wanted):
    if got != wanted:
        sys.exit(f"{what}: {got!r} in place of {wanted!r}")
    counts["ran"] += 1
    print(f"{what}: ok", flush=True)


def has(*programs):
    """Whether these are installed; what isn't is told."""
    for program in programs:
        if shutil.which(program) is None:
            counts["skipped"] += 1
            print(f"skipped: {program} isn't installed", flush=True)
            return False
    return True


def run(*words, **how):
    """A program's end, within bounds of time."""
    return subprocess.run(words, capture_output=True, text=True, timeout=SECONDS, **how)


def tool(name, *words, **how):
    return run(sys.executable, os.path.join(TOP, "tools", name), *words, **how)


def moment(ago=0):
    return time.strftime("%Y%m%d%H%M%SZ", time.gmtime(time.time() - ago))


def origins_of(lines):
    """Origins as rows of prefix, greatest length and AS number, read here."""
    rows = [line.split(" ") for line in lines.splitlines()]
    return sorted((str(ipaddress.ip_network(row[2])), int(row[3]), int(row[1][2:])) for row in rows if row[0] == "roa")


def customers_of(lines):
    rows = [line.split(" ") for line in lines.splitlines()]
    return sorted((int(row[1][2:]), [int(text[2:]) for text in row[2:]]) for row in rows if row[0] == "aspa")


def write(path, text):
    with open(path, "w") as file:
        file.write(text)
    return path


def stored():
    """The stored lines, by name."""
    found = {"edges": EDGES, "none": ""}
    for name in ("cache", "small"):
        with open(os.path.join(TOP, "examples", name + ".lines")) as file:
            found[name] = file.read()
    return found


def free_port():
    with socket.socket() as one:
        one.bind(("127.0.0.1", 0))
        return one.getsockname()[1]


class StayRTR:
    """The real server with its defaults, but for where it listens, over one file."""

    def __init__(self, path, *words):
        self.path, self.port, self.words = path, free_port(), words

    def __enter__(self):
        words = ["timeout", str(SECONDS), "stayrtr", "-cache", self.path, "-bind", f"127.0.0.1:{self.port}"]
        words += ["-metrics.addr", f"127.0.0.1:{free_port()}", *self.words]
        self.log = open(self.path + ".log", "w+")
        self.server = subprocess.Popen(words, stdout=self.log, stderr=subprocess.STDOUT)
        last = time.monotonic() + 10
        while time.monotonic() < last and self.server.poll() is None:
            with socket.socket() as one:
                if one.connect_ex(("127.0.0.1", self.port)) == 0:
                    return self
            time.sleep(0.05)
        return self

    def __exit__(self, *_):
        self.server.terminate()
        self.server.wait()
        self.log.close()

    def said(self):
        self.log.seek(0)
        return self.log.read()

    def dumped(self):
        """What rtrdump, of the newest protocol that it has, is told: origins and customers of both families."""
        path = self.path + ".dump"
        run("rtrdump", "-connect", f"127.0.0.1:{self.port}", "-file", path, check=True)
        with open(path) as file:
            told = json.load(file)
        attested = told.get("provider_authorizations", {})
        both = [sorted((row["customer_asid"], row["providers"]) for row in attested.get(family) or [])
                for family in ("ipv4", "ipv6")]
        origins = sorted((row["prefix"], row["maxLength"], row["asn"]) for row in told["roas"] or [])
        return [(str(ipaddress.ip_network(prefix)), *rest) for prefix, *rest in origins], both

    def exported(self):
        """What RTRlib's client, as routers have it, is told of origins."""
        path = self.path + ".csv"
        run("rtrclient", "-e", "-t", "csv", "-o", path, "tcp", "127.0.0.1", str(self.port), check=True)
        with open(path) as file:
            rows = [line.split(", ") for line in file.read().splitlines() if line.strip()]
        return sorted((str(ipaddress.ip_network(f"{row[0]}/{row[1]}")), int(row[2]), int(row[3])) for row in rows)


def without_default(origins):
    """Origins of prefixes that have bits: StayRTR 0.5.1 takes the others for faulty, and serves none of them."""
    return [row for row in origins if not row[0].endswith("/0")]


def served(room):
    """StayRTR serves every origin and customer of a fresh file; nothing of one that is stale or has no moment."""
    if not has("stayrtr", "rtrdump"):
        return
    for name, lines in stored().items():
        made = tool("lines_to.py", "json", "--moment", moment(), input=lines).stdout
        with StayRTR(write(os.path.join(room, name + ".json"), made)) as server:
            origins, both = server.dumped()
            wanted = without_default(origins_of(lines))
            same(f"StayRTR, {name}: origins", without_default(sorted(origins)), wanted)
            same(f"StayRTR, {name}: customers", both, [customers_of(lines)] * 2)
            if wanted and has("rtrclient"):
                same(f"RTRlib, {name}: origins", without_default(server.exported()), wanted)
    for name, words in (("stale", ["--moment", moment(86400 + 600)]), ("timeless", [])):
        made = tool("lines_to.py", "json", *words, input=EDGES).stdout
        with StayRTR(write(os.path.join(room, name + ".json"), made)) as server:
            origins, both = server.dumped() if server.server.poll() is None else ([], [[], []])
            same(f"StayRTR, {name}: nothing", (origins, both), ([], [[], []]))
            same(f"StayRTR, {name}: says so", "Error setting up initial state" in server.said(), True)


def expired(room):
    """A server that runs takes a file's rows out when their time has come, though nobody replaces the file."""
    if not has("stayrtr", "rtrdump"):
        return
    lines = stored()["cache"]
    # (a busy machine may take longer than the first few seconds to ask at all)
    for lifetime in (10, 100):
        ends = int(time.time()) + lifetime
        made = tool("lines_to.py", "json", "--moment", moment(), "--lifetime", str(lifetime), input=lines).stdout
        with StayRTR(write(os.path.join(room, "expired.json"), made), "-refresh", "2") as server:
            origins, both = server.dumped()
            if time.time() >= ends:
                continue
            same("StayRTR, in time", (sorted(origins), both), (origins_of(lines), [customers_of(lines)] * 2))
            while origins and time.time() < ends + SECONDS / 2:
                time.sleep(1)
                origins, both = server.dumped()
            same("StayRTR, expired", (origins, both), ([], [[], []]))
            return
    sys.exit("StayRTR, in time: this machine is too busy to ask")


# Exceptions by RFC 8416, version 2 with the names that StayRTR knows for customers.
EXCEPTIONS = {
    "slurmVersion": 2,
    "validationOutputFilters": {
        "prefixFilters": [{"prefix": "192.0.2.0/24", "asn": 64496}, {"prefix": "2001:db8::/33"}, {"asn": 4294967295}],
        "bgpsecFilters": [],
        "aspaFilters": [{"customer_asid": 4294967295}],
    },
    "locallyAddedAssertions": {
        "prefixAssertions": [{"prefix": "203.0.113.0/24", "asn": 64511, "maxPrefixLength": 25}, {"prefix": "2001:db8:1::/48", "asn": 0}],
        "bgpsecAssertions": [],
        "aspaAssertions": [{"customer_asid": 64511, "provider_set": [1, 2]}],
    },
}


def excepted(room):
    """tools/slurm.py makes of lines what StayRTR itself makes of a file with the same exceptions."""
    if not has("stayrtr", "rtrdump"):
        return
    lines, rules = stored()["edges"], write(os.path.join(room, "rules"), json.dumps(EXCEPTIONS))
    ours = tool("slurm.py", rules, input=lines)
    same("exceptions, told", ours.stderr.splitlines()[0], "exceptions (SLURM version 2): 5 lines filtered, 3 asserted")
    told = []
    for name, text, words in (("ours", ours.stdout, ()), ("theirs", lines, ("-slurm", rules))):
        made = tool("lines_to.py", "json", "--moment", moment(), input=text).stdout
        with StayRTR(write(os.path.join(room, f"excepted-{name}.json"), made), *words) as server:
            origins, (customers, _) = server.dumped()
            # (for IPv6 StayRTR 0.5.1 adds no customer of its own)
            told.append((without_default(sorted(origins)), customers))
    same("exceptions, StayRTR", told[0] == told[1], True)


def configured(room):
    """OpenBGPD takes the other form; 7.7 and older without attestations of providers."""
    if not has("bgpd"):
        return
    version = run("bgpd", "-V")
    words = ["--no-aspa"] if (version.stdout + version.stderr).split()[1:2] < ["8.0"] else []
    for name, lines in stored().items():
        part = tool("lines_to.py", "openbgpd", "--moment", moment(), "--name", NAME, *words, input=lines).stdout
        part = write(os.path.join(room, name + ".set"), part)
        whole = f'AS 65001\nrouter-id 192.0.2.1\nlisten on 127.0.0.1\ninclude "{part}"\n'
        conf = write(os.path.join(room, name + ".conf"), whole)
        os.chmod(conf, 0o600)
        done = run("bgpd", "-n", "-f", conf)
        same(f"bgpd -n, {name}", (done.returncode, done.stderr.split("\n")[0]), (0, "configuration OK"))


def tables():
    """CSV as FORT has it, and as Routinator has it."""
    lines = stored()["cache"]
    rows = ["AS64496,192.0.2.0/24,24", "AS64497,198.51.100.0/24,26", "AS64496,2001:db8::/32,48"]
    wanted = "\n".join(["ASN,Prefix,Max prefix length", *rows, ""])
    same("csv", tool("lines_to.py", "csv", input=lines).stdout, wanted)
    wanted = "\n".join(["ASN,IP Prefix,Max Length,Trust Anchor", *(f"{row},{NAME}" for row in rows), ""])
    same("csv with a name", tool("lines_to.py", "csv", "--name", NAME, input=lines).stdout, wanted)


def documents():
    """The JSON's metadata, and what refuses arguments."""
    at = moment()
    made = json.loads(tool("lines_to.py", "json", "--moment", at, input=EDGES).stdout)
    seconds = calendar.timegm(time.strptime(at, "%Y%m%d%H%M%SZ"))
    built = f"{at[:4]}-{at[4:6]}-{at[6:8]}T{at[8:10]}:{at[10:12]}:{at[12:14]}Z"
    wanted = {"tool": "rpki_check", "buildtime": built, "generated": seconds, "vrps": 10, "uniquevrps": 10}
    wanted |= {"vaps": 3, "uniquevaps": 3, "refused": {"object": 1}}
    same("metadata", made["metadata"], wanted)
    same("no customers", set(json.loads(tool("lines_to.py", "json", "--no-aspa", input=EDGES).stdout)), {"metadata", "roas"})
    ends = {row["expires"] for name in ("roas", "aspas") for row in made[name]}
    same("a day", ends, {seconds + 86400})
    for words in (["--moment", "20250230000000Z"], ["--moment", "now"], ["--lifetime", "-1"], ["--name", "a,b"],
                  ["--name", "x\ny"], ["--name", "x\\"]):
        same(f"{words}", tool("lines_to.py", "json", *words, input="").returncode, 2)


# What Routinator writes, as far as it is known without running it; its older form has customers by family.
JSONEXT = {
    "metadata": {"generated": 1735689660, "generatedTime": "2025-01-01T00:01:00Z"},
    "roas": [
        {"asn": "AS64496", "prefix": "192.0.2.0/24", "maxLength": 24, "source": [
            {"type": "roa", "uri": "rsync://rpki.example/repository/operator/v4.roa",
             "validity": {"notBefore": "2024-01-01T00:00:00Z", "notAfter": "2026-01-01T00:00:00Z"}}]},
        {"asn": "AS64499", "prefix": "192.0.2.0/24", "maxLength": 24, "source": [
            {"type": "roa", "uri": "rsync://rpki.example/repository/operator/none.roa"}, {"type": "exception", "path": "x"}]},
    ],
    "routerKeys": [],
    "aspas": [{"customer": "AS64496", "providers": ["AS64497", "AS64498"], "source": []}],
}
FORT = "ASN,Prefix,Max prefix length\nAS64496,192.0.2.0/24,24\nAS64497,198.51.100.0/24,26\nAS64496,2001:db8::/32,48\n"
OLDER = {"roas": [], "provider_authorizations": {"ipv4": [{"customer_asid": 64496, "providers": [64497]}],
                                               "ipv6": [{"customer_asid": 64496, "providers": [64498]}]}}


def compared(room):
    """compare.py without a bundle: forms, what differs, and what is none of the forms."""
    ours = os.path.join(TOP, "examples", "cache.json")
    other = write(os.path.join(room, "jsonext"), json.dumps(JSONEXT))
    done = tool("compare.py", ours, other)
    said = [line for line in done.stdout.splitlines() if "alone: roa" in line or "alone: aspa" in line]
    wanted = ["ours alone: roa AS64497 198.51.100.0/24 26", "ours alone: roa AS64496 2001:db8::/32 48",
              "other alone: roa AS64499 192.0.2.0/24 24"]
    same("jsonext", (done.returncode, said), (1, wanted))
    same("jsonext: later", "OTHER was made 60 s later" in done.stdout, True)
    done = tool("compare.py", ours, write(os.path.join(room, "fort.csv"), FORT))
    same("FORT's CSV", (done.returncode, "customers aren't compared" in done.stdout), (0, True))
    older = write(os.path.join(room, "older"), json.dumps(OLDER))
    same("customers by family", "in both: 0 origins, 1 customers" in tool("compare.py", ours, older).stdout, True)
    same("itself", tool("compare.py", ours, ours).returncode, 0)
    for text in ("", "{}", "[]", '{"roas": 1}', '{"roas": [1]}', '{"roas": [{"asn": 1, "prefix": "192.0.2.1/24"}]}', "a,b\n",
                 "ASN,Prefix,Max prefix length\nAS1\n", '{"roas": [{"asn": true, "prefix": "192.0.2.0/24"}]}'):
        done = tool("compare.py", ours, write(os.path.join(room, "none"), text))
        same(f"none of the forms: {text!r}", (done.returncode, "Traceback" in done.stderr), (2, False))


# Of the example cache: a ROA has a changed octet in its signature, one's certificate claims others' addresses, one's is revoked.
REASONS = {"object-bad-signature": 1, "object-certificate-overclaim": 1, "object-certificate-revoked": 1}


def reasons(room, program, asker):
    """compare.py with the example cache's bundle: each cause."""
    top, ours, kept = os.path.join(TOP, "examples"), os.path.join(room, "ours.json"), os.path.join(room, "kept")
    tool("validate.py", os.path.join(top, "cache"), "--tals", os.path.join(top, "cache", "tals"), "--out", ours, "--keep", kept,
         "--moment", repository.MOMENT, "--checker", program, "--asker", asker, check=True)
    with open(os.path.join(kept, "summary.json")) as file:
        same("reasons: validate.py's", json.load(file)["reasons"], REASONS)
    host = "rsync://rpki.example/repository/"
    other = write(os.path.join(room, "jsonext"), json.dumps(JSONEXT))
    words = ["--bundle", kept, "--checker", program, "--asker", asker]
    said = tool("compare.py", ours, other, *words).stdout
    chain = f"{NAME} {host}ta.cer {host}ta/registry.cer {host}registry/operator.cer"
    for line in (f"  good {host}registry/own.roa {NAME} {host}ta.cer {host}ta/registry.cer",
                 f"  refused {host}operator/revoked.roa object: certificate of the object: revoked; by {chain}",
                 f"  absent {host}operator/none.roa", "  good: 2",
                 "  OTHER's object isn't in the bundle; refused: certificate of the object: revoked: 1"):
        same(f"reasons: {line.strip()}", line in said.splitlines(), True)
    write(other, FORT + "AS1,10.0.0.0/8,8\n")
    said = tool("compare.py", ours, other, *words, "--summary").stdout
    same("reasons: none", "  no object of the bundle lists it: 1" in said.splitlines(), True)
    done = tool("compare.py", ours, other, "--bundle", os.path.join(top, "small.bundle"), *words[2:])
    same("another bundle", (done.returncode, "came of another bundle" in done.stderr), (2, True))
    unlisted(room, program, asker)


def unlisted(room, program, asker):
    """What lies below an authority whose manifest was changed is neither good nor refused."""
    cache, ours, kept = (os.path.join(room, name) for name in ("point", "point.json", "point.kept"))
    shutil.copytree(os.path.join(TOP, "examples", "cache"), cache)
    below = os.path.join(cache, "store", "rrdp", "rpki.example", "5f2a", "rsync", "rpki.example", "repository", "operator")
    os.remove(os.path.join(below, "operator.mft"))
    tool("validate.py", cache, "--tals", os.path.join(cache, "tals"), "--out", ours, "--keep", kept, "--moment",
         repository.MOMENT, "--checker", program, check=True)
    other = write(os.path.join(room, "fort.csv"), FORT)
    said = tool("compare.py", ours, other, "--bundle", kept, "--checker", program, "--asker", asker).stdout.splitlines()
    host = "rsync://rpki.example/repository/"
    chain = f"{NAME} {host}ta.cer {host}ta/registry.cer {host}registry/operator.cer"
    for line in (f"  unlisted {host}operator/v4.roa", f"  above refused {host}registry/operator.cer point: manifest: missing; by {chain}",
                 "  no accepted authority lists the object, above it refused: manifest: missing: 2"):
        same(f"unlisted: {line.strip()}", line in said, True)


def fresh():
    """A repository with RSA signatures that is valid now."""
    repository.NOT_BEFORE, repository.NOT_AFTER = moment(86400), moment(-86400)
    return repository.Repository(2, 3, 1, 2)


def beside(room, program, asker):
    """Three validators over one cache."""
    made = fresh()
    cache, tals, ours = os.path.join(room, "cache"), os.path.join(room, "tals"), os.path.join(room, "routes.json")
    for uri, octets in made.objects.items():
        path = uri.removeprefix("rsync://")
        for start in (".rsync", "."):
            repository.write(os.path.join(cache, start, path), octets)
    repository.write(os.path.join(cache, "ta", NAME, "ta.cer"), made.objects[made.anchor.at])
    repository.write(os.path.join(tals, NAME + ".tal"), made.locator().encode())
    kept = os.path.join(room, "beside.kept")
    done = tool("validate.py", cache, "--tals", tals, "--layout", "rpki-client", "--out", ours, "--checker", program, "--keep",
                kept)
    same("validate.py", (done.returncode, done.stderr if done.returncode else ""), (0, ""))
    with open(os.path.join(kept, "lines")) as file:
        lines = file.read()
    same("lines", lines, made.lines())
    if has("stayrtr", "rtrdump"):
        with StayRTR(ours) as server:
            origins, both = server.dumped()
            same("StayRTR: all of it", (sorted(origins), both), (origins_of(lines), [customers_of(lines)] * 2))
    words = ["--bundle", kept, "--checker", program, "--asker", asker] if asker else []
    of_rpki_client(room, cache, tals, ours, lines, words)
    of_fort(room, cache, tals, ours, words)


def of_rpki_client(room, cache, tals, ours, lines, words):
    """The same origins; version 8.2 can't read the attestations of providers that are written now."""
    if not has("rpki-client"):
        return
    out = os.path.join(room, "out")
    os.mkdir(out)
    for folder in (room, cache, out):
        run("chmod", "-R", "a+rwX", folder, check=True)
    locator = os.path.join(tals, NAME + ".tal")
    done = run("rpki-client", "-n", "-j", "-c", "-d", cache, "-t", locator, out)
    same("rpki-client", (done.returncode, done.stderr if done.returncode else ""), (0, ""))
    for name in ("json", "csv"):
        done = tool("compare.py", ours, os.path.join(out, name), *words)
        told = f"in both: {len(origins_of(lines))} origins"
        alone = [line for line in done.stdout.splitlines() if "alone: roa" in line]
        same(f"rpki-client's {name}", (done.stdout.count(told), alone), (1, []))


def of_fort(room, cache, tals, ours, words):
    """FORT's own file is the one that `csv` makes, line for line."""
    if not has("fort"):
        return
    made = os.path.join(room, "fort.csv")
    if os.path.exists(made):
        os.remove(made)
    done = run("fort", "--work-offline", "--mode=standalone", "--tal", tals, "--local-repository", cache,
               f"--output.roa={made}")
    same("fort", (done.returncode, os.path.exists(made)), (0, True))
    with open(made) as file:
        table = file.read()
    with open(os.path.join(room, "beside.kept", "lines")) as file:
        csv = tool("lines_to.py", "csv", stdin=file).stdout
    same("FORT's header", csv.splitlines()[0], table.splitlines()[0])
    same("FORT's rows", sorted(csv.splitlines()), sorted(table.splitlines()))
    done = tool("compare.py", ours, made, *words)
    same("FORT's csv", (done.returncode, done.stderr), (0, ""))


def units():
    """The example units, as systemd reads them; that the programs aren't where they say is no matter here."""
    if not has("systemd-analyze"):
        return
    folder = os.path.join(TOP, "examples", "systemd")
    for name in sorted(os.listdir(folder)):
        done = run("systemd-analyze", "verify", "--man=no", os.path.join(folder, name))
        said = [line for line in done.stderr.splitlines() if name in line and "not executable" not in line]
        same(f"systemd, {name}", said, [])


def main():
    programs = [os.path.abspath(path) for path in sys.argv[1:]]
    if len(programs) > 2:
        sys.exit(__doc__)
    program, asker = [*programs, None, None][:2]
    with tempfile.TemporaryDirectory() as room:
        documents()
        tables()
        served(room)
        excepted(room)
        expired(room)
        configured(room)
        compared(room)
        units()
        for part, needs in ((reasons, (program, asker)), (beside, (program,))):
            if None in needs:
                counts["skipped"] += 1
                print(f"skipped: {part.__name__}, which needs PROGRAM{' and ASKER' if len(needs) > 1 else ''}")
            else:
                part(room, program, asker)
    print(f"{counts['ran']} answers as they have to be, {counts['skipped']} parts skipped")


if __name__ == "__main__":
    main()
