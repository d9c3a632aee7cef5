#!/usr/bin/env python3
"""Writes small.bundle, small.lines and the folder small: a repository of two authorities with a ROA, an ASPA, and a ROA whose
certificate was revoked.

    python3 examples/make.py

The signer is the one of tests/lib/rpki_repositories.py, whose keys and signatures are no real ones: `verdicts` says that they are
good. The lines are stated here.
"""

import pathlib
import shutil
import sys

HERE = pathlib.Path(__file__).resolve().parent
sys.dont_write_bytecode = True
sys.path.insert(0, str(HERE.parent / "tests" / "lib"))

import rpki_model  # noqa: E402
from rpki_repositories import Authority, World, aspa, roa  # noqa: E402

PLACE = b"rsync://rpki.example/repo/"
LINES = """\
roa AS64496 192.0.2.0/24 26
aspa AS64496 AS64497 AS64498
refused rsync://rpki.example/repo/isp/old.roa object
"""


def world():
    made = World()
    anchor = {"ipv4": ["192.0.2.0/24", "198.51.100.0/24"], "ipv6": ["2001:db8::/32"], "as": [(64496, 64511)]}
    top = made.anchor(1, anchor, b"example", PLACE + b"ta.cer", PLACE + b"ta/")
    isp = Authority(made, 2, PLACE + b"ta/isp.cer", PLACE + b"isp/", b"isp")
    top.certify(b"isp.cer", isp, {"ipv4": ["192.0.2.0/24"], "as": [64496]})
    top.publish()
    isp.add_roa(b"isp.roa", roa(64496, "192.0.2.0/24-26"), {"ipv4": ["192.0.2.0/24"]})
    isp.add_roa(b"old.roa", roa(64499, "192.0.2.0/24"), {"ipv4": ["192.0.2.0/24"]}, serial=7)
    isp.add_aspa(b"isp.asa", aspa(64496, 64497, 64498), {"as": [64496]})
    isp.revoked = [7]
    isp.publish()
    return made


def write(path, octets):
    file = HERE / path
    file.parent.mkdir(parents=True, exist_ok=True)
    file.write_bytes(octets)


def main():
    made = world()
    octets = made.bundle()
    assert "".join(f"{line}\n" for line in rpki_model.answer(octets)) == LINES
    shutil.rmtree(HERE / "small", ignore_errors=True)
    write("small.bundle", octets)
    write("small.lines", LINES.encode())
    write("small/moment", made.moment + b"\n")
    write("small/depth", b"%d\n" % made.depth)
    rows = (" ".join(digest.hex() for digest in row) for row in sorted(made.verdicts))
    write("small/verdicts", "".join(f"{row}\n" for row in rows).encode())
    for name, text in made.locators.items():
        write(f"small/tals/{name.decode()}.tal", text)
    for uri, object_octets in made.objects.items():
        write("small/" + uri.decode().replace("://", "/"), object_octets)


if __name__ == "__main__":
    main()
