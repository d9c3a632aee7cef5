"""A repository of its own, of some crates of this one and a program over them."""

import os
import shutil

PARTS = ("src", "specs", "proofs", "out")
ROOT = os.path.join(os.path.dirname(os.path.abspath(__file__)), os.pardir)


def stands_on():
    """Of each crate the libraries that it stands on, by crates.txt."""
    with open(os.path.join(ROOT, "crates.txt")) as file:
        rows = [line.split(":") for line in file if ":" in line and not line.startswith("#")]
    return {name.split()[0]: below.split() for name, below in rows}


def with_those_below(names, needs):
    """Those of the names that are crates of the repository, with all that they stand on."""
    found = {name for name in names if name in needs}
    for name in list(found):
        found |= with_those_below(needs[name], needs)
    return found


def link(there, here):
    """Puts the file here, too, by a link where the disk is one."""
    if os.path.exists(here):
        os.remove(here)
    try:
        return os.link(there, here)
    except OSError:
        return shutil.copy2(there, here)


def copy(folder, libraries, parts=PARTS, linked=False):
    """Copies the crates among the libraries and all that they stand on, with their out/ where they have one and it is among the
    parts, or brings the copies that are there up to date; of each the libraries that it stands on. Where `linked`, what was
    built stands there by links to the same files."""
    needs = stands_on()
    copied = {name: needs[name] for name in sorted(with_those_below(libraries, needs))}
    for name in copied:
        for part in parts:
            there = os.path.join(ROOT, "crates", name, part)
            if os.path.isdir(there):
                one = link if linked and part == "out" else shutil.copy2
                shutil.copytree(there, os.path.join(folder, "crates", name, part), copy_function=one, dirs_exist_ok=True)
    write_rows(folder, copied)
    shutil.copy(os.path.join(ROOT, "HANDLES"), os.path.join(folder, "HANDLES"))
    return copied


def write_rows(folder, needs):
    """Writes crates.txt."""
    with open(os.path.join(folder, "crates.txt"), "w") as file:
        file.writelines(f"{name}: {' '.join(below)}\n" for name, below in needs.items())


def make(folder, program, source, libraries):
    """Makes the repository in the folder, of copied crates and a program of one file; the program's folder."""
    copied = copy(folder, libraries)
    crate = os.path.join(folder, "crates", program)
    os.makedirs(os.path.join(crate, "src"), exist_ok=True)
    shutil.copy(source, os.path.join(crate, "src", "main.rt"))
    write_rows(folder, {**copied, program: libraries})
    return crate
