"""The arguments of validate.py."""

import argparse
import collections
import os
import re
import time

import built
import lines_to
import log

# So long `check` may take, in seconds, and each question to `rpki_ask`; so long each other step.
TIME_LIMIT, STEP_LIMIT = 120, 1200
# So much memory a step may take, in MiB.
MEMORY_LIMIT = 6144
# So many authorities are left out at most.
MOST_LEFT_OUT = 3
# So many origins there are at least, and so many per cent of those of the file that stands may be gone.
MIN_ORIGINS, MAX_DROP = 1, 20
# What is handed to verdicts.py as it was given.
HANDED = ("layout", "depth", "jobs", "max_file_size", "max_origins_per_object", "max_store_size", "known")
FLAGS = ("relaxed", "progress")

# A file that is written, and its form.
Out = collections.namedtuple("Out", "form path")


class Version(argparse.Action):
    """Tells which tools and programs these are, and ends."""

    def __call__(self, parser, given, *_):
        print(built.version(parser.prog, programs(given)))
        parser.exit()


def programs(given):
    """The two programs, as they are given or found."""
    return [built.find(name, path) for name, path in (("rpki_check", given.checker), ("rpki_ask", given.asker))]


def number(text):
    if not re.fullmatch(r"[0-9]{1,9}", text):
        raise argparse.ArgumentTypeError("a number of at most nine digits is wanted")
    return int(text)


def percent(text):
    if number(text) > 100:
        raise argparse.ArgumentTypeError("at most 100 per cent can be gone")
    return int(text)


def add_files(parser):
    parser.add_argument("cache", metavar="CACHE", help="the validator's cache")
    parser.add_argument("--tals", required=True, metavar="FOLDER", help="the folder of the locators, NAME.tal")
    how = {"action": "append", "required": True, "metavar": "[FORM=]FILE"}
    parser.add_argument("--out", help="a file for routers' software; more than one may be given", **how)
    parser.add_argument("--form", choices=lines_to.FORMS, default="json", help="the form where none is given (default: json)")
    parser.add_argument("--keep", metavar="FOLDER", help="keep the bundle and what came of it")
    parser.add_argument("--known", metavar="FOLDER", help="the verdicts of an earlier run")
    parser.add_argument("--slurm", metavar="FILE", help="exceptions of your own, by RFC 8416")
    parser.add_argument("--work", metavar="FOLDER", help="where the work folder stands (default: beside FILE)")
    parser.add_argument("--checker", metavar="PATH", help="the program rpki_check")
    parser.add_argument("--asker", metavar="PATH", help="the program rpki_ask")


def add_limits(parser):
    seconds = {"type": lines_to.seconds, "metavar": "SECONDS"}
    told = "for rpki_check check, and for each question to rpki_ask"
    parser.add_argument("--time-limit", default=TIME_LIMIT, help=f"{told}, {TIME_LIMIT} unless it is given; 0: none", **seconds)
    told = f"for each other step, {STEP_LIMIT:,} unless it is given; 0: none"
    parser.add_argument("--step-limit", default=STEP_LIMIT, help=told, **seconds)
    how = {"type": number, "default": MEMORY_LIMIT, "metavar": "MIB"}
    parser.add_argument("--memory-limit", help=f"for each step, {MEMORY_LIMIT:,} unless it is given; 0: none", **how)
    how = {"type": number, "default": MOST_LEFT_OUT, "metavar": "N"}
    parser.add_argument("--quarantine", help=f"leave so many authorities out at most, {MOST_LEFT_OUT} unless it is given", **how)


def add_guards(parser):
    how = {"action": "append", "default": [], "metavar": "NAME"}
    parser.add_argument("--allow-missing-anchor", help="the locator of that name may lead to no trust anchor", **how)
    how = {"type": number, "default": MIN_ORIGINS, "metavar": "N"}
    parser.add_argument("--min-origins", help=f"so many origins are there at least, {MIN_ORIGINS} unless it is given", **how)
    how = {"type": percent, "default": MAX_DROP, "metavar": "PERCENT"}
    told = f"so many of the origins of FILE may be gone, {MAX_DROP} unless it is given; 0: all"
    parser.add_argument("--max-drop", help=told, **how)
    parser.add_argument("--force", action="store_true", help="write FILE whatever is missing")


def add_telling(parser):
    parser.add_argument("--status", metavar="FILE", help="the status of the run as JSON (default: beside FILE)")
    parser.add_argument("--metrics", metavar="FILE", help="the same for Prometheus")
    parser.add_argument("--log", choices=log.FORMS, help="the form of lines on standard error")
    parser.add_argument("--progress", action="store_true", help="tell how far it is, on standard error")
    parser.add_argument("--version", action=Version, nargs=0, help="tell which tools and programs these are")


def arguments(description):
    parser = argparse.ArgumentParser(description=description, formatter_class=argparse.RawDescriptionHelpFormatter)
    for add in (add_files, lines_to.add_arguments, add_limits, add_guards, add_telling):
        add(parser)
    for name in HANDED[:-1]:
        parser.add_argument(f"--{name.replace('_', '-')}", help="as for verdicts.py")
    parser.add_argument("--relaxed", action="store_true", help="as for verdicts.py")
    given = parser.parse_args()
    given.moment = given.moment or time.strftime("%Y%m%d%H%M%SZ", time.gmtime())
    given.outs = [out_of(text, given.form) for text in given.out]
    if len({out.path for out in given.outs}) < len(given.outs):
        parser.error("two of --out are the same file")
    given.first = given.outs[0].path
    given.status = os.path.abspath(given.status or f"{given.first}.status.json")
    given.checker, given.asker = programs(given)
    return given


def out_of(text, form):
    """A file and its form, as `FORM=FILE` or `FILE`."""
    front, found, rest = text.partition("=")
    form, path = (front, rest) if found and front in lines_to.FORMS else (form, text)
    # (where it is a link, what that points at is replaced)
    return Out(form, os.path.realpath(path))
