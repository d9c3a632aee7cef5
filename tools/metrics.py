"""The outcome of a run in Prometheus' text format, as the collector of files of its node exporter takes it."""

import calendar
import time

NAME = "rpki_check"
ESCAPED = str.maketrans({"\\": "\\\\", '"': '\\"', "\n": "\\n"})
# So many rows a metric has at most.
MOST_ROWS = 1000


def text(told):
    """The text of what Outcome.as_dict tells."""
    return "".join(line for rows in (of_run, of_file, of_lines, of_what_is_missing, of_steps) for line in rows(told))


def metric(name, said, rows):
    """The lines of a metric: `rows` are pairs of labels and a number; without rows there are none."""
    rows = [(labels, value) for labels, value in rows if value is not None][:MOST_ROWS]
    if rows:
        yield f"# HELP {NAME}_{name} {said}\n# TYPE {NAME}_{name} gauge\n"
    for labels, value in rows:
        inside = ",".join(f'{key}="{str(text).translate(ESCAPED)}"' for key, text in labels.items())
        yield f"{NAME}_{name}{f'{{{inside}}}' if inside else ''} {value:.15g}\n"


def one(name, said, value):
    return metric(name, said, [({}, value)])


def by(label, found, key=None):
    """Rows of a table: each name as a label, its number, or the one that its own table has at the key."""
    return [({label: name}, value[key] if key else value) for name, value in (found or {}).items()]


def of_run(told):
    yield from one("status", "Exit status of the last run.", told["status"])
    yield from one("run_timestamp_seconds", "When the last run ended.", told["ended"])
    yield from one("run_seconds", "How long the last run took.", told["whole"]["seconds"])
    yield from one("run_processor_seconds", "Processor time of the last run.", told["whole"]["processor_seconds"])
    yield from one("run_memory_bytes", "The most memory of a step of the last run.", told["whole"]["memory"])
    proved = None if told["proved"] is None else int(told["proved"])
    yield from one("proved", "Whether the program that made the lines was built with its proof.", proved)
    yield from one("forced", "Whether the file was written though a guard failed.", int(told["forced"]))


def of_file(told):
    """The file that stands, whichever run made it."""
    standing = told["standing"] or {}
    moment = standing.get("moment")
    made = calendar.timegm(time.strptime(moment, "%Y%m%d%H%M%SZ")) if moment else None
    yield from one("file_timestamp_seconds", "The moment of validation of the file that stands.", made)
    yield from one("file_age_seconds", "How old that was when the last run ended.", moment and told["ended"] - made)
    yield from one("file_origins", "Origins of the file that stands.", standing.get("origins"))
    yield from one("file_customers", "Customers of the file that stands.", standing.get("customers"))
    yield from one("newest_file_timestamp_seconds", "The newest file of the cache.", told["newest_file"])


def of_lines(told):
    yield from one("origins", "Origins of the last run.", told["origins"])
    yield from one("customers", "Customers of the last run.", told["customers"])
    yield from metric("anchor_origins", "Origins below a trust anchor.", by("anchor", told["anchors"], "origins"))
    yield from metric("anchor_customers", "Customers below a trust anchor.", by("anchor", told["anchors"], "customers"))
    yield from metric("refused", "Refusals by cause.", by("cause", told["refused"]))
    yield from metric("refused_reasons", "Refusals by reason.", by("reason", told["reasons"]))


def of_what_is_missing(told):
    # (of a cache that wasn't read whole it isn't known)
    found = told["locators"] if told["verdicts"] else None
    locators = [({"locator": one["name"]}, int(one["anchor"] is not None)) for one in found or ()]
    yield from metric("locator_found", "Whether a file stands where the locator says.", locators)
    rows = [({"why": row["why"], "authority": row["authority"] or ""}, row["files"]) for row in told["left_out"]]
    yield from metric("left_out_files", "Files that were left out.", rows)
    yield from one("quarantined", "Authorities that were left out.", len(told["quarantined"]))
    yield from one("contested", "URIs that more than one authority claims.", len(told["contested"]))
    yield from one("guards_failed", "Guards that don't hold.", len(told["guards"]))
    yield from one("gone_origins", "Origins of the file before that are gone.", (told["gone"] or {}).get("gone"))


def of_steps(told):
    yield from metric("step_seconds", "How long a step took.", by("step", told["seconds"]))
    yield from metric("step_processor_seconds", "Processor time of a step.", by("step", told["processor_seconds"]))
    yield from metric("step_memory_bytes", "The most memory of a step.", by("step", told["memory"]))
