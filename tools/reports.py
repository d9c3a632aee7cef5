"""What verdicts.py tells of a run to another program: a report."""


def report(run, path=None):
    """The report of a run, as far as that came; with the report's path all that is left out is listed in files beside it."""
    counts, taking = run.counts, run.taking
    signatures = counts.signatures if counts else {}
    return {
        "locators": [{"name": one.name, "uris": one.uris, "anchor": run.anchors.get(one.name)} for one in run.tals],
        "newest_file": (taking and taking.newest) or None,
        "files": taking.count if taking else 0,
        "octets": taking.octets if taking else 0,
        "signatures": {
            "good": sum(counts.good.values()) if counts else 0,
            **{name: signatures.get(name, 0) for name in ("bad", "known", "computed")},
        },
        "contested": run.contested,
        "left_out": counts.left_out.report(path) if counts else [],
    }


def words(row):
    """A contested URI in words."""
    losers = ", ".join(f"{one['authority']} with {one['place']}" for one in row["loses"])
    why = {"known": "the run before took its copy", "host": "its store is nearest to the URI's host"}[row["why"]]
    stands = row["stands"]
    return f"CONTESTED {row['uri']}: {stands['authority']} stands with {stands['place']} ({why}), and not {losers}"
