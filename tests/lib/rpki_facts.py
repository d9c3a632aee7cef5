"""What `rpki_ask why` and `rpki_ask refusals` print of the second reading's facts: all that is refused, or what there is about a name
or a URI."""

import rpki_reason_texts
from rpki_readers import lookup_key
from rpki_reasons import Reasons


def reasons_of(found):
    """The rows of all refusals of a walk, which are made once."""
    if not hasattr(found, "reasons"):
        found.reasons = rpki_reason_texts.in_order(Reasons(found).rows)
    return found.reasons


def about(found, name):
    """The rows of what has that name, or has it as its lookup key."""
    return [row for row in reasons_of(found) if row[0] in (name, lookup_key(name))]


def fact_rows(found, name):
    """Why a name or a URI is attested or refused, a row for each fact."""
    _, goods, chains = found.why(name)
    rows = [" ".join([word, *(part.decode() for part in row)]) for word, facts in (("good", goods), ("chain", chains)) for row in facts]
    return rpki_reason_texts.lines(about(found, name)) + rows


def fact_object(found, name):
    """The same facts as a JSON object without spaces."""
    goods, chains = ([[part.decode() for part in row] for row in rows] for rows in found.why(name)[1:])
    said = {
        "refused": [rpki_reason_texts.value(row) for row in about(found, name)],
        "good": [{"object": file, "locator": named, "chain": chain} for file, named, *chain in goods],
        "chains": [{"locator": named, "chain": chain} for named, *chain in chains],
    }
    return rpki_reason_texts.json_text(said)


def refusal_rows(found):
    """A row for each thing that is refused, on each chain that refuses it."""
    return rpki_reason_texts.lines(reasons_of(found))


def refusals_object(found):
    """All that is refused as a JSON object without spaces."""
    return rpki_reason_texts.refusals_object(reasons_of(found))
