"""What is refused before anything is cut, and why."""
from .answers import KINDS, LIMIT, ORDER
from .jobs import map_faults, parts_of
from .tables import decode


def reason(part, text):
    """What is wrong with a part: its name, its place and what is wrong there."""
    ways = f" ({part.ways} offsets reach it)" if part.ways > 1 else ""
    return f"{part.name}, at {part.start:#06x}: {text}{ways}"


def source_complaints(kind, data, tree=None):
    """What is refused of a source, as pairs of an answer and why, in the order of the answers, lowest place first."""
    found = [(4, f"the source has {len(data)} bytes")] if len(data) > LIMIT else []
    for part in (tree or decode(kind, data))["faulty"]:
        found += [(answer, reason(part, text)) for answer, text in part.faults]
    return sorted(found, key=lambda pair: ORDER.index(pair[0]))


def complaints(job, tree=None):
    """The same of a job file; the first is the answer that the program gives."""
    if job["faults"]:
        return [(11, text) for text in job["faults"]]
    table, glyphs, lookups = parts_of(job)
    found = [(2, text) for text in map_faults("glyph map", glyphs, ((0, "old"), (1, "new")), job["form"])]
    found += [(3, text) for text in map_faults("lookup map", lookups, ((0, "old"),))]
    if job["kind"] not in KINDS:
        return [(1, f"the kind is {job['kind']}")] + found
    return found + source_complaints(job["kind"], table, tree)
