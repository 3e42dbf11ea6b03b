"""Maps and job files."""
import itertools, struct
from .answers import JOB_LIMIT
from .words import Trouble, hex_bytes, number, ranges_text

TRAILER = 30
PARTS = ("table", "glyph map", "lookup map")

# The forms of a glyph map, by the bytes of an entry: old id and new id; or first old id, first new id and count of a run.
# A lookup map is always of pairs. The tag of a job file says its form.
PAIRS, RUNS = 4, 6
FORMS = {"pairs": PAIRS, "runs": RUNS}
TAGS = {PAIRS: b"LSJ1", RUNS: b"LSJ2"}
TAGGED = {tag: form for form, tag in TAGS.items()}

# The layouts of what is kept. A job file asks for the plain one.
PLAIN, PACKED = 0, 1

# The worked case P1 (docs/RULES.md).
EXAMPLE = {
    "kind": "1", "glyphs": "3:1 5:2 9:3", "lookups": "4:0 7:2",
    "table": "0001 0030 0002 000A 0024 0002 0006 0010 0002 0001 0009 0000 0007 0002 0001 0006 0000 0004 "
             "0001 0004 0001 0001 0000 0005 0001 0002 0003 0005"}


def text_runs(text):
    """The runs that a text names by `old:new` and `first-last:new`, as first old id, first new id and count."""
    for item in text.replace(",", " ").split():
        old, _, new = item.partition(":")
        first, dash, last = old.partition("-")
        first, last, new = (number(part, f"map entry {ascii(item)}") for part in (first, last if dash else first, new))
        if last < first or new + last - first > 0xFFFF:
            raise Trouble(f"map entry {ascii(item)}: the range falls, or runs past 65535")
        yield from split_run(first, new, last - first + 1)


def split_run(old, new, count):
    """A run in pieces whose counts fit 16 bits: all 65,536 ids take two."""
    for step in range(0, count, 0xFFFF):
        yield old + step, new + step, min(count - step, 0xFFFF)


def spelled_out(runs):
    """The entries of runs, (old, new), one by one."""
    return ((old + step, new + step) for old, new, count in runs for step in range(count))


def joined_runs(entries):
    """Entries as few runs as they make: neighbours in step are put together."""
    in_step = itertools.groupby(enumerate(entries), lambda one: (one[1][0] - one[0], one[1][1] - one[0]))
    for run in ([entry for _, entry in group] for _, group in in_step):
        yield from split_run(*run[0], len(run))


def entry_bytes(entries):
    return b"".join(struct.pack(">HH", old, new) for old, new in entries)


def run_bytes(runs):
    return b"".join(struct.pack(">3H", *run) for run in runs)


def map_bytes(text, form=PAIRS):
    """A map's bytes, from what `text_runs` takes, with an item for each run, or as they are after `hex:`."""
    if text.startswith("hex:"):
        return hex_bytes(text[4:])
    return run_bytes(text_runs(text)) if form == RUNS else entry_bytes(spelled_out(text_runs(text)))


def entries_map(entries, form=None):
    """A glyph map's form and bytes: the form that is asked for, or the shorter one, pairs if both are as long."""
    entries = list(entries)
    made = {PAIRS: entry_bytes(entries), RUNS: run_bytes(joined_runs(entries))}
    form = form or min(made, key=lambda one: len(made[one]))
    return form, made[form]


def glyph_map(text, form=None):
    """The same from a text. Runs that are asked for stand as the text has them, and bytes after `hex:` count as pairs
    unless runs are asked for."""
    if form or text.startswith("hex:"):
        return form or PAIRS, map_bytes(text, form)
    return entries_map(spelled_out(text_runs(text)))


def map_runs(data, form=PAIRS):
    """A map's runs, as first old id, first new id and count; a pair is a run of one."""
    words = struct.iter_unpack(f">{form // 2}H", data[:len(data) // form * form])
    return list(words) if form == RUNS else [(old, new, 1) for old, new in words]


def map_entries(data, form=PAIRS):
    """A map's entries; no more than a good map has, since counts that are not judged may add up to much."""
    return list(itertools.islice(spelled_out(map_runs(data, form)), 0x10000))


def map_text(data, form=PAIRS):
    """A map as `map_bytes` takes it: runs as they are, and pairs with neighbours in step put together."""
    runs = map_runs(data, form)
    if len(data) % form or any(count == 0 or max(old, new) + count > 0x10000 for old, new, count in runs):
        return "hex:" + data.hex()
    if form == PAIRS:
        runs = joined_runs(spelled_out(runs))
    return " ".join(f"{ranges_text([(old, old + count - 1)])}:{new}" for old, new, count in runs)


def combined(first, second):
    """The entries of the map that does at once what two good maps do one after the other."""
    return [(old, second[new]) for old, new in first.items() if new in second]


def map_faults(name, data, columns, form=PAIRS):
    """What is wrong with a map whose `columns`, numbers with names, have to rise."""
    if len(data) % form:
        yield f"the {name} has {len(data)} bytes, not a multiple of {form}"
    runs, one = map_runs(data, form), "run" if form == RUNS else "entry"
    for place, (_, _, count) in enumerate(runs, 1):
        if count == 0:
            yield f"{name}, run {place}: the count is 0"
    for column, title in columns:
        end = 0
        for place, run in enumerate(runs, 1):
            first, count = run[column], run[2]
            if first < end:
                yield f"{name}, {title} column, {one} {place}: {first} follows {end - 1}"
            end = first + count
            if end > 0x10000:
                yield f"{name}, {title} column, run {place}: {count} ids from {first} on, past 65535"


def build_job(kind, *parts, form=PAIRS):
    """A job file of table, glyph map and lookup map, with the tag of the glyph map's form."""
    starts = itertools.accumulate(map(len, parts), initial=0)
    spans = b"".join(struct.pack(">II", start, len(part)) for start, part in zip(starts, parts))
    return b"".join(parts) + struct.pack(">H", kind) + spans + TAGS[form]


def tag_fault(data):
    """What is wrong with the last four bytes of a file that has no tag there."""
    where, tag = max((data.rfind(tag), tag) for tag in TAGGED)
    found = f"; {tag.decode()} stands {len(data) - where - 4} bytes before the end" if where >= 0 else ""
    return f"the last four bytes are {data[-4:].hex()}, and not the tag 4c534a31 (LSJ1) or 4c534a32 (LSJ2){found}"


def call_job(call):
    """The job file of a stored call (tools/run_vectors); None if none can hold it, by its marks or its length."""
    form, parts = call.get("mark", PAIRS), (bytes.fromhex(call[part]) for part in ("source", "gmap", "lmap"))
    plain = call.get("packed", PLAIN) == PLAIN
    job = build_job(call["kind"], *parts, form=form) if form in TAGS and plain else b""
    return job if 0 < len(job) <= JOB_LIMIT else None


def split_job(data):
    """A job file's kind, parts and form as far as they are there, and what makes it faulty."""
    end = len(data) - TRAILER
    if end < 0:
        return {"size": len(data), "parts": {}, "faults": [f"{len(data)} bytes, and the trailer takes {TRAILER}"]}
    kind, *numbers, tag = struct.unpack_from(">H6I4s", data, end)
    job = {"size": len(data), "trailer": end, "kind": kind, "form": TAGGED.get(tag, PAIRS), "parts": {}, "faults": []}
    if len(data) > JOB_LIMIT:
        job["faults"].append(f"{len(data)} bytes, more than {JOB_LIMIT}")
    if tag not in TAGGED:
        job["faults"].append(tag_fault(data))
    for name, start, length in zip(PARTS, numbers[::2], numbers[1::2]):
        job["parts"][name] = {"start": start, "length": length, "bytes": data[start:min(start + length, end)]}
        if start + length > end:
            job["faults"].append(f"the {name} ends at {start + length}, and the trailer starts at {end}")
    return job


def parts_of(job):
    """The bytes of the table and of the two maps."""
    return [job["parts"][name]["bytes"] for name in PARTS]


def new_ids(job):
    return dict(map_entries(job["parts"]["glyph map"]["bytes"], job["form"]))
