"""The commands of tools/job that take and make job files: make, combine, show and read."""
import re, sys
from .answers import AFTER_THE_CUT, ANSWERS, KINDS
from .jobs import (EXAMPLE, FORMS, PACKED, RUNS, build_job, combined, entries_map, entry_bytes, glyph_map, map_bytes,
                   map_entries, map_text, new_ids, parts_of, split_job)
from .judge import complaints, source_complaints
from .layouts import in_layout
from .prose import print_reasons, print_table, say
from .tables import coverages, decode, tally
from .words import Trouble, hex_bytes, joined, number, ranges_text, read_bytes, table_bytes, write_bytes


def make(args):
    base = EXAMPLE if args.example else {"kind": None, "table": None, "glyphs": "", "lookups": ""}
    given = {name: base[name] if getattr(args, name) is None else getattr(args, name) for name in base}
    if given["kind"] is None or given["table"] is None:
        raise Trouble("make needs --kind and --table, or --example")
    form, glyphs = glyph_map(given["glyphs"], FORMS.get(args.form))
    parts = table_bytes(given["table"]), glyphs, map_bytes(given["lookups"])
    write_job(args.output, build_job(number(given["kind"], "kind"), *parts, form=form))


def write_job(output, data):
    """Writes a job file, with a warning if it is refused before the cut."""
    if not output and sys.stdout.isatty():
        raise Trouble("a job file is binary, and standard output is a terminal; give -o OUT")
    found = complaints(split_job(data))
    if found:
        print(f"tools/job: warning: the program will answer `refused {found[0][0]}`", file=sys.stderr)
        print_reasons(found, file=sys.stderr)
    write_bytes(output or sys.stdout.fileno(), data)


def combine(args):
    pair = (read_bytes(name) for name in (args.first, args.second))
    write_job(args.output, one_job(*pair, form=FORMS.get(args.form)))


def one_job(*pair, form=None):
    """The job that cuts at once what two jobs cut one after the other, the second of them what the first keeps."""
    first, second = (with_good_maps(data, which) for data, which in zip(pair, ("first", "second")))
    if first["kind"] != second["kind"]:
        raise Trouble(f"the first job is of kind {first['kind']} and the second of {second['kind']}; a cut keeps the kind")
    glyphs, then = new_ids(first), new_ids(second)
    known = set(glyphs.values())
    unknown = [(old, old) for old in then if old not in known]
    if unknown:
        raise Trouble("the second glyph map has old ids that are no new ids of the first: "
                      + ranges_text(joined(unknown)))
    form, both = entries_map(combined(glyphs, then), form)
    lookups = (dict(map_entries(parts_of(job)[2])) for job in (first, second))
    return build_job(first["kind"], parts_of(first)[0], both, entry_bytes(combined(*lookups)), form=form)


def with_good_maps(data, which):
    job = split_job(data)
    found = [text for answer, text in complaints(job) if answer in (11, 2, 3)]
    if found:
        raise Trouble(f"the {which} job: {found[0]}")
    return job


def show(args):
    if args.kind:
        table, job = table_bytes(args.file), None
        tree = decode(args.kind, table)
        print_table(tree, len(table))
        found = source_complaints(args.kind, table, tree)
    else:
        job = split_job(read_bytes(args.file))
        found = complaints(job, show_job(job))
    if found:
        answer = found[0][0]
        print(f"The program answers `refused {answer}`" if job else f"The call answers {answer}", end="")
        print(f": {ANSWERS[answer][0]}.")
    else:
        print("Nothing is seen that is refused before the cut.")
    print_reasons(found, args.all)


def show_job(job):
    """Prints a job's parts, and hands back its table, decoded, if its kind is known."""
    print(f"Job file of {job['size']} bytes" + (f", the trailer at {job['trailer']}." if job["parts"] else "."))
    if not job["parts"]:
        return None
    for name, part in job["parts"].items():
        in_runs = ", in runs" if name == "glyph map" and job["form"] == RUNS else ""
        print(f"  {name:10}  starts at {part['start']}, {part['length']} bytes{in_runs}")
    table, glyphs, lookups = parts_of(job)
    say(f"glyphs, old:new   {map_text(glyphs, job['form']) or 'empty'}", "  ", "    ")
    say(f"lookups, old:new  {map_text(lookups) or 'empty'}", "  ", "    ")
    print(f"  kind {job['kind']}, {KINDS.get(job['kind'], 'which is none of 1 to 5')}")
    if job["kind"] not in KINDS:
        return say(f"The table, not decoded for want of its kind: {table.hex(' ', -2)}")
    tree = decode(job["kind"], table)
    print_table(tree, len(table))
    return tree


def read(args):
    job = split_job(read_bytes(args.job)) if args.job else None
    first, _, rest = read_bytes(args.printed).decode("ascii", "replace").partition("\n")
    parts = re.fullmatch(r"kept ([0-9]{1,5})|refused ([0-9]{1,2})", first.rstrip())
    answer = int(parts[2] or 0) if parts else -1
    if answer not in ANSWERS or parts[2] and (answer == 0 or rest.strip()):
        raise Trouble(f"the program never prints this: {ascii(first[:40])}" + " and more" * bool(rest.strip()))
    tree = decode(job["kind"], parts_of(job)[0]) if job and job["parts"] and job["kind"] in KINDS else None
    found = complaints(job, tree) if job else []
    say(f"Answer {answer}: {ANSWERS[answer][0]}. {ANSWERS[answer][1]}")
    if job and (not tree or tree["whole"]) and (found[0][0] != answer if found else answer not in AFTER_THE_CUT):
        raise Trouble("No reason for that is seen in the job given. Is it the job that was run?")
    print_reasons([pair for pair in found if pair[0] == answer], args.all)
    if answer == 0:
        kind, kept = job["kind"] if job else args.kind, printed_bytes(int(parts[1]), rest)
        if args.packed:
            kept = packed(kind, kept)
        read_kept(kept, kind, job, tree)
        if args.output:
            write_bytes(args.output, kept)
    elif answer == 8 and job:
        for name, glyphs in coverages(tree):
            print(f"  {name}: {len(glyphs & new_ids(job).keys())} of {len(glyphs)} glyphs are retained")


def printed_bytes(count, text):
    data = hex_bytes(text)
    if count != len(data):
        raise Trouble(f"{count} bytes are announced and {len(data)} follow: the print is cut or damaged")
    return data


def packed(kind, data):
    """What is kept in the packed layout; as it is where it is no sound table of its kind, which is said later."""
    if kind is None:
        raise Trouble("--packed needs --job or --kind")
    if decode(kind, data)["faulty"]:
        return data
    made = in_layout(kind, data, PACKED)
    print(f"In the packed layout it has {len(made)} bytes, in the plain one {len(data)}.")
    return made


def read_kept(data, kind, job, before):
    if kind is None:
        return print(f"It has {len(data)} bytes; give --job or --kind to see them decoded.")
    after = decode(kind, data)
    print_table(after, len(data))
    if after["faulty"]:
        raise Trouble("This is no sound table of that kind. Is it the right kind?")
    return job and print_changes(job, before, after, len(data))


def print_changes(job, before, after, size):
    print(f"What changed:\n  bytes: {job['parts']['table']['length']} -> {size}")
    forms = [tree["parts"][0]["value"] for tree in (before, after)]
    if forms[0] != forms[1]:
        print(f"  format: {forms[0]} -> {forms[1]}")
    why = "its substitute is not" if job["kind"] == 5 else "nothing in its set survives"
    for (name, old), (_, new) in zip(coverages(before), coverages(after)):
        print(f"  {name}: {len(old)} -> {len(new)} glyphs")
        emptied = [(glyph, glyph) for glyph, new_id in new_ids(job).items() if glyph in old and new_id not in new]
        if emptied:
            say(f"retained, but {why}: " + ranges_text(joined(emptied)), "    ", "      ")
    for name in ("set", "rule", "record", "ligature", "pair"):
        old, new = tally(before["parts"], name, {}), tally(after["parts"], name, {})
        if old or new:
            print(f"  {name}s: {old} -> {new}")
