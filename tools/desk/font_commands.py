"""The commands of tools/job that start from a font: lookups, from-font and font."""
import bisect, concurrent.futures, os, pathlib, re, subprocess, sys, tempfile, threading
from .answers import ANSWERS, JOB_LIMIT, KINDS
from .fonts import Font
from .job_commands import write_job
from .jobs import FORMS, build_job, entries_map, entry_bytes, map_entries, split_job
from .judge import complaints
from .prose import print_columns
from .words import Trouble, hex_bytes, number, read_bytes, write_bytes

LABEL = pathlib.Path(__file__).resolve().parents[2] / "label"
# Answers that say that the font itself is damaged.
DAMAGED = (6, 12)


def open_font(args):
    return Font(read_bytes(args.font), args.font, args.number)


# ---- What is retained ----
def id_list(text, what, count):
    """Numbers below `count`, from `3,5,9-20` or `all`, or from a file of them after `@`."""
    if text.startswith("@"):
        text = read_bytes(text[1:]).decode("utf-8", "replace")
    if text.strip() == "all":
        return set(range(count))
    found = set()
    for item in text.replace(",", " ").split():
        first, dash, last = item.partition("-")
        first, last = number(first, f"{what} {ascii(item)}"), number(last if dash else first, f"{what} {ascii(item)}")
        if last < first:
            raise Trouble(f"{what} {ascii(item)}: the range falls")
        if last >= count:
            raise Trouble(f"{what} {last} is not in the font, which has {count}, counted from 0")
        found.update(range(first, last + 1))
    return found


def retained_glyphs(font, args):
    """The glyphs that are asked for, by number and by text."""
    found = id_list(args.glyphs, "glyph", font.glyph_count()) if args.glyphs else set()
    text = args.text or ""
    if args.text_file:
        text += read_bytes(args.text_file).decode("utf-8", "replace")
    if text:
        glyphs = font.characters()
        missing = sorted(char for char in set(text) if ord(char) not in glyphs and not char.isspace())
        if missing:
            print("tools/job: warning: the font has no glyph for " + " ".join(missing), file=sys.stderr)
        found.update(glyphs[ord(char)] for char in text if ord(char) in glyphs)
    elif not args.glyphs:
        raise Trouble("say what is retained, by --glyphs, --text or --text-file")
    return found


def entries_of(ids, renumber):
    return [(old, new if renumber else old) for new, old in enumerate(sorted(ids))]


def font_maps(font, tags, args):
    """The glyph map's form and bytes, and the lookup map of each table."""
    if len(tags) > 1 and args.lookups != "all":
        raise Trouble("give --table with --lookups, since GSUB and GPOS number their lookups apart")
    glyphs = entries_map(entries_of(retained_glyphs(font, args), args.renumber_glyphs), FORMS.get(args.form))
    kept = {tag: id_list(args.lookups, f"{tag} lookup", font.lookup_count(tag)) for tag in tags}
    return *glyphs, {tag: entry_bytes(entries_of(ids, args.renumber_lookups)) for tag, ids in kept.items()}


# ---- The commands ----
def lookups(args):
    font = open_font(args)
    if font.count > 1:
        print(f"{font.name} is a collection of {font.count} fonts; this is font {args.number}.")
    rows = []
    found = font.subtables([args.table] if args.table else ("GSUB", "GPOS"))
    starts = {tag: sorted({one.at for one in found if one.tag == tag}) for tag in ("GSUB", "GPOS")}
    for one in found:
        if one.cut:
            size = f"{len(one.source())}"
        else:
            following = bisect.bisect(starts[one.tag], one.at)
            ends = starts[one.tag] + [len(one.table.data)]
            size = f"<= {ends[following] - one.at}"
        name = one.type_name() + (", by extension" if one.extended else "")
        rows.append([one.tag, one.lookup, one.index, f"{one.type} {name}", one.format, size,
                     f"yes, kind {one.kind}" if one.cut else one.why_not()])
    print_columns(["table", "lookup", "subtable", "type", "format", "bytes", "cut"], rows, right=(1, 2, 4, 5))
    print(f"{len(found)} subtables, of which {sum(one.cut for one in found)} can be cut.")


def from_font(args):
    font = open_font(args)
    font.table(args.table)
    found = [one for one in font.subtables([args.table]) if one.lookup == args.lookup]
    if not found:
        raise Trouble(f"{font.name}: {args.table} has no lookup {args.lookup} with a subtable; it has "
                      f"{font.lookup_count(args.table)} lookups, counted from 0")
    if not 0 <= args.subtable < len(found):
        raise Trouble(f"{font.name}: lookup {args.lookup} of {args.table} has {len(found)} subtables, counted from 0")
    one = found[args.subtable]
    if not one.cut:
        what = f"type {one.type}, {one.type_name()}" + (f", and format {one.format}" if one.kind else "")
        raise Trouble(f"{font.name}: the subtable is of {what}, which is not covered")
    form, glyphs, maps = font_maps(font, [args.table], args)
    job = build_job(one.kind, one.source(), glyphs, maps[args.table], form=form)
    if len(job) > JOB_LIMIT:
        raise Trouble(f"the job would have {len(job)} bytes, more than {JOB_LIMIT}: the subtable {len(one.source())}, the "
                      f"glyph map {len(glyphs)}; retain fewer glyphs, or call the library, which has no such limit")
    write_job(args.output, job)


def run_label(command, job):
    """What the program says of a job: the answer, and the bytes that are kept."""
    with tempfile.TemporaryFile() as file:
        file.write(job)
        file.seek(0)
        ran = subprocess.run([command, "-"], stdin=file, stdout=subprocess.PIPE, check=False)
    parts = re.fullmatch(r"(kept|refused) ([0-9]+)\n((?:[0-9a-f]+\n)*)", ran.stdout.decode("ascii", "replace"))
    kept = hex_bytes(parts[3]) if parts else b""
    if not parts or parts[1] == "kept" and len(kept) != int(parts[2]):
        raise Trouble(f"{command} gave no answer (exit status {ran.returncode})")
    return (int(parts[2]), b"") if parts[1] == "refused" else (0, kept)


def in_words(answer, job):
    """The answer in words; of a malformed table its lowest faulty part, of a record past its rule that record."""
    if answer == 0:
        return ANSWERS[0][0]
    reasons = [text for number, text in complaints(split_job(job)) if number == answer] if answer in DAMAGED else []
    return f"{answer}: " + ", ".join([ANSWERS[answer][0]] + reasons[:1])


class Bar:
    """A progress bar on a terminal; nothing elsewhere."""

    def __init__(self, total):
        self.total, self.done, self.shown, self.lock = total, 0, sys.stderr.isatty(), threading.Lock()

    def step(self, count=1):
        with self.lock:
            self.done += count
            if self.shown and self.total:
                filled = 40 * self.done // self.total
                end = "\r\033[K" if self.done == self.total else ""
                print(f"\r[{'#' * filled}{' ' * (40 - filled)}] {self.done} of {self.total}{end}", end="",
                      file=sys.stderr, flush=True)


def cut_all(command, jobs):
    """Runs the jobs; the first one alone, since the program may have to be built for it."""
    bar = Bar(len(jobs))

    def run(job):
        answer = run_label(command, job) if len(job) <= JOB_LIMIT else (None, b"")
        bar.step()
        return answer

    with concurrent.futures.ThreadPoolExecutor(os.cpu_count()) as pool:
        return [run(job) for job in jobs[:1]] + list(pool.map(run, jobs[1:]))


def write_cut(folder, name, job, kept):
    """The job and, if something is kept, the table, as files of a folder."""
    os.makedirs(folder, exist_ok=True)
    write_bytes(os.path.join(folder, name + ".job"), job)
    if kept:
        write_bytes(os.path.join(folder, name + ".table"), kept)


def font(args):
    """Cuts every subtable that is covered; the exit status is 1 if one is damaged."""
    opened = open_font(args)
    tags = [tag for tag in ("GSUB", "GPOS") if tag in opened.tables and args.table in (None, tag)]
    found = opened.subtables(tags)
    covered = [one for one in found if one.cut]
    form, glyphs, maps = font_maps(opened, tags, args)
    sources = [one.source() for one in covered]
    jobs = [build_job(one.kind, source, glyphs, maps[one.tag], form=form) for one, source in zip(covered, sources)]
    answers = cut_all(args.label, jobs)
    rows, tally = [], {}
    for one, source, job, (answer, kept) in zip(covered, sources, jobs, answers):
        words = "not run: the job would be over 65,536 bytes" if answer is None else in_words(answer, job)
        rows.append([f"{one.tag} {one.lookup}.{one.index}", KINDS[one.kind], one.format, len(source),
                     len(kept) if answer == 0 else "-", words])
        tally.setdefault(answer, []).append((len(source), len(kept)))
        if args.output:
            write_cut(args.output, f"{one.tag}-{one.lookup}-{one.index}", job, kept)
    if args.report:
        print_columns(["lookup", "kind", "format", "before", "after", "answer"], rows, right=(2, 3, 4))
    kept = tally.pop(0, [])
    parts = [f"{len(kept)} kept ({sum(a for a, _ in kept)} -> {sum(b for _, b in kept)} bytes)"]
    parts += [f"{len(tally[answer])} not run" if answer is None else
              f"{len(tally[answer])} refused as {answer} ({ANSWERS[answer][0]})" for answer in sorted(tally, key=str)]
    print(f"{len(found)} subtables, {len(covered)} covered, {len(map_entries(glyphs, form))} glyphs retained: "
          + ", ".join(parts) + ".")
    return 1 if any(answer in tally for answer in DAMAGED) else 0
