"""Two subtables to compare, as people name them, compare files, and what differs in words."""
import pathlib, re, struct
from .contents import FORMAT, GLYPH, MOVED, PAIR, RULE, VALUE
from .fonts import Font
from .jobs import split_job
from .names import glyph_names
from .tables import VALUE_FIELDS, signed
from .words import Trouble, ranges_text, read_bytes, table_bytes

TAG, FILE_LIMIT = b"LSC1", 600_000
COMPARED = (1, 2, 3, 4)
SIDES = ("left", "right")
# How many ranges of a set of glyphs are printed.
RANGES_AT_MOST = 8
SORTS = {FORMAT: ("format", "formats"), GLYPH: ("glyph", "glyphs"), RULE: ("rule", "rules"),
         MOVED: ("moved rule", "moved rules"), PAIR: ("pair", "pairs"), VALUE: ("value", "values")}


class Table:
    """A subtable to compare: its kind, its bytes, and the names of its glyphs, where a font gives them."""

    def __init__(self, kind, data, names=None):
        self.kind, self.data, self.names = kind, data, names or {}


# ---- What is compared ----
def from_text(kind, text):
    if kind not in map(str, COMPARED):
        raise Trouble(f"the kind is 1 context, 2 chained context, 3 ligature or 4 pair, and not {ascii(kind)}")
    return Table(int(kind), table_bytes(text))


def from_job(name):
    job = split_job(read_bytes(name))
    if job["faults"]:
        raise Trouble(f"{name} is no good job file: {job['faults'][0]}")
    return Table(job["kind"], job["parts"]["table"]["bytes"])


def from_font(name, lookup):
    """A subtable of a font: `GSUB 4`, or `GSUB 4.1` for its subtable 1."""
    form = re.fullmatch(r"(GSUB|GPOS)[ :]([0-9]{1,5})(?:\.([0-9]{1,5}))?", lookup)
    if not form:
        raise Trouble(f"a font's lookup is given as GSUB:4, or GSUB:4.1 for its subtable 1, and not {ascii(lookup)}")
    font, place = Font(read_bytes(name), name), (int(form[2]), int(form[3] or 0))
    font.table(form[1])
    for one in font.subtables([form[1]]):
        if (one.lookup, one.index) == place:
            if not one.cut or one.kind not in COMPARED:
                raise Trouble(f"{name}: {lookup} is of type {one.type}, {one.type_name()}, format {one.format}, which "
                              "is not compared")
            return Table(one.kind, one.source(), glyph_names(font))
    raise Trouble(f"{name} has no {lookup}; `tools/job lookups` lists what it has")


def font_names(name):
    return glyph_names(Font(read_bytes(name), pathlib.Path(name).name))


def build_compare(kind, left, right):
    """A compare file: both subtables, and the trailer with the kind and where they stand."""
    if len(left) + len(right) + 22 > FILE_LIMIT:
        raise Trouble(f"the two tables have {len(left) + len(right)} bytes, too many for a file of {FILE_LIMIT}")
    return left + right + struct.pack(">HIIII", kind, 0, len(left), len(left), len(right)) + TAG


def split_compare(data):
    """Kind, left and right subtable of a compare file that is not faulty."""
    kind, *numbers = struct.unpack_from(">H4I", data, len(data) - 22)
    return kind, *(data[start:start + size] for start, size in zip(numbers[::2], numbers[1::2]))


# ---- Words ----
class Words:
    """The differences between two tables in words; their contents are None where they are not read."""

    def __init__(self, left, right, contents):
        self.kind, self.contents = left.kind, contents
        self.names = [left.names or right.names, right.names or left.names]

    def glyph(self, glyph, side=0):
        name = self.names[side].get(glyph)
        return f"{glyph} '{name}'" if name else str(glyph)

    def place(self, ranges, side):
        """The glyphs that may stand at a place."""
        if len(ranges) == 1 and ranges[0][0] == ranges[0][1]:
            return self.glyph(ranges[0][0], side)
        more = f" and {len(ranges) - RANGES_AT_MOST} more ranges" if len(ranges) > RANGES_AT_MOST else ""
        return f"{{{ranges_text(ranges[:RANGES_AT_MOST])}{more}}}"

    def rule(self, first, says, side):
        """A rule in reading order, its input in brackets, and what it does."""
        row = [self.place(one, side) for one in says.input]
        if self.kind == 3:
            return " ".join([self.glyph(first, side), *row]) + f" -> {self.glyph(says.forms, side)}"
        if self.contents[side].format != 3:
            row = [self.glyph(first, side), *row] if says.count else []
        back, ahead = ([self.place(one, side) for one in places] for places in (says.back[::-1], says.ahead))
        does = ", ".join(f"lookup {lookup} at {index}" for index, lookup in says.records) or "nothing"
        return " ".join([*back, f"[{' '.join(row)}]", *ahead]) + f" -> {does}"

    def said(self, entry, side, rank):
        """The rule of an entry, after a colon."""
        if not self.contents:
            return ""
        content = self.contents[side]
        rules = [content.whole] if content.format == 3 else content.reached(entry.first)
        return ": " + self.rule(entry.first, rules[rank], side)

    def values(self, entry):
        if not self.contents:
            return ""
        values = self.contents[entry.side].reached(entry.first)[entry.rank]
        said = [f"{field_name(field)} {signed(word)}" for field, word in enumerate(values) if word]
        return ": " + (", ".join(said) or "all values 0")

    def rule_name(self, entry, rank):
        if self.contents and self.contents[0].format == 3:
            return "the rule"
        return f"glyph {self.glyph(entry.first)}: rule {rank}"

    def line(self, entry):
        side = SIDES[entry.side] if entry.sort != VALUE else ""
        pair = f"pair {self.glyph(entry.first)} {self.glyph(entry.rank)}"
        if entry.sort == FORMAT:
            return f"the left table has format {entry.left}, the right one format {entry.right}"
        if entry.sort == GLYPH:
            return f"glyph {self.glyph(entry.first, entry.side)}: covered only in the {side} table"
        if entry.sort == RULE:
            return f"{self.rule_name(entry, entry.rank)} is only in the {side} table" \
                + self.said(entry, entry.side, entry.rank)
        if entry.sort == MOVED:
            return f"{self.rule_name(entry, entry.left)} of the left table is rule {entry.right} of the right one" \
                + self.said(entry, 0, entry.left)
        if entry.sort == PAIR:
            return f"{pair}: only in the {side} table" + self.values(entry)
        return f"{pair}: {field_name(entry.side)} {signed(entry.left)} on the left, {signed(entry.right)} on the right"


def field_name(field):
    return VALUE_FIELDS[field % 4] if field < 4 else "second " + VALUE_FIELDS[field % 4]


def summary(entries):
    if not entries:
        return "No difference: the two tables say the same."
    counts = [(SORTS[sort], sum(one.sort == sort for one in entries)) for sort in SORTS]
    said = ", ".join(f"{count} {names[count != 1]}" for names, count in counts if count)
    return f"{len(entries)} difference{'s' * (len(entries) != 1)}: {said}."
