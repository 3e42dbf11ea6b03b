"""OpenType fonts: their tables, their characters, and the subtables of their lookups.

What is damaged outside the subtables is refused with a sentence; what is damaged inside one, the subsetter refuses.
"""
import struct
from .answers import LIMIT
from .tables import SHAPES, Source
from .words import Trouble

FLAVOURS = (b"\0\1\0\0", b"OTTO", b"true", b"typ1")
GSUB_TYPES = {1: "single", 2: "multiple", 3: "alternate", 4: "ligature", 5: "context", 6: "chained context",
              7: "extension", 8: "reverse chained single"}
GPOS_TYPES = {1: "single", 2: "pair", 3: "cursive", 4: "mark to base", 5: "mark to ligature", 6: "mark to mark",
              7: "context", 8: "chained context", 9: "extension"}
TYPES = {"GSUB": GSUB_TYPES, "GPOS": GPOS_TYPES}
EXTENSION = {"GSUB": 7, "GPOS": 9}
# The kind that a lookup type is cut as.
CUT_AS = {("GSUB", 5): 1, ("GPOS", 7): 1, ("GSUB", 6): 2, ("GPOS", 8): 2, ("GSUB", 4): 3, ("GPOS", 2): 4, ("GSUB", 1): 5}
# More subtables than any font has: in a damaged one lookups may overlap without end.
SUBTABLES_AT_MOST = 65536
# Which encodings are asked first, as platform and encoding: Unicode in full, in part, and a symbol font's own.
ENCODINGS = ((3, 10), (0, 6), (0, 4), (3, 1), (0, 3), (0, 2), (0, 1), (0, 0), (3, 0))


class Bytes:
    """A stretch of the file, read with care: a field outside it ends the command with a sentence."""

    def __init__(self, data, name):
        self.data, self.name = data, name

    def numbers(self, form, at, what):
        if at < 0 or at + struct.calcsize(">" + form) > len(self.data):
            raise Trouble(f"{self.name} is damaged: {what} lies outside, at {at} of {len(self.data)} bytes")
        return struct.unpack_from(">" + form, self.data, at)

    def word(self, at, what):
        return self.numbers("H", at, what)[0]

    def words(self, count, at, what):
        return self.numbers(f"{count}H", at, what)


class Font:
    """A font of a file; of a collection, the one with this number."""

    def __init__(self, data, name, index=0):
        self.name, start = name, 0
        whole = Bytes(data, name)
        if data[:4] in (b"wOFF", b"wOF2"):
            raise Trouble(f"{name} is a packed web font (WOFF); unpack it into an OpenType file first")
        self.count = whole.numbers("I", 8, "the number of its fonts")[0] if data[:4] == b"ttcf" else 1
        if not 0 <= index < self.count:
            raise Trouble(f"{name} has {self.count} font{'s' * (self.count != 1)}, counted from 0; there is no {index}")
        if data[:4] == b"ttcf":
            start = whole.numbers("I", 12 + 4 * index, f"the offset of font {index}")[0]
        if data[start:start + 4] not in FLAVOURS:
            raise Trouble(f"{name} is no OpenType font: it starts with {data[start:start + 4].hex() or 'nothing'}")
        self.tables = {}
        for entry in range(whole.word(start + 4, "the number of its tables")):
            tag, _, at, length = whole.numbers("4s3I", start + 12 + 16 * entry, f"table record {entry}")
            title = tag.decode("latin-1")
            if at + length > len(data):
                raise Trouble(f"{name} is damaged: its table {ascii(title)} ends at {at + length}, and the file at "
                              f"{len(data)}")
            self.tables[title] = Bytes(data[at:at + length], f"{name}, table {title},")

    def table(self, tag):
        if tag not in self.tables:
            raise Trouble(f"{self.name} has no {tag} table")
        return self.tables[tag]

    def glyph_count(self):
        return self.table("maxp").word(4, "the number of glyphs")

    def characters(self):
        """The glyph of each character, from the best of the font's character maps that we can read."""
        cmap = self.table("cmap")
        records = [cmap.numbers("HHI", 4 + 8 * n, f"encoding record {n}")
                   for n in range(cmap.word(2, "the number of encodings"))]
        ours = [(ENCODINGS.index((one, two)), at) for one, two, at in records if (one, two) in ENCODINGS]
        for _, at in sorted(ours):
            form = cmap.word(at, "a character map")
            if form in CHARACTER_MAPS:
                return {char: glyph for char, glyph in CHARACTER_MAPS[form](cmap, at) if glyph}
        raise Trouble(f"{self.name} has no Unicode character map of format {', '.join(map(str, CHARACTER_MAPS))}; give "
                      "--glyphs in place of a text")

    def lookup_count(self, tag):
        return len(lookup_places(self.table(tag)))

    def subtables(self, tags=("GSUB", "GPOS")):
        """The subtables of all lookups, in order."""
        return [one for tag in tags if tag in self.tables for one in lookup_subtables(tag, self.tables[tag])]


# ---- Character maps: pairs of a character and a glyph, by format ----
def byte_map(cmap, at):
    return enumerate(cmap.numbers("256B", at + 6, "a character map of format 0"))


def segment_map(cmap, at):
    what = "a character map of format 4"
    count = cmap.word(at + 6, what) // 2
    lasts, firsts = cmap.words(count, at + 14, what), cmap.words(count, at + 16 + 2 * count, what)
    deltas, ranges = (cmap.words(count, at + 16 + size * count, what) for size in (4, 6))
    before = -1
    for segment, (first, last, delta, offset) in enumerate(zip(firsts, lasts, deltas, ranges)):
        for char in range(max(first, before + 1), min(last, 0xFFFE) + 1):
            glyph = char
            if offset:
                glyph = cmap.word(at + 16 + 6 * count + 2 * segment + offset + 2 * (char - first), what)
                if not glyph:
                    continue
            yield char, (glyph + delta) & 0xFFFF
        before = max(before, last)


def trimmed_map(form, head):
    """Formats 6 and 10: glyphs of neighbouring characters, whose first and number stand at `head`."""
    def read(cmap, at):
        what = f"a character map of format {6 if form == 'HH' else 10}"
        first, count = cmap.numbers(form, at + head, what)
        return enumerate(cmap.words(count, at + head + struct.calcsize(">" + form), what), first)
    return read


def group_map(step):
    """Formats 12 and 13: groups of characters, whose glyphs are in step or the same."""
    def read(cmap, at):
        what, before = f"a character map of format {12 if step else 13}", -1
        for group in range(cmap.numbers("I", at + 12, what)[0]):
            first, last, glyph = cmap.numbers("3I", at + 16 + 12 * group, what)
            if first > last or first <= before or last > 0x10FFFF or glyph + step * (last - first) > 0xFFFF:
                raise Trouble(f"{cmap.name} is damaged: group {group} of {what} falls or runs too far")
            for char in range(first, last + 1):
                yield char, glyph + step * (char - first)
            before = last
    return read


CHARACTER_MAPS = {0: byte_map, 4: segment_map, 6: trimmed_map("HH", 6), 10: trimmed_map("II", 12),
                  12: group_map(1), 13: group_map(0)}


# ---- Lookups ----
class Subtable:
    """One subtable of a lookup: where it stands, and what it is."""

    def __init__(self, tag, lookup, index, kind_of_lookup, extended, table, at):
        self.tag, self.lookup, self.index, self.type, self.extended = tag, lookup, index, kind_of_lookup, extended
        self.at, self.table = at, table
        self.format = table.word(at, f"subtable {index} of lookup {lookup}")
        self.kind = CUT_AS.get((tag, self.type))
        self.cut = self.kind is not None and (self.kind, self.format) in SHAPES

    def rest(self):
        """The bytes from its start to the table's end."""
        return self.table.data[self.at:]

    def type_name(self):
        return TYPES[self.tag].get(self.type, "unknown")

    def why_not(self):
        """Why it is not cut."""
        return f"no, format {self.format} is not covered" if self.kind else "no, the type is not covered"

    def source(self):
        """Its bytes up to the last one that its parts have; up to the limit, if a part lies outside the table."""
        rest = self.rest()
        source = Source(self.kind, rest)
        source.reach(0, "subtable", "the header")
        source.read_all()
        parts = source.parts.values()
        if source.left < 0 or any(part.missing for part in parts):
            return rest[:LIMIT]
        return rest[:max(part.at for part in parts)]


def lookup_places(table):
    """Where each lookup of the table starts; the offset to their list may be null."""
    start = table.word(8, "the offset of the lookup list")
    count = table.word(start, "the lookup list") if start else 0
    return [start + offset for offset in table.words(count, start + 2, "the lookup list")]


def lookup_subtables(tag, table):
    found = []
    for number, start in enumerate(lookup_places(table)):
        what = f"lookup {number}"
        kind_of_lookup, _, count = table.words(3, start, what)
        for index, below in enumerate(table.words(count, start + 6, f"the list of subtables of {what}")):
            at, extended, kind = start + below, kind_of_lookup == EXTENSION[tag], kind_of_lookup
            if extended:
                form, kind, far = table.numbers("HHI", at, f"extension {index} of {what}")
                if form != 1 or kind == kind_of_lookup:
                    raise Trouble(f"{table.name} is damaged: extension {index} of {what} has format {form} and "
                                  f"type {kind}")
                at += far
            found.append(Subtable(tag, number, index, kind, extended, table, at))
            if len(found) > SUBTABLES_AT_MOST:
                raise Trouble(f"{table.name} is damaged: it has more than {SUBTABLES_AT_MOST} subtables")
    return found
