"""What subtables say, decoded, and what differs between two contents.

Written from document 02's request 1 and OpenType's chapters, and not from the proofs, so that the two can be held
against each other. Tables are taken as sound: what is refused, the program says.
"""
import struct
from collections import defaultdict, namedtuple
from .walk import Bytes
from .words import joined

# Six words: what differs, on which side or in which field, for which first glyph, at which rank or second glyph.
Entry = namedtuple("Entry", "sort side first rank left right")
FORMAT, GLYPH, RULE, MOVED, PAIR, VALUE = range(1, 7)
# A rule or a ligature: its places as ranges of glyphs, its input count, its records, and the glyph that it forms.
Says = namedtuple("Says", "back count input ahead records forms")
ALL = 0x10000


def read_entries(data):
    return [Entry(*words) for words in struct.iter_unpack(">6H", data)]


def runs(glyphs):
    return tuple(joined((glyph, glyph) for glyph in sorted(glyphs)))


class Classes:
    """The glyphs of each class among all ids; with no table every glyph holds class 0."""

    def __init__(self, held):
        groups = defaultdict(list)
        for glyph, number in (held or {}).items():
            groups[number].append(glyph)
        listed = sorted(glyph for number, glyphs in groups.items() if number for glyph in glyphs)
        self.runs = {number: runs(glyphs) for number, glyphs in groups.items() if number}
        edges = [-1] + [edge for run in runs(listed) for edge in run] + [ALL]
        gaps = zip(edges[::2], edges[1::2])
        self.runs[0] = tuple((last + 1, first - 1) for last, first in gaps if last + 1 < first)

    def __getitem__(self, number):
        return self.runs.get(number, ())


class Itself:
    """A glyph by itself."""

    def __getitem__(self, glyph):
        return ((glyph, glyph),)


class Context:
    """Kinds 1 and 2: the rules of each covered glyph, or one rule with no first glyph."""

    def __init__(self, table, chained):
        self.format, at = table.word(0), 4
        if self.format == 3:
            self.whole = self.covers(table, chained)
            return
        self.cover = table.reach(table.coverage, 0, 2) or {}
        self.inside, places = None, (Itself(),) * 3
        if self.format == 2:
            held = table.reaches(table.classes, 0, at, 3 if chained else 1)
            back, self.inside, ahead = held if chained else (None, held[0], None)
            at += 2 * len(held)
            places = Classes(back), Classes(self.inside), Classes(ahead)
        sets = table.reaches(table.rule_set(chained), 0, at + 2, table.word(at))
        self.sets = [[self.said(places, rule) for rule in rules or ()] for rules in sets]

    @staticmethod
    def said(places, rule):
        back, count, after, ahead, records = rule
        rows = [tuple(place[word] for word in row) for place, row in zip(places, (back, after, ahead))]
        return Says(rows[0], count, rows[1], rows[2], tuple(records), 0)

    @staticmethod
    def covers(table, chained):
        at, rows = 2, [(), (), ()]
        if chained:
            for row in range(3):
                count = table.word(at)
                rows[row] = table.reaches(table.coverage, 0, at + 2, count)
                at += 2 + 2 * count
            records = table.records(at + 2, table.word(at))
        else:
            count, many = table.words(2, 2)
            rows[1] = table.reaches(table.coverage, 0, 6, count)
            records = table.records(6 + 2 * count, many)
        back, inside, ahead = (tuple(runs(cover or ()) for cover in row) for row in rows)
        return Says(back, len(inside), inside, ahead, tuple(records), 0)

    def reached(self, glyph):
        """The rules that a covered glyph reaches."""
        index = self.cover[glyph]
        if self.format == 2:
            index = ALL if self.inside is None else self.inside.get(glyph, 0)
        return self.sets[index] if index < len(self.sets) else []


class Ligatures:
    """Kind 3: the ligatures of each covered glyph."""

    format = 1

    def __init__(self, table):
        self.cover = table.reach(table.coverage, 0, 2) or {}
        sets = table.reaches(lambda at: self.members(table, at), 0, 6, table.word(4))
        self.sets = [found or [] for found in sets]

    @staticmethod
    def members(table, at):
        def one(at):
            glyph, count = table.words(at, 2)
            parts = table.words(at + 4, max(count - 1, 0))
            return Says((), count, tuple(((part, part),) for part in parts), (), (), glyph)
        return [found for found in table.reaches(one, at, at + 2, table.word(at)) if found]

    def reached(self, glyph):
        return self.sets[self.cover[glyph]]


class Pairs:
    """Kind 4: the pairs of each covered glyph, by second glyph, with eight values each."""

    format = 1

    def __init__(self, table):
        self.cover = table.reach(table.coverage, 0, 2) or {}
        bits = [bit + 16 * half for half in (0, 1) for bit in range(8) if table.word(4 + 2 * half) >> bit & 1]
        size = 1 + len(bits)

        def members(at):
            found = {}
            for step in range(table.word(at)):
                second, *words = table.words(at + 2 + 2 * size * step, size)
                values = dict(zip(bits, words))
                found[second] = [values.get(bit + 16 * half, 0) for half in (0, 1) for bit in range(4)]
            return found
        self.sets = [found or {} for found in table.reaches(members, 0, 10, table.word(8))]

    def reached(self, glyph):
        return self.sets[self.cover[glyph]]


READERS = {1: lambda table: Context(table, False), 2: lambda table: Context(table, True), 3: Ligatures, 4: Pairs}


def content(kind, data):
    return READERS[kind](Bytes(data))


# ---- What differs ----
def partners(own, others):
    """For each of the own rules the rank of its equal among the others, earliest with earliest; None if none is left."""
    left = defaultdict(list)
    for rank in reversed(range(len(others))):
        left[others[rank]].append(rank)
    return [left[one].pop() if left[one] else None for one in own]


def rule_entries(first, left, right):
    there, back = partners(left, right), partners(right, left)
    for rank in range(max(len(left), len(right))):
        if rank < len(left) and there[rank] is None:
            yield Entry(RULE, 0, first, rank, 0, 0)
        elif rank < len(left) and there[rank] != rank:
            yield Entry(MOVED, 0, first, rank, rank, there[rank])
        if rank < len(right) and back[rank] is None:
            yield Entry(RULE, 1, first, rank, 0, 0)


def pair_entries(first, left, right):
    for second in sorted(left.keys() | right.keys()):
        if second not in right or second not in left:
            yield Entry(PAIR, int(second in right), first, second, 0, 0)
        else:
            for field, (one, two) in enumerate(zip(left[second], right[second])):
                if one != two:
                    yield Entry(VALUE, field, first, second, one, two)


def differences(kind, left, right):
    """The exact differences between two contents of one kind, in order."""
    if left.format != right.format:
        return [Entry(FORMAT, 0, 0, 0, left.format, right.format)]
    if left.format == 3:
        return list(rule_entries(0, [left.whole], [right.whole]))
    found, each = [], pair_entries if kind == 4 else rule_entries
    for first in sorted(left.cover.keys() | right.cover.keys()):
        if first not in right.cover or first not in left.cover:
            found.append(Entry(GLYPH, int(first in right.cover), first, 0, 0, 0))
        else:
            found += each(first, left.reached(first), right.reached(first))
    return found
