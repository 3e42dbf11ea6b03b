"""The replay of a run by hand: what each lookup does to a string of glyphs.

Written from document 02's request 14 and OpenType's chapters, and not from the proofs, so that the two can be held
against each other. Tables are taken as sound: what is refused, the program says.
"""
import struct

DEPTH = 8


class TooDeep(Exception):
    """A record would run a lookup at depth 9."""


class Bytes:
    """A subtable's words, and the parts that its offsets reach."""

    def __init__(self, data):
        self.data = data

    def word(self, at):
        return struct.unpack_from(">H", self.data, at)[0]

    def words(self, at, count):
        return struct.unpack_from(f">{count}H", self.data, at)

    def reach(self, read, base, slot):
        """What is read where the offset at `slot` leads, from `base`; None if it is null."""
        offset = self.word(slot)
        return read(base + offset) if offset else None

    def reaches(self, read, base, slot, count):
        return [self.reach(read, base, slot + 2 * step) for step in range(count)]

    def coverage(self, at):
        """The glyphs of a coverage, each with its coverage index."""
        form, count = self.words(at, 2)
        if form == 1:
            return {glyph: index for index, glyph in enumerate(self.words(at + 4, count))}
        ranges = [self.words(at + 4 + 6 * step, 3) for step in range(count)]
        return {glyph: index + glyph - first for first, last, index in ranges for glyph in range(first, last + 1)}

    def classes(self, at):
        """The class of each glyph that a class table lists."""
        form, second = self.words(at, 2)
        if form == 1:
            return {second + step: held for step, held in enumerate(self.words(at + 6, self.word(at + 4)))}
        ranges = [self.words(at + 4 + 6 * step, 3) for step in range(second)]
        return {glyph: held for first, last, held in ranges for glyph in range(first, last + 1)}

    def records(self, at, count):
        return [self.words(at + 4 * step, 2) for step in range(count)]

    def plain_rule(self, at):
        count, records = self.words(at, 2)
        after = max(count - 1, 0)
        return (), count, self.words(at + 4, after), (), self.records(at + 4 + 2 * after, records)

    def chained_rule(self, at):
        found = []
        for first in (0, 1, 0):
            count = self.word(at)
            found.append((count, self.words(at + 2, max(count - first, 0))))
            at += 2 + 2 * max(count - first, 0)
        (_, back), (count, after), (_, ahead) = found
        return back, count, after, ahead, self.records(at + 2, self.word(at))

    def rule_set(self, chained):
        read = self.chained_rule if chained else self.plain_rule
        return lambda at: [rule for rule in self.reaches(read, at, at + 2, self.word(at)) if rule]


def holds_glyph(wanted, glyph):
    return wanted == glyph


def holds_class(classes):
    return lambda wanted, glyph: (classes or {}).get(glyph, 0) == wanted


def holds_coverage(cover, glyph):
    return cover is not None and glyph in cover


def fits(holds, wanted, glyphs):
    """Whether the wanted things stand at the front of the glyphs."""
    return len(wanted) <= len(glyphs) and all(map(holds, wanted, glyphs))


class Context:
    """Kinds 1 and 2: at a place, the input length and the records of the first rule that fits; and each rule's."""

    def __init__(self, table, chained):
        form = table.word(0)
        if form == 3:
            (self.rules_of, records), self.holds = self.covers(table, chained), (holds_coverage,) * 3
            self.records = [records]
            return
        cover = table.reach(table.coverage, 0, 2) or {}
        at = 4
        if form == 1:
            self.holds = (holds_glyph,) * 3
            index = cover.get
        else:
            count = 3 if chained else 1
            held = table.reaches(table.classes, 0, at, count)
            back, inside, ahead = held if chained else (None, held[0], None)
            at += 2 * count
            self.holds = holds_class(back), holds_class(inside), holds_class(ahead)

            def index(glyph):
                return inside.get(glyph, 0) if inside is not None and glyph in cover else None
        sets = table.reaches(table.rule_set(chained), 0, at + 2, table.word(at))
        self.records = [rule[4] for rules in sets for rule in rules or []]

        def rules_of(glyph):
            chosen = index(glyph)
            return sets[chosen] or [] if chosen is not None and chosen < len(sets) else []
        self.rules_of = rules_of

    @staticmethod
    def covers(table, chained):
        """Format 3: one rule of coverages, whose first one the glyph of the place has to be in."""
        at, found = 2, []
        if chained:
            for _ in range(3):
                count = table.word(at)
                found.append(table.reaches(table.coverage, 0, at + 2, count))
                at += 2 + 2 * count
            records = table.records(at + 2, table.word(at))
        else:
            count, many = table.words(2, 2)
            found = [[], table.reaches(table.coverage, 0, 6, count), []]
            records = table.records(6 + 2 * count, many)
        back, inside, ahead = found

        def rules_of(glyph):
            chosen = inside and holds_coverage(inside[0], glyph)
            return [(back, len(inside), inside[1:], ahead, records)] if chosen else []
        return rules_of, records

    def match(self, string, place):
        back_holds, holds, ahead_holds = self.holds
        before, after = string[:place][::-1], string[place + 1:]
        for back, count, inside, ahead, records in self.rules_of(string[place]):
            if count and fits(holds, inside, after) and fits(ahead_holds, ahead, after[count - 1:]) \
                    and fits(back_holds, back, before):
                return count, records
        return None

    def apply(self, lookups, string, place, depth):
        """Applies the lookup once; how long the input was, 0 if nothing matched."""
        found = self.match(string, place)
        if not found:
            return 0
        for index, number in found[1]:
            apply(lookups, number, string, place + index, depth + 1)
        return found[0]


class Single:
    """Kind 5: a substitute for each covered glyph."""

    records = ()

    def __init__(self, table):
        form, cover = table.word(0), table.reach(table.coverage, 0, 2) or {}
        if form == 1:
            self.substitutes = {glyph: (glyph + table.word(4)) & 0xFFFF for glyph in cover}
        else:
            listed = table.words(6, table.word(4))
            self.substitutes = {glyph: listed[index] for glyph, index in cover.items()}

    def apply(self, lookups, string, place, depth):
        if string[place] not in self.substitutes:
            return 0
        string[place] = self.substitutes[string[place]]
        return 1


def lookup(kind, data):
    table = Bytes(data)
    return Single(table) if kind == 5 else Context(table, kind == 2)


def apply(lookups, number, string, place, depth):
    """Applies a lookup of the list once at a place, at this depth; 0 past the string's end."""
    if depth > DEPTH:
        raise TooDeep
    return lookups[number].apply(lookups, string, place, depth) if place < len(string) else 0


def run(lookups, given):
    """What comes out of a run: the lookups in list order, each at every place from left to right."""
    string = list(given)
    for number in range(len(lookups)):
        place = 0
        while place < len(string):
            place += max(1, apply(lookups, number, string, place, 1))
    return string


def cost(lookups):
    """The most lookups that a run asks for each of its glyphs: each listed one asks itself and runs one rule's records."""
    steps = [0] * len(lookups)
    for _ in range(DEPTH):
        steps = [1 + max((sum(steps[number] for _, number in records) for records in one.records), default=0)
                 for one in lookups]
    return sum(steps)


def replay(lookups, runs):
    """The tally over runs of what went in and what came out, and whether one went too deep, which ends it."""
    agreed, first = 0, 0
    for count, (given, came) in enumerate(runs, 1):
        try:
            same = run(lookups, given) == list(came)
        except TooDeep:
            return (count - 1, agreed, first), True
        agreed += same
        first = first or (0 if same else count)
    return (len(runs), agreed, first), False
