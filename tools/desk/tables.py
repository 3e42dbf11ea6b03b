"""Tables read part by part: what each says, and what is wrong with its own bytes.

A node has a name, a place ("at"), a value, and the nodes under it ("parts"). An offset's node has "to", the place that
it reaches or None, and "reached", the part there; all offsets that reach one place in one shape have the same one, and
the same list as "parts".
"""
import heapq, itertools, re, struct
from .answers import KINDS
from .words import joined

VALUE_FIELDS = ("XPlacement", "YPlacement", "XAdvance", "YAdvance",
                "XPlaDevice", "YPlaDevice", "XAdvDevice", "YAdvDevice")
# Parts may overlap, so a small damaged table can unfold into billions of words. A table has 32,768 without overlap.
WORDS_AT_MOST = 200_000

# The fields of each part, in order. `set*` are as many as the set count says, `input+` are one fewer, since the first
# is the covered glyph; `set*>rules` are offsets to such parts. Kind and format name the subtables.
SHAPES = {
    (1, 1): "coverage>coverage, set count, set*>rules",
    (1, 2): "coverage>coverage, input class table>class table, set count, set*>rules",
    (1, 3): "input count, record count, input coverage*>coverage, record*",
    (2, 1): "coverage>coverage, set count, set*>chained rules",
    (2, 2): "coverage>coverage, backtrack class table>class table, input class table>class table, "
            "lookahead class table>class table, set count, set*>chained rules",
    (2, 3): "backtrack count, backtrack coverage*>coverage, input count, input coverage*>coverage, "
            "lookahead count, lookahead coverage*>coverage, record count, record*",
    (3, 1): "coverage>coverage, set count, set*>ligatures",
    (4, 1): "coverage>coverage, value format 1, value format 2, set count, set*>pairs",
    (4, 2): "coverage>coverage, value format 1, value format 2, first class table>class table, "
            "second class table>class table, first class count, second class count, cells",
    (5, 1): "coverage>coverage, delta",
    (5, 2): "coverage>coverage, substitute count, substitute*",
    "rules": "rule count, rule*>rule",
    "rule": "input count, record count, input+, record*",
    "chained rules": "rule count, rule*>chained rule",
    "chained rule": "backtrack count, backtrack*, input count, input+, lookahead count, lookahead*, "
                    "record count, record*",
    "ligatures": "ligature count, ligature*>ligature",
    "ligature": "ligature glyph, component count, component+",
}


class Part:
    """A part of the source, read in order. EOFError ends the reading; why is noted by then."""

    def __init__(self, source, start, shape, name):
        self.source, self.start, self.shape, self.name = source, start, shape, name
        self.at, self.nodes, self.faults, self.missing, self.ways, self.done = start, [], [], None, 0, False

    def add(self, name, at, value=None, **more):
        self.nodes.append({"name": name, "at": at, "value": value, "parts": [], **more})
        return self.nodes[-1]

    def fault(self, at, text, answer=6):
        self.faults.append((answer, text))
        self.add("fault", at, text)

    def take(self, count, what, each=1):
        """The next entries of so many words, those that are there, with their places; after a missing one, no more."""
        data, start, size = self.source.data, self.at, 2 * each
        there = min(count, max(0, len(data) - start) // size)
        self.source.left -= there * each
        if self.missing or self.source.left < 0:
            raise EOFError
        self.at += there * size
        if there < count:
            begun = f", with {data[self.at:].hex()} begun" if self.at < len(data) else ""
            self.missing = f"missing: {what}, {count - there} of {count}; the table ends at {len(data):#06x}{begun}"
        return list(zip(range(start, self.at, size), struct.iter_unpack(f">{each}H", data[start:self.at])))

    def word(self, name):
        for at, (value,) in self.take(1, name):
            return self.add(name, at, value)["value"]
        raise EOFError

    def read(self):
        if self.done:
            return
        self.done = True
        try:
            READERS.get(self.shape, fields)(self, self.shape)
        except EOFError:
            if self.source.left < 0:
                self.add("not looked at further", self.at, "the parts overlap so often that too much would follow")
        if self.missing:
            self.fault(self.at, self.missing)


class Source:
    """A subtable's bytes, and its parts by place and shape, each read once however many offsets reach it."""

    def __init__(self, kind, data):
        self.kind, self.data, self.left = kind, data, WORDS_AT_MOST
        self.parts, self.waiting, self.unit, self.formats = {}, [], "glyphs", []

    def reach(self, start, shape, name):
        """The part at a place, which is read in its turn."""
        if (start, shape) not in self.parts:
            self.parts[start, shape] = Part(self, start, shape, name)
            heapq.heappush(self.waiting, (start, len(self.parts), self.parts[start, shape]))
        part = self.parts[start, shape]
        part.ways += 1
        return part

    def read_all(self):
        """Reads the parts, lowest first: no part reaches one below itself."""
        while self.waiting and self.left >= 0:
            heapq.heappop(self.waiting)[2].read()


def child_name(part, node):
    """How a part is called that an offset of another one reaches."""
    if node["index"] is None:
        return f"the {node['name']}"
    name = "pair set" if part.source.kind == 4 else node["name"]
    note = f" ({node['note']})" if node["note"] else ""
    return f"{name} {node['index']}{note}" + (f" of {part.name}" if part.start else "")


def fields(part, shape):
    words = {}
    for field in SHAPES[shape].split(", "):
        name, many, inside = re.fullmatch(r"([^*+>]+)([*+]?)>?(.*)", field).groups()
        count = max(0, words[name.split()[0] + " count"] - (many == "+")) if many else 1
        if inside:
            notes = set_notes(part, count) if name == "set" else itertools.repeat(None)
            for index, ((at, (offset,)), note) in enumerate(zip(part.take(count, name + " offsets"), notes)):
                node = part.add(name, at, index=index if many else None, note=note,
                                to=part.start + offset if offset else None, reached=None)
                if offset:
                    node["reached"] = part.source.reach(node["to"], inside, child_name(part, node))
                    node["parts"] = node["reached"].nodes
        elif name == "record":
            for index, (at, (place, lookup)) in enumerate(part.take(count, "records", 2)):
                part.add("record", at, {"at": place, "lookup": lookup})
                if place >= words["input count"]:
                    part.fault(at, f"record {index}, for lookup {lookup}, has sequence index {place}, and the input "
                               f"count is {words['input count']}", answer=12)
        elif name == "substitute":
            notes = glyph_notes(part, count, "substitutes", exactly=True)
            for index, ((at, (glyph,)), note) in enumerate(zip(part.take(count, "substitutes"), notes)):
                part.add(name, at, glyph, index=index, note=note)
        elif name == "cells":
            check_counts(part, words["first class count"], words["second class count"])
            cells(part, words["first class count"], words["second class count"])
        elif many and count:
            title = f"{name} {part.source.unit}" + (" after the first" if many == "+" else "")
            part.add(title, part.at, [value for _, (value,) in part.take(count, title)])
        elif not many:
            words[name] = part.word(name)
            if name.startswith("value format"):
                check_value_format(part, words[name])
            elif name == "delta":
                part.nodes[-1]["value"] = signed(words[name])


def subtable(part, _):
    kind, form = part.source.kind, part.word("format")
    if (kind, form) not in SHAPES:
        return part.fault(0, f"kind {kind}, {KINDS[kind]}, has no format {form}", answer=5)
    part.source.unit = "classes" if "class table" in SHAPES[kind, form] else "glyphs"
    return fields(part, (kind, form))


def set_notes(part, count):
    """What each set of a subtable is for."""
    if part.source.unit == "classes":
        return (f"for class {held}" for held in itertools.count())
    return glyph_notes(part, count, "sets")


def glyph_notes(part, count, what, exactly=False):
    """Which covered glyph each set or substitute is for; a sound coverage has to have no more, or exactly as many."""
    covered = next(node for node in part.nodes if node["name"] == "coverage")
    if covered["to"]:
        cover = part.source.parts[covered["to"], "coverage"]
        cover.read()
        size = sum(last - first + 1 for first, last in glyphs_of(covered))
        if not cover.faults and (count < size or exactly and count > size):
            part.fault(part.at - 2, f"{count} {what} for {size} covered glyphs")
    glyphs = (f"for glyph {glyph}" for first, last in glyphs_of(covered) for glyph in range(first, last + 1))
    return itertools.chain(glyphs, itertools.repeat("for no glyph"))


def glyph_table(part, shape):
    """A coverage or class table, as entries of place, first and last glyph, and coverage index or class."""
    form, has_classes = part.word("format"), shape == "class table"
    if form == 1:
        start, count = part.word("start glyph") if has_classes else 0, part.word("glyph count")
        words = [(at, word) for at, (word,) in part.take(count, "classes" if has_classes else "glyphs")]
        listed = [(at, start + index, start + index, word) if has_classes else (at, word, word, index)
                  for index, (at, word) in enumerate(words)]
        if has_classes and start + count > 0x10000:
            part.fault(part.start + 4, f"{count} glyphs from {start} on run past glyph 65535")
    elif form == 2:
        listed = [(at, *words) for at, words in part.take(part.word("range count"), "ranges", 3)]
    else:
        return part.fault(part.start, f"format {form}, where only 1 and 2 are known")
    groups = {}
    for _, first, last, third in listed:
        groups.setdefault(third if has_classes else None, []).append((first, last))
    for index in sorted(groups):
        part.add("class" if has_classes else "glyphs", listed[0][0], joined(groups[index]), index=index)
    return check_ranges(part, listed, has_classes) if form == 2 else check_glyphs(part, listed)


def check_glyphs(part, listed):
    for index, ((_, before, _, _), (at, glyph, _, _)) in enumerate(zip(listed, listed[1:])):
        if glyph == before:
            part.fault(at, f"entries {index} and {index + 1} are both glyph {glyph}")
        elif glyph < before:
            part.fault(at, f"entry {index + 1}, glyph {glyph}, follows glyph {before}")


def check_ranges(part, listed, has_classes):
    before, previous = 0, -1
    for index, (at, first, last, third) in enumerate(listed):
        if first > last:
            part.fault(at, f"range {index} starts at glyph {first} and ends before it, at {last}")
        if first <= previous:
            part.fault(at, f"range {index} starts before range {index - 1} ends: glyph {first} follows glyph "
                       f"{previous}")
        if not has_classes and third != before:
            part.fault(at + 4, f"range {index} has startCoverageIndex {third}, and {before} glyphs stand before it")
        before, previous = before + last - first + 1, last


def signed(word):
    return word - 0x10000 if word >= 0x8000 else word


def bit_names(bits):
    return [(bit, VALUE_FIELDS[bit] if bit < 8 else f"bit {1 << bit:#06x}") for bit in range(16) if bits >> bit & 1]


def check_value_format(part, bits):
    part.source.formats.append(bits)
    if bits & 0xFF00:
        part.fault(part.at - 2, "value format bits 0xFF00 have to be zero")
    if bits & 0x00F0:
        part.fault(part.at - 2, "device bits (0x00F0) in a value format", answer=7)


def value_names(part):
    """The fields of both values of a pair, in order, each with its bit."""
    sides = zip(("first", "second"), part.source.formats)
    return [(bit, f"{side} {name}") for side, bits in sides for bit, name in bit_names(bits)]


def sound_part(part, name, shape):
    """The node of an offset, if it reaches a part that has no fault of its own; None if not."""
    node = next(node for node in part.nodes if node["name"] == name)
    if node["to"] is None:
        return None
    reached = part.source.parts[node["to"], shape]
    reached.read()
    return None if reached.faults else node


def classes_of(offset):
    """The listed classes of the class table that an offset reaches, each with its ranges of glyphs."""
    return [(node["index"], node["value"]) for node in offset["parts"] if node["name"] == "class"]


def check_counts(part, rows, columns):
    """Holds the classes of pairs by class against their counts, where neither class table is null."""
    if any(node["to"] is None for node in part.nodes if node["name"].endswith("class table")):
        return
    cover, first = sound_part(part, "coverage", "coverage"), sound_part(part, "first class table", "class table")
    if cover and first:
        held = {glyph: index for index, ranges in classes_of(first) for start, last in ranges
                for glyph in range(start, last + 1)}
        for glyph in (glyph for start, last in glyphs_of(cover) for glyph in range(start, last + 1)):
            if held.get(glyph, 0) >= rows:
                part.fault(part.at - 4, f"glyph {glyph} has first class {held.get(glyph, 0)}, and the count is {rows}")
                break
    second = sound_part(part, "second class table", "class table")
    if second:
        highest = max([0] + [index for index, _ in classes_of(second)])
        if highest >= columns:
            part.fault(part.at - 2, f"glyphs have second class {highest}, and the count is {columns}")


def cells(part, rows, columns):
    values = value_names(part)
    if not values:
        return
    for index, (at, words) in enumerate(part.take(rows * columns, "cells", len(values))):
        cell = part.add("cell", at, {"first class": index // columns, "second class": index % columns})
        for (bit, name), word in zip(values, words):
            cell["value"][name] = signed(word) if bit < 4 else word


def pairs(part, _):
    values, before = value_names(part), -1
    for index, (at, (glyph, *words)) in enumerate(part.take(part.word("pair count"), "pairs", 1 + len(values))):
        pair = part.add("pair", at, {"second glyph": glyph})
        for (bit, name), word in zip(values, words):
            pair["value"][name] = signed(word) if bit < 4 else word
        if glyph <= before:
            part.fault(at, f"pair {index} has second glyph {glyph}, and pair {index - 1} has {before}")
        before = glyph


READERS = {"subtable": subtable, "coverage": glyph_table, "class table": glyph_table, "pairs": pairs}


def read_table(kind, data):
    """A subtable with its parts, as far as they can be read."""
    source = Source(kind, data)
    source.reach(0, "subtable", "the header")
    source.read_all()
    return source


def decode(kind, data):
    """What a subtable says, as far as it can be read: its nodes, its faulty parts, and whether all was looked at."""
    source = read_table(kind, data)
    nodes = source.parts[0, "subtable"].nodes
    faulty = [part for part in source.parts.values() if part.faults]
    return {"name": KINDS[kind], "at": 0, "parts": nodes, "faulty": sorted(faulty, key=lambda part: part.start),
            "whole": source.left >= 0}


def place(tree):
    """The lowest start among the parts that are faulty as answer 6 has it; None if there is none."""
    return next((part.start for part in tree["faulty"] if any(answer == 6 for answer, _ in part.faults)), None)


def glyphs_of(offset):
    """The ranges of the coverage that an offset reaches."""
    return next((part["value"] for part in offset["parts"] if part["name"] == "glyphs"), [])


def coverages(tree):
    """Each coverage that a subtable's header names, with its glyphs."""
    return [(label(node), {glyph for first, last in glyphs_of(node) for glyph in range(first, last + 1)})
            for node in tree["parts"] if node["name"].endswith("coverage")]


def label(node):
    return " ".join(str(node[key]) for key in ("name", "index", "note") if node.get(key) is not None)


def tally(nodes, name, known):
    """How many nodes of a name there are, counted for each offset that reaches them, as the plain layout writes."""
    if id(nodes) not in known:
        known[id(nodes)] = sum((node["name"] == name and node.get("to", 0) is not None)
                               + tally(node["parts"], name, known) for node in nodes)
    return known[id(nodes)]
