"""Lists of lookups and traces as people write them, and replay files."""
import pathlib, re, struct
from .answers import KINDS
from .fonts import Font
from .tables import decode
from .words import Trouble, number, read_bytes, table_bytes

TAG, TRAILER, FILE_LIMIT = b"LSR1", 28, 500_000
LOOKUPS_AT_MOST, RUN_AT_MOST = 16, 64
REPLAYED = (1, 2, 5)
KIND_NAMES = {**KINDS, 5: "single substitution"}


class Lookup:
    """A listed lookup: what it is called, its kind and its subtable's bytes."""

    def __init__(self, name, kind, data, source=None):
        self.name, self.kind, self.data, self.source = name, kind, data, source


def lines_of(name):
    """The lines of a text file that say something, with their numbers; `#` starts a comment."""
    text = read_bytes(name).decode("utf-8", "replace")
    stripped = ((place, line.partition("#")[0].strip()) for place, line in enumerate(text.split("\n"), 1))
    return [(f"{name}, line {place}", line) for place, line in stripped if line]


def add_name(names, where, words):
    """Notes a line `glyph NAME NUMBER`."""
    if len(words) != 3 or re.match(r"[0-9]|->", words[1]):
        raise Trouble(f"{where}: a name is given as `glyph NAME NUMBER`, and starts with no digit")
    names[words[1]] = number(words[2], where)


# ---- Lists ----
def read_list(name):
    """The lookups of a list, and the names of glyphs that it gives."""
    folder, font, found, names = pathlib.Path(name).parent, None, [], {}
    for where, line in lines_of(name):
        words = line.split()
        if words[0] == "glyph":
            add_name(names, where, words)
        elif words[0] == "font":
            font = open_font(where, folder, line[4:].strip())
        elif words[0] in ("GSUB", "GPOS"):
            found.append(from_font(where, font, words))
        else:
            found.append(from_file(where, folder, words[0], line[len(words[0]):].strip()))
    if len(found) > LOOKUPS_AT_MOST:
        raise Trouble(f"{name} lists {len(found)} lookups, more than {LOOKUPS_AT_MOST}")
    renumber_records(found)
    return found, names


def open_font(where, folder, name):
    if not name:
        raise Trouble(f"{where}: `font` needs a file")
    return Font(read_bytes(folder / name), name)


def from_file(where, folder, kind, text):
    if kind not in map(str, REPLAYED):
        kinds = ", ".join(f"{one} {KIND_NAMES[one]}" for one in REPLAYED)
        raise Trouble(f"{where}: a line starts with the lookup's kind ({kinds}), with GSUB, GPOS, font or glyph, and "
                      f"not with {ascii(kind)}")
    if not text:
        raise Trouble(f"{where}: after the kind stands a file, @ and a text file of hex words, or hex words")
    if re.fullmatch(r"[0-9A-Fa-f\s_]*", text):
        return Lookup("hex words", int(kind), table_bytes(text))
    path = f"@{folder / text[1:]}" if text.startswith("@") else str(folder / text)
    return Lookup(text, int(kind), table_bytes(path) if text.startswith("@") else read_bytes(path))


def from_font(where, font, words):
    """A subtable of the font that was named last: `GSUB 4`, or `GSUB 4.1` for its subtable 1."""
    if not font:
        raise Trouble(f"{where}: a line `font FILE` has to stand before")
    form = re.fullmatch(r"([0-9]{1,5})(?:\.([0-9]{1,5}))?", words[1]) if len(words) == 2 else None
    if not form:
        raise Trouble(f"{where}: a font's lookup is given as {words[0]} 4, or {words[0]} 4.1 for its subtable 1")
    font.table(words[0])
    lookup, index = int(form[1]), int(form[2] or 0)
    for one in font.subtables([words[0]]):
        if (one.lookup, one.index) == (lookup, index):
            if not one.cut or one.kind not in REPLAYED:
                raise Trouble(f"{where}: {words[0]} {lookup}.{index} is of type {one.type}, {one.type_name()}, format "
                              f"{one.format}, which is not replayed")
            return Lookup(f"{words[0]} {lookup}.{index}", one.kind, one.source(), (words[0], lookup))
    raise Trouble(f"{where}: {font.name} has no {words[0]} {lookup}.{index}; `tools/job lookups` lists what it has")


def record_places(nodes, seen):
    for node in nodes:
        if node["name"] == "record":
            yield node["at"], node["value"]["lookup"]
        if id(node["parts"]) not in seen:
            seen.add(id(node["parts"]))
            yield from record_places(node["parts"], seen)


def renumber_records(lookups):
    """Lets the records of a font's lookups name the list's places: a font numbers its lookups otherwise."""
    listed = {}
    for place, one in enumerate(lookups):
        if one.source:
            listed.setdefault(one.source, place)
    for one in lookups:
        if one.source and one.kind in (1, 2):
            data, table = bytearray(one.data), one.source[0]
            for at, lookup in record_places(decode(one.kind, one.data)["parts"], set()):
                if (table, lookup) not in listed:
                    raise Trouble(f"{one.name} has a record for {table} lookup {lookup}, which is not listed")
                struct.pack_into(">H", data, at + 2, listed[table, lookup])
            one.data = bytes(data)


# ---- Traces ----
def read_trace(name, names):
    """The runs of a trace, as what went in and what came out, each with where it stands."""
    names, found = dict(names), []
    for where, line in lines_of(name):
        if line.split()[0] == "glyph":
            add_name(names, where, line.split())
            continue
        given, arrow, came = line.partition("->")
        if not arrow:
            raise Trouble(f"{where}: a run is the glyphs that went in, `->`, and those that came out")
        given, came = ([glyph(names, where, word) for word in half.split()] for half in (given, came))
        if len(given) != len(came):
            raise Trouble(f"{where}: {len(given)} glyphs went in and {len(came)} came out; there have to be as many")
        if len(given) > RUN_AT_MOST:
            raise Trouble(f"{where}: the run has {len(given)} glyphs, more than {RUN_AT_MOST}")
        found.append((where, given, came))
    return found


def glyph(names, where, word):
    if re.match(r"[0-9]", word):
        return number(word, where)
    if word not in names:
        raise Trouble(f"{where}: {ascii(word)} is no number, and no line `glyph {word} NUMBER` stands before")
    return names[word]


# ---- Replay files ----
def list_parts(lookups):
    """The list and the buffer."""
    entries, buffer = b"", b""
    for one in lookups:
        entries += struct.pack(">HII", one.kind, len(buffer), len(one.data))
        buffer += one.data
    return entries, buffer


def run_bytes(given, came):
    return struct.pack(f">H{2 * len(given)}H", len(given), *given, *came)


def build_replay(*parts):
    """A replay file: list, buffer and trace, and the trailer that points back to them."""
    trailer, start = b"", 0
    for part in parts:
        trailer += struct.pack(">II", start, len(part))
        start += len(part)
    return b"".join(parts) + trailer + TAG


def split_replay(data):
    """List, buffer and trace of a replay file that is not faulty."""
    numbers = struct.unpack_from(">6I", data, len(data) - TRAILER)
    return [data[start:start + length] for start, length in zip(numbers[::2], numbers[1::2])]


def replay_parts(name, data):
    """The lookups and the runs of a replay file."""
    if len(data) < TRAILER or not data.endswith(TAG):
        raise Trouble(f"{name} is no replay file, which ends in {TAG.decode()}")
    entries, buffer, trace = split_replay(data)
    try:
        listed = list(struct.iter_unpack(">HII", entries))
        return [Lookup("", kind, buffer[start:start + length]) for kind, start, length in listed], runs_of(trace)
    except struct.error as fault:
        raise Trouble(f"{name} has a list that is not of whole entries, or a trace that is cut short") from fault


def runs_of(trace):
    runs, at = [], 0
    while at < len(trace):
        count = struct.unpack_from(">H", trace, at)[0]
        glyphs = struct.unpack_from(f">{2 * count}H", trace, at + 2)
        runs.append((glyphs[:count], glyphs[count:]))
        at += 2 + 4 * count
    return runs


# ---- The text forms, written ----
def list_text(lookups):
    """A list of lookups by hex words."""
    for place, one in enumerate(lookups):
        if not one.data:
            raise Trouble(f"lookup {place} has no bytes, which a list cannot say")
    return "".join(f"{one.kind} {one.data.hex(' ', -2).upper()}\n" for one in lookups)


def trace_text(runs):
    return "".join(" ".join([*map(str, given), "->", *map(str, came)]) + "\n" for given, came in runs)


def pieces(runs, room):
    """The runs in pieces of whole runs, at most so many bytes each; how many they are, and the bytes."""
    count, piece = 0, b""
    for given, came in runs:
        run = run_bytes(given, came)
        if piece and len(piece) + len(run) > room:
            yield count, piece
            count, piece = 0, b""
        count, piece = count + 1, piece + run
    yield count, piece
