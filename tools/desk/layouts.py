"""The two layouts of a table: its header word by word, and the blocks that the header's offsets lead to.

Written from document 02's request 11 and its definitions (crates/meaning/specs/Packed.antt), and not from the code, so
that the two can be held against each other. Tables are taken as sound. A coverage or a class table is written as it
stands; rules, ligatures and pairs stay inside their set.
"""
import struct
from collections import namedtuple
from .answers import LIMIT
from .jobs import PACKED
from .tables import read_table

# The kinds of blocks, in the order in which they stand after the header.
BLOCKS = ("set", "coverage", "class table")

# A word of a header that is no number: the offset of a block of a kind, by the block's words; None where it is null.
Offset = namedtuple("Offset", "kind block")


def own_words(part):
    """The words of a part, without those of the parts that its offsets lead to."""
    return [word for word, in struct.iter_unpack(">H", part.source.data[part.start:part.at])]


def offsets(part):
    """The offsets of a part, each with its rank among the part's words."""
    return [((node["at"] - part.start) // 2, node) for node in part.nodes if "to" in node]


def block_words(node):
    """The block that an offset leads to: its own words, then its rules or ligatures, one for each offset to one."""
    part = node["reached"]
    if part is None:
        return None
    words, members = own_words(part), []
    for rank, member in offsets(part):
        words[rank] = 2 * (len(words) + len(members)) if member["reached"] else 0
        members += block_words(member) or ()
    return (*words, *members)


def header(kind, data):
    """The words of a table's header, numbers and offsets."""
    part = read_table(kind, data).parts[0, "subtable"]
    words = own_words(part)
    for rank, node in offsets(part):
        block_kind = next(one for one in BLOCKS if node["name"].endswith(one))
        words[rank] = Offset(block_kind, block_words(node))
    return words


def laid_out(words, layout):
    """The words of a table with this header. Each offset has a block of its own; in the packed layout equal blocks of a
    kind are one, which stands where the first of them would. Sets come first, then coverages, then class tables."""
    starts, blocks, written = {}, [], list(words)
    leading = [(rank, word) for rank, word in enumerate(words) if isinstance(word, Offset)]
    for rank, word in sorted(leading, key=lambda one: BLOCKS.index(one[1].kind)):
        block = word if layout == PACKED else rank
        if word.block is not None and block not in starts:
            starts[block] = 2 * (len(words) + len(blocks))
            blocks += word.block
        written[rank] = starts.get(block, 0)
    return written + blocks


def in_layout(kind, data, layout):
    """A table written anew in a layout; None where that is too big, as answer 9 has it."""
    words = laid_out(header(kind, data), layout)
    fits = max(words) <= 0xFFFF and 2 * len(words) <= LIMIT
    return struct.pack(f">{len(words)}H", *words) if fits else None
