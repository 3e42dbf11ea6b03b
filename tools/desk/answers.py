"""The kinds, and the answers in words."""

# The most bytes of a source and of a layout, and those of a job file.
LIMIT = 262144
JOB_LIMIT = 65536
KINDS = {1: "context", 2: "chained context", 3: "ligature", 4: "pair", 5: "single substitution"}

# Each answer: when it is given, and what to do about it.
ANSWERS = {
    0: ("kept", "The small table follows."),
    1: ("kind not 1 to 5",
        "Give 1 (context), 2 (chained context), 3 (ligature), 4 (pair) or 5 (single substitution). Other lookup types "
        "are not covered."),
    2: ("glyph map length not a multiple of 4, or a column not strictly increasing; of runs, length not a multiple of "
        "6, a count of 0, a run past 65,535 in a column, or runs not strictly increasing",
        "Sort the map by old id and list each id once; new ids have to rise with the old ones."),
    3: ("lookup map length not a multiple of 4, or its old column not strictly increasing",
        "Sort the map by old id and list each old id once; new ids are free."),
    4: ("source over 262,144 bytes",
        "Split the subtable, or close the gaps between its parts. Calls only: no job file can hold such a source."),
    5: ("the first two bytes stand and hold a format the kind hasn't",
        "Contexts have formats 1 to 3, ligatures format 1, pairs and single substitutions 1 and 2. Check the kind, and "
        "where the table starts."),
    6: ("malformed",
        "Mend the font or ask its maker; `tools/job show` names the part and its place, which a call gives as its "
        "length. Of a glyph listed twice, drop one."),
    7: ("pair value format has a bit of 0x00F0",
        "The pairs have device or variation offsets, which are not covered. Take these out of the font first."),
    8: ("nothing survives", "No fault: leave this subtable out of the label's font."),
    9: ("the layout asked for is over 262,144 bytes, or an offset or a count in it over 65,535",
        "In the plain layout parts that the source shares are written out for each use: a call may ask for the packed "
        "one. Else retain fewer glyphs, or split the subtable."),
    10: ("the buffer is shorter than the layout asked for",
         "Lend a buffer of the length returned. Calls only: the program lends 262,144 bytes, which is always enough."),
    11: ("job file faulty (program only)",
         "`tools/job show` says why, and `tools/job make` makes sound ones. Was the file cut, or something added?"),
    12: ("a record points past its rule",
         "Its sequence index has to be below the rule's input count; printers hang on such a rule. Mend the font or "
         "ask its maker; `tools/job show` names the rule and the record."),
    13: ("the mark of the glyph map's form is neither 4 nor 6",
         "Give 4 for pairs or 6 for runs. Calls only: the tag of a job file, LSJ1 or LSJ2, says its form."),
    14: ("the mark of the layout is neither 0 nor 1",
         "Give 0 for the plain layout or 1 for the packed one. Calls only: the program always asks for the plain one."),
}

# Which answer goes before which, where several apply.
ORDER = (11, 1, 13, 14, 2, 3, 4, 5, 6, 7, 12, 8, 9, 10)

# The answers that are given once the source is cut; all others are seen before.
AFTER_THE_CUT = (0, 8, 9, 10)
