"""What ./differences is asked on the command line."""
import argparse, pathlib, re, subprocess, sys
from . import contents
from .answers import ANSWERS
from .compares import SIDES, Words, build_compare, font_names, from_font, from_job, from_text, summary
from .judge import source_complaints
from .prose import say
from .tables import decode
from .words import Trouble, hex_bytes

PROVED = pathlib.Path(__file__).resolve().parents[1] / "proved"
ANSWER = re.compile(r"answer ([0-9]+)\nlength ([0-9]+)\n((?:[0-9a-f]*\n)*)")
REFUSALS = {1: "the kind is not 1 to 4", 4: ANSWERS[4][0], 5: "a format that is not compared", 6: ANSWERS[6][0],
            7: ANSWERS[7][0], 11: "the compare file is faulty"}
NO_ROOM = 10

DESCRIPTION = """Lists what differs between two subtables of one kind: glyphs that only one covers, rules and pairs
that only one has, rules that moved, values that changed, each in words."""
EPILOG = """examples:
  ./differences 1 old.table new.table              the kind (1 context, 2 chained context, 3 ligature, 4 pair), and
  ./differences 1 @old.txt "0003 0000 0000"        the subtables: binary files, @ and a text file of hex words, or hex
  ./differences old.job new.job                    the subtables of two job files
  ./differences --lookup GSUB:4.1 Old.otf New.otf  lookup 4, subtable 1 of two fonts (the first if none is given)

Glyphs, rules and places are counted from 0; input stands in brackets. A class or a coverage is its glyphs.
Exit status: 0 equal, 1 different, 2 trouble."""


def arguments(given):
    parser = argparse.ArgumentParser(prog="./differences", description=DESCRIPTION, epilog=EPILOG,
                                     formatter_class=argparse.RawDescriptionHelpFormatter,
                                     usage="./differences [options] [KIND] LEFT RIGHT")
    add = parser.add_argument
    add("tables", metavar="[KIND] LEFT RIGHT", nargs="+", help="what is compared")
    add("--words", action="store_true", help="the six words of each difference as they are, and nothing else")
    add("--lookup", metavar="L", help="compare this lookup of two fonts, as GSUB:4 or GSUB:4.1")
    add("--right-lookup", metavar="L", help="the lookup of the right font; the same if not given")
    add("--names", metavar="FONT", help="take the names of glyphs from this font")
    add("--program", metavar="COMMAND", help="the program that compares a file; crates/compare_job if not given")
    return parser.parse_intermixed_args(given)


def read_tables(args):
    """The two subtables that are asked for."""
    if args.lookup and len(args.tables) == 2:
        left, right = (from_font(name, lookup)
                       for name, lookup in zip(args.tables, (args.lookup, args.right_lookup or args.lookup)))
    elif args.lookup or args.right_lookup or len(args.tables) not in (2, 3):
        raise Trouble("give a kind and two subtables, two job files, or --lookup and two fonts; ./differences --help "
                      "has examples")
    elif len(args.tables) == 3:
        left, right = (from_text(args.tables[0], text) for text in args.tables[1:])
    else:
        left, right = map(from_job, args.tables)
    if left.kind != right.kind:
        raise Trouble(f"the left table is of kind {left.kind} and the right one of kind {right.kind}; only tables of one "
                      "kind are compared")
    if args.names:
        left.names = right.names = font_names(args.names)
    return left, right


def ask(args, left, right):
    """The program's answer: number, length and list."""
    command = [args.program] if args.program else [PROVED, "compare_job", "./differences"]
    ran = subprocess.run(command, input=build_compare(left.kind, left.data, right.data), stdout=subprocess.PIPE,
                         check=False)
    said = ANSWER.fullmatch(ran.stdout.decode("ascii", "replace"))
    number, length, data = (int(said[1]), int(said[2]), hex_bytes(said[3])) if said else (0, -1, b"")
    if len(data) != (0 if number else length):
        raise Trouble(f"{command[0]} gave no answer (exit status {ran.returncode})")
    return number, length, contents.read_entries(data)


def say_refusal(number, length, tables):
    """What the refusal means, and what is wrong with each table."""
    place = f", in the part at {length:#06x}" if number == 6 else ""
    print(f"refused {number}: {REFUSALS.get(number, 'a new number')}{place}.", file=sys.stderr)
    for side, table in zip(SIDES, tables):
        found = source_complaints(table.kind, table.data) if table.kind in contents.READERS else []
        for _, text in [one for one in found if one[0] in REFUSALS][:1]:
            print(f"  {side} table: {text}", file=sys.stderr)
    return 2


def read_contents(tables, entries):
    """The two contents, and that the list is theirs by a second reckoning; None where parts overlap too often."""
    if not all(decode(table.kind, table.data)["whole"] for table in tables):
        return None
    found = [contents.content(table.kind, table.data) for table in tables]
    if contents.differences(tables[0].kind, *found) != entries:
        raise Trouble("the program lists something else than what was worked out by hand; please report it")
    return found


def compare(args):
    tables = left, right = read_tables(args)
    number, length, entries = ask(args, left, right)
    if number == NO_ROOM:
        raise Trouble(f"the list has {length // 12} differences, more than the program has room for")
    if number:
        return say_refusal(number, length, tables)
    words = Words(left, right, read_contents(tables, entries))
    for entry in entries:
        if args.words:
            print(*entry)
        else:
            say(words.line(entry))
    if not args.words:
        print(summary(entries))
    return 1 if entries else 0


def main(given=None):
    """Compares, and hands back the exit status."""
    args = arguments(given)
    try:
        return compare(args)
    except KeyboardInterrupt:
        return 130
    except (OSError, Trouble) as trouble:
        file = isinstance(trouble, OSError) and trouble.filename
        print(f"./differences: {f'{file}: {trouble.strerror}' if file else trouble}", file=sys.stderr)
        return 2
