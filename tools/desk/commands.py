"""What tools/job is asked on the command line."""
import argparse, sys, textwrap
from . import font_commands, job_commands, text_commands
from .answers import KINDS
from .jobs import FORMS
from .words import Trouble

DESCRIPTION = """Makes label jobs, from words and from fonts, and says in words what goes into the subsetter and what
comes out of it. Exit status: 0 done, 1 (font) a subtable is damaged, 2 trouble."""
TABLE_HELP = "hex words, @ and a text file of hex words, or a binary file (write ./cafe for a file whose name reads " \
             "as hex)"
ALL_HELP = "every fault of every faulty part, lowest part first, and not only the first"
KIND_HELP = "1 context, 2 chained context, 3 ligature, 4 pair, 5 single substitution"


def add_form(add):
    add("--form", choices=FORMS, help="the glyph map as pairs (a file that ends in LSJ1) or as runs (LSJ2); what is "
        "shorter if not given")


def add_make(command):
    add = command("make", job_commands.make,
                  "Makes a job file. What is bad in it is written all the same, with a warning.",
                  'tools/job make --kind 1 --table "0003 0001 0001 000C 0000 0004 0001 0002 0005 0007" \\\n'
                  '      --glyphs "5-9:100" --lookups "4:0" -o small.job').add_argument
    add("--kind", metavar="K", help=KIND_HELP)
    add("--table", metavar="HEX|@FILE|FILE", help="the subtable: " + TABLE_HELP)
    add("--glyphs", metavar="MAP", help='the glyph map: "3:1 5:2" (old:new), "5-9:100" (neighbours in step) or '
        "hex:0003 (bytes as they are); numbers are decimal, or hexadecimal after 0x; empty if not given")
    add_form(add)
    add("--lookups", metavar="MAP", help="the lookup map, in the same way; it is always of pairs")
    add("--example", action="store_true", help="the worked case P1; other options replace its parts")
    add("-o", "--output", metavar="OUT", help="the file to write; standard output if not given")


def add_combine(command):
    add = command("combine", job_commands.combine,
                  "Makes one job of two, the second of which cuts what the first keeps. If the first keeps something, "
                  "the one job's answer is the second's, with the same bytes.",
                  "tools/job combine region.job label.job | ./label").add_argument
    add("first", metavar="FIRST", help="the job that comes first; the one job has its table")
    add("second", metavar="SECOND", help="the job on what the first keeps; its table is not looked at. Each old id of "
        "its glyph map has to be a new id of the first's")
    add_form(add)
    add("-o", "--output", metavar="OUT", help="the file to write; standard output if not given")


def add_show(command):
    add = command("show", job_commands.show,
                  "Shows a job file's parts, maps and table, or a subtable alone, field by field; a line marked ! says "
                  "what is wrong.",
                  "tools/job make --example | tools/job show -",
                  'tools/job show --kind 1 "0003 0001 0000 0008 0001 0002 0005 0005"').add_argument
    add("--kind", type=int, choices=sorted(KINDS), help="take FILE as a subtable alone, of this kind: " + KIND_HELP)
    add("--all", action="store_true", help=ALL_HELP)
    add("file", metavar="FILE", help="a job file, or - for standard input; with --kind a subtable: " + TABLE_HELP)


def add_read(command):
    one = command("read", job_commands.read,
                  "Says what the program's print means: a refusal in words, with the part and the place, or the table "
                  "kept, field by field.",
                  "./label small.job | tools/job read --job small.job")
    which = one.add_mutually_exclusive_group()
    which.add_argument("--job", metavar="FILE", help="the job that was run; what changed is said too")
    which.add_argument("--kind", type=int, choices=sorted(KINDS), help="the kind, if the job is not at hand")
    one.add_argument("--all", action="store_true", help=ALL_HELP)
    one.add_argument("--packed", action="store_true", help="the table kept as a call for the packed layout gives it: "
                     "equal sets, coverages and class tables once; the program prints the plain layout")
    one.add_argument("-o", "--output", metavar="OUT", help="write the table that is kept to this file, as bytes")
    one.add_argument("printed", metavar="PRINTED", nargs="?", default="-",
                     help="what was printed; standard input if not given")


def add_font_file(add):
    add("font", metavar="FONT", help="an OpenType font or collection")
    add("--number", metavar="N", type=int, default=0, help="which font of a collection, from 0; the first if not given")


def add_retained(add):
    add("--glyphs", metavar="LIST", help="retain these glyphs: 3,5,9-20, or all, or @ and a file of such a list")
    add("--text", metavar="TEXT", help="retain the glyphs of these characters (as the font's cmap has them)")
    add("--text-file", metavar="FILE", help="the same, from a file in UTF-8")
    add("--renumber-glyphs", action="store_true", help="number the retained glyphs from 0 on; if not given, their "
        "numbers stay")
    add_form(add)
    add("--lookups", metavar="LIST", default="all", help="keep these lookups, as --glyphs; all if not given")
    add("--renumber-lookups", action="store_true", help="number the lookups that are kept from 0 on")


def add_lookups(command):
    add = command("lookups", font_commands.lookups,
                  "Lists a font's GSUB and GPOS lookups: types, subtables, formats, sizes, and which of them can be "
                  "cut. Where a subtable cannot, the size is that up to the next one.",
                  "tools/job lookups Font.otf").add_argument
    add_font_file(add)
    add("--table", choices=("GSUB", "GPOS"), help="only this one")


def add_from_font(command):
    add = command("from-font", font_commands.from_font,
                  "Makes the job that cuts one subtable of a font. Extension lookups are unwrapped.",
                  'tools/job from-font Font.otf --table GSUB --lookup 3 --text "1/4 3/4" -o frac.job',
                  "tools/job from-font Font.otf --table GPOS --lookup 0 --subtable 1 --glyphs 3,5,9-20 \\\n"
                  "      --renumber-glyphs | ./label").add_argument
    add_font_file(add)
    add("--table", choices=("GSUB", "GPOS"), required=True)
    add("--lookup", metavar="N", type=int, required=True, help="the lookup, from 0, as `tools/job lookups` lists it")
    add("--subtable", metavar="M", type=int, default=0, help="the subtable of it, from 0; the first if not given")
    add_retained(add)
    add("-o", "--output", metavar="OUT", help="the file to write; standard output if not given")


def add_font(command):
    add = command("font", font_commands.font,
                  "Cuts every subtable of a font that is covered, by ./label, and sums up what came out. The exit "
                  "status is 1 if a subtable is damaged: malformed, or with a record that points past its rule.",
                  'tools/job font Font.otf --text "1/4 3/4" --report -o cut').add_argument
    add_font_file(add)
    add("--table", choices=("GSUB", "GPOS"), help="only this one")
    add_retained(add)
    add("--report", action="store_true", help="a line for each subtable: lookup and subtable, kind, format, bytes "
        "before and after, and the answer in words")
    add("-o", "--output", metavar="DIR", help="write the jobs to this folder, and what is kept as bytes: GSUB-3-0.job, "
        "GSUB-3-0.table")
    add("--label", metavar="COMMAND", default=str(font_commands.LABEL), help="the program that runs a job; the ./label "
        "of this checkout if not given")


def add_replay(command):
    add = command("replay", text_commands.make_replay,
                  "Makes a replay file of a list and a trace, which ./replay --help describes.",
                  "tools/job replay label.list label.trace -o label.replay").add_argument
    add("list", metavar="LIST", help="the lookups")
    add("trace", metavar="TRACE", help="the recorded runs")
    add("-o", "--output", metavar="OUT", help="the file to write; standard output if not given")


def add_texts(command):
    add = command("texts", text_commands.write_texts,
                  "Writes the list and the trace of a replay file as texts, NAME.list and NAME.trace.",
                  "tools/job texts label.replay -o label").add_argument
    add("file", metavar="FILE", help="a replay file, or - for standard input")
    add("-o", "--output", metavar="NAME", required=True, help="what the two files are called")


def arguments(given):
    parser = argparse.ArgumentParser(prog="tools/job", description=DESCRIPTION)
    commands = parser.add_subparsers(required=True, metavar="COMMAND")

    def command(name, run, about, *examples):
        one = commands.add_parser(name, help=about, description=textwrap.fill(about, 80),
                                  epilog="\n  ".join(("examples:", *examples)),
                                  formatter_class=argparse.RawDescriptionHelpFormatter)
        one.set_defaults(run=run)
        return one

    for add in (add_make, add_combine, add_show, add_read, add_lookups, add_from_font, add_font, add_replay, add_texts):
        add(command)
    return parser.parse_args(given)


def main(given=None):
    """Runs a command, and hands back the exit status."""
    args = arguments(given)
    try:
        return args.run(args) or 0
    except KeyboardInterrupt:
        return 130
    except (OSError, Trouble) as trouble:
        file = isinstance(trouble, OSError) and trouble.filename
        print(f"tools/job: {f'{file}: {trouble.strerror}' if file else trouble}", file=sys.stderr)
        return 2
