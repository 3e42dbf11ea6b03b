"""What ./replay is asked on the command line."""
import argparse, pathlib, re, subprocess, sys, time
from . import walk
from .answers import ANSWERS, JOB_LIMIT
from .font_commands import LABEL, Bar, run_label
from .jobs import build_job, entry_bytes, glyph_map, map_entries, map_faults
from .replays import FILE_LIMIT, TRAILER, Lookup, build_replay, list_parts, pieces, read_list, read_trace
from .words import Trouble

PROVED = pathlib.Path(__file__).resolve().parents[1] / "proved"
# How many bytes of a trace are handed over at once: few enough that the bar moves, and enough that starting is cheap.
PIECE = 400_000
ANSWER = re.compile(r"answer ([0-9]+)\nplace ([0-9]+)\nruns ([0-9]+)\nagreed ([0-9]+)\nfirst ([0-9]+)\n"
                    r"(?:steps ([0-9]+)\n)?")
# How many seconds the program has to say what a list may cost, and the number at which it stops counting.
COST_SECONDS, MANY_STEPS = 10, 1 << 63
REFUSALS = {number: ANSWERS[number][0] for number in (4, 5, 6, 12)}
REFUSALS.update({11: "the replay file is faulty", 15: "the list is not good", 16: "the trace is cut short",
                 17: "a record names no lookup of the list"})
TOO_DEEP = 18
# A lookup that matches nowhere, which stands for one of which nothing survives.
EMPTY = bytes.fromhex("0003 0000 0000")

DESCRIPTION = """Replays recorded label runs over a list of lookups, and says whether what comes out is what was
recorded. With --cut the lookups are also cut, by ./label, and the runs replayed over what is kept, renumbered."""
EPILOG = """LIST has one lookup a line, in order, 16 at most; `#` starts a comment. Records name lookups by their
place in the list, from 0:
  5 small.table            the kind (1 context, 2 chained context, 5 single substitution), and the subtable: a binary
  1 @rules.txt             file, @ and a text file of hex words, or hex words
  font Font.otf            a font, for the lines that follow:
  GSUB 4.1                 lookup 4, subtable 1 (the first if none is given); its records are renumbered to the list
TRACE has one run a line, 64 glyphs at most: what went in, `->`, and what came out:
  3 5 A -> 3 6 B
  glyph A 17               in either file: a name for a glyph

example:
  ./replay label.list label.trace
  ./replay --cut "3:1 5:2 9-20:3" label.list label.trace

Exit status: 0 all runs agree, 1 not, 2 trouble."""


def arguments(given):
    parser = argparse.ArgumentParser(prog="./replay", description=DESCRIPTION, epilog=EPILOG,
                                     formatter_class=argparse.RawDescriptionHelpFormatter)
    add = parser.add_argument
    add("list", metavar="LIST", help="the lookups")
    add("trace", metavar="TRACE", help="the recorded runs")
    add("--cut", metavar="GLYPHS", help='cut every lookup down to these glyphs, "3:1 5:2" (old:new) or "5-9:100" '
        "(neighbours in step), and replay before and after")
    add("--cost", action="store_true", help="say first how many lookups a run may ask at most for each of its glyphs")
    add("--seconds", metavar="N", type=float, default=60, help="stop after so many seconds, 60 if not given: a list "
        "whose lookups call each other can take longer than anyone waits for")
    add("--program", metavar="COMMAND", help="the program that replays a file; crates/replay_job if not given")
    add("--label", metavar="COMMAND", default=str(LABEL), help="the program that runs a job; ./label if not given")
    return parser.parse_args(given)


class Replay:
    """What came of a replay: the answer's number and place, and the tally."""

    def __init__(self):
        self.number = self.place = self.runs = self.agreed = self.first = 0

    def add(self, number, place, runs, agreed, first):
        """Counts one more piece of the trace."""
        self.first = self.first or (self.runs + first if first else 0)
        self.number, self.place, self.runs, self.agreed = number, place, self.runs + runs, self.agreed + agreed

    def all_agree(self):
        return self.number == 0 and self.runs == self.agreed


class Program:
    """The program that replays a file, under a time limit."""

    def __init__(self, args):
        self.command = [args.program] if args.program else [PROVED, "replay_job", "./replay"]
        self.seconds = args.seconds
        if not args.program and subprocess.run([PROVED, "--build", *self.command[1:]], check=False).returncode:
            raise Trouble("there is no program to replay with")
        self.end = time.monotonic() + self.seconds

    def answer(self, file, seconds):
        """The numbers that the program prints, the steps last: 0 where it says none."""
        ran = subprocess.run(self.command, input=file, stdout=subprocess.PIPE, check=False, timeout=max(0.01, seconds))
        said = ANSWER.fullmatch(ran.stdout.decode("ascii", "replace"))
        if not said:
            raise Trouble(f"{self.command[0]} gave no answer (exit status {ran.returncode})")
        return [int(one or 0) for one in said.groups()]

    def cost(self, lookups):
        """What a list may cost, which a replay without runs tells; nothing of a list that is refused."""
        try:
            number, *_, steps = self.answer(build_replay(*list_parts(lookups), b""), COST_SECONDS)
        except subprocess.TimeoutExpired:
            return f"What the list may cost takes more than {COST_SECONDS} s to tell."
        many = "2^63 or more" if steps == MANY_STEPS else f"at most {steps:,}"
        return "" if number else f"A run asks {many} lookups for each of its glyphs."

    def replay(self, lookups, runs):
        """Hands the runs over in pieces, and counts."""
        entries, buffer = list_parts(lookups)
        room = FILE_LIMIT - TRAILER - len(entries) - len(buffer)
        if room < 2 + 4 * 64:
            raise Trouble(f"the lookups have {len(buffer)} bytes, and a replay file has {FILE_LIMIT} at most")
        bar, told = Bar(len(runs)), Replay()
        for count, piece in pieces(runs, min(room, PIECE)):
            try:
                told.add(*self.answer(build_replay(entries, buffer, piece), self.end - time.monotonic())[:-1])
            except subprocess.TimeoutExpired as late:
                raise Trouble(f"stopped after {self.seconds:g} s; --seconds gives it longer. {self.cost(lookups)}") from late
            bar.step(count)
            if told.number:
                break
        return told


# ---- What is said ----
def say_tally(title, told):
    if told.number and told.number != TOO_DEEP:
        place = f", in the part at {told.place:#06x}" if told.number == 6 else ""
        print(f"{title}refused {told.number}: {REFUSALS.get(told.number, 'a new number')}{place}.")
    else:
        print(f"{title}{told.runs} runs, {told.agreed} agree.")


def say_run(lookups, wheres, runs, told):
    """The first run that disagrees, place by place, and the one that goes too deep."""
    if told.first:
        given, came = runs[told.first - 1]
        out = walk.run([walk.lookup(one.kind, one.data) for one in lookups], given)
        if out == came:
            raise Trouble(f"the program says that run {told.first} disagrees, and a walk by hand that it agrees; "
                          "please report it")
        print(f"The first that does not is run {told.first} ({wheres[told.first - 1]}):")
        print("  place  in     came out  recorded")
        for place, (one, two, three) in enumerate(zip(given, out, came)):
            print(f"  {place:5}  {one:5}  {two:8}  {three:8}{'  differs' if two != three else ''}")
    if told.number == TOO_DEEP:
        print(f"Run {told.runs + 1} ({wheres[told.runs]}) would run a lookup at depth 9, which ends the replay (18).")


# ---- The commands ----
def plain(program, lookups, trace):
    runs = [(given, came) for _, given, came in trace]
    told = program.replay(lookups, runs)
    say_tally("", told)
    if told.number and told.number != TOO_DEEP:
        return 2
    say_run(lookups, [where for where, _, _ in trace], runs, told)
    return 0 if told.all_agree() else 1


def cut_lookups(args, lookups, form, glyphs):
    """Each lookup as it is kept, with a line on each."""
    own_places, kept = entry_bytes((place, place) for place in range(len(lookups))), []
    for place, one in enumerate(lookups):
        job = build_job(one.kind, one.data, glyphs, own_places, form=form)
        if len(job) > JOB_LIMIT:
            raise Trouble(f"lookup {place} ({one.name}) makes a job of {len(job)} bytes, more than {JOB_LIMIT}")
        answer, data = run_label(args.label, job)
        if answer == 8:
            print(f"lookup {place} ({one.name}): nothing survives, so that it does nothing.")
            kept.append(Lookup(one.name, 1, EMPTY))
        elif answer:
            raise Trouble(f"lookup {place} ({one.name}) is refused as {answer}: {ANSWERS[answer][0]}")
        else:
            print(f"lookup {place} ({one.name}): {len(one.data)} -> {len(data)} bytes.")
            kept.append(Lookup(one.name, one.kind, data))
    return kept


def before_and_after(args, program, lookups, trace):
    form, glyphs = glyph_map(args.cut)
    for fault in map_faults("glyph map", glyphs, ((0, "old"), (1, "new")), form):
        raise Trouble(fault)
    new = dict(map_entries(glyphs, form))
    retained = [one for one in trace if set(one[1]) | set(one[2]) <= new.keys()]
    if len(retained) < len(trace):
        print(f"{len(trace) - len(retained)} of {len(trace)} runs have a glyph that is not retained, and are left out.")
    if not retained:
        raise Trouble("no run has only glyphs that are retained")
    kept, wheres = cut_lookups(args, lookups, form, glyphs), [where for where, _, _ in retained]
    program.end = time.monotonic() + program.seconds
    old_runs = [(given, came) for _, given, came in retained]
    new_runs = [tuple([new[one] for one in half] for half in run) for run in old_runs]
    before = program.replay(lookups, old_runs)
    say_tally("Before the cut: ", before)
    if before.number and before.number != TOO_DEEP:
        return 2
    say_run(lookups, wheres, old_runs, before)
    after = program.replay(kept, new_runs)
    say_tally("After the cut: ", after)
    if not after.number or after.number == TOO_DEEP:
        say_run(kept, wheres, new_runs, after)
    same = vars(before) == vars(after)
    print("The cut changes no recorded run." if same else "THE CUT CHANGES WHAT COMES OUT.")
    return 0 if same and after.all_agree() else 1


def main(given=None):
    """Replays, and hands back the exit status."""
    args = arguments(given)
    try:
        lookups, names = read_list(args.list)
        trace = read_trace(args.trace, names)
        program = Program(args)
        if args.cost:
            print(program.cost(lookups) or "The list is refused, so that it has no cost.")
        if args.cut is None:
            return plain(program, lookups, trace)
        return before_and_after(args, program, lookups, trace)
    except KeyboardInterrupt:
        return 130
    except (OSError, Trouble) as trouble:
        file = isinstance(trouble, OSError) and trouble.filename
        print(f"./replay: {f'{file}: {trouble.strerror}' if file else trouble}", file=sys.stderr)
        return 2
