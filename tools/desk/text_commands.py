"""The commands of tools/job that make replay files of texts, and texts of replay files."""
import sys
from .replays import (FILE_LIMIT, build_replay, list_parts, list_text, read_list, read_trace, replay_parts, run_bytes,
                      trace_text)
from .words import Trouble, read_bytes, write_bytes


def make_replay(args):
    if not args.output and sys.stdout.isatty():
        raise Trouble("a replay file is binary, and standard output is a terminal; give -o OUT")
    lookups, names = read_list(args.list)
    trace = b"".join(run_bytes(given, came) for _, given, came in read_trace(args.trace, names))
    data = build_replay(*list_parts(lookups), trace)
    if len(data) > FILE_LIMIT:
        print(f"tools/job: warning: the file has {len(data)} bytes, and the program takes {FILE_LIMIT} at most; ./replay "
              "hands a longer trace over in pieces", file=sys.stderr)
    write_bytes(args.output or sys.stdout.fileno(), data)


def write_texts(args):
    lookups, runs = replay_parts(args.file, read_bytes(args.file))
    for ending, text in (("list", list_text(lookups)), ("trace", trace_text(runs))):
        write_bytes(f"{args.output}.{ending}", text.encode("ascii"))
