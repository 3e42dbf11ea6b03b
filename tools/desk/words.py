"""Hex words and numbers as people write them, and files."""
import re, sys


class Trouble(Exception):
    """Ends the command with a sentence that says what the person at the desk has to change."""


def read_bytes(name):
    with open(sys.stdin.fileno() if name == "-" else name, "rb") as file:
        return file.read()


def write_bytes(name, data):
    with open(name, "wb") as file:
        file.write(data)


def hex_bytes(text):
    digits = re.sub(r"[\s_]", "", text)
    if not re.fullmatch(r"([0-9A-Fa-f]{2})*", digits):
        raise Trouble("not hex bytes (two digits each; blanks and underscores may stand between): " + ascii(text[:40]))
    return bytes.fromhex(digits)


def table_bytes(text):
    """A table's bytes, from hex words, from a text file of them after `@`, or from a binary file."""
    if text.startswith("@"):
        return hex_bytes(read_bytes(text[1:]).decode("ascii", "replace"))
    return hex_bytes(text) if re.fullmatch(r"[0-9A-Fa-f\s_]*", text) else read_bytes(text)


def number(text, where):
    value = int(text, 16 if text.startswith("0x") else 10) if re.fullmatch(r"[0-9]+|0x[0-9A-Fa-f]+", text) else -1
    if not 0 <= value <= 0xFFFF:
        raise Trouble(f"{where}: {ascii(text)} is no number from 0 to 65535")
    return value


def joined(ranges):
    """Ranges of numbers, with neighbours put together."""
    out = []
    for first, last in ranges:
        if out and out[-1][1] + 1 == first:
            first = out.pop()[0]
        out.append((first, last))
    return out


def ranges_text(ranges):
    return " ".join(str(first) if first == last else f"{first}-{last}" for first, last in ranges) or "none"
