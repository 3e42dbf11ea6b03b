"""Tables and reasons, printed."""
import textwrap
from .tables import bit_names, label
from .words import ranges_text

WIDTH = 110


def say(text, first="", rest="  "):
    """Prints one thing, wrapped, since lists of glyphs can be long."""
    if len(first) + len(text) <= WIDTH:
        return print(first + text)
    return print(textwrap.fill(text, WIDTH, initial_indent=first, subsequent_indent=rest, break_on_hyphens=False))


def value_text(node):
    name, value = node["name"], node["value"]
    if "to" in node:
        return f"-> {node['to']:04x}" if node["to"] else "null"
    if name in ("glyphs", "class"):
        return ranges_text(value)
    if isinstance(value, dict):
        return ", ".join(f"{field} {amount}" for field, amount in value.items())
    if name.startswith("value format"):
        return " ".join([f"{value:#06x}"] + [field for _, field in bit_names(value)])
    return " ".join(map(str, value)) if isinstance(value, list) else str(value)


def sharing(node, again):
    """Whether an offset leads where others lead too; what stands there is printed under the first of them."""
    reached = node.get("reached")
    if not reached or reached.ways == 1:
        return ""
    return " (shared, as above)" if again else f" (shared: {reached.ways} offsets lead there)"


def print_tree(nodes, shown, indent=""):
    for node in nodes:
        again = node["parts"] and id(node["parts"]) in shown
        margin = f"{node['at']:04x} {'!' if node['name'] == 'fault' else ' '} {indent}"
        say(f"{label(node)}: {value_text(node)}{sharing(node, again)}", margin, " " * len(margin) + "  ")
        if not again:
            shown.add(id(node["parts"]))
            print_tree(node["parts"], shown, indent + "  ")


def print_table(tree, size):
    print(f"The table, {tree['name']}, {size} bytes. Places are hexadecimal, from its start; other numbers decimal.\n"
          "Sets, rules, ranges and the like are counted from 0.")
    print_tree(tree["parts"], set())
    if not tree["whole"]:
        print("Not all parts were looked at.")


def print_reasons(found, everything=False, file=None):
    """The reasons, one for each answer unless everything is asked for."""
    firsts = {}
    for answer, text in found:
        firsts.setdefault(answer, []).append(text)
    for answer, texts in firsts.items():
        for text in texts if everything else texts[:1]:
            print(f"  {answer}: {text}", file=file)
        if len(texts) > 1 and not everything:
            print(f"  {answer}: and {len(texts) - 1} more; `tools/job show --all` lists them", file=file)


def print_columns(titles, rows, right):
    """A table of columns as wide as they have to be; those with the numbers `right` are flush right."""
    cells = [titles] + [[str(cell) for cell in row] for row in rows]
    widths = [max(map(len, column)) for column in zip(*cells)]
    for row in cells:
        line = "  ".join(cell.rjust(width) if column in right else cell.ljust(width)
                         for column, (cell, width) in enumerate(zip(row, widths)))
        print(line.rstrip())
