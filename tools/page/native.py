"""What the programs print of a source, as values to compare with: findings of `matchexplain`, and graphs of trees."""
import re

NODE = re.compile(r'  (\w+) \[label="((?:[^"\\]|\\.)*)"(?:, shape=(\w+))?\];')
EDGE = re.compile(r'  (\w+) -> (\w+) \[label="((?:[^"\\]|\\.)*)"\];')


def to_add(lines):
    """The help with arms to add: its words and then its lines, or None."""
    at = next((at for at, line in enumerate(lines) if line.startswith("help: ")), None)
    return None if at is None else [lines[at], *(line.removeprefix("        ") for line in lines[at + 1 :])]


def finding(block):
    """A finding: its level, title, place, label, the place of another range, its notes, and the arms to add."""
    first, *lines = block.split("\n")
    level, title = re.fullmatch(r"(error|warning): (.*)", first, re.S).groups()
    places = [it[1] for line in lines for it in re.finditer(r"^ *--> .*?(?::(\d+:\d+))?$", line)]
    labels = [it[1] for line in lines for it in re.finditer(r"^ *\| *\^+(?: (.*))?$", line)]
    notes = [line.strip()[2:] for line in lines if line.strip().startswith("= ")]
    if places[0] is None:
        labels.insert(0, notes.pop(0).removeprefix("note: "))
    return [level, title, places[0], labels[0], places[1] if len(places) > 1 else None, notes, to_add(lines)]


def findings(text):
    """The findings that `matchexplain` prints."""
    blocks = [block for block in text.split("\n\n") if block.startswith(("error: ", "warning: "))]
    return [finding(block.rstrip("\n")) for block in blocks]


def unquoted(text):
    """The text that a string of Graphviz's language shows."""
    return re.sub(r"\\(.)", r"\1", text).replace("&amp;", "&")


def graph(text):
    """The nodes and edges of a graph: each node's name, text and shape, and each edge's ends and text, both sorted."""
    nodes, edges = [], []
    for line in text.split("\n"):
        node, edge = NODE.fullmatch(line), EDGE.fullmatch(line)
        if node:
            nodes.append([node[1], unquoted(node[2]), node[3] or "box"])
        elif edge:
            edges.append([edge[1], edge[2], unquoted(edge[3])])
    return [sorted(nodes), sorted(edges)]
