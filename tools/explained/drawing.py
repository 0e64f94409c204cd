"""The decision tree of a function as a graph, a second time: in plain Python, from docs/use.md and docs/report.md alone. Nothing about it is proved."""
from explaining import functions_with_arms, place_of

HEAD = 'digraph tree {\n  labelloc=t;\n  label="%s";\n  node [shape=box];\n'
CONTROLS = {"\n": "\\n", "\r": "\\r", "\t": "\\t"}


def visible(text):
    """A text with its control characters as Rust escapes them."""
    return "".join(CONTROLS.get(char, f"\\x{ord(char):02x}") if ord(char) < 32 or ord(char) == 127 else char for char in text)


def literal(text):
    """A text as Rust writes it."""
    return '"' + visible(text.replace("\\", "\\\\").replace('"', '\\"')) + '"'


def string(shown):
    """A string of Graphviz's language by which this is shown."""
    return shown.replace("\\", "\\\\").replace('"', '\\"').replace("&", "&amp;")


def span(low, high):
    if low is not None and low == high:
        return visible(low)
    if high is None:
        return f"{visible(low or '')}.."
    return f"{visible(low or '')}..={visible(high)}"


def case(tree):
    """A case, as people write it."""
    kind, *parts = tree
    return {
        "variant": lambda name: visible(name),
        "flag": lambda flag: "true" if flag else "false",
        "range": span,
        "text": literal,
        "length": lambda count: f"len = {count}",
        "longer": lambda front, back: f"len >= {front} + {back}",
        "else": lambda: "else",
    }[kind](*parts)


def drawn(data, report, function):
    """The graph of the tree of a function of the report, or None."""
    for number, entry in enumerate(report.get("functions", [])):
        if entry["name"] == function:
            return graph(data, entry, number) if "tree" in entry else None
    return None


def graph(data, entry, number):
    lines = [place_of(data, at)[0] for at in functions_with_arms(data)[number][1]]

    def arm(index):
        return f"arm {index}, line {lines[index]}"

    text = HEAD % string(visible(entry["name"]))
    for index, (kind, *parts) in enumerate(entry["tree"]):
        if kind == "switch":
            text += f'  n{index} [label="{string(visible(parts[0]))}"];\n'
            text += "".join(f'  n{index} -> n{to} [label="{string(case(one))}"];\n' for one, to in parts[1])
        elif kind == "ask":
            text += f'  n{index} [label="guard of {arm(parts[0])}", shape=diamond];\n  n{index} -> t{index} [label="holds"];\n'
            text += f'  t{index} [label="{arm(parts[0])}", shape=ellipse];\n  n{index} -> n{parts[2]} [label="refuses"];\n'
        else:
            shown = {"take": lambda: arm(parts[0]), "miss": lambda: "no arm", "void": lambda: "no value"}[kind]()
            text += f'  n{index} [label="{shown}", shape=ellipse];\n'
    return text + "}\n"
