"""Sources that are as deep as the grammar lets them be, with little stack."""
import os
import resource

from running import CLEAN, FOUND, run

LEVELS = 62
REFERENCES = 61
MANY = 100_000
HEAD = b'{"functions":[{"exhaustive":%s,"name":"f","overlaps":['


def function(ty, pattern, declared=""):
    return f"{declared}fn f(x:{ty}){{match x{{{pattern}=>1}}}}"


def nested(count, around, inside):
    """The text with so many others around it: `{}` is what is inside, and `@` the number of the level, from 0 outside."""
    for level in reversed(range(count)):
        inside = around.replace("@", str(level)).replace("{}", inside)
    return inside


def chain(levels, references, mark="&", braces=False):
    """Structs of which each has the next one behind references, the last one a flag: the source, and the missing value."""
    marks = mark * references
    field, end = ("{{f:{}}}", "") if braces else ("({})", ";")
    declared = "".join(f"struct S{i}{field.format(f'{marks}S{i + 1}')}{end}" for i in range(levels - 1))
    declared += f"struct S{levels - 1}{field.format('bool')}{end}"
    pattern = nested(levels, "S@{f:{}}" if braces else "S@({})", "true")
    text = nested(levels, marks + ("S@ { f: {} }" if braces else "S@({})"), "false")
    point = '["point","%s",' % mark.strip()
    tree = nested(levels, point * references + '["node","S@",[{}]]' + "]" * references, '["flag",false]')
    return function(marks + "S0", pattern, declared), text, tree


def of_form(ty, pattern, text, tree):
    """Levels of one form of pattern around a flag: the source, and the missing value."""
    count = LEVELS
    source = function(nested(count, ty, "bool"), nested(count, pattern, "true"))
    return source, nested(count, text, "false"), nested(count, tree, '["flag",false]')


def deep():
    """Rows: what, the source, the missing value as Rust writes it and as a tree."""
    for mark in ("&", "&mut "):
        yield f"structs behind {mark.strip()}", *chain(LEVELS, REFERENCES, mark)
    yield "structs with names behind &", *chain(LEVELS, REFERENCES, "&", True)
    yield "structs", *chain(LEVELS, 0)
    yield "tuples", *of_form("({},)", "({},)", "({},)", '["node","",[{}]]')
    yield "arrays", *of_form("[{};1]", "[{}]", "[{}]", '["row",[{}],false,[]]')


def half():
    """Half as deep, for half of the stack."""
    for mark in ("&", "&mut "):
        yield f"structs behind {mark.strip()}", *chain(LEVELS // 2, REFERENCES, mark)
    yield "structs with names behind &", *chain(LEVELS // 2, REFERENCES, "&", True)


def many():
    """The source of a long chain of structs, of which one is opened."""
    declared = "".join(f"struct S{i}(S{i + 1});" for i in range(MANY)) + f"struct S{MANY};"
    return function("S0", "S0(_)", declared)


def with_stack(kilobytes):
    def limit():
        resource.setrlimit(resource.RLIMIT_STACK, (kilobytes * 1024, kilobytes * 1024))
    return {"preexec_fn": limit}


def missing(text, tree):
    return b',"unreachable":[],"witnesses":[{"text":"%s","tree":%s}]}]}\n' % (text.encode(), tree.encode())


def one(tried, program, folder, kilobytes, name, source, ends):
    """Both commands on one source: the status, how the output begins, and how it ends."""
    with open(os.path.join(folder, "f.rs"), "w", encoding="utf-8") as file:
        file.write(source)
    what = f"deep sources, {kilobytes} kB of stack"
    for command in ("check", "trees"):
        status, written = run(program, [command, "f.rs"], folder, **with_stack(kilobytes))
        wanted = FOUND if ends else CLEAN
        begins = written.startswith(HEAD % (b"false" if ends else b"true"))
        fine = status == wanted and begins and written.endswith(ends)
        shown = f"it ended with {status} and wrote {written[:100]!r}"
        tried.add(what, f"status {status}", None if fine else shown, f"`{command}`, {name}")


def arms_of(tried, program, folder, kilobytes, name, text):
    """The arm to add to the source that lies there: the missing value, or rule 50 where that is too deep."""
    status, written = run(program, ["arms", "f.rs"], folder, **with_stack(kilobytes))
    ends = b'{"arms":["%s"],"name":"f"}]}\n' % text.encode()
    if text.count("&") > LEVELS:
        ends = b'"name":"arm-too-large","rule":50}}]}\n'
    shown = f"it ended with {status} and wrote {written[:100]!r}"
    fine = status == FOUND and written.endswith(ends)
    tried.add(f"deep sources, {kilobytes} kB of stack", f"status {status}", None if fine else shown, f"`arms`, {name}")


def try_all(tried, program, folder):
    for kilobytes, rows in ((1024, deep()), (512, half())):
        for name, source, text, tree in rows:
            one(tried, program, folder, kilobytes, name, source, missing(text, tree))
            arms_of(tried, program, folder, kilobytes, name, text)
    one(tried, program, folder, 256, f"{MANY:,} structs", many(), b"")
