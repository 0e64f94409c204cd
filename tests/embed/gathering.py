"""Cases for the library: worked sources of this repository, and questions that stand for nothing."""
import hashlib
import importlib.machinery
import importlib.util
import pathlib

TOP = pathlib.Path(__file__).resolve().parent.parent.parent
COMMANDS = ("check", "trees", "arms", "eval")
NO_FORM, REFUSED = 2, 3
OPTIONS = ("--width", "--edition")
DEFAULTS = {"--width": 0, "--edition": 2024}
PLAIN = b"fn f(x: bool) -> u8 { match x { true => 1 } }\n"


def worked():
    """tests/run as a module: it knows what stands beside a source."""
    path = TOP / "tests" / "run"
    text = path.read_text(encoding="utf-8")
    assert text.endswith("\n\nmain()\n")
    spec = importlib.util.spec_from_loader("worked", loader=None)
    module = importlib.util.module_from_spec(spec)
    module.__file__ = str(path)
    exec(compile(text[: -len("main()\n")], str(path), "exec"), module.__dict__)
    return module


class Texts:
    """Texts as files in a folder, each once."""

    def __init__(self, folder):
        self.folder = pathlib.Path(folder)

    def path(self, text):
        path = self.folder / hashlib.sha256(text).hexdigest()[:32]
        if not path.exists():
            path.write_bytes(text)
        return str(path)


def options_of(words):
    """The width and the edition that words say, or None where they are no options."""
    found = dict(DEFAULTS)
    names = [word for word in words[::2]]
    if len(words) % 2 or sorted(set(names), key=OPTIONS.index if set(names) <= set(OPTIONS) else None) != names:
        return None
    for name, word in zip(names, words[1::2]):
        if not word.isdecimal():
            return None
        found[name] = int(word)
    return found["--width"], found["--edition"]


def question_of(words):
    """The numbers and texts that stand for words of the command line, or None where these name no one file."""
    try:
        words = [word.decode("utf-8") for word in words.splitlines()]
    except UnicodeDecodeError:
        return None
    if len(words) < 2 or words[0] not in COMMANDS or words[1] != "{}" or "{}" in words[2:]:
        return None
    texts, rest = ["", "", ""], words[2:]
    if words[0] == "eval":
        count = 2 if len(rest) % 2 == 0 else 3
        texts[:count], rest = rest[:count], rest[count:]
    options = options_of(rest)
    if options is None or len(texts) != 3:
        return None
    return (COMMANDS.index(words[0]), *options, *(text.encode() for text in texts))


class Cases:
    """The lines for calls.c."""

    def __init__(self, folder):
        self.texts, self.lines = Texts(folder), []

    def report(self, question, source, status, wanted):
        numbers, texts = question[:3], [self.texts.path(text) for text in (*question[3:], source)]
        self.lines.append(" ".join(map(str, ["report", *numbers, *texts, status, self.texts.path(wanted)])))

    def explain(self, name, source, report, status, wanted, arms=b""):
        texts = [self.texts.path(text) for text in (name, source, report, arms)]
        self.lines.append(" ".join(map(str, ["explain", *texts, status, self.texts.path(wanted)])))


def add_source(cases, run, source):
    """The calls on one worked source."""
    data = pathlib.Path(source).read_bytes()
    wanted, words = run.beside(source, ".json"), run.beside(source, ".words")
    status = run.beside(source, ".status")
    status = run.status_of(wanted) if status is None else int(status)
    question = question_of(b"check\n{}" if words is None else words)
    if question and status in (0, 1, REFUSED):
        cases.report(question, data, status, wanted)
    trees = run.beside(source, ".trees.json")
    if trees is not None:
        cases.report((1, 0, 2024, b"", b"", b""), data, run.status_of(trees), trees)
    arms = run.beside(source, ".arms.json")
    if arms is not None:
        cases.report((2, 0, 2024, b"", b"", b""), data, run.status_of(arms), arms)
    for ending, given in ((".txt", b""), (".arms.txt", arms)):
        text = run.beside(source, ending)
        if text is not None:
            breaks = b"\nerrors: " in text and b"\nerrors: 0," not in text
            cases.explain(pathlib.Path(source).name.encode(), data, wanted, int(breaks), text, given)


def add_worked(cases, longest):
    """The calls on all worked sources of at most so many bytes."""
    run = worked()
    for source in run.sources(""):
        if pathlib.Path(source).stat().st_size <= longest:
            add_source(cases, run, source)


def add_formless(cases):
    """Questions and reports that stand for nothing."""
    plain = (0, 0, 2024, b"", b"", b"")
    numbers_of = ((4, 5, 255), (1, 8, 15, 17, 128, 255), (0, 1, 2015, 2018, 2022, 2023, 2025, 65535))
    for place, numbers in enumerate(numbers_of):
        for number in numbers:
            cases.report((*plain[:place], number, *plain[place + 1 :]), PLAIN, NO_FORM, b"")
    formless = [(b"\xff", b"true", b""), (b"f", b"\xc3", b"")]
    for texts in formless + [(b"f", b"true", answers) for answers in (b"x", b"tfT", b"\xff")]:
        cases.report((3, 0, 2024, *texts), PLAIN, NO_FORM, b"")
    run = worked()
    cases.explain(b"\xff.rs", run.FILE.encode(), b'{"functions":[]}', NO_FORM, b"")
    cases.explain(b"f.rs", run.FILE.encode(), b'{"functions":[]}\xff', NO_FORM, b"")
    for arms in (b"\xff", b"[", b"[]"):
        cases.explain(b"f.rs", run.FILE.encode(), b'{"functions":[]}', NO_FORM, b"", arms)
    for text in run.NO_REPORTS.values():
        cases.explain(b"f.rs", run.FILE.encode(), text.encode(), NO_FORM, b"")


def add_lengths(cases):
    """Texts without a byte, and the longest sources."""
    for command, key in ((0, "functions"), (1, "functions"), (2, "functions")):
        cases.report((command, 0, 2024, b"", b"", b""), b"", 0, b'{"%s":[]}\n' % key.encode())
    cases.explain(b"", b"", b'{"functions":[]}', 0, b"")
    unknown = b'{"refused":{"arm":null,"at":null,"item":null,"name":"unknown-function","rule":42}}\n'
    cases.report((3, 0, 2024, b"", b"", b""), PLAIN, REFUSED, unknown)
    for length, name, rule, at in worked().LENGTHS:
        refusal = '{"refused":{"arm":null,"at":%s,"item":null,"name":"%s","rule":%d}}\n' % (at, name, rule)
        cases.report((0, 0, 2024, b"", b"", b""), b"\xff" * length, REFUSED, refusal.encode())
