"""A supplier's lines beside ours, for tools/page. What differs first is the program compare's to say (`verdict`); all else here is read off the two texts."""
import collections, itertools, os, re, sys

from parts.recording import FRAME, NAME, heard, told

FORM = re.compile(rb"(?P<frame>[0-9] [0-9a-fA-F]{%d})|(?P<refused>refused [0-9]+)" % (4 * FRAME))
SAID = re.compile(r"agree|line (\d+) (?:(refusal|mark|missing|extra|refused 16)|(sample) (\d+) (-?\d+) (-?\d+))")
MORE = 1500  # how many lines behind our last are shown: a minute
QUOTED, NUMBER = 40, 20  # how much is shown of a line, and of a refusal, whose number may have any length

Verdict = collections.namedtuple("Verdict", "said line what place ours theirs")  # of `agree` the words alone
Line = collections.namedtuple("Line", "form text")  # frame or refused, with its text; unknown, with as much of it as can be shown
Difference = collections.namedtuple("Difference", "what samples largest")  # in words; how many samples differ, and by how much at most


def verdict(tables, recording, lines):
    """What compare says, and its parts."""
    said = list(told("compare", tables, lines, os.path.abspath(recording)))
    got = SAID.fullmatch(said[0]) if len(said) == 1 else None
    if not got:
        sys.exit(f"{NAME}: compare gave no verdict")
    line, what, sample, *numbers = got.groups()
    return Verdict(said[0], line and int(line), what or sample, *(number and int(number) for number in numbers))


def quoted(line):
    """The start and the end of any bytes, in letters that are safe to see: what is no ASCII stands as its number."""
    shown = lambda part: repr(part)[2:-1]
    if not line:
        return "an empty line"
    text = shown(line) if len(line) <= QUOTED else f"{shown(line[: QUOTED - 12])}…{shown(line[-12:])}"
    return f"“{text}”, {len(line):,} byte{'s' * (len(line) != 1)}"


def line_of(line):
    got = FORM.fullmatch(line)
    if not got:
        return Line("unknown", quoted(line))
    text = line.decode()
    return Line(got.lastgroup, text if got.lastgroup == "frame" or len(text) <= NUMBER else f"{text[:NUMBER]}…")


def lines_of_theirs(path, count):
    """The supplier's lines, as many as ours and MORE at most, and how many there are: of what is far behind ours only the count is kept."""
    with open(path, "rb") as f:
        lines = [line_of(line.removesuffix(b"\n")) for line in itertools.islice(f, count + MORE)]
        return lines, len(lines) + sum(1 for _ in f)


def differences(ours, theirs):
    """Of each line what differs in it, or None."""
    return [None if own == other else difference(own, other) for own, other in itertools.zip_longest(ours, theirs)]


def difference(own, other):
    if other is None:
        return Difference("the line is missing", 0, 0)
    if other.form == "unknown":
        return Difference("the line is in no known form", 0, 0)
    if own is None:
        return Difference("the line is extra", 0, 0)
    if own.form == "refused" or other.form == "refused":
        return Difference(f"refusal: {answer(own)} in ours, {answer(other)} in the supplier’s", 0, 0)
    digits = lambda line: [line.text[k : k + 4] for k in range(2, len(line.text), 4)]
    sizes = [abs(x - y) for x, y, a, b in zip(heard(own.text)[1], heard(other.text)[1], digits(own), digits(other)) if a != b]
    samples = "samples" if any(sizes) else "samples, by capital letters alone"
    marks = f"mark {own.text[0]} in ours, {other.text[0]} in the supplier’s"
    what = samples if own.text[0] == other.text[0] else f"{marks}, and {samples}" if sizes else marks
    return Difference(what, len(sizes), max(sizes, default=0))


def answer(line):
    """A line of a known form, in words."""
    return line.text if line.form == "refused" else f"a frame with mark {line.text[0]}"
