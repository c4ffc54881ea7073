"""What the programs make of a recording, and its sound: for tools/wav, tools/page and tools/two_channels."""
import array, io, os, struct, subprocess, sys, tempfile, wave

TOOLS = os.path.dirname(os.path.dirname(os.path.abspath(__file__)))
NAME = os.path.basename(sys.argv[0])  # who says what is wrong
RATE = 8000  # docs/DECISIONS.md says why
FRAME = 320
LETTERS = (b"a ", b"b ")  # how a line of a two-channel recorder begins
WHY = {"6": "a padding bit is set", "7": "a code index has no position", "9": "not 40 hexadecimal digits"}


def tables_why(tables, number, *named):
    """Why a table file is refused, in words: with 4 what decode named, the rule and the place."""
    if number == "1":
        return "not 15,834 bytes long"
    which_rule = os.path.join(TOOLS, "which_rule")
    return subprocess.run([which_rule, tables, *named], stdout=subprocess.PIPE, check=True).stdout.decode().strip()


def told(program, tables, given, *words):
    """What a program writes of a file, line by line. It takes its tables from the folder where it is run."""
    launch = os.path.join(TOOLS, "launch")
    with tempfile.TemporaryDirectory() as room, open(given, "rb") as f:
        os.symlink(os.path.abspath(tables), os.path.join(room, "tables.bin"))
        with subprocess.Popen([launch, program, *words], stdin=f, stdout=subprocess.PIPE, cwd=room) as ran:
            for line in ran.stdout:
                yield line.decode().removesuffix("\n")
    if ran.returncode != 0:
        sys.exit(f"{NAME}: {program} did not run to its end (exit status {ran.returncode})")


def lines_of(text):
    """The lines of a text, the last of which may lack its newline."""
    lines = text.split(b"\n")
    return lines if lines[-1] else lines[:-1]


def share(letter, lines):
    """A channel's lines, as decode is to be given them: `-` for a line that is neither's. A `+` behind a letter opens nothing, so that it becomes `-` as well."""
    rests = [line[2:] if line[:2] == letter else b"-" for line in lines if line[:2] == letter or line[:2] not in LETTERS]
    return b"".join((b"-" if rest == b"+" else rest) + b"\n" for rest in rests)


def there(path, what):
    if not os.path.exists(path):
        sys.exit(f"{NAME}: no file {path}, {what}")


def decoded(program, tables, recording):
    """What decode, or two_channels, writes of a recording."""
    there(tables, "the table file")
    there(recording, "the recording")
    lines = list(told(program, tables, recording))
    if lines and lines[0].startswith("tables refused"):
        sys.exit(f"{NAME}: {tables}: {lines[0]}: {tables_why(tables, *lines[0].split(' ')[2:])}")
    return lines


def heard_from_start(recording):
    """Whether the first line is `+`, which decode answers with nothing."""
    with open(recording, "rb") as f:
        return f.readline().removesuffix(b"\n") == b"+"


def heard(line):
    """A line's mark and samples: no mark and silence where it was refused."""
    if line.startswith("refused"):
        return None, array.array("h", bytes(2 * FRAME))
    mark, digits = line.split(" ")
    samples = array.array("h", bytes.fromhex(digits))
    if sys.byteorder == "little":
        samples.byteswap()
    return int(mark), samples


def sound_file(frames):
    """The bytes of a sound file."""
    file = io.BytesIO()
    with wave.open(file, "wb") as w:
        w.setnchannels(1)
        w.setsampwidth(2)
        w.setframerate(RATE)
        w.writeframes(b"".join(struct.pack(f"<{FRAME}h", *samples) for _, samples in frames))
    return file.getvalue()
