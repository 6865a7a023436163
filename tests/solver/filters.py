"""What every program of the project is held to that takes a sheet on standard input, whatever it prints (T10.1): it
takes input that comes slowly, it reads no further than one byte past the longest sheet, it looks at no arguments, and
it says so where it cannot read or write."""
import os
import subprocess
import tempfile

from generator import Generator
from planner import START
from programs import ROOT, SECONDS, printed, printed_for_file, printed_for_pieces
from random_sheets import large_sheet
from sheets import bytes_of

# One byte more than the longest sheet (T2.6): the most that a program reads.
MOST_READ = 3_853


def pieces_of(sheet, generator, longest):
    """A sheet in pieces of random lengths."""
    while sheet:
        length = generator.between(1, longest)
        yield sheet[:length]
        sheet = sheet[length:]


def longest_sheet(generator):
    """A sheet of 3,852 bytes."""
    return bytes_of(large_sheet(generator, "p=1 D=1024 k=60", (0, 32_000_000), START))


def slow_inputs():
    """Inputs through a slow pipe: a name, the sheet, its pieces, and how long after the last the pipe is closed."""
    generator = Generator(seed=1)
    longest = longest_sheet(generator)
    short = [("C1", bytes_of("C1")), ("C3", bytes_of("C3")), ("11 bytes", bytes_of("n=1 -1")), ("nothing", b"")]
    for name, sheet in short:
        yield f"{name}, a byte at a time", sheet, pieces_of(sheet, generator, 1), 0.0
        yield f"{name}, closed late", sheet, [sheet], 0.3
    for name, sheet in ("the longest sheet", longest), ("the longest sheet and a byte", longest + b"\0"):
        for piece in 40, 300, 4_000:
            yield f"{name}, in pieces of up to {piece} bytes", sheet, pieces_of(sheet, generator, piece), 0.0
        yield f"{name}, closed late", sheet, [sheet], 0.3
    zeros = bytes(2**20)
    yield "a megabyte of zeros", zeros, [zeros], 0.0
    yield "a megabyte of zeros in pieces", zeros, pieces_of(zeros, generator, 99_999), 0.0


def faults_of_slow_input(program, due):
    """The sheets that come slowly and for which something else is printed."""
    for name, sheet, pieces, wait in slow_inputs():
        if (came := printed_for_pieces(program, pieces, wait)) != (0, due(sheet), b""):
            yield f"{name} gives {came}, and {due(sheet)} is due"
    with subprocess.Popen(["head", "-c", str(2**20), "/dev/zero"], stdout=subprocess.PIPE) as zeros:
        came = printed_for_file(program, zeros.stdout)
        zeros.stdout.close()
    if came != (0, b"refused 2 0\n", b""):
        yield f"a megabyte of /dev/zero gives {came}"


def faults_of_reading(program, due):
    """Inputs of which the program takes more or fewer bytes than it should, or after which it does not end."""
    longest = longest_sheet(Generator(seed=1))
    C1 = bytes_of("C1")
    for name, content in ("C1", C1), ("the longest sheet", longest), ("the longest sheet twice", 2 * longest):
        with tempfile.TemporaryFile() as file:
            file.write(content)
            file.seek(0)
            came, taken = printed_for_file(program, file), os.lseek(file.fileno(), 0, os.SEEK_CUR)
        if (came, taken) != ((0, due(content), b""), min(len(content), MOST_READ)):
            yield f"{name} in a file gives {came}, and {taken} bytes are read, not {min(len(content), MOST_READ)}"
    # A pipe that stays open, with the bytes that are enough and with more.
    for more in 0, 1, 5_000:
        content = longest + bytes(1 + more)
        reader, writer = os.pipe()
        os.write(writer, content)
        came = printed_for_file(program, reader)
        os.close(writer)
        with open(reader, "rb") as pipe:
            left = len(pipe.read())
        if (came, left) != ((0, b"refused 3 0\n", b""), more):
            yield f"an open pipe with {len(content)} bytes gives {came}, and {left} bytes are left in it, not {more}"


def faults_by_arguments(program, due):
    """Arguments by which the program prints something else."""
    for arguments in ["--help"], ["-h", "--version"], [str(ROOT / "examples" / "C9.sheet")], ["-"], [""], ["9"] * 50:
        for name in "C1", "C3":
            sheet = bytes_of(name)
            if (came := printed(program, sheet, arguments)) != (0, due(sheet), b""):
                yield f"with the arguments {arguments} {name} gives {came}"


def silent_failures(program, name):
    """Inputs that cannot be read, and outputs that cannot be written, of which the program does not say so on standard
    error."""
    unreadable = [(words, "cannot read standard input") for words in ("</", "<&-")]
    unwritable = [(words, "cannot write to standard output") for words in ("</dev/null >/dev/full", "</dev/null >&-")]
    for words, message in unreadable + unwritable:
        done = subprocess.run(["sh", "-c", f'exec "$0" {words}', program], capture_output=True, timeout=SECONDS)
        if (done.returncode, done.stdout, done.stderr) != (0, b"", f"{name}: {message}\n".encode()):
            ended = f"ends with status {done.returncode}, prints {done.stdout}"
            yield f"{name} {words} {ended}, and {done.stderr} on standard error"


def faults_of_filter(program, name, due):
    """What a program, which calls itself by a name, does otherwise than T10.1 says; `due` gives what is to be printed
    for a sheet."""
    return [
        *faults_of_slow_input(program, due),
        *faults_of_reading(program, due),
        *faults_by_arguments(program, due),
        *silent_failures(program, name),
    ]
