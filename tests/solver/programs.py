"""The project's programs: where they stand, how they are run, and the files of standard input and output that rt runs
them on."""
import subprocess
import sys
import time
from pathlib import Path

ROOT = Path(__file__).resolve().parents[2]
BATCHPLAN = ROOT / "target" / "bin" / "batchplan"
BATCHMPS = ROOT / "target" / "bin" / "batchmps"
GATE_PLAN = ROOT / "target" / "bin" / "gate_plan"

# How many bytes a program of the gate reads, and how long any program may take before it counts as hanging.
READS = 65_536
SECONDS = 60


def program_at(path):
    """The whole path of a program. A test ends here where there is none."""
    if not Path(path).is_file():
        sys.exit(f"there is no program {path}; `./build {Path(path).name}` builds those of target/bin")
    return Path(path).resolve()


def printed(program, content, arguments=()):
    """The exit status of a program, its standard output and its standard error, for a standard input."""
    try:
        done = subprocess.run([program, *arguments], input=content, capture_output=True, timeout=SECONDS)
    except subprocess.TimeoutExpired:
        raise RuntimeError(f"{program} does not end on the input {content[:4_000].hex()}") from None
    return done.returncode, done.stdout, done.stderr


def write_slowly(pipe, pieces, wait):
    """Writes pieces into a pipe, one after the other, and waits. The reader may go away when it has read enough."""
    try:
        for piece in pieces:
            pipe.write(piece)
            time.sleep(0.001)
        time.sleep(wait)
    except BrokenPipeError:
        pass


def printed_for_pieces(program, pieces, wait):
    """As `printed`, where the standard input is a pipe into which pieces come slowly, and which is closed some time
    after the last."""
    pipes = {"stdin": subprocess.PIPE, "stdout": subprocess.PIPE, "stderr": subprocess.PIPE}
    with subprocess.Popen([program], bufsize=0, **pipes) as process:
        write_slowly(process.stdin, pieces, wait)
        try:
            output, errors = process.communicate(timeout=SECONDS)
        except subprocess.TimeoutExpired:
            process.kill()
            raise RuntimeError(f"{program} does not end when its input comes slowly") from None
    return process.returncode, output, errors


def printed_for_file(program, descriptor):
    """As `printed`, where the standard input is an open file or pipe. None is the exit status where it does not end."""
    try:
        done = subprocess.run([program], stdin=descriptor, capture_output=True, timeout=SECONDS)
    except subprocess.TimeoutExpired:
        return None, b"", b""
    return done.returncode, done.stdout, done.stderr


def faults_of_files(crate, stdin, stdout, write):
    """Writes the two files of a crate where that is asked, and says which of them is not what was made."""
    faults = [f"{len(stdin)} bytes are more than {crate} reads"] if len(stdin) >= READS else []
    for name, made in ("stdin", stdin), ("stdout", stdout):
        file = ROOT / "crates" / crate / name
        if write and not faults:
            file.write_bytes(made)
        if not file.is_file() or file.read_bytes() != made:
            faults.append(f"crates/{crate}/{name} is not what tests/{Path(sys.argv[0]).name} makes")
    return faults
