"""The archive that C and Rust link: made once for all tests that want it."""
import fcntl
import subprocess

from programs import ROOT

ARCHIVE = ROOT / "target" / "staticlib" / "libbatchplan_lib.a"
HEADERS = ROOT / "library" / "include"
WRONG_LIBRARIES = ROOT / "tests" / "solver" / "wrong_libraries.c"


class Failed(Exception):
    """A command that failed, with what it wrote."""


def run_command(what, command, **options):
    """Runs a command at the root of the repository, and gives what it writes."""
    try:
        done = subprocess.run(command, cwd=ROOT, stdout=subprocess.PIPE, stderr=subprocess.STDOUT, **options)
    except FileNotFoundError:
        raise Failed(f"{what}: there is no {command[0]} here") from None
    if done.returncode != 0:
        raise Failed(f"{what} failed:\n{done.stdout.decode(errors='replace')}")
    return done.stdout


def is_made():
    """Whether the archive is newer than each file and each folder that it is made of."""
    sources = [file for part in ("src", "specs", "proofs") for file in ROOT.glob(f"crates/*/{part}/**/*")]
    sources += [*ROOT.glob("crates/*/src"), *ROOT.glob("crates/*/specs"), *ROOT.glob("crates/*/proofs")]
    sources += [ROOT / "crates.txt", ROOT / "build"]
    made = ARCHIVE.stat().st_mtime if ARCHIVE.is_file() else 0
    return made > max(source.stat().st_mtime for source in sources)


def make_archive():
    """Makes the archive, unless it is newer than what it is made of, as where `./test` has just made it. Of tests that
    run at the same time one makes it, and the others wait."""
    (ROOT / "target").mkdir(exist_ok=True)
    with open(ROOT / "target" / "archive.lock", "w") as lock:
        fcntl.flock(lock, fcntl.LOCK_EX)
        if not is_made():
            run_command("./build library", ["./build", "library"])
    return ARCHIVE


def shared_object(target, sources=()):
    """Makes a shared object of the whole archive, and of C sources besides."""
    compile_c = ["gcc", "-std=c99", "-O1", "-Wall", "-Wextra", "-Werror", "-fPIC", "-shared", f"-I{HEADERS}"]
    whole = ["-Wl,--whole-archive", ARCHIVE, "-Wl,--no-whole-archive"]
    run_command(f"linking {target.name}", [*compile_c, *sources, *whole, "-o", target])
    return target
