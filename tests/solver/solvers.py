"""Two solvers of linear programs, GLPK and CBC, of other origin than the project and than each other: installed where
they are missing, and called with a free MPS text."""
import fcntl
import os
import shutil
import subprocess
import sys
from fractions import Fraction
from pathlib import Path
from typing import NamedTuple

from programs import ROOT, SECONDS


def run_apt(program, command):
    """Runs apt-get, which waits for another that runs. A test ends here where there is none."""
    environment = {**os.environ, "DEBIAN_FRONTEND": "noninteractive"}
    options = {"env": environment, "stdin": subprocess.DEVNULL, "capture_output": True, "text": True}
    try:
        return subprocess.run(["apt-get", "-o", "DPkg::Lock::Timeout=600", *command], **options)
    except OSError as error:
        name, words = Path(sys.argv[0]).name, " ".join(["apt-get", *command])
        sys.exit(f"{name}: {program} is missing, and {words} cannot be run: {error}")


def install(program, package):
    """Installs a program of a Debian package where it is missing. The lists of packages may be missing too. Of tests
    that run at the same time one installs, and the others wait."""
    if shutil.which(program):
        return
    lock_file = ROOT / "target" / "install.lock"
    lock_file.parent.mkdir(exist_ok=True)
    with open(lock_file, "a") as lock:
        fcntl.flock(lock, fcntl.LOCK_EX)
        command = ["install", "--yes", "--no-install-recommends", package]
        for each in command, ["update"], command:
            if shutil.which(program):
                return
            done = run_apt(program, each)
    if not shutil.which(program):
        ended = f"'apt-get {' '.join(command)}' ended with status {done.returncode}"
        sys.exit(f"{Path(sys.argv[0]).name}: {program} is missing, and {ended}:\n{done.stdout}{done.stderr}")


class Answer(NamedTuple):
    """What a solver says of a text: the least cost, or None where it says that there is none; whether it says either;
    and what it prints."""

    cost: Fraction | None
    is_told: bool
    printed: str


def output_of(command):
    """What a solver prints."""
    done = subprocess.run(command, stdin=subprocess.DEVNULL, capture_output=True, text=True, timeout=SECONDS)
    return done.stdout + done.stderr


def lines_of(file):
    """The lines of a solution, of which there are none where a solver wrote none."""
    return file.read_text().splitlines() if file.is_file() else []


def glpk(folder, number, text, exact=True):
    """What GLPK says of a text, of which it works in exact fractions where that is asked; it does not without rows."""
    problem, solution = folder / f"{number}.mps", folder / f"{number}.solution"
    problem.write_bytes(text)
    solution.unlink(missing_ok=True)
    printed = output_of(["glpsol", "--freemps", problem, *(["--exact"] if exact else []), "--write", solution])
    for line in lines_of(solution):
        # The line of the solution has two letters, for the recipe and for the multipliers: f is feasible, n that there
        # is none.
        if line.startswith("s bas"):
            *_, recipe, multipliers, cost = line.split()
            if recipe == "n":
                return Answer(None, True, printed)
            if (recipe, multipliers) == ("f", "f"):
                return Answer(Fraction(cost), True, printed)
    return Answer(None, False, printed)


def passed_on_by_glpk(folder, number, text):
    """What GLPK writes as free MPS of the linear program that it has loaded from a text, or nothing."""
    problem, passed_on = folder / f"{number}.mps", folder / f"{number}.passed.mps"
    problem.write_bytes(text)
    passed_on.unlink(missing_ok=True)
    output_of(["glpsol", "--freemps", problem, "--check", "--wfreemps", passed_on])
    return passed_on.read_bytes() if passed_on.is_file() else b""


def cbc(folder, number, text):
    """What CBC says of a text. It reads bounds in the fixed form of MPS, unless the word FREE follows the name in the
    first line: the text that it gets has this word."""
    problem, solution = folder / f"{number}.free.mps", folder / f"{number}.cbc"
    first, end, others = text.partition(b"\n")
    problem.write_bytes(first + b" FREE" + end + others)
    solution.unlink(missing_ok=True)
    printed = output_of(["cbc", problem, "solve", "solution", solution])
    for line in lines_of(solution)[:1]:
        word, _, cost = line.partition(" - objective value ")
        if word in ("Optimal", "Infeasible"):
            return Answer(Fraction(cost) if word == "Optimal" else None, True, printed)
    return Answer(None, False, printed)
