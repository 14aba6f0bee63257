"""programs.py: the programs that scripts call. Each stands in its crate, as crates/NAME/out/NAME, where `rt run` leaves what it has proved and built."""
import os
import subprocess

import script
from script import Problem

ROOT = os.path.dirname(os.path.dirname(os.path.abspath(__file__)))
FOLDER = os.path.join(ROOT, "crates")
SECONDS = 60  # for a program to end


def program_of(name, edition):
    """The program of a name for a terminal."""
    return name if edition == script.OLDER else f"{name}{edition}"


def path_of(name):
    """The file of a program."""
    return os.path.join(FOLDER, name, "out", name)


def place_of(name):
    """The same as it is said: from the top of the repository."""
    return f"crates/{name}/out/{name}"


def builder_of(name):
    """The command that proves and builds a program, and where it is given. What it runs then has nothing to read."""
    return f"`rt run </dev/null` in crates/{name}"


def is_built(name):
    return os.path.exists(path_of(name))


def not_built(name):
    """What is said of a program that is not there."""
    return f"{place_of(name)} is not built: {builder_of(name)} proves and builds it"


def run(name, data):
    """The bytes that a program prints for a bundle."""
    if not is_built(name):
        raise Problem(not_built(name))
    return subprocess.run([path_of(name)], input=data, capture_output=True, timeout=SECONDS).stdout


def lines_of(printed):
    """What a program prints, line by line."""
    return printed.decode("ascii", "replace").splitlines()


def unknown(name):
    """The problem that a program prints something else than is known here."""
    return Problem(f"{place_of(name)} does not say what is known here: {builder_of(name)} builds it anew")
