"""script.py: how the scripts are run: their help, the edition that they are told, the files that they read, and what they say
of a problem.

Files are UTF-8 and so is what a script prints, whatever the locale. A script ends with status 0, or says what is wrong
on standard error, in a line that begins with its name, and ends with status 1.
"""
import os
import subprocess
import sys

MOST_BYTES = 2**20  # of a file that is read
MOST_SHOWN = 400    # letters of a line that says what is wrong
OLDER, NEWER = 8, 9  # the terminals, by the version of the SPARC manual that they follow


class Problem(Exception):
    """What is wrong, for the user."""


def run(main, text):
    """Runs main on the script's arguments, or prints the text if help is asked for. The script ends here."""
    for stream in (sys.stdout, sys.stderr):
        if stream is not None:
            stream.reconfigure(encoding="utf-8", errors="backslashreplace")
    asked = {"-h", "--help"} & set(sys.argv[1:])
    try:
        print(text.strip()) if asked else main(sys.argv[1:])
        if sys.stdout is not None:
            sys.stdout.flush()
    except BrokenPipeError:
        end("", 1)
    except KeyboardInterrupt:
        end("interrupted", 130)
    except (Problem, OSError, subprocess.SubprocessError) as problem:
        end(reason(problem), 1)
    sys.exit(0)


def end(message, status):
    """Ends the script with a message, also where standard output takes no more."""
    if message and sys.stderr is not None:
        print(f"{os.path.basename(sys.argv[0])}: {shown(message)}", file=sys.stderr, flush=True)
    try:
        if sys.stdout is not None:
            sys.stdout.flush()
    except OSError:
        pass
    os._exit(status)


def reason(problem):
    """A problem in words; one of the system with the file's name before it."""
    if isinstance(problem, OSError) and problem.strerror:
        return f"{problem.filename}: {problem.strerror}" if problem.filename else problem.strerror
    return str(problem)


def shown(message):
    """A message with no line too long to read, and with nothing in it that a terminal would obey."""
    lines = [line if len(line) <= MOST_SHOWN else line[:MOST_SHOWN] + " .." for line in message.split("\n")]
    return "\n".join("".join(c if c.isprintable() else ascii(c)[1:-1] for c in line) for line in lines)


# The edition

def taken_edition(arguments):
    """The edition that `--edition 8` or `--edition 9` tells, None without it, and the other arguments."""
    if "--edition" not in arguments:
        return None, arguments
    at = arguments.index("--edition")
    return edition_named(arguments[at + 1:at + 2], "--edition"), arguments[:at] + arguments[at + 2:]


def edition_named(words, what):
    for edition in (OLDER, NEWER):
        if words == [str(edition)]:
            return edition
    raise Problem(f"{what} is {OLDER}, the older terminal, or {NEWER}, the newer one")


def edition_of(path, told=None):
    """The edition that was told; if none was, that of the file `edition` in a folder, or the older one."""
    file = os.path.join(path, "edition")
    if told is None and os.path.lexists(file):
        return edition_named(" ".join(read_lines(file)).split(), "the line of the file edition")
    return told or OLDER


# Files

def read_bytes(path):
    """What a file holds."""
    name = os.path.basename(path)
    if os.path.exists(path) and not os.path.isfile(path):
        raise Problem(f"{name} is no file")
    try:
        with open(path, "rb") as file:
            data = file.read(MOST_BYTES + 1)
    except OSError as problem:
        raise Problem(f"{name}: {problem.strerror}") from None
    if len(data) > MOST_BYTES:
        raise Problem(f"{name} is longer than {MOST_BYTES} bytes")
    return data


def read_lines(path):
    """The lines of a text. A byte-order mark at its beginning is passed over."""
    name, data = os.path.basename(path), read_bytes(path)
    if not data.strip():
        raise Problem(f"{name} is empty")
    try:
        text = data.decode("utf-8-sig")
    except UnicodeDecodeError as problem:
        before, byte = problem.object[:problem.start].decode(), problem.object[problem.start]
        raise Problem(f"{name}, line {len(lines_of(before))}: byte {byte:02X} (hexadecimal) is no UTF-8: "
                      "save the file as UTF-8") from None
    return lines_of(text)


def lines_of(text):
    """Lines as editors count them: ended by LF, CR LF or CR."""
    return text.replace("\r\n", "\n").replace("\r", "\n").split("\n")
