#!/usr/bin/env python3
"""pace.py: shows where a gate's time goes, by its log.

    tools/pace.py --run LOG           runs `.ci/run`, prints what it prints, and writes the lines of rt with the times to LOG
    tools/pace.py --run LOG COMMAND   the same with another command, as `rt ci --anew` or `rt ci NAME`
    tools/pace.py LOG                 the crates, the dearest first, and the totals
    tools/pace.py --before OLD LOG    the same, with the difference from an earlier log and what has come and gone since
    tools/pace.py --bars LOG          and what is over the bars of docs/PACE.md
    tools/pace.py --jobs N LOG        and the estimate for N jobs at once; without this, for 2

LOG and OLD are what --run wrote. `rt ci` tells no times, so --run looks at the gate's processes, twice a second, and notes how
long each check was there, in lines of its own: `pace: v8 proved in 21 s`. It needs Linux, and its status is the command's. The
other options go together, in any order, before LOG.

The columns are the crate, the seconds to prove it, the number of its edits, their seconds in all, with those of the checks that
they begin and end with, the longest of them, and the total. Seconds are those of the clock. The estimate is their sum, shared by
jobs that are always busy: a gate takes somewhat longer. What an earlier run on the machine proved is not proved again: such a
crate has no line in the table, and such an edit has no seconds. An edit that has the same label in another crate now has moved,
and one that has not is gone.
"""
import os
import re
import subprocess
import sys
import threading
import time
from collections import namedtuple

sys.dont_write_bytecode = True
import programs
import script
from script import Problem

JOBS = 2
GATE_BAR, CRATE_BAR, EDIT_BAR = 40 * 60, 40, 20  # seconds
GATE = [".ci/run"]
LOOK = 0.5  # seconds from one look at the processes to the next
# Seconds by name: of the crates that were proved in the run, of edits (CRATE/LABEL), of the checks that a crate's edits begin and end
# with, and of programs that were run; whether a crate that rt tells of was kept from an earlier run, and whether an edit was refused; the
# seconds that the gate took, None if they are not told; the names that failed, None if the log has no end.
Gate = namedtuple("Gate", "crates edits bases runs told refused took failed")
Line = namedtuple("Line", "crate proved edits tried longest total")  # of the table

# The lines of rt.
PROVED = re.compile(r"rt: (\w+) (?:proved|NOT PROVED(?:: .*)?)")
KEPT = re.compile(r"rt: (\w+) is kept: .*")
TRIED = re.compile(r"rt: must-fail (\w+/\S+)\.edit: (.*)")
RAN = re.compile(r"rt: (\w+) ran(?: \(.*\))?, and wrote what its file stdout has|rt: (\w+)(?: \(built by .*\))?: (?:the program|what the program) .*")
PASSED = re.compile(r"rt: ok; .*|rt: .* and the crates below passed.*")
FAILED = re.compile(r"rt: FAILED: (.*)")
COUNTED = re.compile(r"(\d+) passed, \d+ failed.*")
NAMES = re.compile(r"\S+(?: \((?:run|tests)\))?")  # of what failed
# The lines of --run, by the part of a gate whose time they tell: how a name is spelled there, and the text with the name and its seconds.
TEXTS = {"crates": (r"\w+", "pace: {} proved in {} s"), "edits": (r"\w+/\S+", "pace: {} tried in {} s"),
         "bases": (r"\w+", "pace: {} proved for its edits in {} s"), "runs": (r"\w+", "pace: {} ran in {} s"), "took": ("the gate", "pace: {} took {} s")}
FORMS = [(part, re.compile(text.format(f"({name})", r"(\d+)"))) for part, (name, text) in TEXTS.items()]


# Running

def edits_of(crate, folder=programs.FOLDER):
    """The labels of a crate's edits, in rt's order."""
    place = os.path.join(folder, crate, "must-fail")
    names = sorted(os.listdir(place)) if os.path.isdir(place) else []
    return [name[:-len(".edit")] for name in names if name.endswith(".edit")]


def check_of(words, place, labels=edits_of):
    """The part of the gate and the name that a process is at work for, by its words and the folder that it works in; None if it is none of
    the prover's. An edit is tried over a folder with its number, or from nothing in a copy of its crate."""
    if len(words) < 4 or os.path.basename(words[0]) != "rattle" or words[1] not in ("check", "build") or "--crate-name" not in words[:-1]:
        return None
    crate = words[words.index("--crate-name") + 1]
    over = words[words.index("--incremental") + 1:][:1] if "--incremental" in words else []
    number, known = os.path.basename("".join(over)), labels(crate)
    if os.path.basename(os.path.dirname("".join(over))).startswith("rt-edits-") or os.path.basename(place).startswith("rt-edit-"):
        number = number or "0" * (len(known) == 1)
        return ("edits", f"{crate}/{known[int(number)]}") if number.isdecimal() and int(number) < len(known) else ("bases", crate)
    return "crates", crate


def processes():
    """The processes of the machine by number and time of their start, each with its parent's number."""
    found = {}
    for name in filter(str.isdecimal, os.listdir("/proc")):
        try:
            with open(f"/proc/{name}/stat", encoding="utf-8", errors="replace") as file:
                fields = file.read().rpartition(")")[2].split()
            found[int(name), fields[19]] = int(fields[1])
        except (OSError, IndexError):
            pass  # it has ended
    return found


def below(top, found):
    """The processes that a process has started, and those that these have."""
    children = {}
    for process, parent in found.items():
        children.setdefault(parent, []).append(process)
    left, seen = [top], []
    while left:
        more = children.get(left.pop(), [])
        seen += more
        left += [number for number, _ in more]
    return seen


def words_of(number):
    """The words and the folder of a process."""
    try:
        with open(f"/proc/{number}/cmdline", encoding="utf-8", errors="replace") as file:
            return file.read().split("\0")[:-1], os.readlink(f"/proc/{number}/cwd")
    except OSError:
        return [], ""


class Watch:
    """Looks at the checks of a gate, and notes how long each was there."""

    def __init__(self, top, say):
        self.top, self.say, self.begun = top, say, {}

    def look(self, now):
        found = processes()
        there = below(self.top, found)
        checks = {process: check_of(*words_of(process[0])) for process in there if process not in self.begun}
        numbers = {number for number, _ in [*self.begun, *(process for process, check in checks.items() if check)]}
        for process, check in checks.items():
            if check and found[process] not in numbers:  # else it is a copy of another, that works for it
                self.begun[process] = check, now
        for process in self.begun.keys() - there:
            self.end(process, now)

    def end(self, process, now):
        (part, name), begun = self.begun.pop(process)
        self.say(part, name, now - begun)


def run_gate(path, command):
    """Runs a gate, prints its lines, and writes its log. Gives its status."""
    if not os.path.exists("/proc/self/stat"):
        raise Problem("--run looks at processes in /proc, which is not here")
    lock, done, begun = threading.Lock(), threading.Event(), time.monotonic()
    with open(path, "w", encoding="utf-8") as log:
        def keep(line):
            with lock:
                log.write(line + "\n")
                log.flush()

        def say(part, name, seconds):
            keep(TEXTS[part][1].format(name, round(seconds)))

        try:
            gate = subprocess.Popen(command, cwd=programs.ROOT, stdout=subprocess.PIPE, stderr=subprocess.STDOUT)
        except OSError as problem:
            raise Problem(f"{command[0]}: {problem.strerror}") from None
        watch = Watch(gate.pid, say)

        def looks():
            while not done.wait(LOOK):
                watch.look(time.monotonic())

        looking = threading.Thread(target=looks)
        looking.start()
        last = begun
        try:
            for line in gate.stdout:
                text, now = line.decode("utf-8", "replace").rstrip("\r\n"), time.monotonic()
                print(text, flush=True)
                if text.startswith("rt: ") or COUNTED.fullmatch(text):
                    keep(text)
                ran = RAN.fullmatch(text)
                if ran:
                    say("runs", ran[1] or ran[2], now - last)
                last = now
            status = gate.wait()
        finally:
            done.set()
            looking.join()
        watch.look(time.monotonic())
        say("took", "the gate", time.monotonic() - begun)
    return status


# Reading

def timed(line):
    """The part of the gate that a line tells a time of, the name and the seconds; None if it tells none."""
    for part, form in FORMS:
        match = form.fullmatch(line)
        if match:
            return part, match[1], int(match[2])
    if line.startswith("pace: "):
        raise Problem(f"`{line}` is no line of pace.py that is known here")
    return None


def note(gate, line):
    """The gate with what a line of its log says."""
    told, ended, failed, counted = timed(line), PASSED.fullmatch(line), FAILED.fullmatch(line), COUNTED.fullmatch(line)
    proved, kept, tried = PROVED.fullmatch(line), KEPT.fullmatch(line), TRIED.fullmatch(line)
    if gate.failed is not None and (proved or kept or tried or ended or failed):
        raise Problem("the log goes on after its end: is it two logs?")
    if told and told[0] == "took":
        gate = gate._replace(took=told[2])
    elif told:
        part, name, seconds = told
        getattr(gate, part)[name] = getattr(gate, part).get(name, 0) + seconds
    for match, names in (proved, gate.told), (kept, gate.told), (tried, gate.refused):
        if match and match[1] in names:
            raise Problem(f"{match[1]} is told a second time: is it two logs?")
    if proved or kept:
        gate.told[(proved or kept)[1]] = bool(kept)
    if tried:
        gate.refused[tried[1]] = tried[2].startswith("refused")
    if counted and gate.failed == []:
        read = len(gate.told) + sum(gate.refused.values())
        if int(counted[1]) != read:
            raise Problem(f"the log's end tells {counted[1]} crates and edits, and its lines {read}")
    return gate._replace(failed=NAMES.findall(failed[1]) if failed else []) if ended or failed else gate


def read_gate(path):
    """The gate that a log is of."""
    gate, file = Gate({}, {}, {}, {}, {}, {}, None, None), os.path.basename(path)
    for number, line in enumerate(script.read_lines(path), 1):
        try:
            gate = note(gate, line)
        except Problem as problem:
            raise Problem(f"{file}, line {number}: {problem}") from None
    if not gate.told and not gate.crates:
        raise Problem(f"{file} tells of no crate: it is no log of a gate")
    if gate.took is None and not gate.crates and not gate.edits:
        raise Problem(f"{file} tells no times: `pace.py --run LOG` writes a log that does")
    crates = {crate: gate.crates.get(crate, 0) for crate in [*gate.crates, *(crate for crate, is_kept in gate.told.items() if not is_kept)]}
    edits = {edit: gate.edits.get(edit, 0) for edit in [*gate.edits, *gate.refused]}
    return gate._replace(crates=crates, edits=edits)


def kept_in(gate):
    """The crates that an earlier run proved."""
    return {crate for crate, is_kept in gate.told.items() if is_kept}


# The table

def crate_of(edit):
    return edit.partition("/")[0]


def line_of(gate, crate):
    tried = [seconds for edit, seconds in gate.edits.items() if crate_of(edit) == crate]
    proved, whole = gate.crates.get(crate, 0), sum(tried) + gate.bases.get(crate, 0)
    return Line(crate, proved, len(tried), whole, max(tried, default=0), proved + whole)


def at_work(gate):
    """The crates that were proved, or whose edits were tried, in the run."""
    return {*gate.crates, *gate.bases, *(crate_of(edit) for edit, seconds in gate.edits.items() if seconds)}


def lines_of(gate):
    """The lines of the table, the dearest crate first."""
    return sorted((line_of(gate, crate) for crate in at_work(gate)), key=lambda line: (-line.total, line.crate))


def cells(line, old):
    """A line's cells; with the difference, beside an old line."""
    numbers = [f"{n:,}" for n in line[1:]]
    return [line.crate] + (numbers if old is None else [f"{text} {n - m:+,}" for text, n, m in zip(numbers, line[1:], old[1:])])


def table(gate, old):
    """The table as text. A crate that the old gate has not is compared with nothing, and one that it did not prove is not compared."""
    nothing = Line("", 0, 0, 0, 0, 0)
    rows = [("crate", "proved", "edits", "tried", "longest", "total")]
    for line in lines_of(gate):
        is_kept = old is None or line.crate in kept_in(old)
        before = None if is_kept else line_of(old, line.crate) if line.crate in at_work(old) else nothing
        rows.append(cells(line, before))
    widths = [max(map(len, column)) for column in zip(*rows)]
    return ["  ".join([row[0].ljust(widths[0])] + [cell.rjust(width) for cell, width in zip(row[1:], widths[1:])]) for row in rows]


# What is said below it

def parts_of(gate):
    """The parts of a gate: what they are, how many, and their seconds."""
    for what, names, more in ("crates", gate.crates, {}), ("edits", gate.edits, gate.bases), ("programs run", gate.runs, {}):
        yield what, len(names), sum(names.values()) + sum(more.values())


def sum_of(gate):
    return sum(seconds for _, _, seconds in parts_of(gate))


def change(now, before, unit=""):
    """A number, and its difference from one before, if there is one."""
    return f"{now:,}{unit}" + ("" if before is None else f" ({now - before:+,})")


def minutes(seconds):
    return f"{seconds / 60:.1f} minutes"


def totals(gate, old, jobs):
    """The counts and seconds of each part, their sum, and the estimate."""
    for (what, count, seconds), (_, counted, before) in zip(parts_of(gate), parts_of(old) if old else [(None, None, None)] * 3):
        yield f"{what}: {change(count, counted)}, {change(seconds, before, ' s')}"
    was = "" if old is None else f", {minutes(sum_of(old) / jobs)} before"
    yield f"sum: {change(sum_of(gate), None if old is None else sum_of(old), ' s')}; shared by {jobs} jobs {minutes(sum_of(gate) / jobs)}{was}"
    if gate.took is not None:
        yield f"the gate took {minutes(gate.took)}" + (f", {minutes(old.took)} before" if old and old.took is not None else "")
    if kept_in(gate):
        yield f"proved by an earlier run: {len(kept_in(gate))} crates"
    if gate.failed is None:
        yield "the log has no end: what the gate did then is not counted"
    elif gate.failed:
        yield f"failed: {', '.join(gate.failed)}"


def moved(gate, old):
    """The old edits that stand elsewhere now, each with its new name, and those that are gone."""
    came = sorted(gate.edits.keys() - old.edits.keys())
    places, gone = {}, []
    for name in sorted(old.edits.keys() - gate.edits.keys()):
        same = [other for other in came if other.partition("/")[2] == name.partition("/")[2]]
        if same:
            places[name] = same[0]
            came.remove(same[0])
        else:
            gone.append(name)
    return places, gone


def listed(what, names):
    return f"{what}: {', '.join(names) or 'none'}"


def differences(gate, old):
    """The crates that are new or gone, and the edits that have moved or are gone."""
    places, gone = moved(gate, old)
    now, before = ({*it.crates, *it.told} for it in (gate, old))
    yield listed("new crates", sorted(now - before))
    yield listed("crates gone", sorted(before - now))
    yield listed("edits moved", [f"{name} to {place}" for name, place in places.items()])
    yield listed("edits gone", gone)


def over(seconds, bar):
    """The names that take more than a bar, the dearest first."""
    return [f"{name} {n} s" for name, n in sorted(seconds.items(), key=lambda pair: (-pair[1], pair[0])) if n > bar]


def bars(gate, jobs):
    yield listed(f"gate over {minutes(GATE_BAR)}", [minutes(sum_of(gate) / jobs)] if sum_of(gate) / jobs > GATE_BAR else [])
    yield listed(f"crates over {CRATE_BAR} s", over(gate.crates, CRATE_BAR))
    yield listed(f"edits over {EDIT_BAR} s", over(gate.edits, EDIT_BAR))


def number_from_1(text):
    if not text.isdecimal() or int(text) == 0:
        raise Problem("--jobs is a number from 1 on")
    return int(text)


def main(arguments):
    if arguments[:1] == ["--run"] and len(arguments) > 1 and not arguments[1].startswith("--"):
        script.end("", run_gate(arguments[1], arguments[2:] or GATE))
    left, old, jobs, wanted = list(arguments), None, JOBS, False
    while len(left) > 1:
        option = left.pop(0)
        if option == "--before":
            old = read_gate(left.pop(0))
        elif option == "--jobs":
            jobs = number_from_1(left.pop(0))
        elif option == "--bars":
            wanted = True
        else:
            raise Problem(f"{option} is no option of it; `pace.py --help` says more")
    if not left or left[0].startswith("--"):
        raise Problem("call it as `pace.py --run LOG` or `pace.py [--before OLD] [--bars] [--jobs N] LOG`; `pace.py --help` says more")
    gate = read_gate(left[0])
    for line in [*table(gate, old), "", *totals(gate, old, jobs), *(differences(gate, old) if old else []), *(bars(gate, jobs) if wanted else [])]:
        print(line)


if __name__ == "__main__":
    script.run(main, __doc__)
