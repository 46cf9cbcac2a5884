"""Tries that the comparison of checks/reference sees each constant and formula of the reference.

The tables table_standard.py and table_commands.py change one line of the reference at a time. Each change has to give
another answer than the reference as it is, on one of the cases of small.py. No program is needed."""

import importlib
import io
import multiprocessing
import os
import shutil
import signal
import sys
import tempfile
import time
import traceback

import dvdecc
from reference_cases import table_commands, table_standard
from reference_cases.drawn import Case
from reference_cases.small import CASES

FOLDER = os.path.dirname(os.path.realpath(dvdecc.__file__))
MODULES = [name[:-3] for name in sorted(os.listdir(FOLDER)) if name.endswith(".py")]
MUTATIONS = [
    (words, file, old, new, names.split("; "))
    for words, file, old, new, names in table_standard.MUTATIONS + table_commands.MUTATIONS
]


def case_of(name):
    """A case by its name, or arguments over an empty input after a dollar sign."""
    if name.startswith("$ "):
        return Case("", name[2:].split())
    return CASES[name]()


class Seen(BaseException):
    """An answer is another one than that of the reference, or doesn't come in time."""


class Expecting(io.RawIOBase):
    """An output that has to be what is expected, up to its limit."""

    def __init__(self, expected, limit=None):
        super().__init__()
        self.expected, self.limit, self.count = expected, limit, 0

    def write(self, piece):
        room = len(piece) if self.limit is None else max(0, self.limit - self.count)
        taken = bytes(piece[:room])
        if self.expected is not None and self.expected[self.count : self.count + len(taken)] != taken:
            raise Seen
        if self.expected is None:
            self.kept = getattr(self, "kept", b"") + taken
        self.count += len(taken)
        if len(piece) > room:
            raise OSError("no room")
        return len(piece)


def answer(run, tried, expected=(None, None, None)):
    """Status, output and report of a case. With those that are expected the first difference ends it."""
    output, report = Expecting(expected[1], tried.limit), Expecting(expected[2])
    status = run(list(tried.arguments), io.BytesIO(tried.data), output, report)
    if expected[0] is None:
        return status, getattr(output, "kept", b""), getattr(report, "kept", b"")
    if (status, output.count, report.count) != (expected[0], len(expected[1]), len(expected[2])):
        raise Seen
    return expected


def expected_answer(name):
    """A case and its answer by the reference as it is."""
    tried, began = case_of(name), time.monotonic()
    return name, tried, answer(dvdecc.run, tried), 10 + 10 * (time.monotonic() - began)


EXPECTED = {}  # by its name a case, its answer, and the seconds that are allowed for it


def late(_number, _frame):
    raise Seen


def is_seen(changed, names):
    """Whether a changed folder gives another answer on one of the cases."""
    for module in MODULES:
        sys.modules.pop(module, None)
    sys.path.insert(0, changed)
    signal.signal(signal.SIGALRM, late)
    try:
        run = importlib.import_module("dvdecc").run
        for name in names:
            tried, expected, seconds = EXPECTED[name]
            signal.setitimer(signal.ITIMER_REAL, seconds)
            answer(run, tried, expected)
    except (NameError, SyntaxError):
        raise
    except (Seen, Exception):
        return True
    finally:
        signal.setitimer(signal.ITIMER_REAL, 0)
        sys.path.remove(changed)
    return False


def try_one(number):
    """What is wrong with a mutation, or nothing."""
    words, file, old, new, names = MUTATIONS[number]
    with open(os.path.join(FOLDER, file), encoding="utf-8") as text:
        was = text.read()
    if was.count(old) != 1 or old == new:
        return f"{words}: {file} has {old!r} {was.count(old)} times"
    with tempfile.TemporaryDirectory() as changed:
        for module in MODULES:
            shutil.copy(os.path.join(FOLDER, module + ".py"), changed)
        with open(os.path.join(changed, file), "w", encoding="utf-8") as text:
            text.write(was.replace(old, new))
        try:
            if is_seen(changed, names):
                return None
        except BaseException:
            return f"{words}: {traceback.format_exc()}"
    return f"{words}: {file}, {old!r} as {new!r} isn't seen by {', '.join(names)}"


def try_all(jobs, word):
    chosen = [number for number, mutation in enumerate(MUTATIONS) if word in mutation[0]]
    names = sorted({name for number in chosen for name in MUTATIONS[number][4]}, key=lambda name: "control" not in name)
    failed = 0
    # The answers come first: the processes that try the mutations are forked after them, and so have them.
    with multiprocessing.get_context("fork").Pool(jobs) as pool:
        for name, *expected in pool.imap_unordered(expected_answer, names):
            EXPECTED[name] = expected
    with multiprocessing.get_context("fork").Pool(jobs, maxtasksperchild=1) as pool:
        for said in pool.imap_unordered(try_one, chosen):
            if said is not None:
                failed += 1
                print(f"FAILED: {said}", flush=True)
    print(f"{len(chosen) - failed} passed, {failed} failed")
    return int(failed > 0)
