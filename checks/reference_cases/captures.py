"""Disks, captured blocks and their damage, for the cases of checks/reference. Recordings are made by the reference.
They are damaged, marked and put into a form here, by the tables of docs/FORMATS.md alone."""

import functools
import io
import random
from typing import NamedTuple

import dvdecc
import ecma267

BLOCK = 37856
RECORDED = [i + i // 12 if i < 192 else 13 * (i - 191) - 1 for i in range(208)]


def run(arguments, data=b""):
    """What the reference writes, run in this process."""
    output, report = io.BytesIO(), io.BytesIO()
    status = dvdecc.run(arguments, io.BytesIO(data), output, report)
    assert status == 0, (arguments, status, report.getvalue())
    return output.getvalue()


@functools.lru_cache(maxsize=None)
def image_bytes(kind, sectors):
    """An image: zeros, bytes FF, lines of numbers, or drawn bytes."""
    size = 2048 * sectors
    if kind in ("zeros", "FF"):
        return (b"\0" if kind == "zeros" else b"\xff") * size
    if kind == "numbers":
        return b"".join(b"%d\n" % k for k in range(size // 2))[:size]
    return random.Random(kind).randbytes(size)


class Disk(NamedTuple):
    """A layout as the options state it."""

    shape: str = "single"
    sectors0: int = 16
    sectors1: int = 0
    zones: str = "data"
    initial: int = 0
    tail: int = 16

    def options(self):
        """The options of the layout: those that differ from their defaults."""
        given = [("--shape", self.shape), ("--sectors1", self.sectors1), ("--zones", self.zones)]
        given += [("--initial", self.initial), ("--tail", self.tail)]
        return ["--sectors", str(self.sectors0)] + [
            word for (option, value), default in zip(given, ("single", 0, "data", 0, 16)) if value != default
            for word in (option, str(value))
        ]

    def sectors(self):
        return self.sectors0 + self.sectors1

    def data_blocks(self):
        """The number of blocks of the Data Zone of each layer."""
        return [(n + 15) // 16 for n in (self.sectors0, self.sectors1) if n]

    def plan(self):
        """For each block of the plan whether it is of a Data Zone."""
        data = self.data_blocks()
        if self.zones == "data":
            return [True] * sum(data)
        first = [False] * (self.initial + 256)
        layer0 = first + [True] * data[0] + [False] * self.tail
        if self.shape == "single":
            return layer0
        if self.shape == "parallel":
            return layer0 + first + [True] * data[1] + [False] * self.tail
        return layer0 + [False] * self.tail + [True] * data[1] + [False] * self.tail

    def header(self):
        """The header of a listed capture."""
        fields = (self.sectors0, self.sectors1, self.initial, self.tail, 0)
        shape = ("single", "parallel", "opposite").index(self.shape)
        start = b"DVDECC\0\2" + bytes([shape, int(self.zones == "all"), 0, 0])
        return start + b"".join(number.to_bytes(4, "big") for number in fields)


class Block:
    """A captured block: its recorded rows, and for each of their places whether it has a mark."""

    def __init__(self, rows, marked=0):
        self.rows, self.marks = bytearray(rows), bytearray([marked]) * BLOCK

    def get(self, i, j):
        return self.rows[182 * RECORDED[i] + j]

    def put(self, i, j, byte):
        self.rows[182 * RECORDED[i] + j] = byte

    def add(self, i, j, byte):
        self.rows[182 * RECORDED[i] + j] ^= byte

    def mark(self, i, j):
        self.marks[182 * RECORDED[i] + j] = 1

    def row(self, i):
        return bytes(self.rows[182 * RECORDED[i] : 182 * RECORDED[i] + 182])

    def put_row(self, i, row):
        self.rows[182 * RECORDED[i] : 182 * RECORDED[i] + 182] = row

    def lose_row(self, i, byte):
        self.put_row(i, bytes([byte]) * 182)
        self.marks[182 * RECORDED[i] : 182 * RECORDED[i] + 182] = b"\1" * 182

    def runs(self):
        """The marks as runs: first place and length."""
        text, runs, start = bytes(self.marks), [], 0
        while (start := text.find(1, start)) >= 0:
            end = text.find(0, start)
            end = BLOCK if end < 0 else end
            runs.append((start, end - start))
            start = end
        return runs


def mark_bytes(marks, spare=0):
    """The 23 bytes of mark bits of a row; the two lowest bits belong to no byte."""
    return (int(bytes(marks).translate(b"01" + bytes(254)), 2) << 2 | spare).to_bytes(23, "big")


def unit_bytes(form, block, spare=0):
    """A block in a form."""
    if form == "plain":
        return bytes(block.rows)
    if form == "marked":
        cut = [slice(182 * m, 182 * m + 182) for m in range(208)]
        return b"".join(bytes(block.rows[row]) + mark_bytes(block.marks[row], spare) for row in cut)
    numbers = [number for one in block.runs() for number in one]
    return bytes(block.rows) + b"".join(n.to_bytes(2, "big") for n in [len(numbers) // 2] + numbers)


def capture_bytes(form, disk, blocks, spare=0):
    """A capture in a form: where it is listed after its header."""
    return (disk.header() if form == "listed" else b"") + b"".join(unit_bytes(form, each, spare) for each in blocks)


@functools.lru_cache(maxsize=64)
def recording(disk, kind, cpr="000000000000"):
    """The recording of the Data Zones of a disk."""
    options = disk._replace(zones="data", initial=0, tail=16).options()
    return run(["master", *options, "--cpr", cpr], image_bytes(kind, disk.sectors()))


def blocks_of(stream):
    return [Block(stream[k : k + BLOCK]) for k in range(0, len(stream), BLOCK)]


# Changes of a block that leave all its rows and columns codewords.


@functools.lru_cache(maxsize=None)
def row_word(j):
    """The codeword of PI with 01 at byte j and zeros at the other 171."""
    data = bytes(j) + b"\1" + bytes(171 - j)
    return data + ecma267.parity_bytes(data, 10)


@functools.lru_cache(maxsize=None)
def column_word(i):
    """The codeword of PO with 01 at byte i and zeros at the other 191."""
    data = bytes(i) + b"\1" + bytes(191 - i)
    return data + ecma267.parity_bytes(data, 16)


def add_word(block, column, row, factor=1):
    """Adds to a block the product of a column, a row and a factor."""
    for i, of_column in enumerate(column):
        if of_column:
            value = ecma267.TIMES[of_column][factor]
            for j, of_row in enumerate(row):
                if of_row:
                    block.add(i, j, ecma267.TIMES[value][of_row])


def change_frame(block, f, changes):
    """Adds bytes to data frame f at their places: the parity of the block follows."""
    for at, byte in changes:
        add_word(block, column_word(12 * f + at // 172), row_word(at % 172), byte)


def change_id(block, f, change, right_edc=True):
    """Adds four bytes to the ID of frame f. Its IED follows, and its EDC where that is asked for."""
    six = change + ecma267.ied(change)
    edc = ecma267.edc(six + bytes(2054)) if right_edc else b""
    change_frame(block, f, [(k, byte) for k, byte in enumerate(six) if byte])
    change_frame(block, f, [(2060 + k, byte) for k, byte in enumerate(edc) if byte])


# Damage. Each function changes a block by drawn numbers, and says in a few words what it did.


def wrong_bytes(draw, block, i, errors, erasures=0):
    """So many wrong bytes in row i, and so many others with a mark, some of them right."""
    places = draw.sample(range(182), errors + erasures)
    for j in places[:errors]:
        block.add(i, j, draw.randint(1, 255))
    for j in places[errors:]:
        block.add(i, j, draw.choice((0, draw.randint(1, 255))))
        block.mark(i, j)


def bad_row(draw, block, i):
    """A bad row: errors beyond the radius, drawn bytes, or another codeword."""
    kind = draw.choice((0, 1, 2, 3, 3, 3))
    if kind == 0:
        wrong_bytes(draw, block, i, draw.randint(6, 20))
    elif kind == 1:
        wrong_bytes(draw, block, i, draw.randint(2, 9), 0)
        wrong_bytes(draw, block, i, 0, 10)
    elif kind == 2:
        block.put_row(i, draw.randbytes(182))
    else:
        block.put_row(i, draw.choice((bytes(182), block.row(draw.randrange(208)))))


def good_rows(draw, block, rows):
    """Damage of rows within the radius of PI."""
    for i in rows:
        cost = draw.randint(1, 10)
        errors = draw.randint(0, cost // 2)
        wrong_bytes(draw, block, i, errors, cost - 2 * errors)


def bad_and_lost(draw, block, bad, lost):
    rows = draw.sample(range(208), bad + lost + draw.randrange(20))
    for i in rows[:bad]:
        bad_row(draw, block, i)
    for i in rows[bad : bad + lost]:
        block.lose_row(i, draw.randrange(256))
    good_rows(draw, block, rows[bad + lost :])
    return f"{bad} bad and {lost} lost rows"


def no_damage(draw, block):
    return "no damage"


def light_damage(draw, block):
    good_rows(draw, block, draw.sample(range(208), draw.randint(1, 40)))
    return "good rows"


def within_the_bound(draw, block):
    bad = draw.randint(0, 7)
    return "within the bound, " + bad_and_lost(draw, block, bad, draw.randint(0, 15 - 2 * bad))


def at_the_bound(draw, block):
    bad = draw.randint(0, 8)
    return "at the bound, " + bad_and_lost(draw, block, bad, 16 - 2 * bad)


def beyond_the_bound(draw, block):
    bad = draw.randint(0, 9)
    return "beyond the bound, " + bad_and_lost(draw, block, bad, max(0, 17 - 2 * bad) + draw.randrange(2))


def lost_rows(draw, block):
    lost = draw.choice((15, 16, 17, 18, 40))
    for i in draw.sample(range(208), lost):
        block.lose_row(i, draw.randrange(256))
    return f"{lost} lost rows"


def edge_of_the_radius(draw, block):
    """Rows whose cost is that of the radius, one less or one more."""
    for i in draw.sample(range(208), draw.randint(5, 16)):
        cost = draw.choice((9, 10, 10, 11))
        errors = draw.randint(0, cost // 2)
        wrong_bytes(draw, block, i, errors, cost - 2 * errors)
    return "rows at the radius"


def other_codewords(draw, block):
    """Rows that are codewords, and not those that were recorded."""
    count = draw.choice((7, 8, 9, 12))
    rows = draw.sample(range(208), count + 1)
    for i in rows[:count]:
        block.put_row(i, draw.choice((bytes(182), block.row(rows[count]))))
    return f"{count} rows of other codewords"


def other_column(draw, block):
    """All rows stay codewords, and one column goes to another codeword: only the test of the rows sees it."""
    first = draw.randrange(192)
    j = draw.randint(10, 171)
    word, row = column_word(191)[191:], row_word(171)[171:]
    for t in range(8):
        add_word(block, bytes(first + t) + b"\1", bytes(j) + row, word[t])
    factor = ecma267.TIMES[row[10]].index(word[8])
    add_word(block, bytes(first + 8) + b"\1", bytes(j - 10) + row, factor)
    return f"another column {j} from row {first} on"


def wrong_frames(draw, block):
    """Frames with a wrong IED, ID or EDC in a block whose rows and columns are codewords."""
    said = []
    for f in sorted(draw.sample(range(16), draw.choice((1, 1, 2, 3)))):
        what = draw.choice(("IED", "ID", "other bits of the ID", "EDC", "main data", "CPR_MAI", "two"))
        if what in ("IED", "two"):
            change_frame(block, f, [(draw.randrange(6), draw.randint(1, 255))])
        if what == "ID":
            change_id(block, f, (1 << draw.choice((26, 27, *range(25)))).to_bytes(4, "big"), draw.random() < 0.5)
        if what == "other bits of the ID":
            change_id(block, f, (1 << draw.choice((25, 28, 29, 30, 31))).to_bytes(4, "big"))
        if what in ("EDC", "two"):
            change_frame(block, f, [(draw.randint(2060, 2063), draw.randint(1, 255))])
        if what in ("main data", "CPR_MAI"):
            at = draw.randint(12, 2059) if what == "main data" else draw.randint(6, 11)
            change_frame(block, f, [(at, draw.randint(1, 255))])
        said.append(f"wrong {what} in frame {f}" if what != "two" else f"wrong IED and EDC in frame {f}")
    if draw.random() < 0.4:
        said.append(draw.choice((light_damage, at_the_bound, beyond_the_bound))(draw, block))
    return " and ".join(said)


def all_alike(draw, block):
    what = draw.choice(("zeros", "FF", "drawn bytes"))
    block.rows[:] = {"zeros": bytes(BLOCK), "FF": b"\xff" * BLOCK, "drawn bytes": draw.randbytes(BLOCK)}[what]
    if draw.random() < 0.3:
        block.marks[:] = b"\1" * BLOCK
        what += " with marks"
    return f"a block of {what}"


def true_marks(draw, block):
    """Marks at right bytes alone, thicker or thinner."""
    share = draw.choice((0.02, 0.04, 0.06, 0.08))
    block.marks[:] = bytes(int(draw.random() < share) for _ in range(BLOCK))
    return f"marks at {share:.0%} of the places"


def torn_rows(draw, block):
    """Rows that fail, whose errors or erasures are in few columns: rounds give some of them back."""
    rows = draw.sample(range(208), draw.randint(20, 60))
    columns = draw.sample(range(182), draw.randint(15, 60))
    share = min(1.0, draw.uniform(10, 12.5) / len(columns))
    marked = draw.random() < 0.8
    for i in rows:
        for j in columns:
            if draw.random() < share:
                block.add(i, j, draw.randint(1, 255))
                if marked:
                    block.mark(i, j)
    return f"{len(rows)} rows torn in {len(columns)} columns, " + ("marked" if marked else "unmarked")


def steps(draw, block):
    """Rows that are torn at places of their own, as in the manual, and some columns that are torn in all of them."""
    count, wide, shared = draw.randint(17, 22), draw.randint(5, 10), draw.randint(0, 2)
    rows = draw.sample(range(208), count)
    marked = draw.random() < 0.6
    for k, i in enumerate(rows):
        for j in [*range(shared), *range(shared + 7 * k, shared + 7 * k + wide)]:
            block.add(i, j, draw.randint(1, 255))
            if marked:
                block.mark(i, j)
    return f"{count} rows torn at {wide} places of their own and {shared} shared"


def chain(draw, block):
    """Groups of rows that are each torn in some columns with the next group: a round frees a group at either end."""
    groups, marked = draw.randint(3, 10), draw.random() < 0.6
    high, wide = (9, 8) if marked else (8, 5)
    rows = draw.sample(range(208), high * groups)
    columns = draw.sample(range(182), wide * (groups - 1))
    for k, i in enumerate(rows):
        group = k // high
        for j in columns[wide * max(0, group - 1) : wide * (group + 1)]:
            block.add(i, j, draw.randint(1, 255))
            if marked:
                block.mark(i, j)
    return f"a chain of {groups} groups of torn rows, " + ("marked" if marked else "unmarked")
