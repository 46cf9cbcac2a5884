"""The small cases that see the mutations of the reference. Each is a run of dvdecc, as the drawn cases are, and has a
name that says what goes in."""

import functools
import random

import ecma130
import ecma267
from reference_cases import captures
from reference_cases.captures import BLOCK, Block, Disk
from reference_cases.drawn import Case

CASES = {}


def case(name):
    """Puts a function that makes a case among the cases."""

    def put(function):
        CASES[name] = function
        return function

    return put


def drawn(sectors, kind="drawn"):
    return captures.image_bytes(kind, sectors)


def make_simple():
    """Cases whose input is an image."""
    for index in range(16):
        CASES[f"a frame of preset {index}"] = functools.partial(
            Case, "", ["frames", "--first", f"0300{index:X}0", "--sectors", "1"], drawn(1)
        )
    master = {
        "a block": (Disk(), ["--cpr", "0123456789AB"], 16, None),
        "a padded block": (Disk("single", 2), [], 2, None),
        "two blocks": (Disk("single", 17), [], 17, None),
        "parallel": (Disk("parallel", 16, 1), ["--cpr", "0123456789AB"], 17, None),
        "opposite": (Disk("opposite", 32, 16), [], 48, None),
        "opposite, padded": (Disk("opposite", 16, 3), [], 19, None),
        "the reference code": (Disk("single", 16, 0, "all"), ["--cpr", "0123456789AB"], 0, 3 * BLOCK),
        "a control block, single": (Disk("single", 32, 0, "all"), [], 0, 33 * BLOCK),
        "a control block, parallel": (Disk("parallel", 32, 16, "all"), [], 0, 33 * BLOCK),
        "a control block, opposite": (Disk("opposite", 32, 16, "all"), [], 0, 33 * BLOCK),
    }
    for name, (disk, words, sectors, limit) in master.items():
        CASES[name] = functools.partial(Case, "", ["master", *disk.options(), *words], drawn(sectors), limit)


make_simple()


@case("frames of two sectors")
def two_frames():
    return Case("", ["frames", "--first", "0300FF", "--sectors", "2"], drawn(2))


@case("a frame of too few bytes")
def short_frame():
    return Case("", ["frames", "--first", "030000", "--sectors", "2"], drawn(2)[:2050])


@case("a frame of too many bytes")
def long_frame():
    return Case("", ["frames", "--first", "030000", "--sectors", "1"], drawn(2)[:2049])


def reading(command, blocks, disk=None, form="listed", more=b""):
    disk = disk or Disk("single", 16 * len(blocks))
    words = ["--form", form] + (disk.options() if form != "listed" else [])
    return Case("", [command, *words], captures.capture_bytes(form, disk, blocks, 3) + more)


def fresh(count=1):
    """Blocks of a disk with one layer without damage."""
    return captures.blocks_of(captures.recording(Disk("single", 16 * count), "drawn"))


def wrong_row(block, i, errors, erasures, start=0):
    for k in range(errors + erasures):
        block.add(i, (start + 17 * k) % 182, k + 1)
        if k >= errors:
            block.mark(i, (start + 17 * k) % 182)


def lose(block, rows):
    for i in rows:
        block.lose_row(i, 0xFF)
    return block


@case("no damage")
def no_damage():
    return reading("recover", fresh(2), None, "plain")


@case("all of it in the marked form")
def marked_form():
    block = fresh()[0]
    for i in range(0, 208, 3):
        wrong_row(block, i, 2, 6, i)
    return reading("recover", [block], None, "marked")


@case("rows at the radius")
def rows_at_the_radius():
    block = fresh()[0]
    for k, i in enumerate(range(0, 208, 9)):
        wrong_row(block, i, *((5, 0), (4, 2), (3, 4), (1, 8), (0, 10))[k % 5], i)
    return reading("survey", [block])


@case("rows beyond the radius")
def rows_beyond_the_radius():
    block = fresh()[0]
    for k in range(17):
        wrong_row(block, 11 * k, *((5, 1), (4, 3), (0, 11), (6, 0))[k % 4], k)
    return reading("survey", [block])


@case("sixteen lost rows")
def sixteen_lost_rows():
    return reading("recover", [lose(fresh()[0], range(5, 200, 12)[:16])])


@case("seventeen lost rows")
def seventeen_lost_rows():
    return reading("recover", [lose(fresh()[0], range(10, 27))])


@case("eight rows of another codeword")
def eight_rows():
    block = fresh()[0]
    for i in range(20, 28):
        block.put_row(i, bytes(182))
    return reading("recover", [block])


@case("nine rows of another codeword")
def nine_rows():
    block = fresh()[0]
    for i in range(20, 29):
        block.put_row(i, block.row(100))
    return reading("recover", [block])


@case("eight bad rows and one lost")
def eight_bad_rows():
    block = lose(fresh()[0], [3])
    for i in range(20, 28):
        block.put_row(i, block.row(100))
    return reading("survey", [block])


@case("another column")
def another_column():
    blocks = fresh(2)
    captures.other_column(random.Random(1), blocks[1])
    return reading("recover", blocks)


@case("frames that are wrong in two ways")
def wrong_frames():
    blocks = fresh(3)
    captures.change_frame(blocks[0], 5, [(5, 1), (2062, 7)])
    captures.change_id(blocks[1], 5, b"\0\0\0\x10", False)
    captures.change_frame(blocks[1], 6, [(4, 9)])
    captures.change_frame(blocks[2], 7, [(100, 1)])
    captures.change_frame(blocks[2], 8, [(4, 1)])
    return reading("recover", blocks)


@case("wrong frames that are lost too")
def salvaged_frames():
    block = lose(fresh()[0], [*range(0, 16), 35, 200])
    captures.change_frame(block, 4, [(300, 1)])
    captures.change_frame(block, 5, [(4, 1)])
    return reading("recover", [block])


def other_id(bit):
    block = fresh()[0]
    captures.change_id(block, 3, (1 << bit).to_bytes(4, "big"))
    return reading("recover", [block])


for _bit in range(32):
    CASES[f"bit {_bit} of an ID"] = functools.partial(other_id, _bit)


def real_block(layout, zone):
    sectors = [ecma267.main_data(layout, zone, f) for f in range(16)]
    return Block(ecma267.recording(ecma267.disk_block(layout, zone, bytes(6), sectors)))


def surface(shape):
    """A survey of all zones. The first block of each zone but those of the data is as it is made, and all others are
    marked."""
    disk = Disk(shape, 32, 0 if shape == "single" else 16, "all", 1, 2)
    layout = ecma267.Layout(shape, disk.sectors0, disk.sectors1, 1, 2)
    blocks, firsts = [], [zone.first for zone in ecma267.information_zone(layout)]
    for zone in ecma267.blocks_of(ecma267.information_zone(layout)):
        is_made = zone.first in firsts and zone.content != ecma267.IMAGE
        blocks.append(real_block(layout, zone) if is_made else Block(bytes(BLOCK), 1))
    return reading("survey", blocks, disk)


for _shape in ("single", "parallel", "opposite"):
    CASES[f"a surface, {_shape}"] = functools.partial(surface, _shape)


@case("data of all zones")
def data_of_all_zones():
    disk = Disk("opposite", 16, 16, "all", 0, 1)
    data = iter(captures.blocks_of(captures.recording(disk, "drawn")))
    return reading("recover", [next(data) if is_data else Block(bytes(BLOCK), 1) for is_data in disk.plan()], disk)


def torn(groups, marked):
    """Groups of rows as captures.chain has them: so many rounds free them from both ends."""
    block, (high, wide) = fresh()[0], (9, 8) if marked else (8, 5)
    for k in range(high * groups):
        group = k // high
        for j in range(wide * max(0, group - 1), min(wide * (group + 1), wide * (groups - 1))):
            block.add((k * 7 + 3) % 208, (j * 3 + 1) % 182, 1 + (j + k) % 255)
            if marked:
                block.mark((k * 7 + 3) % 208, (j * 3 + 1) % 182)
    return reading("deep", [block])


for _groups in range(3, 11):
    CASES[f"{_groups} groups of torn rows"] = functools.partial(torn, _groups, True)
CASES["7 groups without marks"] = functools.partial(torn, 7, False)


@case("twelve torn rows and three of other codewords")
def torn_and_other_rows():
    block = fresh()[0]
    for k in range(12):
        for j in range(100, 108):
            block.add(16 * k, j, k + 1)
    for i in (5, 50, 99):
        captures.add_word(block, bytes(i) + b"\1", captures.row_word(20))
    return reading("deep", [block])


@case("another column in rounds")
def another_column_in_rounds():
    return another_column()._replace(arguments=["deep", "--form", "listed"])


@case("torn rows in recover")
def torn_in_recover():
    return torn(5, True)._replace(arguments=["recover", "--form", "listed"])


@case("wrong frames in corrected rows")
def corrected_and_wrong():
    block = fresh()[0]
    for i in (60, 61, 62):
        block.put_row(i, block.row(0))
    captures.change_frame(block, 8, [(100, 1)])
    return reading("recover", [block])


@case("an ID without its IED")
def id_without_ied():
    block = fresh()[0]
    captures.change_frame(block, 3, [(3, 0x40)])
    return reading("recover", [block])


@case("two equal peaks")
def equal_peaks():
    return reading("survey", [Block(bytes(BLOCK), 1)] * 10)


@case("deep of wrong frames")
def deep_of_wrong_frames():
    blocks = fresh(2)
    for k, i in enumerate(range(20)):
        wrong_row(blocks[0], i, 0, 11, 2 * k)
    captures.change_frame(blocks[0], 9, [(50, 3)])
    captures.change_frame(blocks[1], 9, [(50, 3)])
    return reading("deep", blocks)


@case("sums of eight blocks")
def sums_of_eight():
    return reading("survey", [Block(bytes(BLOCK), int(k in (0, 1, 3, 9, 11))) for k in range(12)])


@case("sums of 280 and 281")
def sums_at_the_limit():
    blocks = [lose(Block(bytes(BLOCK)), range(count)) for count in (140, 140, 0, 0, 0, 0, 0, 0, 141, 140)]
    return reading("survey", blocks)


@case("right bytes with marks")
def right_bytes_with_marks():
    block = fresh()[0]
    for i in range(0, 208, 2):
        block.mark(i, i % 182)
    for i in range(1, 60, 2):
        block.add(i, 3, 5)
    return reading("survey", [block], None, "marked")


def lead_in(change, second=((1, 0x03),)):
    """The input of info: a control block with some bytes of its physical format changed, and another after it."""
    blocks = [Block(bytes(BLOCK), 1)] * 32 + [control(change), control(second, 1)]
    return Case("", ["info", "--form", "marked"], captures.capture_bytes("marked", Disk(), blocks, 3))


def control(change, number=0):
    layout = ecma267.Layout("single", 32)
    zone = ecma267.Zone(0x2F200 + 16 * number, 1, ecma267.LEAD_IN, 0, ecma267.CONTROL)
    sectors = [bytearray(ecma267.main_data(layout, zone, f)) for f in range(16)]
    for at, byte in change:
        sectors[0][at] ^= byte
    return Block(ecma267.recording(ecma267.disk_block(layout, zone, bytes(6), sectors)))


FIELDS = (
    (0, 0x04), (1, 0x03), (2, 0xB4), (3, 0x23), (4, 1), (9, 4), (10, 5), (11, 6), (13, 7), (14, 8), (15, 9), (16, 0xFF),
)
CASES["fields of a physical format"] = functools.partial(lead_in, FIELDS)
OTHERS = {"category": (0, 0x10), "size": (1, 0x80), "layers": (2, 0x40), "first": (7, 1), "last": (9, 3)}
for _name, _change in OTHERS.items():
    CASES[f"another {_name}"] = functools.partial(lead_in, (_change,))
CASES["a cutting area"] = functools.partial(lead_in, ((16, 0x80), (2, 0x10)))


def listed_info(blocks, initial=0):
    data = captures.capture_bytes("listed", Disk("single", 16, 0, "all", initial), blocks)
    return Case("", ["info", "--form", "listed"], data)


@case("no control block")
def no_control_block():
    blocks = [Block(bytes(BLOCK), 1)] * 224
    return listed_info(blocks)


@case("the last control block")
def last_control_block():
    blocks = [Block(bytes(BLOCK), 1)] * 223 + [control((), 191)]
    return listed_info(blocks)


@case("a listed lead-in")
def listed_lead_in():
    return listed_info([Block(bytes(BLOCK), 1)] * 35 + [control(())], 3)


def listed_unit(*numbers):
    """A listed block of zeros with these numbers after its rows."""
    data = Disk().header() + bytes(BLOCK) + b"".join(number.to_bytes(2, "big") for number in numbers)
    return Case("", ["survey", "--form", "listed"], data)


RUNS = {
    "runs that just don't touch": (2, 0, 5, 6, 1),
    "runs that touch": (2, 0, 5, 5, 1),
    "runs that overlap": (2, 0, 5, 4, 1),
    "an empty run": (1, 7, 0),
    "a run up to the end": (1, 37000, 856),
    "a run beyond the end": (1, 37000, 857),
    "a start at the end": (1, 37855, 1),
    "a start beyond the end": (1, 37856, 1),
    "too many runs": (18929,),
    "the most runs": (18928, 0, 0),
    "half a number": (1, 5),
}
for _name, _numbers in RUNS.items():
    CASES[_name] = functools.partial(listed_unit, *_numbers)


def header_of(**fields):
    """A header alone, with other numbers or bytes."""
    header = bytearray(Disk("opposite", 32, 16).header())
    for field, number in fields.items():
        at = {"shape": 8, "zones": 9, "sectors0": 12, "sectors1": 16, "initial": 20, "tail": 24}.get(field)
        if at is None:
            header[int(field[4:])] = number
        else:
            header[at : at + (4 if at > 9 else 1)] = number.to_bytes(4 if at > 9 else 1, "big")
    return Case("", ["recover", "--form", "listed"], bytes(header))


HEADERS = [
    {f"byte{at}": number} for at in (*range(8), 10, 11, 28, 29, 30, 31) for number in (1,) if (at, number) != (7, 2)
] + [
    {"shape": 3}, {"zones": 2}, {"sectors0": 0}, {"sectors0": 17}, {"sectors1": 0}, {"sectors1": 33}, {"shape": 0},
    {"initial": 12032}, {"tail": 12289}, {"sectors0": 8191760}, {"shape": 1, "sectors1": 8191745}, {"shape": 1},
    {"initial": 12031, "tail": 12288, "shape": 0, "sectors1": 0},
]
for _fields in HEADERS:
    CASES["a header of " + " ".join(f"{a} {b}" for a, b in _fields.items())] = functools.partial(header_of, **_fields)


@case("captures that differ")
def captures_that_differ():
    units = []
    for k in range(3):
        block = Block(fresh()[0].rows)
        for at in range(0, 3000):
            block.marks[at] = at >> k & 1
            block.rows[at] ^= 0xFF if at >> 4 & 7 == k or at >> k & 1 else 0
        units.append(captures.unit_bytes("marked", block, 3))
    return Case("", ["merge", "--sectors", "16", "--captures", "3", "--form", "marked"], b"".join(units))


@case("plain captures of two blocks")
def plain_captures():
    one, two = fresh(2)
    units = [captures.unit_bytes("plain", each) for each in (one, two, two, two)]
    return Case("", ["merge", "--sectors", "32", "--captures", "2"], b"".join(units))


@case("scattered frames")
def scattered_frames():
    disk = Disk("opposite", 16, 16)
    first, second = captures.blocks_of(captures.recording(disk, "drawn"))
    wrong_row(first, 12, 5, 0)
    wrong_row(first, 24, 4, 2)
    wrong_row(first, 36, 0, 10)
    wrong_row(first, 48, 5, 1)
    captures.change_frame(first, 6, [(4, 1)])
    captures.change_id(first, 7, b"\0\0\1\0", False)
    captures.change_id(first, 8, b"\x04\0\0\0")
    captures.change_id(first, 9, b"\xf2\0\0\0")
    captures.change_id(second, 9, b"\1\0\0\0")
    frames = []
    for block in (first, second):
        stored = captures.unit_bytes("marked", block, 3)
        frames += [stored[k : k + 2665] for k in range(0, len(stored), 2665)]
    frames = frames[::-3] + frames[::2] + [captures.unit_bytes("marked", Block(bytes(BLOCK)))[:2665]]
    words = ["assemble", *disk.options(), "--frames", str(len(frames)), "--form", "marked"]
    return Case("", words, b"".join(frames))


@case("plain frames")
def plain_frames():
    stored = captures.recording(Disk("single", 17), "drawn")
    frames = [stored[k : k + 2366] for k in range(0, len(stored), 2366)][::-1]
    return Case("", ["assemble", "--sectors", "17", "--frames", "31"], b"".join(frames[:31]))


@case("marks that are converted")
def converted_marks():
    blocks = fresh(3)
    for at in (0, 1, 5, 181, 182, 183, 200, *range(1000, 2000), 37854, 37855):
        blocks[0].marks[at] = 1
    blocks[1].marks[:] = b"\1" * BLOCK
    disk = Disk("parallel", 32, 16, "data", 5, 6)
    return Case("", ["convert", "--form", "marked", *disk.options()], captures.capture_bytes("marked", disk, blocks, 3))


@case("marks that are converted by defaults")
def converted_by_defaults():
    return Case("", ["convert", "--sectors", "16"], captures.unit_bytes("plain", fresh()[0]))


def cd_sectors(address, change=(), parity=True, count=1):
    """Made CD-ROM sectors with bytes added to the first, its parity made anew or not."""
    stream = captures.run(["cdmake", "--address", str(address), "--sectors", str(count)], drawn(count))
    sector = bytearray(stream[:2352])
    for at, byte in change:
        sector[at] ^= byte
    if parity:
        for word in ecma130.P_WORDS + ecma130.Q_WORDS:
            sector[word[-2]], sector[word[-1]] = ecma267.parity_bytes([sector[at] for at in word[:-2]], 2)
    words = ["cdread", "--address", str(address), "--sectors", str(count)]
    return Case("", words, bytes(sector) + stream[2352:])


CASES["made CD-ROM sectors"] = lambda: Case("", ["cdmake", "--address", "449999", "--sectors", "1"], drawn(1))
CASES["two made CD-ROM sectors"] = lambda: Case("", ["cdmake", "--address", "74", "--sectors", "2"], drawn(2))
CASES["a CD-ROM sector of minute 13"] = lambda: Case("", ["cdmake", "--address", "58500", "--sectors", "1"], drawn(1))
CD = {
    "a CD-ROM sector without damage": ((), True),
    "a CD-ROM sector of another mode": (((15, 2),), True),
    "a CD-ROM sector of another address": (((13, 1), (2064, 1)), True),
    "a CD-ROM sector of another EDC": (((2064, 1),), True),
    "another mode and address": (((13, 1), (15, 2)), True),
    "another mode and no codewords": (tuple((at, 9) for k in (3, 5, 7) for at in ecma130.P_WORDS[k]), False),
    "a CD-ROM sector of other zeros": (((2068, 1), (2075, 1)), True),
    "a CD-ROM sector with another sync": (((0, 1), (5, 1), (11, 1)), False),
    "one wrong byte in each P word": (tuple((P[(7 * k) % 26], k + 1) for k, P in enumerate(ecma130.P_WORDS)), False),
    "all of a P word": (tuple((at, 9) for at in ecma130.P_WORDS[31]), False),
    "two P words": (tuple((at, 9) for k in (30, 32) for at in ecma130.P_WORDS[k][:20]), False),
    "three P words": (tuple((at, 9) for k in (30, 32, 34) for at in ecma130.P_WORDS[k]), False),
    "wrong parity of Q words": (tuple((at, 3) for Q in ecma130.Q_WORDS for at in Q[-1:]), False),
    "more wrong parity of Q words": (tuple((at, 3) for at in ecma130.Q_WORDS[9][-2:]), False),
}
for _name, (_change, _parity) in CD.items():
    CASES[_name] = functools.partial(cd_sectors, 150, _change, _parity)
CASES["CD-ROM sectors of two addresses"] = functools.partial(cd_sectors, 4499, (), False, 2)
CASES["drawn blocks"] = lambda: Case("", ["exercise", "--seed", "1", "--blocks", "2"])
