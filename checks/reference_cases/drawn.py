"""Drawn cases: arguments and an input for every end of a run. Here are those of frames, master and cdmake, and of the
commands that read blocks. A kind of case is a function of a source of drawn numbers. KINDS has each as often as it
comes in one round."""

import functools
from typing import NamedTuple, Optional

import ecma267
from reference_cases import captures
from reference_cases.captures import BLOCK, Block, Disk

KINDS = []


class Case(NamedTuple):
    name: str
    arguments: list
    data: bytes = b""
    limit: Optional[int] = None  # the output takes so many bytes and then fails
    redirect: str = ""  # how the shell opens the streams of both, where not as always


def kind(times, **given):
    """Puts a function among the kinds, so many times in a round."""

    def put(function):
        KINDS.extend([functools.partial(function, **given)] * times)
        return function

    return put


def for_each(times_of, **given):
    """The same for several commands, each with its number of times."""

    def put(function):
        for command, times in times_of.items():
            kind(times, command=command, **given)(function)
        return function

    return put


def shuffled(draw, pairs):
    """Options in a drawn order, each in one of its two spellings."""
    pairs = draw.sample(pairs, len(pairs))
    return [word for pair in pairs for word in (["=".join(pair)] if draw.random() < 0.3 else pair)]


def pairs_of(words):
    return [list(words[k : k + 2]) for k in range(0, len(words), 2)]


def cut_or_more(draw, data, unit, header=0):
    """An input that is too short or too long, and words for it."""
    if draw.random() < 0.4:
        more = draw.choice((1, 2, unit))
        return data + draw.randbytes(more), f"{more} bytes more"
    whole = draw.randrange(max(1, (len(data) - header) // unit)) * unit + header
    ends = [0, len(data) - 1, whole, whole + 1, whole + unit - 1, draw.randrange(max(1, len(data)))]
    size = min(draw.choice(ends), len(data) - 1)
    return data[:size], f"the first {size} of {len(data)} bytes"


# frames, master, cdmake


@kind(9)
def frames(draw):
    count = draw.randint(1, 3)
    first = draw.choice((0x30000, 0, 0x1000000 - count, 16 * draw.randrange(1 << 20), draw.randrange(0xFFFFF0)))
    data = captures.image_bytes(draw.choice(("zeros", "FF", "numbers", "drawn")), count)
    said = f"frames: {count} sectors from {first:06X} on"
    if draw.random() < 0.4:
        data, more = cut_or_more(draw, data, 2048)
        said += ", " + more
    digits = draw.choice((f"{first:06X}", f"{first:06x}"))
    return Case(said, ["frames", *shuffled(draw, [["--first", digits], ["--sectors", str(count)]])], data)


def drawn_disk(draw, most=3):
    """A disk of few blocks with one layer or two."""
    shape = draw.choice(("single", "single", "parallel", "opposite"))
    if shape == "single" or most < 2:
        return Disk("single", draw.choice((1, 2, 15, 16, 16, 17, 32, 33)[: 6 if most < 2 else 8]))
    blocks0 = draw.randint(1, most - 1)
    blocks1 = draw.randint(1, min(most - blocks0, blocks0 if shape == "opposite" else most))
    return Disk(shape, 16 * blocks0, 16 * blocks1 - draw.choice((0, 0, 1, 15)))


def drawn_kind(draw):
    return draw.choice(("zeros", "FF", "numbers", "drawn", "drawn", "drawn again"))


def drawn_lengths(draw, disk):
    """The same disk with other lengths of the zones around the data."""
    return disk._replace(initial=draw.choice((0, 0, 1, 3)), tail=draw.choice((0, 1, 16, 17)))


def workers(draw):
    return ["--workers", str(draw.randint(1, 16))] if draw.random() < 0.1 else []


@kind(9)
def master(draw):
    disk = drawn_disk(draw)
    if draw.random() < 0.3:
        disk = drawn_lengths(draw, disk)
    data = captures.image_bytes(drawn_kind(draw), disk.sectors())
    words = disk.options() + workers(draw)
    said = f"master: {disk.shape}, {disk.sectors0} and {disk.sectors1} sectors"
    if draw.random() < 0.4:
        words += ["--cpr", draw.randbytes(6).hex()]
        said += ", CPR_MAI"
    if draw.random() < 0.4:
        data, more = cut_or_more(draw, data, 2048)
        said += ", " + more
    return Case(said, ["master", *shuffled(draw, pairs_of(words))], data)


@kind(1, shape="single")
@kind(1, shape="parallel")
@kind(1, shape="opposite")
def master_lead_in(draw, shape):
    """The lead-in as far as the first block of the Control Data Zone."""
    layer1 = 0 if shape == "single" else draw.randint(1, 16)
    disk = Disk(shape, 16 * draw.randint(1, 40), layer1, "all", draw.choice((0, 1)), draw.choice((0, 16, 20)))
    said = f"master: all zones, {shape}, {disk.sectors0} and {layer1} sectors, as far as the first control block"
    words = ["master", *disk.options(), "--cpr", "0123456789AB"]
    return Case(said, words, b"", (disk.initial + 33) * BLOCK - draw.choice((0, 1, 182)))


@kind(1, shape="parallel")
@kind(1, shape="opposite")
def master_layer_1(draw, shape):
    """All of a disk with the opposite track path, or the parallel one as far as the first control block of layer 1."""
    disk = Disk(shape, 32, draw.choice((16, 3)), "all", draw.randrange(2), 1)
    limit = None if shape == "opposite" else (2 * disk.initial + 256 + 2 + 1 + 33) * BLOCK
    said = f"master: all zones, {shape}, 32 and {disk.sectors1} sectors, initial {disk.initial}, with layer 1"
    data = captures.image_bytes("numbers", disk.sectors())
    return Case(said, ["master", *disk.options(), "--cpr", draw.randbytes(6).hex()], data, limit)


@kind(5)
def cdmake(draw):
    count = draw.randint(1, 4)
    address = draw.choice((0, 150, 450000 - count, 4499, 74, draw.randrange(449990)))
    data = captures.image_bytes(draw.choice(("zeros", "FF", "numbers", "drawn")), count)
    said = f"cdmake: {count} sectors from {address} on"
    if draw.random() < 0.3:
        data, more = cut_or_more(draw, data, 2048)
        said += ", " + more
    return Case(said, ["cdmake", *shuffled(draw, [["--address", str(address)], ["--sectors", str(count)]])], data)


# recover, deep and survey of damaged blocks

READERS = ("recover", "deep", "survey")


def reading(draw, command, disk, blocks, said, form=None):
    """The case of a command that reads captured blocks, in a drawn form if none is given."""
    marked = any(any(each.marks) for each in blocks)
    form = form or draw.choice(("marked", "listed") if marked else ("plain", "plain", "marked", "listed"))
    spare = draw.choice((0, 3)) if form == "marked" else 0
    words = ["--form", form] if form != "plain" or draw.random() < 0.2 else []
    words += disk.options() if form != "listed" else []
    words += workers(draw) if command != "deep" else []
    data = captures.capture_bytes(form, disk, blocks, spare)
    return Case(f"{command}: {said}, {form}", [command, *shuffled(draw, pairs_of(words))], data)


def damaged(draw, damage, most=1):
    """A disk, its blocks with damage in one or more of them, and words for it."""
    disk = drawn_disk(draw, most)
    blocks = captures.blocks_of(captures.recording(disk, drawn_kind(draw)))
    said = damage(draw, blocks[draw.randrange(len(blocks))])
    return disk, blocks, said


DAMAGE = {
    captures.no_damage: (1, 1, 1),
    captures.light_damage: (3, 1, 2),
    captures.within_the_bound: (3, 1, 1),
    captures.at_the_bound: (5, 2, 1),
    captures.beyond_the_bound: (6, 2, 2),
    captures.lost_rows: (3, 1, 1),
    captures.edge_of_the_radius: (3, 1, 1),
    captures.other_codewords: (3, 1, 1),
    captures.other_column: (2, 1, 1),
    captures.wrong_frames: (8, 3, 2),
    captures.all_alike: (2, 1, 1),
    captures.true_marks: (1, 1, 1),
    captures.torn_rows: (1, 3, 0),
    captures.steps: (1, 2, 0),
    captures.chain: (0, 4, 0),
}


def damaged_block(draw, command, damage):
    disk, blocks, said = damaged(draw, damage, draw.choice((1, 1, 1, 2)))
    return reading(draw, command, disk, blocks, said)


for _damage, _times in DAMAGE.items():
    for_each(dict(zip(READERS, _times)), damage=_damage)(damaged_block)


@for_each({"recover": 2, "deep": 1, "survey": 1})
def other_place(draw, command):
    """Blocks in another order, or of another disk."""
    disks = (Disk("single", 32), Disk("parallel", 16, 16), Disk("opposite", 16, 16))
    disk = disks[draw.choice((0, 0, 0, 1, 2))]
    blocks = captures.blocks_of(captures.recording(disk, "drawn"))
    if draw.random() < 0.5:
        return reading(draw, command, disk, blocks[::-1], f"{disk.shape}, two blocks exchanged")
    other = draw.choice(disks)
    return reading(draw, command, other, blocks, f"blocks of a {disk.shape} disk read as {other.shape}")


@for_each({"recover": 4, "survey": 3, "deep": 1})
def every_zone(draw, command):
    """A capture of all zones whose blocks are marked, but for one or two of the data."""
    disk = drawn_lengths(draw, drawn_disk(draw, 2))
    data = captures.blocks_of(captures.recording(disk, "drawn"))
    said = captures.light_damage(draw, data[0])
    disk, lost, rest = disk._replace(zones="all"), Block(bytes(BLOCK), 1), iter(data)
    blocks = [next(rest) if is_data else lost for is_data in disk.plan()]
    return reading(draw, command, disk, blocks, f"all zones, {disk.shape}, the other blocks marked, {said}", "listed")


@for_each({"recover": 5, "deep": 3, "survey": 2})
def wrong_length(draw, command):
    disk, blocks, said = damaged(draw, draw.choice((captures.no_damage, captures.lost_rows)), 2)
    case = reading(draw, command, disk, blocks, said)
    listed = "listed" in case.name
    unit = len(captures.unit_bytes("listed" if listed else "marked" if "marked" in case.name else "plain", blocks[0]))
    data, more = cut_or_more(draw, case.data, unit, 32 if listed else 0)
    return case._replace(name=f"{case.name}, {more}", data=data)


def broken_header(draw, disk):
    """A header with a byte that can't be there, or with numbers that make no layout."""
    header = bytearray(disk.header())
    if draw.random() < 0.4:
        at = draw.choice((*range(12), *range(28, 32)))
        header[at] = draw.choice((header[at] ^ 1 << draw.randrange(8), 2, 3, 255))
        return bytes(header), f"byte {at} of the header is {header[at]:02X}"
    field = draw.choice((12, 16, 20, 24))
    number = draw.choice((0, 1, 15, 16, 17, 32, 12031, 12032, 12288, 12289, 8191744, 8191745, 4294967295))
    header[field : field + 4] = number.to_bytes(4, "big")
    if draw.random() < 0.5:
        header[8] = draw.randrange(3)
    return bytes(header), f"{number} at byte {field} of the header"


@for_each({"recover": 4, "deep": 1, "survey": 1, "info": 2})
def wrong_header(draw, command):
    header, said = broken_header(draw, draw.choice((Disk(), Disk("parallel", 16, 16), Disk("opposite", 32, 16))))
    data = header + (b"" if draw.random() < 0.5 else bytes(BLOCK + 2))
    return Case(f"{command}: {said}", [command, "--form", "listed"], data)


@for_each({"recover": 5, "deep": 1, "survey": 1, "info": 1})
def wrong_runs(draw, command):
    """Runs of a listed block that break a rule or just keep it, in the first or the second block."""
    disk = Disk("single", 32, 0, "all" if command == "info" else "data")
    blocks = [Block(bytes(BLOCK), 1) for _ in range(2)]
    runs, start = [], draw.randrange(3)
    while start < BLOCK - 40 and len(runs) < draw.randint(1, 30):
        runs.append([start, draw.choice((1, 1, 2, 30))])
        start += runs[-1][1] + draw.choice((1, 1, 2, 5000))
    breaks = ("touches", "overlaps", "is empty", "begins too late", "is too long", "just fits", "is one of many")
    what = draw.choice(breaks)
    count, k = len(runs), draw.randrange(len(runs))
    if what in ("touches", "overlaps") and k:
        runs[k][0] = sum(runs[k - 1]) - (what == "overlaps")
    elif what == "is empty":
        runs[k][1] = 0
    elif what == "begins too late":
        runs[k][0] = draw.choice((BLOCK, BLOCK + 1, 65535))
    elif what == "is too long":
        runs[k][1] = draw.choice((BLOCK + 1 - runs[k][0], 65535))
    elif what == "just fits":
        runs[-1][1] = BLOCK - runs[-1][0]
    elif what == "is one of many":
        count = draw.choice((18928, 18929, 65535))
    unit = bytes(BLOCK) + b"".join(number.to_bytes(2, "big") for number in (count, *sum(runs, [])))
    if draw.random() < 0.3:
        unit = unit[: draw.randint(BLOCK, len(unit))]
        what += ", cut"
    data = captures.capture_bytes("listed", disk, blocks[: draw.randrange(2)]) + unit
    return Case(f"{command}: a run {what}, run {k} of {count}", [command, "--form", "listed"], data)


@kind(3)
def survey_sums(draw):
    """The sum of eight blocks: lost rows in some of ten and more blocks, and sums near 280."""
    if draw.random() < 0.5:
        counts = [draw.choice((0, 208, 208)) for _ in range(draw.randint(9, 24))]
    else:
        counts = [draw.choice((139, 140, 141)) for _ in range(2)] + [208] * draw.randrange(2)
    blocks = []
    for count in counts:
        block = Block(bytes(BLOCK), int(count == 208))
        for i in draw.sample(range(208), count if count < 208 else 0):
            block.lose_row(i, 0)
        blocks.append(block)
    said = "lost rows in blocks " + " ".join(map(str, counts))
    return reading(draw, "survey", Disk("single", 16 * len(counts)), blocks, said, draw.choice(("marked", "listed")))



# info


@functools.lru_cache(maxsize=None)
def control_block(shape, change=()):
    """The first control block of a disk with bytes added to its physical format."""
    layout = ecma267.Layout(shape, 32, 0 if shape == "single" else 16)
    zone = ecma267.Zone(0x2F200, 1, ecma267.LEAD_IN, 0, ecma267.CONTROL)
    sectors = [ecma267.main_data(layout, zone, f) for f in range(16)]
    sectors[0] = bytearray(sectors[0])
    for at, byte in change:
        sectors[0][at] ^= byte
    return ecma267.recording(ecma267.disk_block(layout, zone, bytes(6), [bytes(each) for each in sectors]))


@kind(9)
def info(draw):
    """The first control blocks of a lead-in."""
    shape = draw.choice(("single", "parallel", "opposite"))
    initial = draw.choice((0, 0, 1, 2))
    change, said = (), "as it is made"
    if draw.random() < 0.7:
        at = draw.choice((0, 0, 1, 2, 2, 3, 4, 5, 6, 7, 8, 9, 10, 11, 12, 13, 14, 15, 16, 16, 17, 2047))
        change = ((at, 1 << draw.randrange(8)),)
        said = f"{change[0][1]:02X} added to byte {at}"
    first, lost = Block(control_block(shape, change)), Block(bytes(BLOCK), 1)
    blocks = [lost] * (initial + 32)
    damage = draw.choice((captures.no_damage, captures.light_damage, captures.wrong_frames, captures.at_the_bound))
    said += ", " + damage(draw, first)
    blocks.append(first)
    if draw.random() < 0.4:
        blocks.append(lost)
    form = draw.choice(("marked", "listed"))
    words = ["--form", form] + (["--initial", str(initial)] if initial and form != "listed" else [])
    disk = Disk(shape, 32, 0 if shape == "single" else 16, "all", initial)
    data = captures.capture_bytes(form, disk, blocks)
    return Case(f"info: {shape}, the physical format {said}, {form}", ["info", *words], data)


@kind(3)
def info_without_answer(draw):
    """No control block is right: all are marked, some are missing, or one goes on after them."""
    count = draw.choice((0, 31, 33, 223, 224, 224, 225))
    form = draw.choice(("marked", "listed"))
    data = captures.capture_bytes(form, Disk("single", 16, 0, "all"), [Block(bytes(BLOCK), 1)] * count)
    data += bytes(draw.choice((0, 1, BLOCK)) if form == "marked" else 0)
    return Case(f"info: {count} marked blocks, {len(data)} bytes, {form}", ["info", "--form", form], data)
