"""More drawn cases: those of merge, assemble, convert, cdread and exercise, of arguments and layouts, and of streams
that fail."""

import ecma130
import ecma267
from reference_cases import captures
from reference_cases.captures import BLOCK, Block, Disk
from reference_cases.drawn import (
    KINDS, READERS, Case, cdmake, cut_or_more, damaged, drawn_disk, drawn_lengths, for_each, frames, kind, master,
    pairs_of, reading, shuffled, workers)

# merge, assemble and convert


def marked_here_and_there(draw, block):
    for _ in range(draw.randint(0, 12)):
        start = draw.randrange(BLOCK)
        length = draw.choice((1, 2, 182, draw.randrange(3000)))
        block.marks[start : start + length] = b"\1" * len(block.marks[start : start + length])
    for _ in range(draw.randint(0, 5)):
        block.rows[draw.randrange(BLOCK)] ^= draw.randint(1, 255)


@kind(10)
def merge(draw):
    disk = drawn_disk(draw, 2)
    count = draw.choice((2, 2, 2, 3, 4, 16))
    form = draw.choice(("plain", "marked", "marked"))
    units = []
    for block in captures.blocks_of(captures.recording(disk, "drawn")):
        for _ in range(count):
            each = Block(block.rows)
            marked_here_and_there(draw, each)
            units.append(captures.unit_bytes(form, each, draw.choice((0, 3)) if form == "marked" else 0))
    data, said = b"".join(units), f"merge: {count} captures of {disk.shape}, {form}"
    if draw.random() < 0.3:
        data, more = cut_or_more(draw, data, len(units[0]))
        said += ", " + more
    words = disk.options() + ["--captures", str(count)] + (["--form", form] if form != "plain" else [])
    return Case(said, ["merge", *shuffled(draw, pairs_of(words))], data)


@kind(2)
def merge_every_zone(draw):
    """The input ends after few blocks of all zones."""
    disk = drawn_lengths(draw, drawn_disk(draw, 2))._replace(zones="all")
    data = draw.randbytes(2 * BLOCK) + bytes(draw.randrange(BLOCK))
    return Case(f"merge: all zones, {len(data)} bytes", ["merge", "--captures", "2", *disk.options()], data)


def frame_bytes(form, rows, marks):
    """A recording frame in a form."""
    parts = [rows[k : k + 182] + (b"" if form == "plain" else captures.mark_bytes(marks[k : k + 182]))
             for k in range(0, 2366, 182)]
    return b"".join(map(bytes, parts))


@kind(14)
def assemble(draw):
    """Recording frames in a drawn order: some twice, some missing, some damaged, some of another disk."""
    disk = drawn_disk(draw, 2)
    form = draw.choice(("plain", "marked", "marked"))
    frames_ = []
    for number, block in enumerate(captures.blocks_of(captures.recording(disk, "drawn"))):
        damage = draw.choice((captures.no_damage, captures.wrong_frames, first_rows, first_rows))
        damage(draw, block)
        marks = block.marks if form == "marked" else bytes(BLOCK)
        frames_ += [(block.rows[k : k + 2366], marks[k : k + 2366]) for k in range(0, BLOCK, 2366)]
    other = draw.choice((Disk("single", 48), Disk("parallel", 16, 16), Disk("opposite", 16, 16)))
    strays = captures.recording(other, "drawn")
    frames_ += [(strays[k : k + 2366], bytes(2366)) for k in range(0, len(strays), 2366 * draw.randint(3, 9))]
    frames_ += [(bytes(2366), bytes(2366)), (draw.randbytes(2366), bytes(2366))]
    chosen = draw.choices(frames_, k=draw.randint(1, 8)) + draw.sample(frames_, draw.randint(1, len(frames_)))
    data, count = b"".join(frame_bytes(form, *each) for each in chosen), len(chosen)
    said = f"assemble: {count} frames of {disk.shape}, {form}"
    if draw.random() < 0.3:
        data, more = cut_or_more(draw, data, len(data) // count)
        said += ", " + more
    words = disk.options() + ["--frames", str(count)] + (["--form", form] if form != "plain" else [])
    return Case(said, ["assemble", *shuffled(draw, pairs_of(words))], data)


def first_rows(draw, block):
    """Damage of the first rows of frames, within the radius and beyond it."""
    for f in range(16):
        cost = draw.choice((0, 4, 9, 10, 11, 12))
        errors = draw.randint(0, cost // 2)
        captures.wrong_bytes(draw, block, 12 * f, errors, cost - 2 * errors)
    return "damaged first rows"


@kind(9)
def convert(draw):
    disk = drawn_disk(draw, 2)
    if draw.random() < 0.5:
        disk = drawn_lengths(draw, disk)
    form = draw.choice(("plain", "marked", "marked", "marked"))
    blocks = captures.blocks_of(captures.recording(disk._replace(initial=0, tail=16), "drawn"))
    for block in blocks:
        marked_here_and_there(draw, block)
        if draw.random() < 0.2:
            block.marks[:] = draw.choice((b"\1" * BLOCK, b"\1\0" * (BLOCK // 2), b"\0\1" * (BLOCK // 2)))
    data, said = captures.capture_bytes(form, disk, blocks, draw.choice((0, 3))), f"convert: {disk.shape}, {form}"
    if draw.random() < 0.3:
        data, more = cut_or_more(draw, data, len(data) // len(blocks))
        said += ", " + more
    words = disk.options() + (["--form", form] if form != "plain" else [])
    return Case(said, ["convert", *shuffled(draw, pairs_of(words))], data)


@kind(1)
def convert_every_zone(draw):
    disk = drawn_lengths(draw, drawn_disk(draw, 2))._replace(zones="all")
    data = b"".join(draw.randbytes(4) + bytes(BLOCK - 4) for _ in range(draw.randint(0, 3)))
    return Case(f"convert: all zones, {len(data)} bytes", ["convert", *disk.options()], data)


# cdread


def cd_damage(draw, sector):
    """Damage of a sector that is always repaired, or just more than that."""
    kinds = ("one byte in P words", "all of a P word", "two P words", "Q parity", "anywhere", "sync", "zeros")
    what = draw.choice(kinds)
    if what == "one byte in P words":
        for places in draw.sample(ecma130.P_WORDS, draw.randint(1, 86)):
            sector[draw.choice(places)] ^= draw.randint(1, 255)
    elif what in ("all of a P word", "two P words"):
        for places in draw.sample(ecma130.P_WORDS, 1 if what == "all of a P word" else 2):
            for at in draw.sample(places, draw.randint(2, 26)):
                sector[at] ^= draw.randint(1, 255)
        for places in draw.sample(ecma130.P_WORDS, draw.randrange(20)):
            sector[draw.choice(places)] ^= draw.randint(1, 255)
    elif what == "Q parity":
        for at in draw.sample(range(2248, 2352), draw.randint(1, 60)):
            sector[at] ^= draw.randint(1, 255)
    elif what == "anywhere":
        for at in draw.sample(range(2352), draw.randint(1, 60)):
            sector[at] ^= draw.randint(1, 255)
    elif what == "sync":
        sector[:12] = draw.randbytes(12)
    else:
        start = draw.randrange(2300)
        sector[start : start + 52] = bytes(len(sector[start : start + 52]))
    return what


def made_anew(sector):
    """A sector whose parity is that of its other bytes."""
    for word in ecma130.P_WORDS + ecma130.Q_WORDS:
        sector[word[-2]], sector[word[-1]] = ecma267.parity_bytes([sector[at] for at in word[:-2]], 2)


def wrong_sector(draw, sector):
    """A sector whose words are all codewords, and that is wrong in another way."""
    what = draw.choice(("mode", "address", "user data", "EDC", "zeros"))
    at = {"mode": 15, "address": draw.randint(12, 14), "user data": draw.randint(16, 2063)}.get(what)
    at = at or draw.randint(*((2064, 2067) if what == "EDC" else (2068, 2075)))
    sector[at] ^= draw.randint(1, 255)
    if what in ("mode", "address") and draw.random() < 0.5:
        sector[2064:2068] = ecma130.edc(bytes(sector[:2064]))
    made_anew(sector)
    return f"wrong {what}"


@kind(18)
def cdread(draw):
    count = draw.randint(1, 3)
    address = draw.choice((0, 150, 450000 - count, draw.randrange(449990)))
    stream = captures.run(
        ["cdmake", "--address", str(address), "--sectors", str(count)],
        captures.image_bytes(draw.choice(("zeros", "numbers", "drawn")), count),
    )
    sectors, said = [bytearray(stream[k : k + 2352]) for k in range(0, len(stream), 2352)], []
    for sector in sectors:
        if draw.random() < 0.4:
            said.append(wrong_sector(draw, sector))
        if draw.random() < 0.6:
            said.append(cd_damage(draw, sector))
    if draw.random() < 0.1:
        address += draw.choice((1, -1)) if 0 < address < 449990 else 0
        said.append("other addresses")
    data = b"".join(sectors)
    if draw.random() < 0.25:
        data, more = cut_or_more(draw, data, 2352)
        said.append(more)
    words = shuffled(draw, [["--address", str(address)], ["--sectors", str(count)]])
    return Case(f"cdread: {count} sectors, " + ", ".join(said or ["no damage"]), ["cdread", *words], data)


@kind(4)
def exercise(draw):
    seed = draw.choice((0, 1, 4294967295, draw.randrange(1 << 32)))
    words = [["--seed", str(seed)], ["--blocks", str(draw.choice((1, 1, 2)))]] + pairs_of(workers(draw))
    return Case(f"exercise: seed {seed}", ["exercise", *shuffled(draw, words)])


# Arguments. What is valid of these ends as the empty input does.

NUMBERS = ["1", "2", "16", "0017", "0000000032"]
NO_NUMBERS = ["", "+2", "-2", " 2", "2 ", "4294967296", "00000000002", "2x", "0x2", "1e1", "٣", "2.0", "2_0", "--"]
VALUES = {
    "--first": (["030000", "ffFFfe", "0a0B0c"], ["30000", "0300000", "03000G", "", "+30000", "0x0300", "03 000"]),
    "--sectors": (NUMBERS, NO_NUMBERS),
    "--sectors1": (["0", "00"], NO_NUMBERS),
    "--shape": (["single"], ["Single", "", "singl", "single ", "both"]),
    "--zones": (["data"], ["Data", "", "dat", "none", "ALL"]),
    "--initial": (["0", "1", "12031"], NO_NUMBERS),
    "--tail": (["0", "16", "12288"], NO_NUMBERS),
    "--cpr": (["0123456789aB", "000000000000"], ["00", "0123456789a", "0123456789abc", "0123456789aG", ""]),
    "--form": (["plain", "marked", "listed"], ["Plain", "", "list", "raw"]),
    "--workers": (["1", "016", "8"], ["0", "17", *NO_NUMBERS]),
    "--seed": (["0", "7", "4294967295"], NO_NUMBERS),
    "--blocks": (["1"], ["0", "4097", *NO_NUMBERS]),
    "--address": (["0", "150", "00449983"], ["449999", "450000", *NO_NUMBERS]),
    "--captures": (["2", "16", "07"], ["0", "1", "17", *NO_NUMBERS]),
    "--frames": (["1", "16", "4294967295"], ["0", *NO_NUMBERS]),
}
LAYOUT = ["--sectors1", "--shape", "--zones", "--initial", "--tail"]
TAKEN = {  # what a command needs, and what it may have
    "frames": (["--first", "--sectors"], []),
    "master": (["--sectors"], [*LAYOUT, "--cpr", "--workers"]),
    "recover": (["--sectors"], [*LAYOUT, "--form", "--workers"]),
    "deep": (["--sectors"], [*LAYOUT, "--form"]),
    "survey": (["--sectors"], [*LAYOUT, "--form", "--workers"]),
    "info": ([], ["--initial", "--form"]),
    "merge": (["--sectors", "--captures"], [*LAYOUT, "--form"]),
    "assemble": (["--sectors", "--frames"], ["--sectors1", "--shape", "--form"]),
    "convert": (["--sectors"], [*LAYOUT, "--form"]),
    "cdmake": (["--address", "--sectors"], []),
    "cdread": (["--address", "--sectors"], []),
    "exercise": (["--seed", "--blocks"], ["--workers"]),
}


@for_each(dict.fromkeys(TAKEN, 3))
def arguments(draw, command):
    """Arguments that are valid or break one rule."""
    needed, optional = TAKEN[command]
    given = needed + draw.sample(optional, draw.randrange(min(3, len(optional)) + 1))
    pairs = [[option, draw.choice(VALUES[option][0])] for option in given]
    breaks = ["a value", "no option", "twice", "unknown", "another's", "no value", "a word", "joined", "a name"]
    what = draw.choice(breaks + ["a value"] + ([] if command == "exercise" else ["nothing", "nothing"]))
    name = command
    if what == "a value" and pairs:
        pair = draw.choice(pairs)
        pair[1] = draw.choice(VALUES[pair[0]][1])
    elif what == "no option" and pairs:
        pairs.remove(draw.choice(pairs))
    elif what == "twice" and pairs:
        pairs.append(list(draw.choice(pairs)))
    elif what == "unknown":
        pairs.append([draw.choice(("--section", "--Sectors", "-s", "--help", "--version", "-h", "--sect", "-")), "2"])
    elif what == "another's":
        option = draw.choice(sorted(set(VALUES) - set(needed) - set(optional)))
        pairs.append([option, VALUES[option][0][0]])
    elif what == "a name":
        names = (command.capitalize(), command[:-1], command + " ", "", "help", "--" + command, command + "\udcff")
        name = draw.choice(names)
    words = [name, *shuffled(draw, pairs)]
    if what == "no value" and len(words) > 1:
        words.pop()
    elif what == "a word":
        words.insert(draw.randint(0, len(words)), draw.choice(("2", "", "--", "-", "\udcff", "--sectors", "=", "--=2")))
    elif what == "joined" and len(words) > 2:
        words[1:3] = [" ".join(words[1:3])]
    elif what == "nothing" and draw.random() < 0.4:
        words.append("--")
    return Case(f"{command}: arguments, {what} wrong: {ascii(words)}", words, b"", None)


@kind(1)
def no_arguments(draw):
    words = draw.choice(([], [""], ["--"], ["help"], ["--version"], ["-h"], ["--", "master", "--sectors", "2"]))
    return Case(f"no command: {words}", words)


@for_each({"master": 4, "recover": 3, "deep": 1, "survey": 2, "merge": 2, "assemble": 3, "convert": 2, "info": 1})
def setting(draw, command):
    """A layout that breaks a rule or just keeps it, over an empty input."""
    edges = (0, 1, 15, 16, 17, 32, 8191728, 8191729, 8191744, 8191745, 8388608, 4294967295)
    edges = edges if command != "assemble" else (0, 1, 15, 16, 17, 32, 16368, 16369, 16385, 8191745, 4294967295)
    shape = draw.choice(("single", "parallel", "opposite"))
    sectors1 = draw.choice(edges) if shape != "single" or draw.random() < 0.2 else 0
    lengths = draw.choice((0, 0, 1, 12031, 12032, 4294967295)), draw.choice((0, 16, 16, 17, 12288, 12289, 4294967295))
    disk = Disk(shape, draw.choice(edges), sectors1, "data", *(lengths if command != "assemble" else (0, 16)))
    more = {"merge": ["--captures", "2"], "assemble": ["--frames", "1"]}.get(command, [])
    words = disk.options() + more if command != "info" else ["--initial", str(lengths[0])]
    return Case(f"{command}: layout {' '.join(words)}", [command, *shuffled(draw, pairs_of(words))])


# Streams that fail


@for_each({"recover": 2, "deep": 1, "survey": 1, "master": 1, "convert": 1, "merge": 1, "cdread": 1, "frames": 1,
           "cdmake": 1})
def full_output(draw, command):
    """The output fails after some bytes."""
    if command in READERS:
        disk, blocks, said = damaged(draw, captures.lost_rows, 2)
        case = reading(draw, command, disk, blocks, said)
    else:
        made_by = (master, convert, merge, cdread, frames, cdmake)
        case = next(function for function in made_by if function.__name__ == command)(draw)
    limit = draw.choice((0, 1, 100, 2048, draw.randrange(2352), draw.randrange(65536)))
    return case._replace(name=f"{case.name}, no room after {limit} bytes", limit=limit)


@for_each(dict.fromkeys(TAKEN, 1))
def failing_streams(draw, command):
    """Both are run as processes, with a stream that can't be read or written."""
    pairs = [[option, VALUES[option][0][0]] for option in TAKEN[command][0]]
    size = {"frames": 2048, "cdmake": 2048, "cdread": 2352, "master": 2048, "merge": 2 * BLOCK, "assemble": 2366}
    # (a folder as input isn't among these: Python itself refuses to start with one)
    how = draw.choice(("0>/dev/null", "<&-", ">/dev/full", ">&-", "2>&- >/dev/null", "2>/dev/full >/dev/null", ""))
    words = [command, *shuffled(draw, pairs)]
    return Case(f"{command}: streams {how or 'as always'}", words, bytes(size.get(command, BLOCK)), None, how)


def round_of_kinds():
    """The kinds in one round, those of one command not all together."""
    count = len(KINDS)
    step = next(step for step in range(count * 5 // 8, count) if all(step % p or count % p for p in range(2, step + 1)))
    return [KINDS[step * k % count] for k in range(count)]
