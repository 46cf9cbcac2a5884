"""Each call of the module once, with damage at the bound and beyond, and with arguments of wrong lengths."""

import array
import copy
import doctest
import mmap
import multiprocessing
import os
import pickle
import shutil
import subprocess
import sys
import tempfile
import unittest

sys.path.insert(0, os.path.join(os.path.dirname(os.path.abspath(__file__)), "..", "c", "tests"))

import dvdecc
import vectors
from dvdecc import DvdeccError, Rule, Status


def recorded(rows):
    """The capture of a block with no marks."""
    order = [191 + (m + 1) // 13 if (m + 1) % 13 == 0 else m - m // 13 for m in range(208)]
    return bytearray(b"".join(rows[182 * i : 182 * i + 182] + bytes(23) for i in order))


def framed(frames):
    """The capture of a block of sixteen frames."""
    rows = b"".join(frame[172 * q : 172 * q + 172] + bytes(10) for frame in frames for q in range(12))
    return recorded(dvdecc.block_parity(rows + bytes(16 * 182)))


class Calls(unittest.TestCase):
    def refused(self, status, call, *arguments):
        with self.assertRaises(DvdeccError) as raised:
            call(*arguments)
        self.assertEqual(raised.exception.status, status)
        return raised.exception.number

    def test_checks(self):
        self.assertEqual(list(dvdecc.edc(bytes(vectors.counted(2060, 3, 8)))), vectors.edc(vectors.counted(2060, 3, 8)))
        self.assertEqual(dvdecc.edc(b""), bytes(4))
        self.assertEqual(list(dvdecc.cd_edc(bytes(vectors.counted(99, 3, 8)))), vectors.cd_edc(vectors.counted(99, 3, 8)))
        self.assertEqual(list(dvdecc.ied(0x30010)), vectors.parity([0, 3, 0, 0x10], 2))

    def test_words(self):
        for size, r, parity, test, decode in (
            (182, 10, dvdecc.row_parity, dvdecc.row_is_codeword, dvdecc.row_decode),
            (208, 16, dvdecc.column_parity, dvdecc.column_is_codeword, dvdecc.column_decode),
        ):
            message = vectors.counted(size - r, 5, 3)
            sent = parity(bytes(message) + bytes(r))
            self.assertEqual(list(sent), message + vectors.parity(message, r))
            damaged = bytearray(sent)
            for k in range(r // 2 - 1):
                damaged[11 * k] ^= 0x40
            damaged[170] ^= 1
            self.assertTrue(test(sent))
            self.assertFalse(test(damaged))
            self.assertEqual(decode(damaged, [170, 171]), (sent, r // 2 - 1, 2))
            self.refused(Status.UNCORRECTABLE, decode, damaged, [170, 171, 172])
            self.assertRaises(ValueError, parity, bytes(size - 1))
            self.assertRaises(ValueError, decode, damaged, [size])

    def test_many_rows(self):
        sent = bytearray(vectors.counted(182 * 9, 3, 1))
        self.assertIsNone(dvdecc.rows_parity(sent))
        self.assertEqual(sent[182:364], dvdecc.row_parity(sent[182:364]))
        damaged, lost = bytearray(sent), bytearray(182 * 9)
        damaged[5] ^= 1
        damaged[182 * 4], lost[182 * 4] = 7, 1
        damaged[182 * 8 : 182 * 8 + 80] = bytes(80)
        wanted = sent[: 182 * 8] + damaged[182 * 8 :]
        for form in lost, [182 * 4], {182 * 4}, memoryview(lost):
            rows = bytearray(damaged)
            answers = dvdecc.rows_decode(rows, form)
            self.assertEqual(rows, wanted)
            self.assertEqual(list(answers.statuses), [0] * 8 + [1])
            self.assertEqual(list(answers.errors), [1] + [0] * 8)
            self.assertEqual(answers.erasures.tolist(), [0, 0, 0, 0, 1, 0, 0, 0, 0])
        self.assertEqual([list(it) for it in dvdecc.rows_decode(bytearray())], [[], [], []])
        dvdecc.rows_parity(bytearray())
        # (a call that marks nothing is made of several)
        many = bytearray(sent[:182] * 5000)
        for i in 0, 2047, 2048, 4999:
            many[182 * i + i % 182] ^= 0x55
        answers = dvdecc.rows_decode(memoryview(many))
        self.assertEqual(many, sent[:182] * 5000)
        self.assertEqual([i for i, errors in enumerate(answers.errors) if errors], [0, 2047, 2048, 4999])
        for call in dvdecc.rows_parity, dvdecc.rows_decode:
            self.assertRaises(ValueError, call, bytearray(183))
            self.assertRaises(TypeError, call, bytes(182))
            self.assertRaises(TypeError, call, memoryview(bytearray(364))[::2])
        self.assertRaises(ValueError, dvdecc.rows_decode, bytearray(364), bytes(182))
        self.assertRaises(ValueError, dvdecc.rows_decode, bytearray(364), [364])

    def test_lost_places(self):
        """Both forms of lost places mean the same to each call, and nothing is both."""
        row = dvdecc.row_parity(bytes(vectors.counted(172, 5, 3)) + bytes(10))
        column = dvdecc.column_parity(bytes(vectors.counted(192, 5, 3)) + bytes(16))
        for word, r, decode in (
            (row, 10, dvdecc.row_decode),
            (column, 16, dvdecc.column_decode),
            (row, 10, lambda word, lost: dvdecc.rs_decode(word, 10, lost)),
        ):
            places = [11 * k for k in range(r)]
            damaged = bytearray(word)
            mask = bytearray(len(word))
            for place in places:
                damaged[place] ^= 0xA5
                mask[place] = 200
            numbered = array.array("B", mask)
            for lost in places, tuple(places), range(0, 11 * r, 11), iter(places), bytes(mask), mask, memoryview(mask), numbered:
                self.assertEqual(decode(damaged, lost), (word, 0, r))
            for lost in bytes(places), bytes(len(word) - 1), bytes(len(word) + 1), [-1], [len(word)]:
                self.assertRaises(ValueError, decode, damaged, lost)
            for lost in 3, 1.5, None, "place", ["0"], [1.0], [True], array.array("I", places), array.array("H", [0] * len(word)):
                self.assertRaises(TypeError, decode, damaged, lost)

    def test_what_is_data(self):
        """Anything with a buffer of bytes is data; numbers, lists, texts and larger items aren't."""
        row = dvdecc.row_parity(bytes(vectors.counted(182, 3, 1)))
        spread = bytearray(364)
        spread[::2] = row
        with tempfile.TemporaryFile() as file:
            file.write(row)
            file.flush()
            with mmap.mmap(file.fileno(), 182, access=mmap.ACCESS_READ) as mapped:
                self.assertTrue(dvdecc.row_is_codeword(mapped))
        for data in bytearray(row), memoryview(row), memoryview(bytearray(row)), array.array("B", row), memoryview(spread)[::2]:
            self.assertTrue(dvdecc.row_is_codeword(data))
            self.assertEqual(dvdecc.row_parity(data), row)
            self.assertEqual(dvdecc.row_decode(data), (row, 0, 0))
            self.assertEqual(dvdecc.edc(data), dvdecc.edc(row))
        self.assertTrue(dvdecc.row_is_codeword(memoryview(row).cast("B", (2, 91))))
        frame = dvdecc.make_frame(0, bytes(2048))
        calls = {
            182: [dvdecc.row_parity, dvdecc.row_is_codeword, dvdecc.row_decode, dvdecc.rows_parity, dvdecc.rows_decode],
            208: [dvdecc.column_parity, dvdecc.column_is_codeword, dvdecc.column_decode],
            10: [dvdecc.edc, dvdecc.cd_edc, lambda it: dvdecc.rs_parity(it, 2), lambda it: dvdecc.rs_decode(it, 2)],
            208 * 182: [dvdecc.block_parity, dvdecc.block_is_codeword],
            42640: [dvdecc.two_pass, lambda it: dvdecc.read_block(it, 0), lambda it: dvdecc.salvage_block(it, 0)],
            2048: [lambda it: dvdecc.scramble(0, it), lambda it: dvdecc.make_frame(0, it), lambda it: dvdecc.cd_make(0, it)],
            6: [lambda it: dvdecc.make_frame(0, bytes(2048), it)],
            2064: [lambda it: dvdecc.read_frame(it, 0)],
            2352: [lambda it: dvdecc.cd_check(it, 0), lambda it: dvdecc.cd_repair(it, 0)],
        }
        for size, named in calls.items():
            for call in named:
                for data in size, True, 1.0, None, [0] * size, "x" * size, array.array("H", [0] * (size // 2)):
                    self.assertRaises(TypeError, call, data)
                if size != 10:
                    self.assertRaises(ValueError, call, bytearray(size - 1))
        for value in 1.5, True, None, "1", b"1":
            self.assertRaises(TypeError, dvdecc.ied, value)
            self.assertRaises(TypeError, dvdecc.rs_parity, bytes(10), value)
            self.assertRaises(TypeError, dvdecc.read_frame, frame, 0, value)
            self.assertRaises(TypeError, dvdecc.cd_make, value, bytes(2048))
        for value in -1, 2**32:
            self.assertRaises(ValueError, dvdecc.ied, value)

    def test_errors(self):
        """An error passes between processes, says what it means, and keeps what this module doesn't know."""
        for error in DvdeccError(1), DvdeccError(6, 17), DvdeccError(17, 3), DvdeccError(99):
            again = pickle.loads(pickle.dumps(error))
            self.assertIs(type(again), DvdeccError)
            self.assertEqual((again.status, again.number, str(again)), (error.status, error.number, str(error)))
            self.assertEqual(str(copy.copy(error)), str(error))
        self.assertIs(DvdeccError(1).status, Status.UNCORRECTABLE)
        self.assertEqual(DvdeccError(17).status, 17)
        self.assertEqual(str(DvdeccError(1)), "UNCORRECTABLE: no codeword is near the word")
        self.assertEqual(str(DvdeccError(6, 17)), "ROWS: more than 16 rows of the block have no codeword near (number 17)")
        self.assertEqual(str(DvdeccError(17, 3)), "status 17, which this module doesn't know (number 3)")
        for status in Status:
            self.assertIn(status.name, str(DvdeccError(status)))
        noise = bytes(vectors.counted(182, 7, 1))
        # (a pool that can't read an error of its own waits for ever: the processes that are left then end with this one)
        with multiprocessing.Pool(2) as pool:
            result = pool.map_async(dvdecc.row_decode, [noise, noise])
            with self.assertRaises(DvdeccError) as raised:
                result.get(timeout=60)
        self.assertEqual(raised.exception.status, Status.UNCORRECTABLE)

    def test_names(self):
        public = {name for name in vars(dvdecc) if name[0] != "_" and not isinstance(getattr(dvdecc, name), type(os))}
        imported = {"annotations", "TYPE_CHECKING", "Any", "Callable", "Iterable", "NamedTuple", "Optional", "Union"}
        self.assertEqual(sorted(public - imported), dvdecc.__all__)

    def imported(self, library, folder=None):
        """What an import of the module prints, by a library or without one."""
        environment = {**os.environ, "DVDECC_LIBRARY": library}
        path = folder or os.path.dirname(os.path.dirname(os.path.abspath(dvdecc.__file__)))
        code = "import dvdecc; print(dvdecc._library._name)"
        return subprocess.run([sys.executable, "-c", code], cwd=path, env=environment, capture_output=True, text=True)

    def test_where_the_library_is(self):
        right = dvdecc._library._name
        with tempfile.TemporaryDirectory() as folder:
            shutil.copytree(os.path.dirname(os.path.abspath(dvdecc.__file__)), os.path.join(folder, "dvdecc"))
            beside = os.path.join(folder, "dvdecc", "libdvdecc.so.0")
            if not os.path.exists(beside):
                os.symlink(os.path.abspath(right), beside)
            self.assertEqual(self.imported("", folder).stdout.strip(), beside)
            self.assertEqual(self.imported(right, folder).stdout.strip(), right)
            missing = self.imported(os.path.join(folder, "none.so"), folder)
            self.assertIn("ImportError: the C library isn't found", missing.stderr)
            self.assertIn("none.so", missing.stderr)
        other = self.imported("libc.so.6")
        self.assertIn("ImportError: libc.so.6 isn't the library of this module: it has no dvdecc_edc", other.stderr)

    def test_pages(self):
        page = os.path.join(os.path.dirname(os.path.abspath(__file__)), "README.md")
        self.assertEqual(doctest.testfile(page, module_relative=False).failed, 0)

    def test_any_length(self):
        for size, r in ((2, 1), (6, 2), (204, 16), (32, 4), (255, 32), (255, 1), (40, 31)):
            message = vectors.counted(size - r, 5, 3)
            sent = dvdecc.rs_parity(bytes(message) + bytes(r), r)
            self.assertEqual(list(sent), message + vectors.parity(message, r))
            damaged = bytearray(sent)
            for k in range(r // 2):
                damaged[size - 1 - k] ^= 0x11
            lost = [0] * (r % 2)
            self.assertEqual(dvdecc.rs_decode(damaged, r, lost), (sent, r // 2, r % 2))
        self.refused(Status.BAD_LENGTH, dvdecc.rs_parity, bytes(32), 32)
        self.refused(Status.BAD_LENGTH, dvdecc.rs_parity, bytes(256), 2)
        self.refused(Status.BAD_LENGTH, dvdecc.rs_decode, bytes(10), 0)

    def test_blocks(self):
        block = vectors.block()
        rows = dvdecc.block_parity(b"".join(bytes(row) for row in block))
        self.assertEqual(list(rows), sum(block, []))
        self.assertTrue(dvdecc.block_is_codeword(rows))
        self.assertFalse(dvdecc.block_is_codeword(rows[:-1] + bytes([rows[-1] ^ 1])))
        capture = recorded(rows)
        for m in range(16):
            capture[205 * m + 182 : 205 * m + 205] = bytes([255] * 23)
        self.assertEqual(dvdecc.two_pass(capture), (rows, 0, 16))
        capture[205 * 16 + 182 : 205 * 17] = bytes([255] * 23)
        self.assertEqual(self.refused(Status.ROWS, dvdecc.two_pass, capture), 17)

    def test_sectors_of_a_block(self):
        sent = [bytes(vectors.counted(2048, 13, f)) for f in range(16)]
        frames = [bytes(vectors.frame(0x30000 + f, [0] * 6, list(sent[f]))) for f in range(16)]
        capture = framed(frames)
        self.assertEqual(dvdecc.read_block(capture, 0x30000), (sent, 0, 0))
        self.assertEqual(dvdecc.salvage_block(capture, 0x30000), (sent, [True] * 16))
        self.assertEqual(self.refused(Status.ID, dvdecc.read_block, capture, 0x30010), 0)
        self.assertEqual(dvdecc.salvage_block(capture, 0x30010), ([bytes(2048)] * 16, [False] * 16))
        for m in [*range(12), *range(13, 18)]:
            capture[205 * m + 182 : 205 * m + 205] = bytes([255] * 23)
        self.assertEqual(self.refused(Status.ROWS, dvdecc.read_block, capture, 0x30000), 17)
        self.assertEqual(dvdecc.salvage_block(capture, 0x30000), ([bytes(2048)] * 2 + sent[2:], [False] * 2 + [True] * 14))
        frames[5] = frames[5][:2063] + bytes([frames[5][2063] ^ 1])
        self.assertEqual(self.refused(Status.EDC, dvdecc.read_block, framed(frames), 0x30000), 5)
        rules = [Rule.FIRST_160] + [Rule.OFF] * 15
        capture = framed([dvdecc.make_frame(0x2F000 + f, sent[f], rule=rules[f]) for f in range(16)])
        capture[100] ^= 1
        self.assertEqual(dvdecc.read_block(capture, 0x2F000, Rule.FIRST_160), (sent, 1, 0))
        for call in dvdecc.read_block, dvdecc.salvage_block:
            self.assertIsNone(self.refused(Status.BAD_RULE, call, capture, 0x2F000, Rule.OFF))
            self.assertIsNone(self.refused(Status.BAD_ID, call, capture, 0xFFFFF1))
            self.assertRaises(ValueError, call, bytes(42639), 0x2F000)

    def test_frames(self):
        main_data = bytes(vectors.counted(2048, 13, 6))
        frame = dvdecc.make_frame(0x30010, main_data, bytes([1, 2, 3, 4, 5, 6]))
        self.assertEqual(list(frame), vectors.frame(0x30010, [1, 2, 3, 4, 5, 6], list(main_data)))
        self.assertEqual(dvdecc.read_frame(frame, 0x30010), main_data)
        self.assertEqual(self.refused(Status.ID, dvdecc.read_frame, frame, 0x30011), 0x30010)
        self.assertEqual(dvdecc.scramble(0x30010, main_data), frame[12:2060])
        self.assertEqual(dvdecc.scramble(0x30010, main_data, Rule.OFF), main_data)
        self.refused(Status.BAD_RULE, dvdecc.scramble, 0, main_data, 3)

    def test_sectors(self):
        sector = dvdecc.cd_make(123456, bytes(vectors.counted(2048, 7, 0)))
        self.assertEqual(list(sector), vectors.cd_sector(123456, vectors.counted(2048, 7, 0)))
        dvdecc.cd_check(sector, 123456)
        damaged = bytearray(sector)
        damaged[50] ^= 1
        self.assertEqual(self.refused(Status.CD_PARITY, dvdecc.cd_check, damaged, 123456), 38)
        self.assertEqual(dvdecc.cd_repair(damaged, 123456), (sector, 1))
        self.refused(Status.BAD_ADDRESS, dvdecc.cd_make, 450000, bytes(2048))


if __name__ == "__main__":
    unittest.main()
