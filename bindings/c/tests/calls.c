/* Each call once with bytes that other means give (vectors.h), with damage at its bound and one beyond, and with numbers
 * out of range. Prints what differs, and 'N passed, M failed'. */
#include <dvdecc.h>
#include <stdio.h>
#include <string.h>

#include "vectors.h"

static int passed, failed;

static void holds(bool is, const char *what) {
    if (is) {
        passed++;
    } else {
        failed++;
        printf("FAILED: %s\n", what);
    }
}

static void count(uint8_t *bytes, size_t size, unsigned step, unsigned start) {
    for (size_t k = 0; k < size; k++) {
        bytes[k] = (uint8_t)(step * k + start + k / 256);
    }
}

/* FNV-1a, as vectors.py has it. */
static uint64_t digest(const uint8_t *bytes, size_t size) {
    uint64_t number = 0xCBF29CE484222325u;
    for (size_t k = 0; k < size; k++) {
        number = (number ^ bytes[k]) * 0x100000001B3u;
    }
    return number;
}

static void checks(void) {
    uint8_t bytes[2064], edc[4], ied[2];
    count(bytes, sizeof bytes, 3, 8);
    dvdecc_edc(bytes, 2060, edc);
    holds(memcmp(edc, edc_of_counted, 4) == 0, "the EDC of 2,060 bytes");
    dvdecc_cd_edc(bytes, 2064, edc);
    holds(memcmp(edc, cd_edc_of_counted, 4) == 0, "the CD-ROM EDC of 2,064 bytes");
    dvdecc_edc(bytes, 0, edc);
    holds(memcmp(edc, "\0\0\0\0", 4) == 0, "the EDC of no byte");
    dvdecc_ied(0x030010, ied);
    holds(memcmp(ied, ied_of_030010, 2) == 0, "the IED of 00030010");
}

static void rows(void) {
    uint8_t row[182], right[182], damaged[182], lost[182] = {0};
    struct dvdecc_correction fix = {77, 78};
    count(row, sizeof row, 5, 3);
    dvdecc_row_parity(row);
    holds(memcmp(row + 172, row_parity, 10) == 0, "the parity of a row");
    holds(dvdecc_row_is_codeword(row), "a row with its parity is a codeword");
    memcpy(right, row, sizeof row);
    for (unsigned k = 0; k < 4; k++) {
        row[7 * k] ^= (uint8_t)(k + 1);
    }
    row[180] ^= 1, lost[180] = 200, lost[181] = 1; /* one lost byte is right by chance */
    holds(!dvdecc_row_is_codeword(row), "a damaged row is none");
    memcpy(damaged, row, sizeof row);
    holds(dvdecc_row_decode(row, lost, &fix) == DVDECC_OK, "four errors and two lost bytes");
    holds(memcmp(row, right, sizeof row) == 0 && fix.errors == 4 && fix.erasures == 2, "the row is as it was");
    memcpy(row, damaged, sizeof row);
    lost[100] = 1;
    fix.errors = 77, fix.erasures = 78;
    holds(dvdecc_row_decode(row, lost, &fix) == DVDECC_UNCORRECTABLE, "one lost byte more");
    holds(memcmp(row, damaged, sizeof row) == 0 && fix.errors == 77 && fix.erasures == 78, "a refusal changes nothing");
}

static void columns(void) {
    uint8_t column[208], right[208], lost[208] = {0};
    struct dvdecc_correction fix;
    count(column, sizeof column, 9, 1);
    dvdecc_column_parity(column);
    holds(memcmp(column + 192, column_parity, 16) == 0, "the parity of a column");
    holds(dvdecc_column_is_codeword(column), "a column with its parity is a codeword");
    memcpy(right, column, sizeof column);
    for (unsigned k = 0; k < 8; k++) {
        column[25 * k] ^= 0xFF;
    }
    holds(dvdecc_column_decode(column, lost, &fix) == DVDECC_OK && fix.errors == 8, "eight errors in a column");
    holds(memcmp(column, right, sizeof column) == 0, "the column is as it was");
    for (unsigned k = 0; k < 17; k++) {
        lost[k] = 1;
    }
    holds(dvdecc_column_decode(column, lost, &fix) == DVDECC_UNCORRECTABLE, "17 lost bytes in a column");
}

static void lists(void) {
    uint8_t many[5][182], right[5][182], lost[5][182] = {{0}};
    struct dvdecc_answer answers[6];
    for (unsigned i = 0; i < 5; i++) {
        count(many[i], 182, 3, i);
    }
    dvdecc_rows_parity(many, 5);
    memcpy(right, many, sizeof many);
    many[1][5] ^= 9, many[3][0] = 7, lost[3][0] = 1;
    memset(many[4], 0x5A, 90);
    holds(dvdecc_rows_decode(many, 5, lost, 4, answers, 5) == DVDECC_BAD_LENGTH, "fewer marks than rows");
    holds(dvdecc_rows_decode(many, 5, lost, 5, answers, 6) == DVDECC_BAD_LENGTH, "more answers than rows");
    holds(many[1][5] == (right[1][5] ^ 9), "a refused list is as it was");
    holds(dvdecc_rows_decode(many, 5, lost, 5, answers, 5) == DVDECC_OK, "five rows");
    holds(memcmp(many, right, 4 * 182) == 0, "four rows are as they were");
    holds(answers[1].correction.errors == 1 && answers[3].correction.erasures == 1, "what was corrected in each");
    holds(answers[0].status == DVDECC_OK && answers[4].status == DVDECC_UNCORRECTABLE, "the status of each");
}

/* For each number of parity bytes words of several lengths: as many errors as it bears, a lost byte where one more is
 * borne, and one more error. With 10 and 16 of them the row and the column are the same words. */
static void any_lengths(void) {
    int right = 1, refused = 1, same = 1;
    for (uint32_t r = 1; r <= 32; r++) {
        for (size_t n = r + 1; n <= 255; n += n < 40 ? 1 : 43) {
            uint8_t word[255], sent[255], lost[255] = {0};
            struct dvdecc_correction fix = {77, 78};
            count(word, n, 5, 3 + r);
            right &= dvdecc_rs_parity(word, n, r) == DVDECC_OK;
            memcpy(sent, word, n);
            for (size_t k = 0; k < r / 2; k++) {
                word[n - 1 - 2 * k % n] ^= (uint8_t)(k + 1);
            }
            lost[n - 2] = r % 2;
            right &= dvdecc_rs_decode(word, n, lost, n, r, &fix) == DVDECC_OK && memcmp(word, sent, n) == 0;
            right &= fix.errors == r / 2 && fix.erasures == r % 2;
            memset(lost, 1, n);
            word[0] ^= 1;
            refused &= dvdecc_rs_decode(word, n, lost, n, r, &fix) == DVDECC_UNCORRECTABLE && word[0] == (sent[0] ^ 1);
            refused &= dvdecc_rs_decode(word, n, lost, n - 1, r, &fix) == DVDECC_BAD_LENGTH && fix.errors == r / 2;
        }
    }
    holds(right, "words of all numbers of parity bytes are decoded");
    holds(refused, "words with all bytes lost are refused");
    for (unsigned turn = 0; turn < 2000; turn++) {
        uint8_t row[182], word[182], lost[182] = {0};
        struct dvdecc_correction fix = {0, 0}, other = {0, 0};
        count(row, 182, turn, 1);
        dvdecc_row_parity(row);
        for (unsigned k = 0; k < turn % 8; k++) {
            row[(turn * 31 + k * 37) % 182] ^= (uint8_t)(turn + k + 1);
            lost[(turn + k * 11) % 182] = (uint8_t)(turn % 3);
        }
        memcpy(word, row, 182);
        same &= dvdecc_row_decode(row, lost, &fix) == dvdecc_rs_decode(word, 182, lost, 182, 10, &other);
        same &= memcmp(row, word, 182) == 0 && fix.errors == other.errors && fix.erasures == other.erasures;
    }
    holds(same, "a row is decoded as a word of 182 bytes");
    uint8_t word[256] = {0};
    holds(dvdecc_rs_parity(word, 10, 0) == DVDECC_BAD_LENGTH, "no parity byte");
    holds(dvdecc_rs_parity(word, 100, 33) == DVDECC_BAD_LENGTH, "33 parity bytes");
    holds(dvdecc_rs_parity(word, 5, 5) == DVDECC_BAD_LENGTH, "parity alone");
    holds(dvdecc_rs_parity(word, 256, 5) == DVDECC_BAD_LENGTH, "256 bytes");
}

static uint8_t capture[42640], block[208][182], found[208][182];

/* The capture of a block with no marks: after each twelve rows a row of outer parity. */
static void record(void) {
    memset(capture, 0, sizeof capture);
    for (unsigned m = 0; m < 208; m++) {
        unsigned i = (m + 1) % 13 == 0 ? 191 + (m + 1) / 13 : m - m / 13;
        memcpy(capture + 205 * m, block[i], 182);
    }
}

/* The block is a codeword, and isn't where rows alone or columns alone are. */
static void whole_blocks(void) {
    /* (arrays of both kinds are taken, with no cast) */
    static const uint8_t zeros[208][182] = {{0}};
    uint8_t column[208], kept[182], last = block[207][181];
    holds(dvdecc_block_is_codeword(block), "a block with its parity is a codeword");
    block[207][181] ^= 1;
    holds(!dvdecc_block_is_codeword(block), "one with a wrong last byte is none");
    block[207][181] = last;
    memcpy(kept, block[40], 182);
    block[40][9] ^= 1;
    dvdecc_row_parity(block[40]);
    holds(!dvdecc_block_is_codeword(block), "nor is one of which only the rows are codewords");
    memcpy(block[40], kept, 182);
    for (unsigned i = 0; i < 208; i++) {
        column[i] = block[i][9];
    }
    column[40] ^= 1;
    dvdecc_column_parity(column);
    for (unsigned i = 0; i < 208; i++) {
        uint8_t byte = block[i][9];
        block[i][9] = column[i];
        column[i] = byte;
    }
    holds(!dvdecc_block_is_codeword(block), "nor is one of which only the columns are");
    for (unsigned i = 0; i < 208; i++) {
        block[i][9] = column[i];
    }
    holds(dvdecc_block_is_codeword(block), "and the block as it was is one");
    holds(dvdecc_block_is_codeword(zeros), "and so is one of zeros");
}

static void blocks(void) {
    struct dvdecc_report report = {1, 2, 3};
    for (unsigned i = 0; i < 208; i++) {
        count(block[i], 182, 7, 11 * i);
    }
    dvdecc_block_parity(block);
    holds(digest(block[0], sizeof block) == block_digest, "the parity of a block");
    whole_blocks();
    record();
    for (unsigned m = 0; m < 16; m++) {
        memset(capture + 205 * 13 * m, 0xA5, 182);
        memset(capture + 205 * 13 * m + 182, 0xFF, 23);
    }
    for (unsigned m = 5; m < 208; m += 13) {
        capture[205 * m + m % 182] ^= 0x10;
    }
    holds(dvdecc_two_pass(capture, found, &report) == DVDECC_OK, "sixteen lost rows and sixteen errors");
    holds(memcmp(found, block, sizeof block) == 0, "the block is as it was");
    holds(report.failed_rows == 16 && report.corrected > 2000 && report.number == 0, "what was corrected in a block");
    memset(capture + 205 + 182, 0xFF, 23);
    memset(found, 1, sizeof found);
    holds(dvdecc_two_pass(capture, found, &report) == DVDECC_ROWS, "one lost row more");
    holds(report.number == 17 && report.corrected == 0 && found[207][181] == 1, "a refused block is as it was");
    record();
    capture[0] ^= 1, capture[205 * 12 + 181] ^= 1;
    holds(dvdecc_two_pass(capture, found, &report) == DVDECC_OK && report.corrected == 2, "two errors");
}

static uint8_t sent[16][2048], got[16][2048];
static struct dvdecc_report fixed;

/* Makes data frame f of the block: row 12 f + q has its bytes from 172 q on. `spoilt` is a place that is made wrong. */
static void lay(unsigned f, uint32_t id, uint32_t rule, unsigned spoilt) {
    uint8_t frame[2065];
    const uint8_t cpr[6] = {1, 2, 3, 4, 5, 6};
    dvdecc_make_frame(id, cpr, rule, sent[f], frame);
    frame[spoilt] ^= 1;
    for (unsigned q = 0; q < 12; q++) {
        memcpy(block[12 * f + q], frame + 172 * q, 172);
    }
}

enum { NONE = 2064 }; /* no place of a frame */

/* Makes the sixteen frames from an ID word on, and records their block. */
static void record_frames(uint32_t id, uint32_t rule) {
    for (unsigned f = 0; f < 16; f++) {
        count(sent[f], 2048, 13, 7 * f + 1);
        lay(f, id + f, f == 0 || rule != DVDECC_FIRST_160 ? rule : (uint32_t)DVDECC_OFF, NONE);
    }
    dvdecc_block_parity(block);
    record();
}

/* Makes one frame of the recorded block anew. */
static void replace(unsigned f, uint32_t id, unsigned spoilt) {
    lay(f, id, DVDECC_WHOLE, spoilt);
    dvdecc_block_parity(block);
    record();
}

/* Loses the recorded rows from one on. */
static void lose(unsigned first, unsigned end) {
    for (unsigned m = first; m < end; m++) {
        memset(capture + 205 * m, 0xA5, 182);
        memset(capture + 205 * m + 182, 0xFF, 23);
    }
}

static bool is_filled(const uint8_t *bytes, size_t size, uint8_t byte) {
    size_t k = 0;
    while (k < size && bytes[k] == byte) {
        k++;
    }
    return k == size;
}

/* Whether the block is read: all sectors are those that were sent. */
static bool reads(uint32_t id, uint32_t rule) {
    memset(got, 0x77, sizeof got);
    uint32_t status = dvdecc_read_block(capture, id, rule, got, &fixed);
    return status == DVDECC_OK && memcmp(got, sent, sizeof got) == 0 && fixed.number == 0;
}

/* Whether the block is refused with a status and a number, and the sectors are as they were. */
static bool refuses(uint32_t id, uint32_t rule, uint32_t status, uint32_t number) {
    memset(got, 0x77, sizeof got);
    fixed.corrected = 77, fixed.failed_rows = 78, fixed.number = 79;
    bool is_refused = dvdecc_read_block(capture, id, rule, got, &fixed) == status && fixed.number == number;
    return is_refused && is_filled(got[0], sizeof got, 0x77);
}

/* Whether all frames are salvaged but those of a set, of which the sectors are zeros. */
static bool salvages_but(uint32_t without, uint32_t id, uint32_t rule) {
    uint8_t saved[16];
    memset(got, 0x77, sizeof got);
    memset(saved, 0x77, sizeof saved);
    bool is = dvdecc_salvage_block(capture, id, rule, got, saved) == DVDECC_OK;
    for (unsigned f = 0; f < 16; f++) {
        bool is_lost = (without >> f & 1) != 0;
        is = is && saved[f] == !is_lost;
        is = is && (is_lost ? is_filled(got[f], 2048, 0) : memcmp(got[f], sent[f], 2048) == 0);
    }
    return is;
}

static void right_frames(void) {
    record_frames(0x030000, DVDECC_WHOLE);
    holds(reads(0x030000, DVDECC_WHOLE) && fixed.corrected == 0 && fixed.failed_rows == 0, "sixteen frames");
    holds(salvages_but(0, 0x030000, DVDECC_WHOLE), "sixteen frames salvaged");
    holds(reads(0xF2030000u, DVDECC_WHOLE), "the bits of an ID word that don't count");
    holds(salvages_but(0, 0xF2030000u, DVDECC_WHOLE), "they don't count where frames are salvaged");
    for (unsigned m = 0; m < 16; m++) {
        lose(13 * m, 13 * m + 1);
        capture[205 * (13 * m + 5) + m] ^= 0x10;
    }
    holds(reads(0x030000, DVDECC_WHOLE) && fixed.failed_rows == 16, "sixteen lost rows, one of each frame");
    holds(fixed.corrected > 2000, "what was corrected in a block of frames");
    holds(salvages_but(0, 0x030000, DVDECC_WHOLE), "frames of a block that two passes find");
    record_frames(0xF2030000u, DVDECC_WHOLE);
    holds(reads(0x030000, DVDECC_WHOLE), "the bits of a frame that don't count");
    record_frames(0x0D030010, DVDECC_WHOLE);
    holds(reads(0x0D030010, DVDECC_WHOLE), "frames of another area and layer");
    record_frames(0x02F000, DVDECC_FIRST_160);
    holds(reads(0x02F000, DVDECC_FIRST_160), "frames by the rule of the Reference Code Zone");
    holds(salvages_but(0, 0x02F000, DVDECC_FIRST_160), "they are salvaged");
    holds(refuses(0x02F000, DVDECC_WHOLE, DVDECC_EDC, 0), "they aren't those of the Data Zone");
    holds(salvages_but(0xFFFF, 0x02F000, DVDECC_WHOLE), "and none is salvaged as such");
    record_frames(0xFFFFF0, DVDECC_WHOLE);
    holds(reads(0xFFFFF0, DVDECC_WHOLE) && salvages_but(0, 0xFFFFF0, DVDECC_WHOLE), "the last block of 24 bits");
}

/* A sector of zeros is told from one that is lost. */
static void frames_of_zeros(void) {
    record_frames(0x030000, DVDECC_WHOLE);
    memset(sent[3], 0, 2048);
    memset(sent[4], 0, 2048);
    replace(3, 0x030003, NONE);
    replace(4, 0x030004, 2063);
    holds(salvages_but(1 << 4, 0x030000, DVDECC_WHOLE), "a frame of zeros is salvaged, and another is lost");
    lose(0, 12);
    lose(13, 18);
    holds(salvages_but(3 | 1 << 4, 0x030000, DVDECC_WHOLE), "also where two passes refuse the block");
}

static void wrong_frames(void) {
    record_frames(0x030000, DVDECC_WHOLE);
    holds(refuses(0x030010, DVDECC_WHOLE, DVDECC_ID, 0), "another block");
    holds(salvages_but(0xFFFF, 0x030010, DVDECC_WHOLE), "nothing of another block is salvaged");
    holds(refuses(0x01030000, DVDECC_WHOLE, DVDECC_ID, 0), "another layer");
    holds(refuses(0x04030000, DVDECC_WHOLE, DVDECC_ID, 0), "another area");
    holds(refuses(0x08030000, DVDECC_WHOLE, DVDECC_ID, 0), "one more area");
    replace(5, 0x030005, 2063);
    holds(refuses(0x030000, DVDECC_WHOLE, DVDECC_EDC, 5), "a wrong EDC in frame 5");
    holds(salvages_but(1 << 5, 0x030000, DVDECC_WHOLE), "fifteen frames are salvaged");
    replace(9, 0x030008, NONE);
    holds(refuses(0x030000, DVDECC_WHOLE, DVDECC_EDC, 5), "a later frame of another place");
    holds(salvages_but(1 << 5 | 1 << 9, 0x030000, DVDECC_WHOLE), "fourteen frames are salvaged");
    replace(5, 0x030005, NONE);
    holds(refuses(0x030000, DVDECC_WHOLE, DVDECC_ID, 9), "frame 9 of another place");
    replace(7, 0x030006, 4);
    holds(refuses(0x030000, DVDECC_WHOLE, DVDECC_IED, 7), "a wrong IED in a frame of another place");
    lose(0, 12);
    holds(refuses(0x030000, DVDECC_WHOLE, DVDECC_IED, 7), "twelve lost rows and a wrong IED");
    holds(salvages_but(1 << 7 | 1 << 9, 0x030000, DVDECC_WHOLE), "the frame of the twelve lost rows is salvaged");
}

static void lost_frames(void) {
    record_frames(0x030000, DVDECC_WHOLE);
    lose(0, 12);
    lose(13, 18);
    holds(refuses(0x030000, DVDECC_WHOLE, DVDECC_ROWS, 17), "17 lost rows of two frames");
    holds(salvages_but(3, 0x030000, DVDECC_WHOLE), "the other fourteen are salvaged");
    lose(12, 13);
    holds(salvages_but(3, 0x030000, DVDECC_WHOLE), "a lost row of outer parity is none of a frame");
    capture[205 * 30] ^= 1;
    memset(capture + 205 * 31, 0xA5, 10);
    memcpy(capture + 205 * 31 + 182, "\xFF\xC0", 2);
    holds(salvages_but(3, 0x030000, DVDECC_WHOLE), "an error in a row, and ten lost bytes in another");
    memcpy(capture + 205 * 40 + 182, "\xFF\xE0", 2);
    holds(salvages_but(3 | 1 << 3, 0x030000, DVDECC_WHOLE), "eleven lost bytes that are right by chance");
    replace(2, 0x030002, 2000);
    lose(195, 208);
    lose(182, 187);
    holds(refuses(0x030000, DVDECC_WHOLE, DVDECC_ROWS, 18), "18 lost rows and a wrong EDC");
    holds(salvages_but(1 << 2 | 1 << 14 | 1 << 15, 0x030000, DVDECC_WHOLE), "thirteen frames are salvaged");
    lose(0, 208);
    holds(refuses(0x030000, DVDECC_WHOLE, DVDECC_ROWS, 208), "all rows are lost");
    holds(salvages_but(0xFFFF, 0x030000, DVDECC_WHOLE), "nothing is salvaged");
}

/* Whether both calls refuse numbers, and all is as it was. */
static bool both_refuse(uint32_t id, uint32_t rule, uint32_t status) {
    uint8_t saved[16];
    memset(saved, 99, sizeof saved);
    bool is_refused = refuses(id, rule, status, 79) && fixed.corrected == 77 && fixed.failed_rows == 78;
    is_refused = is_refused && dvdecc_salvage_block(capture, id, rule, got, saved) == status;
    return is_refused && is_filled(saved, sizeof saved, 99) && is_filled(got[0], sizeof got, 0x77);
}

static void block_numbers(void) {
    record_frames(0xFFFFF0, DVDECC_WHOLE);
    holds(both_refuse(0xFFFFF0, DVDECC_OFF, DVDECC_BAD_RULE), "a block by the rule of none");
    holds(both_refuse(0xFFFFF0, 3, DVDECC_BAD_RULE), "a block by rule 3");
    holds(both_refuse(0xFFFFF1, 4000000000u, DVDECC_BAD_RULE), "rule 4000000000, and a block beyond 24 bits");
    holds(both_refuse(0xFFFFF1, DVDECC_WHOLE, DVDECC_BAD_ID), "a block beyond 24 bits");
    holds(both_refuse(0xFFFFFFFFu, DVDECC_FIRST_160, DVDECC_BAD_ID), "the greatest ID word");
}

static void frames(void) {
    static uint8_t main_data[2048], frame[2064], read[2048];
    const uint8_t cpr[6] = {1, 2, 3, 4, 5, 6};
    uint32_t other = 99;
    count(main_data, sizeof main_data, 13, 6);
    holds(dvdecc_make_frame(0x030010, cpr, DVDECC_WHOLE, main_data, frame) == DVDECC_OK, "a frame is made");
    holds(digest(frame, sizeof frame) == frame_digest, "the frame of 030010");
    holds(dvdecc_read_frame(frame, 0x030010, DVDECC_WHOLE, read, &other) == DVDECC_OK, "the frame is read");
    holds(memcmp(read, main_data, sizeof read) == 0 && other == 99, "its Main Data");
    holds(dvdecc_read_frame(frame, 0x030011, DVDECC_WHOLE, read, &other) == DVDECC_ID && other == 0x030010, "another place");
    frame[2063] ^= 1;
    holds(dvdecc_read_frame(frame, 0x030010, DVDECC_WHOLE, read, &other) == DVDECC_EDC, "a wrong EDC");
    frame[4] ^= 1;
    holds(dvdecc_read_frame(frame, 0x030010, DVDECC_WHOLE, read, &other) == DVDECC_IED, "a wrong IED");
    holds(dvdecc_read_frame(frame, 0x030010, 3, read, &other) == DVDECC_BAD_RULE, "rule 3");
    holds(dvdecc_make_frame(0x030010, cpr, 4000000000u, main_data, frame) == DVDECC_BAD_RULE, "rule 4000000000");
    memcpy(read, main_data, sizeof read);
    holds(dvdecc_scramble(0x030010, DVDECC_FIRST_160, read) == DVDECC_OK, "160 bytes scrambled");
    holds(memcmp(read, frame + 12, 160) == 0 && memcmp(read + 160, main_data + 160, 1888) == 0, "they are those of the frame");
    holds(dvdecc_scramble(0x030010, DVDECC_OFF, read) == DVDECC_OK, "none scrambled");
    holds(dvdecc_scramble(0x030010, 3, read) == DVDECC_BAD_RULE, "scrambled by rule 3");
}

static void sectors(void) {
    static uint8_t user[2048], sector[2352], right[2352];
    uint32_t number = 99;
    count(user, sizeof user, 7, 0);
    holds(dvdecc_cd_make(123456, user, sector) == DVDECC_OK, "a CD-ROM sector is made");
    holds(digest(sector, sizeof sector) == cd_digest, "the sector of 123,456");
    holds(dvdecc_cd_check(sector, 123456, &number) == DVDECC_OK && number == 99, "it is right");
    holds(dvdecc_cd_check(sector, 123457, &number) == DVDECC_CD_ADDRESS && number == 0x272606, "another address");
    memcpy(right, sector, sizeof sector);
    sector[0] = 9, sector[50] ^= 1;
    holds(dvdecc_cd_check(sector, 123456, &number) == DVDECC_CD_PARITY && number == 38, "a wrong byte");
    holds(dvdecc_cd_repair(sector, 123456, &number) == DVDECC_OK && number == 1, "it is repaired");
    holds(memcmp(sector, right, sizeof sector) == 0, "to what it was");
    memset(sector + 100, 0, 900);
    memcpy(right, sector, sizeof sector);
    holds(dvdecc_cd_repair(sector, 123456, &number) == DVDECC_CD_PARITY, "too much damage");
    holds(memcmp(sector, right, sizeof sector) == 0, "is left as it was");
    holds(dvdecc_cd_make(450000, user, sector) == DVDECC_BAD_ADDRESS, "address 450,000 made");
    holds(dvdecc_cd_check(sector, 450000, &number) == DVDECC_BAD_ADDRESS, "address 450,000 tested");
    holds(dvdecc_cd_repair(sector, 4000000000u, &number) == DVDECC_BAD_ADDRESS, "address 4,000,000,000 repaired");
}

static void version(void) {
    char numbers[40];
    sprintf(numbers, "%d.%d.%d", DVDECC_VERSION_MAJOR, DVDECC_VERSION_MINOR, DVDECC_VERSION_PATCH);
    holds(strcmp(numbers, DVDECC_VERSION) == 0, "the numbers of the version are its text");
    holds(DVDECC_VERSION_NUMBER >= 10100, "the number of the version");
}

int main(void) {
    version();
    checks();
    rows();
    columns();
    lists();
    any_lengths();
    blocks();
    right_frames();
    frames_of_zeros();
    wrong_frames();
    lost_frames();
    block_numbers();
    frames();
    sectors();
    printf("%d passed, %d failed\n", passed, failed);
    return failed != 0;
}
