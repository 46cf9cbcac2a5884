/* SPDX-License-Identifier: MIT OR Apache-2.0
 *
 * dvdecc.h: the codes, frames and blocks of DVDs (ECMA-267) and the sectors of CD-ROMs (ECMA-130), proved.
 *
 * The functions of this header are written in Rattle, and a proof says for all bytes that each does what is promised
 * here. What is proved, and what isn't, is in docs/LIBRARY.md. No proof covers the caller. The promises hold where:
 *
 *   - each pointer leads to as many bytes as its declaration says, and isn't NULL, also where a length is 0;
 *   - no two buffers of a call overlap where the call writes one of them;
 *   - no byte of a buffer changes during the call, other than by the call;
 *   - there are 96 KB of stack left, and malloc and free are those of one allocator;
 *   - the call doesn't come from a signal handler, nor from a forked child of a process with threads.
 *
 * Nothing else is asked of a caller: a number that is out of range has a status. There is nothing to set up, and no
 * state is kept between calls, so several threads may call at the same time, each with buffers of its own.
 *
 * A call with a status does all that it promises, and answers DVDECC_OK, or it leaves each of the caller's buffers as
 * it was. Only `number`, `found` and a report are written then, where the call says so.
 *
 * A row of a block is 182 bytes, of which the last 10 are its inner parity. A column is 208 bytes, of which the last 16
 * are its outer parity. Both are codewords of Reed-Solomon codes over the field of 256 elements with x^8 + x^4 + x^3 +
 * x^2 + 1: the first byte is the coefficient of the highest power, and the roots are alpha^0, alpha^1 and so on. A codeword
 * is near a word that has s lost places and differs from it in e others where 2e + s is at most the number of parity
 * bytes. At most one codeword is near. A word with more damage than that may be near another codeword than the one that
 * was sent, and is then answered with it.
 *
 * An ID word is the four bytes of a data frame's ID as one number, the first byte highest. Bits 27 and 26 are the area: 0
 * the Data Zone, 1 the lead-in, 2 the lead-out, 3 the middle. Bit 24 is the layer, and bits 23 to 0 are the sector number.
 * So sector 030000 of layer 0 is 0x00030000, sector FCFFF0 of layer 1 is 0x01FCFFF0, and sector 02F000 of the lead-in,
 * where the Reference Code Zone begins, is 0x0402F000.
 */
#ifndef DVDECC_H
#define DVDECC_H

#include <stdbool.h>
#include <stddef.h>
#include <stdint.h>

/* The version of this header, and of the library that it comes with. */
#define DVDECC_VERSION_MAJOR 1
#define DVDECC_VERSION_MINOR 1
#define DVDECC_VERSION_PATCH 0
#define DVDECC_VERSION_NUMBER (10000 * DVDECC_VERSION_MAJOR + 100 * DVDECC_VERSION_MINOR + DVDECC_VERSION_PATCH)
#define DVDECC_VERSION "1.1.0"

/* Of a call whose result depends on the bytes that it is given: whoever doesn't look at it has a bug. */
#if defined(__GNUC__)
#define DVDECC_RESULT __attribute__((__warn_unused_result__))
#else
#define DVDECC_RESULT
#endif

#ifdef __cplusplus
extern "C" {
#endif

/* Rows of 182 bytes, one after the other, that a call only reads: `const uint8_t (*)[182]`. Before C23, ISO C doesn't let a
 * caller give `uint8_t rows[208][182]` for that, which is what he has; there it is a pointer that takes both. */
#if defined(__cplusplus) || defined(__clang__) || (defined(__STDC_VERSION__) && __STDC_VERSION__ > 201710L)
typedef const uint8_t (*dvdecc_const_rows)[182];
#else
typedef const void *dvdecc_const_rows;
#endif

/* What a call answers. No number is ever given another meaning. */
enum dvdecc_status {
    DVDECC_OK = 0,
    DVDECC_UNCORRECTABLE = 1, /* no codeword is near the word */
    DVDECC_NO_MEMORY = 2,     /* malloc gave none, at any time but where a number is out of range; all is as it was */
    DVDECC_BAD_RULE = 3,      /* the call has no scrambling rule of this number */
    DVDECC_BAD_ADDRESS = 4,   /* the address of a CD-ROM sector is 450,000 or more */
    DVDECC_BAD_LENGTH = 5,    /* the lengths of the lists don't fit */
    DVDECC_ROWS = 6,          /* more than 16 rows of a block have no codeword near */
    DVDECC_COLUMN = 7,        /* a column of the rows' answers has no codeword near */
    DVDECC_ROW = 8,           /* a row of the columns' answers is no codeword */
    DVDECC_IED = 9,           /* a data frame has a wrong IED */
    DVDECC_ID = 10,           /* a data frame names another place */
    DVDECC_EDC = 11,          /* a data frame has a wrong EDC */
    DVDECC_CD_PARITY = 12,    /* a P word or a Q word of a CD-ROM sector is no codeword */
    DVDECC_CD_MODE = 13,      /* a CD-ROM sector has another mode than 1 */
    DVDECC_CD_ADDRESS = 14,   /* a CD-ROM sector has another address */
    DVDECC_CD_EDC = 15,       /* a CD-ROM sector has a wrong EDC */
    DVDECC_BAD_ID = 16        /* no block of a disk begins with this ID word */
};

/* Which Main Data bytes of a data frame are scrambled. */
enum dvdecc_rule {
    DVDECC_WHOLE = 0,    /* all 2,048, as in the Data Zone */
    DVDECC_OFF = 1,      /* none */
    DVDECC_FIRST_160 = 2 /* the first 160, as in the first frame of a block of the Reference Code Zone */
};

/* What the decoding of a word corrected. */
struct dvdecc_correction {
    uint32_t errors;   /* bytes that were corrected and weren't lost */
    uint32_t erasures; /* places that were lost */
};

/* What the decoding of one of many words came to. */
struct dvdecc_answer {
    uint32_t status;                     /* that of the call for one word */
    struct dvdecc_correction correction; /* zeros where no codeword is near */
};

/* What two passes over a captured block came to. */
struct dvdecc_report {
    uint32_t corrected;   /* places where the block differs from what was received; 0 where none was found */
    uint32_t failed_rows; /* rows with no codeword near, at most 16; 0 where no block was found */
    uint32_t number;      /* after DVDECC_ROWS how many rows failed, after another cause which column, row or frame; else 0 */
};

/* ---- the codes that detect errors ---- */

/* Writes the EDC of a list of bytes, the four last bytes of a data frame: that of its first 2,060 bytes before
 * scrambling. It is the remainder of the bits times x^32 by x^32 + x^31 + x^4 + 1, the most significant byte first. */
void dvdecc_edc(const uint8_t *bytes, size_t bytes_count, uint8_t edc[4]);

/* Writes the IED of an ID word: the two bytes with which its four are a codeword of 6 bytes with 2 parity bytes. */
void dvdecc_ied(uint32_t id, uint8_t ied[2]);

/* Writes the EDC of a list of bytes for a CD-ROM sector: that of its first 2,064 bytes. It is the remainder by
 * (x^16 + x^15 + x^2 + 1) (x^16 + x^2 + x + 1), the least significant bit and byte first. */
void dvdecc_cd_edc(const uint8_t *bytes, size_t bytes_count, uint8_t edc[4]);

/* ---- rows and columns ---- */

/* Sets the last 10 bytes so that the row is a codeword. The first 172 stay. */
void dvdecc_row_parity(uint8_t row[182]);

/* Whether the row is a codeword. */
DVDECC_RESULT bool dvdecc_row_is_codeword(const uint8_t row[182]);

/* Sets the row to the codeword near it. A byte is lost where the byte of `lost` at its place isn't 0, and then its value
 * doesn't count. DVDECC_UNCORRECTABLE comes exactly where no codeword is near; then all is as it was. */
DVDECC_RESULT uint32_t dvdecc_row_decode(uint8_t row[182], const uint8_t lost[182],
                                         struct dvdecc_correction *correction);

/* Sets the last 16 bytes so that the column is a codeword. The first 192 stay. */
void dvdecc_column_parity(uint8_t column[208]);

/* Whether the column is a codeword. */
DVDECC_RESULT bool dvdecc_column_is_codeword(const uint8_t column[208]);

/* Sets the column to the codeword near it, as dvdecc_row_decode does a row. */
DVDECC_RESULT uint32_t dvdecc_column_decode(uint8_t column[208], const uint8_t lost[208],
                                            struct dvdecc_correction *correction);

/* Does what dvdecc_row_parity does to each of so many rows, one after the other in memory. */
void dvdecc_rows_parity(uint8_t (*rows)[182], size_t rows_count);

/* Does what dvdecc_row_decode does to each of so many rows, and answers for each. DVDECC_OK says only that this was done.
 * DVDECC_BAD_LENGTH: the three counts aren't one. */
uint32_t dvdecc_rows_decode(uint8_t (*rows)[182], size_t rows_count, dvdecc_const_rows lost, size_t lost_count,
                            struct dvdecc_answer *answers, size_t answers_count);

/* ---- words of any length up to 255, with 1 to 32 parity bytes, over the same field and from alpha^0 on ----
 *
 * These serve each Reed-Solomon code with the field of 11D and the roots from alpha^0 on: rows and columns of DVDs, P and
 * Q words of CD-ROM sectors, 204 and 188 bytes in DVB, and QR codes. Codes with another field, another first root or
 * another step between roots aren't served: CCSDS, PAR2, dvdisaster. */

/* Sets the last `parity` bytes so that the word is a codeword. DVDECC_BAD_LENGTH: `parity` isn't 1 to 32, or the word
 * hasn't more bytes than that, or has more than 255. */
uint32_t dvdecc_rs_parity(uint8_t *word, size_t word_count, uint32_t parity);

/* Sets a word with `parity` parity bytes to the codeword near it, as dvdecc_row_decode does a row. DVDECC_BAD_LENGTH: as
 * for dvdecc_rs_parity, or `lost` hasn't as many bytes as the word. */
DVDECC_RESULT uint32_t dvdecc_rs_decode(uint8_t *word, size_t word_count, const uint8_t *lost, size_t lost_count,
                                        uint32_t parity, struct dvdecc_correction *correction);

/* ---- blocks ---- */

/* Sets the parity of a block: the last 10 bytes of each row, and rows 192 to 207. The first 172 bytes of rows 0 to 191
 * stay: row 12 f + q has the bytes from 172 q on of data frame f. It takes no memory. */
void dvdecc_block_parity(uint8_t rows[208][182]);

/* Whether the block of 208 rows is a codeword of the product code: each of its rows and each of its columns is a codeword. */
DVDECC_RESULT bool dvdecc_block_is_codeword(dvdecc_const_rows rows);

/* Decodes a captured block by two passes: rows first, then columns with the failed rows as erasures, then the test that
 * each row is a codeword.
 *
 * The capture has the rows in the order of RECORDING: after each twelve rows of data one of outer parity, which is row
 * 192 + f after frame f. Each recorded row has its 182 bytes and then 23 bytes of marks: the mark of place j is bit
 * 7 - j % 8 of byte j / 8, and a place whose mark is 1 is lost. The rows that are written are in the order of the BLOCK.
 *
 * After DVDECC_OK the rows are the one block that two passes determine, and the report has `corrected` and
 * `failed_rows`. After DVDECC_ROWS, DVDECC_COLUMN or DVDECC_ROW two passes determine none, and the report has `number`;
 * the rows are as they were. The call takes 150 KB of memory and gives it back. */
DVDECC_RESULT uint32_t dvdecc_two_pass(const uint8_t capture[42640], uint8_t rows[208][182],
                                       struct dvdecc_report *report);

/* Decodes a captured block as dvdecc_two_pass does, and checks its sixteen data frames. Frame f has to have the sector
 * number of `id` plus f, and the area and the layer of `id`; the other bits of `id` don't count. `rule` is that of the
 * first frame. With DVDECC_WHOLE it is that of all sixteen; with DVDECC_FIRST_160 the other fifteen have DVDECC_OFF, as
 * in the blocks of the Reference Code Zone.
 *
 * After DVDECC_OK the sectors are the Main Data of the frames, unscrambled, and the report has `corrected` and
 * `failed_rows`. After a cause the sectors are as they were, and the report has `number`. DVDECC_ROWS, DVDECC_COLUMN
 * and DVDECC_ROW are as for dvdecc_two_pass. DVDECC_IED, DVDECC_ID or DVDECC_EDC is what the first wrong frame lacks
 * first; `number` is then that frame, 0 to 15.
 *
 * DVDECC_BAD_RULE: the rule is neither of the two. Else DVDECC_BAD_ID: the sector number of the last frame would have
 * more than 24 bits. The report is then as it was. The call takes 150 KB of memory and gives it back. */
DVDECC_RESULT uint32_t dvdecc_read_block(const uint8_t capture[42640], uint32_t id, uint32_t rule,
                                         uint8_t sectors[16][2048], struct dvdecc_report *report);

/* Writes what passes its checks of a captured block, also of one that dvdecc_read_block refuses. A frame is salvaged where
 * its IED, its place and its EDC are right in its twelve rows. These are those of the block that two passes determine.
 * Where they determine none, they are the codewords near the twelve rows, and each row has to have one. Nothing else is
 * known of a salvaged sector: wrong bytes may in principle pass these checks too.
 *
 * The sector of a salvaged frame is its Main Data, unscrambled, and that of any other is 2,048 zeros. saved[f] is 1
 * where frame f is salvaged, and 0 where it isn't. DVDECC_OK comes also where none is. `id`, `rule`, DVDECC_BAD_RULE,
 * DVDECC_BAD_ID and the memory are as for dvdecc_read_block. */
DVDECC_RESULT uint32_t dvdecc_salvage_block(const uint8_t capture[42640], uint32_t id, uint32_t rule,
                                            uint8_t sectors[16][2048], uint8_t saved[16]);

/* ---- data frames ---- */

/* Combines Main Data with the scrambling bytes that the ID word selects, as far as the rule says. Done twice, it is
 * undone. DVDECC_BAD_RULE: the rule is none of dvdecc_rule. */
uint32_t dvdecc_scramble(uint32_t id, uint32_t rule, uint8_t main_data[2048]);

/* Writes the data frame of an ID word: ID, IED, six bytes CPR_MAI, Main Data scrambled by the rule, EDC.
 * DVDECC_BAD_RULE: the rule is none of dvdecc_rule. */
uint32_t dvdecc_make_frame(uint32_t id, const uint8_t cpr[6], uint32_t rule, const uint8_t main_data[2048],
                           uint8_t frame[2064]);

/* Checks a data frame, and writes its Main Data unscrambled. The first that it lacks is answered: DVDECC_IED, DVDECC_ID
 * (its area, its layer or its sector number is another than that of `id`; `found` is then its ID word) or DVDECC_EDC.
 * DVDECC_BAD_RULE: the rule is none of dvdecc_rule. */
DVDECC_RESULT uint32_t dvdecc_read_frame(const uint8_t frame[2064], uint32_t id, uint32_t rule, uint8_t main_data[2048],
                                         uint32_t *found);

/* ---- CD-ROM sectors of Mode 1 ---- */

/* Writes the sector of an address: sync, header, mode, user data, EDC, eight zeros, P and Q parity. An address counts
 * frames of which a second has 75. DVDECC_BAD_ADDRESS: it is 450,000 or more. */
uint32_t dvdecc_cd_make(uint32_t address, const uint8_t user[2048], uint8_t sector[2352]);

/* Tests a sector that was read; its first 12 bytes aren't looked at. The first that it lacks is answered:
 * DVDECC_CD_PARITY (`number` is the first word that is no codeword: P words are 0 to 85, Q words 86 to 137),
 * DVDECC_CD_MODE (the mode), DVDECC_CD_ADDRESS (minute, second and frame as they were read, the minute highest) or
 * DVDECC_CD_EDC. DVDECC_BAD_ADDRESS: the address is 450,000 or more. */
DVDECC_RESULT uint32_t dvdecc_cd_check(const uint8_t sector[2352], uint32_t address, uint32_t *number);

/* Repairs a sector that was read: each P word becomes the codeword near it, then each Q word, in which bytes of P words
 * without one are lost; the sync is set. Where dvdecc_cd_check has nothing against it then, `number` is how many bytes
 * after the sync changed. Else the answer is that of dvdecc_cd_check for it, and the sector is as it was. */
DVDECC_RESULT uint32_t dvdecc_cd_repair(uint8_t sector[2352], uint32_t address, uint32_t *number);

#ifdef __cplusplus
}
#endif

#endif
