/* Decodes 20,000 drawn blocks around the bound by two passes, and by the definition of two passes over the calls for single
 * rows and columns: status, rows and report have to be the same. Where a block's damage is within the bound, it has to be
 * the block that was sent. Prints 'N passed, M failed'. */
#include <dvdecc.h>
#include <stdio.h>
#include <string.h>

enum { BLOCKS = 20000 };
static uint8_t sent[208][182], received[208][182], marks[208][182], capture[42640], found[208][182], wanted[208][182];
static uint64_t state = 88172645463325252u;

static unsigned drawn(unsigned below) {
    state ^= state << 13;
    state ^= state >> 7;
    state ^= state << 17;
    return (unsigned)(state >> 33) % below;
}

/* The row of the block that is recorded at a place. */
static unsigned row_at(unsigned m) {
    return (m + 1) % 13 == 0 ? 191 + (m + 1) / 13 : m - m / 13;
}

/* Changes so many bytes of a row, and marks so many, some of them right ones. */
static void hurt(unsigned i, unsigned errors, unsigned lost) {
    unsigned places[182];
    for (unsigned k = 0; k < 182; k++) {
        places[k] = k;
    }
    for (unsigned k = 0; k < errors + lost; k++) {
        unsigned other = k + drawn(182 - k), place = places[other];
        places[other] = places[k];
        if (k < errors || drawn(4) != 0) {
            received[i][place] ^= (uint8_t)(1 + drawn(255));
        }
        marks[i][place] = k >= errors;
    }
}

/* Draws the damage of a block, and says whether it is within the bound. */
static bool draw_damage(void) {
    unsigned bad = 0, lost = 0, most = 14 + drawn(8);
    memcpy(received, sent, sizeof sent);
    memset(marks, 0, sizeof marks);
    for (unsigned i = 0; i < 208; i++) {
        if (drawn(208) < most) {
            switch (drawn(5)) {
            case 0: hurt(i, 4 + drawn(3), 0); break;
            case 1: hurt(i, 0, 9 + drawn(3)); break;
            case 2: hurt(i, 1 + drawn(3), 4 + drawn(5)); break;
            case 3: hurt(i, 0, 182); break;
            default: hurt(i, 60, 0); break;
            }
        }
        unsigned errors = 0, erasures = 0;
        for (unsigned k = 0; k < 182; k++) {
            erasures += marks[i][k];
            errors += !marks[i][k] && received[i][k] != sent[i][k];
        }
        bool is_good = 2 * errors + erasures <= 10;
        lost += !is_good && erasures > 10;
        bad += !is_good && erasures <= 10;
    }
    return 2 * bad + lost <= 16;
}

static void record(void) {
    memset(capture, 0, sizeof capture);
    for (unsigned m = 0; m < 208; m++) {
        unsigned i = row_at(m);
        memcpy(capture + 205 * m, received[i], 182);
        for (unsigned k = 0; k < 182; k++) {
            capture[205 * m + 182 + k / 8] |= (uint8_t)(marks[i][k] << (7 - k % 8));
        }
    }
}

/* Two passes by their definition, over `received` and `marks`, into `wanted`. */
static uint32_t by_definition(struct dvdecc_report *report) {
    struct dvdecc_correction fix;
    uint8_t failed[208], column[208];
    memset(report, 0, sizeof *report);
    memcpy(wanted, received, sizeof received);
    for (unsigned i = 0; i < 208; i++) {
        failed[i] = dvdecc_row_decode(wanted[i], marks[i], &fix) != DVDECC_OK;
        report->failed_rows += failed[i];
    }
    if (report->failed_rows > 16) {
        report->number = report->failed_rows;
        return DVDECC_ROWS;
    }
    for (unsigned k = 0; k < 182; k++) {
        for (unsigned i = 0; i < 208; i++) {
            column[i] = wanted[i][k];
        }
        report->number = k;
        if (dvdecc_column_decode(column, failed, &fix) != DVDECC_OK) {
            return DVDECC_COLUMN;
        }
        for (unsigned i = 0; i < 208; i++) {
            wanted[i][k] = column[i];
        }
    }
    for (unsigned i = 0; i < 208; i++) {
        report->number = i;
        if (!dvdecc_row_is_codeword(wanted[i])) {
            return DVDECC_ROW;
        }
    }
    report->number = 0;
    for (unsigned k = 0; k < sizeof sent; k++) {
        report->corrected += wanted[k / 182][k % 182] != received[k / 182][k % 182];
    }
    return DVDECC_OK;
}

int main(void) {
    long counts[4] = {0}, within = 0, wrong = 0;
    for (unsigned turn = 0; turn < BLOCKS; turn++) {
        struct dvdecc_report report = {1, 2, 3}, other;
        if (turn % 100 == 0) {
            for (unsigned i = 0; i < 192; i++) {
                for (unsigned k = 0; k < 172; k++) {
                    sent[i][k] = (uint8_t)drawn(256);
                }
            }
            dvdecc_block_parity(sent);
        }
        bool is_within = draw_damage();
        record();
        memset(found, 0x77, sizeof found);
        uint32_t status = dvdecc_two_pass(capture, found, &report);
        uint32_t defined = by_definition(&other);
        if (defined != DVDECC_OK) {
            memset(wanted, 0x77, sizeof wanted);
            other.corrected = other.failed_rows = 0;
        }
        wrong += status != defined || memcmp(found, wanted, sizeof found) != 0 || memcmp(&report, &other, sizeof report) != 0;
        wrong += is_within && (status != DVDECC_OK || memcmp(found, sent, sizeof sent) != 0);
        within += is_within;
        counts[status == DVDECC_OK ? 0 : status == DVDECC_ROWS ? 1 : status == DVDECC_COLUMN ? 2 : 3]++;
    }
    bool is_drawn = counts[0] > 2000 && counts[1] > 500 && counts[2] > 100 && within > 2000;
    if (wrong != 0 || !is_drawn) {
        printf("FAILED: %ld wrong; found %ld, rows %ld, columns %ld, others %ld, within the bound %ld\n", wrong, counts[0],
               counts[1], counts[2], counts[3], within);
    }
    printf("%d passed, %d failed\n", wrong == 0 && is_drawn, wrong != 0 || !is_drawn);
    return wrong != 0 || !is_drawn;
}
