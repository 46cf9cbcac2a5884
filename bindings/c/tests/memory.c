/* Refuses each allocation of a call in its turn: the call then answers DVDECC_NO_MEMORY, its buffers are as they were, and
 * all that it took is given back. Linked with --wrap=malloc and --wrap=free. Prints 'N passed, M failed'. */
#include <dvdecc.h>
#include <stdio.h>
#include <stdlib.h>
#include <string.h>

static long left, held;
void *__real_malloc(size_t size);
void __real_free(void *block);

void *__wrap_malloc(size_t size) {
    if (left > 0 && --left == 0) {
        return NULL;
    }
    held++;
    return __real_malloc(size);
}

void __wrap_free(void *block) {
    held -= block != NULL;
    __real_free(block);
}

static uint8_t capture[42640], block[208][182];
static struct {
    uint8_t rows[208][182], sectors[16][2048];
    struct dvdecc_report report;
    uint8_t saved[16];
} out, before;

/* The capture of a block of sixteen frames whose Main Data are zeros. */
static void record(void) {
    static const uint8_t cpr[6], zeros[2048];
    uint8_t frame[2064];
    for (unsigned i = 0; i < 192; i++) {
        dvdecc_make_frame(0x30000 + i / 12, cpr, DVDECC_WHOLE, zeros, frame);
        memcpy(block[i], frame + 172 * (i % 12), 172);
    }
    dvdecc_block_parity(block);
    for (unsigned m = 0; m < 208; m++) {
        memcpy(capture + 205 * m, block[(m + 1) % 13 == 0 ? 191 + (m + 1) / 13 : m - m / 13], 182);
    }
}

static uint32_t two_pass(void) {
    return dvdecc_two_pass(capture, out.rows, &out.report);
}

static uint32_t read_block(void) {
    return dvdecc_read_block(capture, 0x30000, DVDECC_WHOLE, out.sectors, &out.report);
}

static uint32_t salvage_block(void) {
    return dvdecc_salvage_block(capture, 0x30000, DVDECC_WHOLE, out.sectors, out.saved);
}

static bool has_rows(void) {
    return memcmp(out.rows, block, sizeof block) == 0 && out.report.corrected == 0;
}

static bool has_sectors(void) {
    return out.sectors[0][0] == 0 && out.sectors[15][2047] == 0 && out.report.corrected == 0;
}

static bool has_saved(void) {
    return out.sectors[0][0] == 0 && out.sectors[15][2047] == 0 && out.saved[0] == 1 && out.saved[15] == 1;
}

static int passed, failed;

/* Calls with the first allocation refused, then with the second, until none is left to refuse. */
static void refuse_each(const char *name, uint32_t call(void), bool is_done(void)) {
    int refused = 0, is_refused = 1;
    for (long turn = 1; turn < 100 && is_refused; turn++) {
        memset(&out, 0x77, sizeof out);
        memcpy(&before, &out, sizeof out);
        left = turn, held = 0;
        uint32_t status = call();
        is_refused = left == 0;
        left = 0;
        int is_same = memcmp(&out, &before, sizeof out) == 0;
        if (held == 0 && (is_refused ? status == DVDECC_NO_MEMORY && is_same : status == DVDECC_OK && is_done())) {
            passed++;
        } else {
            failed++;
            printf("FAILED: %s, allocation %ld refused: status %u\n", name, turn, (unsigned)status);
        }
        refused += is_refused;
    }
    if (refused == 0 || is_refused) {
        failed++;
        printf("FAILED: %s, %d allocations were refused\n", name, refused);
    }
}

int main(void) {
    record();
    refuse_each("two passes", two_pass, has_rows);
    refuse_each("a block read", read_block, has_sectors);
    refuse_each("a block salvaged", salvage_block, has_saved);
    printf("%d passed, %d failed\n", passed, failed);
    return failed != 0;
}
