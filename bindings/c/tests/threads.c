/* Four threads call at the same time, each with buffers of its own. Prints 'N passed, M failed'. */
#include <dvdecc.h>
#include <pthread.h>
#include <stdio.h>
#include <stdlib.h>
#include <string.h>

struct own {
    uint8_t sectors[16][2048], frame[2064], block[208][182], capture[42640], found[208][182], read[16][2048];
};

/* The capture of a block of sixteen frames, with one error in each row. */
static void record(struct own *own, unsigned place) {
    static const uint8_t cpr[6] = {0};
    for (unsigned f = 0; f < 16; f++) {
        dvdecc_make_frame(0x30000 + f, cpr, DVDECC_WHOLE, own->sectors[f], own->frame);
        for (unsigned q = 0; q < 12; q++) {
            memcpy(own->block[12 * f + q], own->frame + 172 * q, 172);
        }
    }
    dvdecc_block_parity(own->block);
    for (unsigned m = 0; m < 208; m++) {
        memcpy(own->capture + 205 * m, own->block[(m + 1) % 13 == 0 ? 191 + (m + 1) / 13 : m - m / 13], 182);
        own->capture[205 * m + place] ^= 1;
    }
}

static int is_right(struct own *own) {
    struct dvdecc_report report, other;
    uint8_t saved[16];
    int is = dvdecc_two_pass(own->capture, own->found, &report) == DVDECC_OK && report.corrected == 208;
    is = is && memcmp(own->found, own->block, sizeof own->block) == 0;
    is = is && dvdecc_read_block(own->capture, 0x30000, DVDECC_WHOLE, own->read, &other) == DVDECC_OK;
    is = is && other.corrected == 208 && memcmp(own->read, own->sectors, sizeof own->sectors) == 0;
    memset(own->read, 0, sizeof own->read);
    is = is && dvdecc_salvage_block(own->capture, 0x30000, DVDECC_WHOLE, own->read, saved) == DVDECC_OK;
    return is && memchr(saved, 0, sizeof saved) == NULL && memcmp(own->read, own->sectors, sizeof own->sectors) == 0;
}

static void *work(void *argument) {
    unsigned seed = *(unsigned *)argument;
    struct own *own = calloc(1, sizeof *own);
    void *wrong = own ? NULL : "";
    for (unsigned turn = 0; turn < 100 && !wrong; turn++) {
        for (unsigned k = 0; k < 16 * 2048; k++) {
            own->sectors[k / 2048][k % 2048] = (uint8_t)((seed = seed * 1103515245u + 12345u) >> 16);
        }
        record(own, seed % 182);
        wrong = is_right(own) ? NULL : "";
    }
    free(own);
    return wrong;
}

int main(void) {
    pthread_t threads[4];
    unsigned seeds[4] = {1, 2, 3, 4};
    int failed = 0;
    for (int k = 0; k < 4; k++) {
        if (pthread_create(&threads[k], NULL, work, &seeds[k]) != 0) {
            puts("0 passed, 1 failed");
            return 1;
        }
    }
    for (int k = 0; k < 4; k++) {
        void *wrong;
        pthread_join(threads[k], &wrong);
        failed += wrong != NULL;
    }
    printf("%d passed, %d failed\n", 4 - failed, failed);
    return failed != 0;
}
