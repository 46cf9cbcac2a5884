/* Measures the stack that the calls take: a thread runs them on memory of a known pattern, and what is left of the pattern
 * shows how far they came. The header promises that 96 KB are enough. Prints 'N passed, M failed'. */
#include <dvdecc.h>
#include <pthread.h>
#include <stdio.h>
#include <string.h>

enum { SIZE = 1 << 18, PROMISED = 96 << 10, PATTERN = 0xA5 };
static uint8_t stack[SIZE] __attribute__((aligned(4096)));
static uint8_t capture[42640], block[208][182], sectors[16][2048];
/* (what is answered is of no matter here) */
static uint32_t answers;
static uint8_t frame[2064], main_data[2048], sector[2352], word[255], lost[255];

static void *calls(void *argument) {
    struct dvdecc_report report;
    struct dvdecc_correction correction;
    uint32_t number;
    uint8_t saved[16];
    const uint8_t cpr[6] = {0};
    for (unsigned i = 0; i < 192; i++) {
        dvdecc_make_frame(0x30000 + i / 12, cpr, DVDECC_WHOLE, main_data, frame);
        memcpy(block[i], frame + 172 * (i % 12), 172);
    }
    dvdecc_block_parity(block);
    answers += dvdecc_block_is_codeword(block);
    for (unsigned m = 0; m < 208; m++) {
        memcpy(capture + 205 * m, block[(m + 1) % 13 == 0 ? 191 + (m + 1) / 13 : m - m / 13], 182);
        for (unsigned e = 0; e < m % 6; e++) {
            capture[205 * m + (31 * e + m) % 182] ^= 1;
        }
    }
    memset(capture + 205 * 40 + 182, 0xFF, 23);
    answers += dvdecc_two_pass(capture, block, &report);
    answers += dvdecc_read_block(capture, 0x30000, DVDECC_WHOLE, sectors, &report);
    answers += dvdecc_salvage_block(capture, 0x30000, DVDECC_WHOLE, sectors, saved);
    for (unsigned m = 0; m < 17; m++) {
        memset(capture + 205 * m + 182, 0xFF, 23);
    }
    answers += dvdecc_salvage_block(capture, 0x30000, DVDECC_WHOLE, sectors, saved);
    dvdecc_make_frame(0x30000, cpr, DVDECC_WHOLE, main_data, frame);
    answers += dvdecc_read_frame(frame, 0x30000, DVDECC_WHOLE, main_data, &number);
    dvdecc_cd_make(1, main_data, sector);
    sector[99] ^= 1;
    answers += dvdecc_cd_repair(sector, 1, &number);
    word[3] = 1;
    answers += dvdecc_rs_decode(word, 255, lost, 255, 32, &correction);
    dvdecc_edc(capture, sizeof capture, word);
    return argument;
}

int main(void) {
    pthread_attr_t attributes;
    pthread_t thread;
    size_t left = 0;
    memset(stack, PATTERN, SIZE);
    if (pthread_attr_init(&attributes) != 0 || pthread_attr_setstack(&attributes, stack, SIZE) != 0
        || pthread_create(&thread, &attributes, calls, NULL) != 0 || pthread_join(thread, NULL) != 0) {
        puts("0 passed, 1 failed");
        return 1;
    }
    while (left < SIZE && stack[left] == PATTERN) {
        left++;
    }
    int fits = SIZE - left <= PROMISED;
    if (!fits) {
        printf("FAILED: the calls took %zu bytes\n", SIZE - left);
    }
    printf("%d passed, %d failed\n", fits, !fits);
    return !fits;
}
