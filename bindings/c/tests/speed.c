/* Measures how many rows and blocks a minute the calls decode, over 20,000 rows with so many wrong bytes each, and over a
 * captured block. Prints a line for each; nothing is tried. Built with -O2, and linked with libdvdecc.a. */
#include <dvdecc.h>
#include <stdio.h>
#include <string.h>
#include <time.h>

enum { ROWS = 20000 };
static uint8_t sent[ROWS][182], rows[ROWS][182], lost[ROWS][182];
static struct dvdecc_answer answers[ROWS];
static uint8_t block[208][182], capture[42640];
static unsigned wrong;

static double seconds(void) {
    return (double)clock() / CLOCKS_PER_SEC;
}

static void damage(unsigned errors) {
    memcpy(rows, sent, sizeof rows);
    for (unsigned i = 0; i < ROWS; i++) {
        for (unsigned e = 0; e < errors; e++) {
            rows[i][(37 * e + 11 * i) % 182] ^= (uint8_t)(1 + i % 255);
        }
    }
}

static void say(const char *what, unsigned errors, double from, unsigned count) {
    printf("%s, %u wrong bytes: %.1f million a minute\n", what, errors, 60e-6 * count / (seconds() - from));
}

int main(void) {
    struct dvdecc_correction fix;
    struct dvdecc_report report;
    for (unsigned i = 0; i < ROWS; i++) {
        for (unsigned k = 0; k < 182; k++) {
            sent[i][k] = (uint8_t)(i * 7 + k * k);
        }
    }
    dvdecc_rows_parity(sent, ROWS);
    for (unsigned errors = 0; errors <= 5; errors++) {
        damage(errors);
        double from = seconds();
        for (unsigned i = 0; i < ROWS; i++) {
            wrong += dvdecc_row_decode(rows[i], lost[i], &fix) != DVDECC_OK;
        }
        say("single rows", errors, from, ROWS);
        damage(errors);
        from = seconds();
        wrong += dvdecc_rows_decode(rows, ROWS, lost, ROWS, answers, ROWS) != DVDECC_OK;
        say("many rows", errors, from, ROWS);
        wrong += memcmp(rows, sent, sizeof rows) != 0;
    }
    memset(block, 0, sizeof block);
    dvdecc_block_parity(block);
    for (unsigned m = 0; m < 208; m++) {
        memcpy(capture + 205 * m, block[(m + 1) % 13 == 0 ? 191 + (m + 1) / 13 : m - m / 13], 182);
    }
    double from = seconds();
    for (unsigned n = 0; n < 20000; n++) {
        wrong += dvdecc_two_pass(capture, block, &report) != DVDECC_OK;
    }
    say("blocks by two passes", 0, from, 20000);
    if (wrong != 0) {
        puts("something was answered wrongly");
    }
    return wrong != 0;
}
