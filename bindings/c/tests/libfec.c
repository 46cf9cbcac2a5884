/* Decodes 200,000 drawn words with libfec too, a decoder that shares no text with the codec. A codeword that is near has
 * to be the one that libfec finds. libfec also answers words beyond the bound; then none is near, and the codec refuses.
 * Linked with -lfec. Prints 'N passed, M failed'. */
#include <dvdecc.h>
#include <fec.h>
#include <stdio.h>
#include <string.h>

enum { ROW_PARITY = 10, COLUMN_PARITY = 16, FULL = 255 };

/* A code, by libfec. */
struct code {
    unsigned size, parity;
    void *other;
};

/* A word that was sent, how it was received, and what the codec and libfec make of it. */
struct word {
    uint8_t sent[FULL], received[FULL], lost[FULL], ours[FULL], theirs[FULL];
    bool is_ours, is_theirs;
    struct dvdecc_correction fix;
};

static long both, neither, theirs_alone, wrong;
static uint64_t state = 88172645463325252u;

static unsigned drawn(unsigned below) {
    state ^= state << 13;
    state ^= state >> 7;
    state ^= state << 17;
    return (unsigned)(state >> 33) % below;
}

static uint32_t decode(const struct code *code, uint8_t *word, const uint8_t *lost, struct dvdecc_correction *fix) {
    if (code->size == 182 && code->parity == ROW_PARITY) {
        return dvdecc_row_decode(word, lost, fix);
    }
    if (code->size == 208 && code->parity == COLUMN_PARITY) {
        return dvdecc_column_decode(word, lost, fix);
    }
    return dvdecc_rs_decode(word, code->size, lost, code->size, code->parity, fix);
}

/* Draws a word and its parity, by both. Then wrong bytes, at times too many, and lost ones, some of them right. */
static void draw(const struct code *code, struct word *word) {
    unsigned data = code->size - code->parity;
    uint8_t parity[32];
    memset(word->lost, 0, sizeof word->lost);
    for (unsigned k = 0; k < data; k++) {
        word->sent[k] = (uint8_t)drawn(256);
    }
    encode_rs_char(code->other, word->sent, parity);
    wrong += dvdecc_rs_parity(word->sent, code->size, code->parity) != DVDECC_OK;
    wrong += memcmp(word->sent + data, parity, code->parity) != 0;
    memcpy(word->received, word->sent, code->size);
    for (unsigned left = drawn(code->parity / 2 + 3); left > 0; left--) {
        word->received[drawn(code->size)] ^= (uint8_t)drawn(256);
    }
    for (unsigned left = drawn(2) * drawn(code->parity + 3); left > 0; left--) {
        unsigned place = drawn(code->size);
        word->lost[place] = 1;
        word->received[place] ^= (uint8_t)(drawn(2) * drawn(256));
    }
}

static void decode_by_both(const struct code *code, struct word *word) {
    int places[FULL], count = 0;
    for (unsigned k = 0; k < code->size; k++) {
        if (word->lost[k]) {
            places[count++] = (int)k;
        }
    }
    memcpy(word->ours, word->received, code->size);
    memcpy(word->theirs, word->received, code->size);
    word->is_ours = decode(code, word->ours, word->lost, &word->fix) == DVDECC_OK;
    word->is_theirs = decode_rs_char(code->other, word->theirs, places, count) >= 0;
}

/* How many bytes of a word differ from what was received where none is lost. */
static unsigned errors_in(const struct code *code, const struct word *word, const uint8_t *answer) {
    unsigned errors = 0;
    for (unsigned k = 0; k < code->size; k++) {
        errors += !word->lost[k] && answer[k] != word->received[k];
    }
    return errors;
}

static unsigned lost_in(const struct code *code, const struct word *word) {
    unsigned lost = 0;
    for (unsigned k = 0; k < code->size; k++) {
        lost += word->lost[k];
    }
    return lost;
}

static void compare(const struct code *code, const struct word *word) {
    unsigned lost = lost_in(code, word);
    bool is_near = word->is_theirs && 2 * errors_in(code, word, word->theirs) + lost <= code->parity;
    if (word->is_ours) {
        unsigned errors = errors_in(code, word, word->ours);
        bool is_same = is_near && memcmp(word->ours, word->theirs, code->size) == 0;
        both++;
        wrong += !is_same || word->fix.errors != errors || word->fix.erasures != lost;
    } else {
        theirs_alone += word->is_theirs;
        neither += !word->is_theirs;
        wrong += is_near || memcmp(word->ours, word->received, code->size) != 0;
    }
}

static void compare_words(unsigned size, unsigned parity, long count) {
    struct code code = {size, parity, init_rs_char(8, 0x11D, 0, 1, (int)parity, (int)(FULL - size))};
    struct word word;
    if (code.other == NULL) {
        wrong++;
        return;
    }
    for (long turn = 0; turn < count; turn++) {
        draw(&code, &word);
        decode_by_both(&code, &word);
        compare(&code, &word);
    }
    free_rs_char(code.other);
}

int main(void) {
    compare_words(182, ROW_PARITY, 100000);
    compare_words(208, COLUMN_PARITY, 50000);
    for (unsigned code = 0; code < 500; code++) {
        unsigned parity = 1 + code % 32;
        compare_words(parity + 1 + drawn(FULL - parity), parity, 100);
    }
    bool is_drawn = both > 50000 && neither > 5000 && theirs_alone > 5000;
    if (wrong != 0 || !is_drawn) {
        printf("FAILED: %ld wrong; answered by both %ld, by neither %ld, by libfec alone %ld\n", wrong, both, neither,
               theirs_alone);
    }
    printf("%d passed, %d failed\n", wrong == 0 && is_drawn, wrong != 0 || !is_drawn);
    return wrong != 0 || !is_drawn;
}
