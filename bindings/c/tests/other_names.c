/* Has functions with the names of those by which the proved code takes memory, as another library that is written in Rattle
 * may have them: the library's calls have to go to its own. Prints 'N passed, M failed'. */
#include <dvdecc.h>
#include <stdio.h>

static int met;
void rattle_alloc(void);
void rattle_realloc(void);
void rattle_dealloc(void);

void rattle_alloc(void) {
    met++;
}

void rattle_realloc(void) {
    met++;
}

void rattle_dealloc(void) {
    met++;
}

int main(void) {
    static uint8_t capture[42640], rows[208][182];
    struct dvdecc_report report;
    int is = dvdecc_two_pass(capture, rows, &report) == DVDECC_OK && met == 0;
    printf("%d passed, %d failed\n", is, !is);
    return !is;
}
