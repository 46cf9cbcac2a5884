/* Decodes a damaged row: three wrong bytes and one lost byte. */
#include <dvdecc.h>
#include <stdio.h>
#include <string.h>

int main(void) {
    uint8_t row[182] = "a row of 172 bytes, and ten bytes of inner parity after them";
    uint8_t sent[182], lost[182] = {0};
    struct dvdecc_correction correction;

    dvdecc_row_parity(row);
    memcpy(sent, row, sizeof row);

    row[2] ^= 0x55, row[100] = 'x', row[181] ^= 1; /* wrong */
    row[40] = 0, lost[40] = 1;                     /* lost, and known to be */

    if (dvdecc_row_decode(row, lost, &correction) != DVDECC_OK) {
        puts("no codeword is near the row");
        return 1;
    }
    printf("%s\n%u errors, %u erasures, %s\n", (char *)row, (unsigned)correction.errors, (unsigned)correction.erasures,
           memcmp(row, sent, sizeof row) == 0 ? "as it was sent" : "another row");
    return 0;
}
