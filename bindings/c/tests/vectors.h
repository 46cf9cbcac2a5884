/* Written by bindings/c/tests/vectors.py: what other means than the codec give for fixed bytes. */
static const uint8_t row_parity[] = {254, 7, 247, 175, 222, 229, 43, 128, 139, 150};
static const uint8_t column_parity[] = {12, 8, 120, 87, 43, 229, 206, 5, 227, 100, 101, 139, 239, 230, 96, 238};
static const uint8_t edc_of_counted[] = {162, 148, 105, 96};
static const uint8_t cd_edc_of_counted[] = {91, 165, 128, 42};
static const uint8_t ied_of_030010[] = {33, 50};
static const uint64_t frame_digest = 12975578216236752661u;
static const uint64_t block_digest = 14126736833294458533u;
static const uint64_t cd_digest = 4504127313871907235u;
