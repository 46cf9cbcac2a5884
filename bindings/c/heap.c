/* Memory for the proved functions, from malloc, realloc and free. Nothing here is proved: the proofs trust that these
 * three functions do what is said of each.
 *
 * An alignment divides 16, and the blocks of malloc are aligned to 16. A size may be 0; there is a block then too. */
#include <stdbool.h>
#include <stddef.h>
#include <stdlib.h>

/* Whether there is a block, and where. */
struct tried {
    bool is_there;
    void *block;
};

/* Where there is no block, the pointer leads here: it mustn't be NULL, and nobody follows it. */
static const char nowhere = 0;

static struct tried tried(void *block) {
    struct tried answer = {block != NULL, block != NULL ? block : (void *)&nowhere};
    return answer;
}

/* A new block of so many bytes. */
struct tried rattle_alloc(size_t size, size_t alignment) {
    return tried(malloc(size != 0 ? size : alignment));
}

/* A block of so many bytes in place of another, with the bytes of that; where there is none, that stays as it was. */
struct tried rattle_realloc(void *block, size_t kept, size_t size, size_t alignment) {
    (void)kept;
    return tried(realloc(block, size != 0 ? size : alignment));
}

/* Gives a block back. */
void rattle_dealloc(void *block) {
    free(block);
}
