/* The functions of the heap that the kit has in C for x86-64, for other processors. An answer is a flag and a
 * pointer, which are two registers where C returns a struct of two words in registers. */
#include <stddef.h>
#include <stdint.h>
#include <stdlib.h>

struct answer {
    uint64_t ok;
    void *block;
};

/* What stands for a block where there is none. */
static _Alignas(16) char nothing[16];

static struct answer answer_of(void *block) {
    return (struct answer){block != NULL, block != NULL ? block : nothing};
}

/* malloc may answer NULL for no bytes, so it is asked for some. The alignment is at most that of malloc. */
struct answer rattle_alloc(size_t size, size_t alignment) {
    return answer_of(malloc(size != 0 ? size : alignment));
}

/* The block keeps its first bytes, also those that the caller wants kept. */
struct answer rattle_realloc(void *block, size_t kept, size_t size, size_t alignment) {
    (void)kept;
    return answer_of(realloc(block, size != 0 ? size : alignment));
}

void rattle_dealloc(void *block) {
    free(block);
}
