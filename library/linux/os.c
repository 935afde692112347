/* The functions of the system that the program calls and the kit has in C for x86-64, for other processors with
 * Linux and glibc. */
#include <errno.h>
#include <stddef.h>
#include <stdint.h>

static size_t count;
static char **words;

/* glibc passes the arguments of the process to each function that runs before main. */
__attribute__((constructor)) static void keep_arguments(int argc, char **argv) {
    count = (size_t)argc;
    words = argv;
}

size_t rattle_arg_count(void) {
    return count;
}

/* Puts an argument at the start of `buffer`. Answers its length, or -1 where there is no such argument, or -2 where
 * it does not fit; `buffer` is full then. */
ptrdiff_t rattle_arg(size_t at, uint8_t *buffer, size_t room) {
    if (at >= count || words[at] == NULL)
        return -1;
    size_t length = 0;
    for (; words[at][length] != 0; length++) {
        if (length == room)
            return -2;
        buffer[length] = (uint8_t)words[at][length];
    }
    return (ptrdiff_t)length;
}

int rattle_errno(void) {
    return errno;
}

void rattle_set_errno(int error) {
    errno = error;
}
