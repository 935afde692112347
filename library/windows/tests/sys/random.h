/* What library/c/example.c takes from Linux, over the C runtime of Windows. */
#include <stdlib.h>
#include <string.h>

int rand_s(unsigned *number);

static int getentropy(void *to, size_t length) {
    unsigned number;
    for (size_t at = 0; at < length; at += sizeof number) {
        if (rand_s(&number) != 0)
            return -1;
        memcpy((char *)to + at, &number, length - at < sizeof number ? length - at : sizeof number);
    }
    return 0;
}
