/* Has the standard streams of a test in C written as they are: with LF at the end of a line, as on Linux. */
#include <fcntl.h>
#include <io.h>

__attribute__((constructor)) static void write_binary(void) {
    for (int number = 0; number <= 2; number++)
        _setmode(number, _O_BINARY);
}
