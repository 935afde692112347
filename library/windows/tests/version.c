/* A program without a C runtime, as the linker of Visual C++ links it with pdbmerge.lib. The status is 0 where the
 * library has the version of the header. */
#include <pdbmerge.h>

int start(void) {
    return pdbmerge_version() != PDBMERGE_VERSION;
}
