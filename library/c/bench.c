/* Times a call that is made many times, for bench/library.
 *
 * usage: bench check TIMES FILE | bench merge TIMES FILE..
 *
 * It prints the microseconds of one call. The files are read before. */
#include "tests/checks.h"
#include <time.h>

static pdbmerge_fault fault;

static void refuse(void) {
    fprintf(stderr, "%s\n", fault.text);
    exit(1);
}

static double microseconds(void) {
    struct timespec now;
    timespec_get(&now, TIME_UTC);
    return (double)now.tv_sec * 1e6 + (double)now.tv_nsec / 1e3;
}

static double time_check(long times, pdbmerge_slice file) {
    pdbmerge_counts counts;
    double begin = microseconds();
    for (long time = 0; time < times; time++)
        if (pdbmerge_check(file.bytes, file.length, &counts, &fault) != PDBMERGE_OK)
            refuse();
    return microseconds() - begin;
}

static double time_merge(long times, const pdbmerge_slice *files, size_t count, uint8_t *out, size_t room) {
    pdbmerge_settings settings = settings_of(4096);
    pdbmerge_report report;
    double begin = microseconds();
    for (long time = 0; time < times; time++)
        if (pdbmerge_merge(files, count, &settings, out, room, &report, &fault) != PDBMERGE_OK)
            refuse();
    return microseconds() - begin;
}

int main(int argc, char **argv) {
    if (argc < 4)
        return 2;
    long times = strtol(argv[2], NULL, 10);
    size_t count = (size_t)argc - 3, room = 1 << 20;
    pdbmerge_slice *files = allocate(count * sizeof *files);
    for (size_t at = 0; at < count; at++) {
        files[at] = read_file(argv[at + 3]);
        room += files[at].length;
    }
    double all = strcmp(argv[1], "check") == 0 ? time_check(times, files[0])
                                               : time_merge(times, files, count, allocate(room), room);
    printf("%.3f\n", all / (double)times);
    return 0;
}
