/* What the tests of the calls share: files, and counting what is not as wanted. */
#ifndef CHECKS_H
#define CHECKS_H

#include <pdbmerge.h>
#include <stdio.h>
#include <stdlib.h>
#include <string.h>

static int checks, wrong;

/* Counts a check, and prints a number that is not as wanted. */
static inline void hold(const char *what, uint64_t got, uint64_t wanted) {
    checks++;
    if (got == wanted)
        return;
    wrong++;
    printf("%s\n  got    %llu\n  wanted %llu\n", what, (unsigned long long)got, (unsigned long long)wanted);
}

static inline void hold_text(const char *what, const char *got, const char *wanted) {
    checks++;
    if (strcmp(got, wanted) == 0)
        return;
    wrong++;
    printf("%s\n  got    %s\n  wanted %s\n", what, got, wanted);
}

/* Prints how many checks there were. The status of the test. */
static inline int finish(const char *name) {
    printf("%s: %d checks, %d not as wanted\n", name, checks, wrong);
    return wrong != 0 || checks == 0;
}

/* Memory of a length that may be 0. */
static inline void *allocate(size_t size) {
    void *memory = malloc(size + 1);
    if (memory == NULL) {
        perror("malloc");
        exit(2);
    }
    return memory;
}

/* Memory for so many values of a type. C++ makes no pointer to a type of a pointer to void. */
#define ALLOCATE(type, count) ((type *)allocate((count) * sizeof(type)))

/* Reads a file into memory that is never freed. */
static inline pdbmerge_slice read_file(const char *name) {
    FILE *file = fopen(name, "rb");
    if (file == NULL || fseek(file, 0, SEEK_END) != 0) {
        perror(name);
        exit(2);
    }
    size_t length = (size_t)ftell(file);
    uint8_t *bytes = (uint8_t *)allocate(length);
    rewind(file);
    if (fread(bytes, 1, length, file) != length) {
        perror(name);
        exit(2);
    }
    fclose(file);
    pdbmerge_slice slice = {bytes, length};
    return slice;
}

/* The settings of the tables of examples/, with blocks of this size. */
static inline pdbmerge_settings settings_of(uint32_t block_size) {
    pdbmerge_settings settings;
    memset(&settings, 0, sizeof settings);
    for (unsigned at = 0; at < sizeof settings.guid; at++)
        settings.guid[at] = (uint8_t)(0x11 * at);
    settings.age = 1;
    settings.limit = 1u << 30;
    settings.block_size = block_size;
    return settings;
}

#endif
