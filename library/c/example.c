/* Shows what identifies each file, checks it, and merges all of them into the file OUT.
 *
 * usage: example OUT FILE..
 *
 * The status is 0 if OUT was written, 1 after a refusal, and 2 if something else went wrong. */
#include <pdbmerge.h>
#include <stdio.h>
#include <stdlib.h>
#include <sys/random.h>

/* Ends the program, and says what went wrong. */
static void fail(const char *what) {
    perror(what);
    exit(2);
}

static void *allocate(size_t size) {
    void *memory = malloc(size);
    if (memory == NULL)
        fail("malloc");
    return memory;
}

/* Reads a file into memory that the caller frees. */
static pdbmerge_slice read_file(const char *name) {
    FILE *file = fopen(name, "rb");
    if (file == NULL || fseek(file, 0, SEEK_END) != 0)
        fail(name);
    long length = ftell(file);
    if (length < 0)
        fail(name);
    rewind(file);
    uint8_t *bytes = allocate((size_t)length + 1); /* a file may be empty */
    if (fread(bytes, 1, (size_t)length, file) != (size_t)length)
        fail(name);
    fclose(file);
    return (pdbmerge_slice){bytes, (size_t)length};
}

static void write_file(const char *name, const uint8_t *bytes, size_t length) {
    FILE *file = fopen(name, "wb");
    if (file == NULL || fwrite(bytes, 1, length, file) != length || fclose(file) != 0)
        fail(name);
}

/* Prints what identifies a file, and how many types it has. */
static void show(const char *name, pdbmerge_slice file) {
    pdbmerge_identity identity;
    pdbmerge_counts counts;
    pdbmerge_fault fault;
    uint32_t number = pdbmerge_identify(file.bytes, file.length, &identity, &fault);
    if (number == PDBMERGE_OK) {
        printf("%s: age %u, blocks of %u bytes\n",
               name, (unsigned)identity.age, (unsigned)identity.block_size);
        number = pdbmerge_check(file.bytes, file.length, &counts, &fault);
    }
    if (number == PDBMERGE_OK)
        printf("%s: %u types, %u levels\n", name, (unsigned)counts.records, (unsigned)counts.levels);
    else
        printf("%s: %s\n", name, fault.text);
}

/* Merges files into memory that the caller frees. Most merges are smaller than all their files and
 * some blocks. Where one is not, the first call says how much room it takes. */
static uint8_t *merge(const pdbmerge_slice *files, size_t count, pdbmerge_report *report) {
    pdbmerge_settings settings = {
        .guid = {0x00, 0x11, 0x22, 0x33, 0x44, 0x55, 0x66, 0x77,
                 0x88, 0x99, 0xaa, 0xbb, 0xcc, 0xdd, 0xee, 0xff},
        .age = 1, .limit = 1u << 30, .block_size = 4096};
    if (getentropy(settings.seed.bytes, sizeof settings.seed.bytes) != 0)
        fail("getentropy");
    size_t room = 16 * 4096;
    for (size_t at = 0; at < count; at++)
        room += files[at].length;
    pdbmerge_fault fault;
    uint8_t *out = allocate(room);
    uint32_t number = pdbmerge_merge(files, count, &settings, out, room, report, &fault);
    if (number == PDBMERGE_ROOM) {
        free(out);
        out = allocate(report->length);
        number = pdbmerge_merge(files, count, &settings, out, report->length, report, &fault);
    }
    if (number == PDBMERGE_OK)
        return out;
    fprintf(stderr, "%s\n", fault.text);
    free(out);
    return NULL;
}

int main(int argc, char **argv) {
    if (argc < 3) {
        fprintf(stderr, "usage: example OUT FILE..\n");
        return 2;
    }
    size_t count = (size_t)argc - 2;
    pdbmerge_slice *files = allocate(count * sizeof *files);
    for (size_t at = 0; at < count; at++) {
        files[at] = read_file(argv[at + 2]);
        show(argv[at + 2], files[at]);
    }
    pdbmerge_report report;
    uint8_t *out = merge(files, count, &report);
    if (out != NULL) {
        write_file(argv[1], out, report.length);
        printf("%s: %u types, %llu bytes\n",
               argv[1], (unsigned)report.types, (unsigned long long)report.length);
    }
    int status = out != NULL ? 0 : 1;
    for (size_t at = 0; at < count; at++)
        free((void *)files[at].bytes);
    free(files);
    free(out);
    return status;
}
