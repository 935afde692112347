/* The maps of a merge: what each record of each file became.
 *
 * usage: maps FIRST SECOND, two files whose types are merged
 *
 * A record and that to which the map leads have the same bytes, but for the type indices in them; and these
 * lead from the one to the other by the same map. */
#include "checks.h"

enum {
    HEADER = 56,       /* the bytes in front of the records of a type stream */
    BEGIN = 4,         /* the bytes of a record in front of the place 0 */
    FIRST_INDEX = 0x1000,
    MOST = 1 << 20,    /* enough room for each answer */
    FILES = 3
};

/* The type records of a file. */
struct types {
    uint8_t *stream;
    uint64_t *offsets;
    uint64_t count;
};

/* A merged file, its maps one after the other, and how long each is. */
struct merged {
    uint8_t *file;
    uint32_t *indices;
    uint32_t counts[FILES];
    uint64_t total;
    pdbmerge_report report;
};

static struct types types_of(pdbmerge_slice file) {
    pdbmerge_fault fault;
    uint64_t length = 0;
    struct types types = {allocate(MOST), allocate(MOST * sizeof(uint64_t)), 0};
    hold("stream 2", pdbmerge_stream(file.bytes, file.length, 2, types.stream, MOST, &length, &fault), PDBMERGE_OK);
    hold("its records",
         pdbmerge_records(types.stream, length, types.offsets, MOST, &types.count, &fault), PDBMERGE_OK);
    return types;
}

static struct merged merge(const pdbmerge_slice *files, size_t count) {
    pdbmerge_settings settings = settings_of(4096);
    pdbmerge_fault fault;
    struct merged merged = {allocate(MOST), allocate(MOST * sizeof(uint32_t)), {0}, 0, {0, 0, 0}};
    uint32_t number = pdbmerge_merge_map(files, count, &settings, merged.file, MOST, merged.indices, MOST,
                                         merged.counts, FILES, &merged.report, &merged.total, &fault);
    hold("a merge with maps", number, PDBMERGE_OK);
    hold("its fault", fault.number, PDBMERGE_OK);
    return merged;
}

/* The file is that of a merge without maps. */
static void hold_file(const struct merged *merged, const pdbmerge_slice *files, size_t count) {
    pdbmerge_settings settings = settings_of(4096);
    pdbmerge_report report;
    pdbmerge_fault fault;
    uint8_t *out = allocate(MOST);
    hold("a merge", pdbmerge_merge(files, count, &settings, out, MOST, &report, &fault), PDBMERGE_OK);
    hold("its report", memcmp(&report, &merged->report, sizeof report) == 0, 1);
    hold("its bytes", memcmp(out, merged->file, report.length) == 0, 1);
    free(out);
}

/* A merge by a plan with a made GUID gives the same maps, and the file of a merge by types. */
static void hold_plan(const struct merged *merged, const pdbmerge_slice *files, size_t count) {
    pdbmerge_plan plan = {settings_of(4096), PDBMERGE_GUID_OF_TYPES, PDBMERGE_SKIP, PDBMERGE_MAPS};
    struct merged made = {allocate(MOST), allocate(MOST * sizeof(uint32_t)), {0}, 0, {0, 0, 0}};
    pdbmerge_totals totals;
    pdbmerge_report report;
    pdbmerge_fault fault;
    uint8_t *out = allocate(MOST);
    uint32_t number = pdbmerge_merge_plan(files, count, &plan, made.file, MOST, made.indices, MOST, made.counts, FILES,
                                          NULL, 0, &made.report, &totals, &fault);
    hold("a plan with maps", number, PDBMERGE_OK);
    hold("its total of indices", totals.indices, merged->total);
    hold("its total of counts", totals.counts, count);
    hold("how many files it leaves out", totals.left_out, 0);
    hold("its indices", memcmp(made.indices, merged->indices, totals.indices * sizeof *made.indices) == 0, 1);
    hold("its counts", memcmp(made.counts, merged->counts, sizeof made.counts) == 0, 1);
    number = pdbmerge_merge_by_types(files, count, &plan.settings, out, MOST, &report, &fault);
    hold("a merge by types", number, PDBMERGE_OK);
    hold("the report of the plan", memcmp(&report, &made.report, sizeof report) == 0, 1);
    hold("the bytes of the plan", memcmp(out, made.file, report.length) == 0, 1);
    free(out);
    free(made.file);
    free(made.indices);
}

/* The type index to which a map leads from another one. Those of simple types stay. */
static uint32_t followed(const uint32_t *map, uint32_t count, uint32_t index) {
    if (index < FIRST_INDEX)
        return index;
    hold("the record is there", index - FIRST_INDEX < count, 1);
    return index - FIRST_INDEX < count ? map[index - FIRST_INDEX] : 0;
}

static uint64_t references_of(const uint8_t *record, size_t length, pdbmerge_reference *references) {
    pdbmerge_fault fault;
    uint64_t count = 0;
    hold("references", pdbmerge_references(record, length, FIRST_INDEX, references, MOST, &count, &fault), PDBMERGE_OK);
    return count;
}

/* What a record names became what the other one names, and all other bytes are the same. */
static void hold_record(const uint8_t *from, const uint8_t *to, const uint32_t *map, uint32_t count) {
    static pdbmerge_reference old[MOST], new[MOST];
    size_t length = 2 + from[0] + 256 * (size_t)from[1];
    uint8_t *bytes = memcpy(allocate(length), from, length);
    hold("the length of a record", to[0] + 256 * (size_t)to[1] + 2, length);
    uint64_t named = references_of(from, length, old);
    hold("how many types it names", references_of(to, length, new), named);
    for (uint64_t at = 0; at < named; at++) {
        hold("where it names a type", new[at].place, old[at].place);
        hold("which type it names", new[at].index, followed(map, count, old[at].index));
        memcpy(bytes + BEGIN + old[at].place, to + BEGIN + old[at].place, sizeof(uint32_t));
    }
    hold("its other bytes", memcmp(bytes, to, length) == 0, 1);
    free(bytes);
}

static void hold_map(pdbmerge_slice file, const uint32_t *map, uint32_t count, const struct types *merged) {
    struct types types = types_of(file);
    hold("how many records have a type index", count, types.count);
    for (uint64_t at = 0; at < types.count && at < count; at++) {
        hold("a type index of a record", map[at] >= FIRST_INDEX && map[at] - FIRST_INDEX < merged->count, 1);
        const uint8_t *to = merged->stream + merged->offsets[map[at] - FIRST_INDEX];
        hold_record(types.stream + types.offsets[at], to, map, count);
    }
    free(types.stream);
    free(types.offsets);
}

/* The first file is given twice, and has the same map twice. */
static void hold_maps(const pdbmerge_slice *files) {
    struct merged merged = merge(files, FILES);
    struct types types = types_of((pdbmerge_slice){merged.file, merged.report.length});
    const uint32_t *map = merged.indices;
    hold_file(&merged, files, FILES);
    hold_plan(&merged, files, FILES);
    hold("the types of the file", types.count, merged.report.types);
    for (size_t at = 0; at < FILES; at++) {
        hold_map(files[at], map, merged.counts[at], &types);
        map += merged.counts[at];
    }
    hold("the total", merged.total, (uint64_t)(map - merged.indices));
    hold("the length of the same map", merged.counts[2], merged.counts[0]);
    hold("the same map", memcmp(map - merged.counts[2], merged.indices, merged.counts[0] * sizeof *map) == 0, 1);
}

static void hold_no_files(void) {
    struct merged merged = merge(NULL, 0);
    hold("the total of no files", merged.total, 0);
    hold_file(&merged, NULL, 0);
    hold_plan(&merged, NULL, 0);
}

int main(int argc, char **argv) {
    if (argc != 3)
        return 2;
    pdbmerge_slice first = read_file(argv[1]);
    pdbmerge_slice files[FILES] = {first, read_file(argv[2]), first};
    hold_maps(files);
    hold_no_files();
    return finish("maps");
}
