/* Room that is too small, NULL for what has no bytes, type indices that no record has, settings that
 * no file can have, and the texts of faults.
 *
 * usage: room FIRST SECOND CYCLE COUNT EMPTY, two files that differ in their types, of which the first
 *        has named streams and feature codes; one whose records 0x1000 and so on, as many as COUNT
 *        says, each name themselves; and one of 5 blocks of 4096 bytes, none of them free, without
 *        streams */
#include "checks.h"

enum {
    HEADER = 56,          /* the bytes in front of the records of a type stream */
    KEPT = 235,           /* the most bytes of a text that are kept */
    PATTERN = 0xA5,       /* what is in memory before a call */
    MORE = 64             /* memory behind the room of a call */
};

static pdbmerge_slice first, second, cycle, empty;
/* Stream 1 and stream 2 of the first file. */
static pdbmerge_slice info, stream;
static unsigned long cycles;

/* ---- Room */

typedef uint32_t given_room(void *out, size_t room, uint64_t *size, pdbmerge_fault *fault);

/* The container is looked at as well: that of a call with enough room. */
static uint32_t into_layout(void *out, size_t room, uint64_t *size, pdbmerge_fault *fault) {
    static pdbmerge_container whole;
    pdbmerge_container container;
    memset(&container, PATTERN, sizeof container);
    uint32_t number = pdbmerge_layout(first.bytes, first.length, &container, out, room, fault);
    if (whole.block_size == 0)
        whole = container;
    hold("the container", memcmp(&container, &whole, sizeof whole) == 0, 1);
    *size = container.streams;
    return number;
}

static uint32_t into_blocks(void *out, size_t room, uint64_t *size, pdbmerge_fault *fault) {
    return pdbmerge_blocks(first.bytes, first.length, out, room, size, fault);
}

static uint32_t into_stream(void *out, size_t room, uint64_t *size, pdbmerge_fault *fault) {
    return pdbmerge_stream(first.bytes, first.length, 2, out, room, size, fault);
}

static uint32_t into_named_streams(void *out, size_t room, uint64_t *size, pdbmerge_fault *fault) {
    return pdbmerge_named_streams(info.bytes, info.length, out, room, size, fault);
}

static uint32_t into_stream_names(void *out, size_t room, uint64_t *size, pdbmerge_fault *fault) {
    return pdbmerge_stream_names(info.bytes, info.length, out, room, size, fault);
}

static uint32_t into_features(void *out, size_t room, uint64_t *size, pdbmerge_fault *fault) {
    return pdbmerge_features(info.bytes, info.length, out, room, size, fault);
}

static uint32_t into_records(void *out, size_t room, uint64_t *size, pdbmerge_fault *fault) {
    return pdbmerge_records(stream.bytes, stream.length, out, room, size, fault);
}

static uint32_t into_references(void *out, size_t room, uint64_t *size, pdbmerge_fault *fault) {
    return pdbmerge_references(stream.bytes + HEADER, stream.length - HEADER, 0x1000,
                               out, room, size, fault);
}

static uint32_t into_name(void *out, size_t room, uint64_t *size, pdbmerge_fault *fault) {
    return pdbmerge_name(stream.bytes + HEADER, stream.length - HEADER, 0x1000, out, room, size, fault);
}

static uint32_t into_differences(void *out, size_t room, uint64_t *size, pdbmerge_fault *fault) {
    pdbmerge_seed seed = {{0}};
    return pdbmerge_diff(first.bytes, first.length, second.bytes, second.length, &seed,
                         out, room, size, fault);
}

static uint32_t into_members(void *out, size_t room, uint64_t *size, pdbmerge_fault *fault) {
    return pdbmerge_members(first.bytes, first.length, NULL, 0, out, room, size, fault);
}

static uint32_t into_changes(void *out, size_t room, uint64_t *size, pdbmerge_fault *fault) {
    pdbmerge_seed seed = {{0}};
    return pdbmerge_changes(first.bytes, first.length, second.bytes, second.length, &seed,
                            out, room, size, fault);
}

/* A call that merges: with the GUID of the settings, or with that of the types. */
typedef uint32_t merging(const pdbmerge_slice *, size_t, const pdbmerge_settings *, uint8_t *, size_t,
                         pdbmerge_report *, pdbmerge_fault *);

/* The types and the bytes of the report are looked at as well: those of a merge with enough room. */
static uint32_t merge_into(merging *call, void *out, size_t room, uint64_t *size, pdbmerge_fault *fault) {
    static pdbmerge_report whole;
    pdbmerge_settings settings = settings_of(4096);
    pdbmerge_slice files[2] = {first, second};
    pdbmerge_report report = {0, 0, 0};
    uint32_t number = call(files, 2, &settings, out, room, &report, fault);
    if (whole.length == 0)
        whole = report;
    hold("the report", memcmp(&report, &whole, sizeof whole) == 0, 1);
    *size = report.length;
    return number;
}

static uint32_t into_merge(void *out, size_t room, uint64_t *size, pdbmerge_fault *fault) {
    return merge_into(pdbmerge_merge, out, room, size, fault);
}

static uint32_t into_merge_by_types(void *out, size_t room, uint64_t *size, pdbmerge_fault *fault) {
    return merge_into(pdbmerge_merge_by_types, out, room, size, fault);
}

/* Enough room for each part of a merge with maps. */
enum { FILE_ROOM = 1 << 20, INDEX_ROOM = 1 << 16, COUNT_ROOM = 3 };

/* The rooms of a merge with maps: of the file, of the type indices and of the counts. */
struct rooms {
    uint8_t *out;
    size_t room;
    uint32_t *indices;
    size_t index_room;
    uint32_t *counts;
    size_t count_room;
};

static int is_untouched(const uint8_t *memory, size_t from, size_t to);

/* Memory that is enough for each part, and has the pattern. */
static struct rooms enough(void) {
    static uint8_t out[FILE_ROOM];
    static uint32_t indices[INDEX_ROOM], counts[COUNT_ROOM];
    memset(out, PATTERN, sizeof out);
    memset(indices, PATTERN, sizeof indices);
    memset(counts, PATTERN, sizeof counts);
    return (struct rooms){out, FILE_ROOM, indices, INDEX_ROOM, counts, COUNT_ROOM};
}

/* Whether the memory that was enough has the pattern. */
static int all_untouched(struct rooms to, const void *given) {
    return (to.out == given || is_untouched(to.out, 0, FILE_ROOM))
        && (to.indices == given || is_untouched((uint8_t *)to.indices, 0, INDEX_ROOM * sizeof *to.indices))
        && (to.counts == given || is_untouched((uint8_t *)to.counts, 0, COUNT_ROOM * sizeof *to.counts));
}

/* The report and the total are looked at as well: those of a merge with enough room. Where one part has too
 * little, the other two are as before. */
static uint32_t merge_map_into(struct rooms to, const void *given, pdbmerge_report *report, uint64_t *total,
                               pdbmerge_fault *fault) {
    static pdbmerge_report whole;
    static uint64_t all;
    pdbmerge_settings settings = settings_of(4096);
    pdbmerge_slice files[2] = {first, second};
    uint32_t number = pdbmerge_merge_map(files, 2, &settings, to.out, to.room, to.indices, to.index_room,
                                         to.counts, to.count_room, report, total, fault);
    if (whole.length == 0) {
        whole = *report;
        all = *total;
    }
    hold("the report with maps", memcmp(report, &whole, sizeof whole) == 0, 1);
    hold("the total of records", *total, all);
    if (number != PDBMERGE_OK)
        hold("the other rooms are as before", all_untouched(to, given), 1);
    return number;
}

static uint32_t into_mapped_file(void *out, size_t room, uint64_t *size, pdbmerge_fault *fault) {
    struct rooms to = enough();
    pdbmerge_report report = {0, 0, 0};
    uint64_t total = 0;
    to.out = out;
    to.room = room;
    uint32_t number = merge_map_into(to, out, &report, &total, fault);
    *size = report.length;
    return number;
}

static uint32_t into_indices(void *out, size_t room, uint64_t *size, pdbmerge_fault *fault) {
    struct rooms to = enough();
    pdbmerge_report report = {0, 0, 0};
    to.indices = out;
    to.index_room = room;
    return merge_map_into(to, out, &report, size, fault);
}

static uint32_t into_counts(void *out, size_t room, uint64_t *size, pdbmerge_fault *fault) {
    struct rooms to = enough();
    pdbmerge_report report = {0, 0, 0};
    uint64_t total = 0;
    to.counts = out;
    to.count_room = room;
    *size = 2;
    return merge_map_into(to, out, &report, &total, fault);
}

/* Enough room for the files that a plan leaves out. */
enum { LEFT_OUT_ROOM = 3 };

/* The rooms of a merge by a plan: those of a merge with maps, and that of the files that are left out. */
struct plan_rooms {
    struct rooms maps;
    pdbmerge_left_out *left_out;
    size_t left_out_room;
};

/* Memory that is enough for each part, and has the pattern. */
static struct plan_rooms enough_for_plan(void) {
    static pdbmerge_left_out left_out[LEFT_OUT_ROOM];
    memset(left_out, PATTERN, sizeof left_out);
    return (struct plan_rooms){enough(), left_out, LEFT_OUT_ROOM};
}

/* Whether the memory that was enough has the pattern. */
static int plan_untouched(struct plan_rooms to, const void *given) {
    return all_untouched(to.maps, given)
        && (to.left_out == given
            || is_untouched((uint8_t *)to.left_out, 0, LEFT_OUT_ROOM * sizeof *to.left_out));
}

/* What a merge by a plan says beside its fault. */
struct plan_results {
    pdbmerge_report report;
    pdbmerge_totals totals;
};

static uint32_t merge_plan(const pdbmerge_slice *files, size_t count, const pdbmerge_plan *plan,
                           struct plan_rooms to, struct plan_results *results, pdbmerge_fault *fault) {
    return pdbmerge_merge_plan(files, count, plan, to.maps.out, to.maps.room, to.maps.indices, to.maps.index_room,
                               to.maps.counts, to.maps.count_room, to.left_out, to.left_out_room,
                               &results->report, &results->totals, fault);
}

/* The plan to leave out what is refused, with a made GUID and with maps. */
static pdbmerge_plan skipping(void) {
    pdbmerge_plan plan = {settings_of(4096), PDBMERGE_GUID_OF_TYPES, PDBMERGE_SKIP, PDBMERGE_MAPS};
    return plan;
}

/* The second of three files is refused. The report and the totals are looked at as well: those of a merge with
 * enough room. Where one part has too little, the other three are as before. */
static uint32_t merge_plan_into(struct plan_rooms to, const void *given, struct plan_results *results,
                                pdbmerge_fault *fault) {
    static struct plan_results whole;
    pdbmerge_plan plan = skipping();
    pdbmerge_slice files[3] = {first, cycle, second};
    memset(results, 0, sizeof *results);
    uint32_t number = merge_plan(files, 3, &plan, to, results, fault);
    if (whole.report.length == 0)
        whole = *results;
    hold("the report and the totals of a plan", memcmp(results, &whole, sizeof whole) == 0, 1);
    if (number != PDBMERGE_OK)
        hold("the other rooms of a plan are as before", plan_untouched(to, given), 1);
    return number;
}

static uint32_t into_planned_file(void *out, size_t room, uint64_t *size, pdbmerge_fault *fault) {
    struct plan_rooms to = enough_for_plan();
    struct plan_results results;
    to.maps.out = out;
    to.maps.room = room;
    uint32_t number = merge_plan_into(to, out, &results, fault);
    *size = results.report.length;
    return number;
}

static uint32_t into_planned_indices(void *out, size_t room, uint64_t *size, pdbmerge_fault *fault) {
    struct plan_rooms to = enough_for_plan();
    struct plan_results results;
    to.maps.indices = out;
    to.maps.index_room = room;
    uint32_t number = merge_plan_into(to, out, &results, fault);
    *size = results.totals.indices;
    return number;
}

static uint32_t into_planned_counts(void *out, size_t room, uint64_t *size, pdbmerge_fault *fault) {
    struct plan_rooms to = enough_for_plan();
    struct plan_results results;
    to.maps.counts = out;
    to.maps.count_room = room;
    uint32_t number = merge_plan_into(to, out, &results, fault);
    *size = results.totals.counts;
    return number;
}

static uint32_t into_left_out(void *out, size_t room, uint64_t *size, pdbmerge_fault *fault) {
    struct plan_rooms to = enough_for_plan();
    struct plan_results results;
    to.left_out = out;
    to.left_out_room = room;
    uint32_t number = merge_plan_into(to, out, &results, fault);
    *size = results.totals.left_out;
    return number;
}

/* Enough room for what all records of the first file name, and for their counts. */
enum { REFERENCE_ROOM = 1 << 12, RECORD_ROOM = 1 << 12 };

/* The rooms of a call on all records. */
struct named_rooms {
    pdbmerge_reference *references;
    size_t room;
    uint32_t *counts;
    size_t count_room;
};

/* Memory that is enough for both, and has the pattern. */
static struct named_rooms enough_named(void) {
    static pdbmerge_reference references[REFERENCE_ROOM];
    static uint32_t counts[RECORD_ROOM];
    memset(references, PATTERN, sizeof references);
    memset(counts, PATTERN, sizeof counts);
    return (struct named_rooms){references, REFERENCE_ROOM, counts, RECORD_ROOM};
}

/* Both numbers are looked at as well: those of a call with enough room. Where one room is too little, the other one
 * is as before. */
static uint32_t all_references_into(struct named_rooms to, const void *given, uint64_t *total, uint64_t *records,
                                    pdbmerge_fault *fault) {
    static uint64_t whole[2];
    *total = *records = 0;
    uint32_t number = pdbmerge_all_references(stream.bytes, stream.length, to.references, to.room,
                                              to.counts, to.count_room, total, records, fault);
    if (whole[0] == 0) {
        whole[0] = *total;
        whole[1] = *records;
    }
    hold("how much all records name", *total, whole[0]);
    hold("how many records there are", *records, whole[1]);
    if (number == PDBMERGE_OK)
        return number;
    hold("the room of references is as before", to.references == given
         || is_untouched((uint8_t *)to.references, 0, REFERENCE_ROOM * sizeof *to.references), 1);
    hold("the room of counts is as before", to.counts == given
         || is_untouched((uint8_t *)to.counts, 0, RECORD_ROOM * sizeof *to.counts), 1);
    return number;
}

static uint32_t into_all_references(void *out, size_t room, uint64_t *size, pdbmerge_fault *fault) {
    struct named_rooms to = enough_named();
    uint64_t records;
    to.references = out;
    to.room = room;
    return all_references_into(to, out, size, &records, fault);
}

static uint32_t into_reference_counts(void *out, size_t room, uint64_t *size, pdbmerge_fault *fault) {
    struct named_rooms to = enough_named();
    uint64_t total;
    to.counts = out;
    to.count_room = room;
    return all_references_into(to, out, &total, size, fault);
}

/* The calls that take room, and the size of an item. */
static const struct row {
    const char *name;
    given_room *call;
    size_t item;
} ROWS[] = {
    {"layout", into_layout, sizeof(uint32_t)},
    {"blocks", into_blocks, sizeof(uint32_t)},
    {"stream", into_stream, 1},
    {"named streams", into_named_streams, sizeof(uint32_t)},
    {"stream names", into_stream_names, 1},
    {"features", into_features, sizeof(uint32_t)},
    {"records", into_records, sizeof(uint64_t)},
    {"references", into_references, sizeof(pdbmerge_reference)},
    {"references of all records", into_all_references, sizeof(pdbmerge_reference)},
    {"counts of references", into_reference_counts, sizeof(uint32_t)},
    {"name", into_name, 1},
    {"differences", into_differences, sizeof(pdbmerge_difference)},
    {"members", into_members, 1},
    {"changes", into_changes, 1},
    {"merge", into_merge, 1},
    {"merge by types", into_merge_by_types, 1},
    {"file of a merge with maps", into_mapped_file, 1},
    {"indices of maps", into_indices, sizeof(uint32_t)},
    {"counts of maps", into_counts, sizeof(uint32_t)},
    {"file of a plan", into_planned_file, 1},
    {"indices of a plan", into_planned_indices, sizeof(uint32_t)},
    {"counts of a plan", into_planned_counts, sizeof(uint32_t)},
    {"files that a plan leaves out", into_left_out, sizeof(pdbmerge_left_out)},
};

/* Whether memory holds the pattern from one place to another. */
static int is_untouched(const uint8_t *memory, size_t from, size_t to) {
    while (from < to)
        if (memory[from++] != PATTERN)
            return 0;
    return 1;
}

/* Whether the text of a fault has only NULs from an offset on. */
static int ends_in_nuls(const char *text, size_t from) {
    for (size_t at = from; at <= KEPT; at++)
        if (text[at] != 0)
            return 0;
    return 1;
}

/* A fault that belongs to no input. */
static void hold_fault(const char *what, const pdbmerge_fault *fault, uint32_t number, const char *text) {
    hold(what, fault->number, number);
    hold(what, fault->length, strlen(text));
    hold(what, fault->input, PDBMERGE_NO_INPUT);
    hold_text(what, fault->text, text);
    hold(what, ends_in_nuls(fault->text, strlen(text)), 1);
}

/* A call with room for so many items of memory that has the pattern. */
static void hold_room(const struct row *row, uint8_t *memory, size_t room, uint64_t wanted) {
    pdbmerge_fault fault;
    uint64_t size = 0;
    size_t length = wanted * row->item, written = room < wanted ? 0 : length;
    memset(memory, PATTERN, length + MORE);
    uint32_t number = row->call(memory, room, &size, &fault);
    hold(row->name, number, room < wanted ? PDBMERGE_ROOM : PDBMERGE_OK);
    hold_fault(row->name, &fault, number, room < wanted ? "100 Room" : "");
    hold(row->name, size, wanted);
    hold("memory behind the items is as before", is_untouched(memory, written, length + MORE), 1);
}

static void hold_rooms(const struct row *row) {
    pdbmerge_fault fault;
    uint64_t wanted = 0;
    hold(row->name, row->call(NULL, 0, &wanted, &fault), PDBMERGE_ROOM);
    hold_fault(row->name, &fault, PDBMERGE_ROOM, "100 Room");
    hold("there are some items", wanted > 0, 1);
    size_t length = wanted * row->item;
    uint8_t *memory = allocate(length + MORE), *same = allocate(length + MORE);
    hold_room(row, memory, wanted - 1, wanted);
    hold_room(row, same, wanted + MORE / row->item, wanted);
    hold_room(row, memory, wanted, wanted);
    hold("the same items with more room", memcmp(memory, same, length) == 0, 1);
    free(memory);
    free(same);
}

/* ---- Records by their type indices */

/* An index that no record of a type stream has. */
static void hold_no_record(pdbmerge_slice types, uint32_t index) {
    pdbmerge_fault fault;
    uint64_t offset = 7;
    char text[32];
    sprintf(text, "39 NoRecord 0x%x", (unsigned)index);
    hold(text, pdbmerge_record(types.bytes, types.length, index, &offset, &fault), 39);
    hold_fault(text, &fault, 39, text);
    hold("offset is as before", offset, 7);
}

/* Each record is found where the list says that it begins, and there are no others. */
static void hold_records(void) {
    pdbmerge_fault fault;
    size_t most = stream.length / 4; /* a record has at least four bytes */
    uint64_t *offsets = allocate(most * sizeof *offsets), count = 0, offset = 0;
    hold("the list", into_records(offsets, most, &count, &fault), PDBMERGE_OK);
    for (uint32_t at = 0; at < count; at++) {
        uint32_t number = pdbmerge_record(stream.bytes, stream.length, 0x1000 + at, &offset, &fault);
        hold("a record by its index", number, PDBMERGE_OK);
        hold_fault("a record by its index", &fault, PDBMERGE_OK, "");
        hold("where it begins", offset, offsets[at]);
    }
    hold_no_record(stream, 0);
    hold_no_record(stream, 0xfff);
    hold_no_record(stream, 0x1000 + (uint32_t)count);
    hold_no_record(stream, UINT32_MAX);
    free(offsets);
}

/* ---- What all records name */

/* It is what each of them names, and the counts say where it ends. */
static void hold_all_references(void) {
    static pdbmerge_reference own[REFERENCE_ROOM];
    pdbmerge_fault fault;
    struct named_rooms to = enough_named();
    size_t most = stream.length / 4;
    uint64_t *offsets = allocate(most * sizeof *offsets), count = 0, total = 0, records = 0, own_count = 0, end = 0;
    hold("the list of records", into_records(offsets, most, &count, &fault), PDBMERGE_OK);
    hold("all references", all_references_into(to, NULL, &total, &records, &fault), PDBMERGE_OK);
    hold("how many records have a count", records, count);
    for (uint32_t at = 0; at < records && at < count; at++) {
        uint32_t number = pdbmerge_references(stream.bytes + offsets[at], stream.length - offsets[at], 0x1000 + at,
                                              own, REFERENCE_ROOM, &own_count, &fault);
        hold("the references of a record", number, PDBMERGE_OK);
        hold("how many they are", to.counts[at], own_count);
        hold("which they are", memcmp(to.references + end, own, own_count * sizeof *own) == 0, 1);
        end += own_count;
    }
    hold("there are no others", total, end);
    free(offsets);
}

/* The fault of a leaf is that of the first record that has one, and says which that is. */
static void hold_leaf_fault(void) {
    static uint32_t words[(HEADER + 20) / 4] = {20040203, HEADER, 0x1000, 0x1003, 20};
    static const uint8_t records[20] = {6, 0, 0x0e, 0, 0, 0, 0, 0, 2, 0, 0x34, 0x12, 6, 0, 0x35, 0x12};
    pdbmerge_fault fault;
    uint64_t total = 7, many = 7;
    memcpy((uint8_t *)words + HEADER, records, sizeof records);
    uint32_t number = pdbmerge_all_references((const uint8_t *)words, sizeof words, NULL, 0, NULL, 0,
                                              &total, &many, &fault);
    hold("a leaf that is in no table", number, 25);
    hold_fault("a leaf that is in no table", &fault, 25, "index 0x1001: 25 Leaf 0x1234");
    hold("its total is as before", total, 7);
    hold("its number of records is as before", many, 7);
}

/* ---- NULL for what has no bytes */

/* A fault that belongs to an input. */
static void hold_input(const pdbmerge_fault *fault, uint64_t input, const char *text) {
    hold(text, fault->input, input);
    hold_text("text of the fault", fault->text, text);
    hold(text, fault->length, strlen(text));
}

static void hold_null_files(void) {
    pdbmerge_fault fault;
    pdbmerge_identity identity;
    pdbmerge_container container;
    pdbmerge_counts counts;
    memset(&identity, PATTERN, sizeof identity);
    memset(&container, PATTERN, sizeof container);
    memset(&counts, PATTERN, sizeof counts);
    hold("identify of NULL", pdbmerge_identify(NULL, 0, &identity, &fault), 1);
    hold_fault("identify of NULL", &fault, 1, "1 Short");
    hold("identity is as before", is_untouched((uint8_t *)&identity, 0, sizeof identity), 1);
    hold("layout of NULL", pdbmerge_layout(NULL, 0, &container, NULL, 0, &fault), 1);
    hold_fault("layout of NULL", &fault, 1, "1 Short");
    hold("container is as before", is_untouched((uint8_t *)&container, 0, sizeof container), 1);
    hold("check of NULL", pdbmerge_check(NULL, 0, &counts, &fault), 1);
    hold_fault("check of NULL", &fault, 1, "1 Short");
    hold("counts are as before", is_untouched((uint8_t *)&counts, 0, sizeof counts), 1);
}

/* The calls that list or copy something, or find an offset. */
static void hold_null_lists(void) {
    pdbmerge_fault fault;
    uint64_t size = 7;
    hold("blocks of NULL", pdbmerge_blocks(NULL, 0, NULL, 0, &size, &fault), 1);
    hold_fault("blocks of NULL", &fault, 1, "1 Short");
    hold("stream of NULL", pdbmerge_stream(NULL, 0, 0, NULL, 0, &size, &fault), 1);
    hold_fault("stream of NULL", &fault, 1, "1 Short");
    hold("named streams of NULL", pdbmerge_named_streams(NULL, 0, NULL, 0, &size, &fault), 12);
    hold_fault("named streams of NULL", &fault, 12, "12 InfoShort");
    hold("stream names of NULL", pdbmerge_stream_names(NULL, 0, NULL, 0, &size, &fault), 12);
    hold_fault("stream names of NULL", &fault, 12, "12 InfoShort");
    hold("features of NULL", pdbmerge_features(NULL, 0, NULL, 0, &size, &fault), 12);
    hold_fault("features of NULL", &fault, 12, "12 InfoShort");
    hold("records of NULL", pdbmerge_records(NULL, 0, NULL, 0, &size, &fault), 16);
    hold_fault("records of NULL", &fault, 16, "16 TpiShort");
    hold("record of NULL", pdbmerge_record(NULL, 0, 0x1000, &size, &fault), 16);
    hold_fault("record of NULL", &fault, 16, "16 TpiShort");
    hold("references of NULL", pdbmerge_references(NULL, 0, 0x1234, NULL, 0, &size, &fault), 22);
    hold_fault("references of NULL", &fault, 22, "22 RecordShort index 0x1234");
    hold("all references of NULL", pdbmerge_all_references(NULL, 0, NULL, 0, NULL, 0, &size, &size, &fault), 16);
    hold_fault("all references of NULL", &fault, 16, "16 TpiShort");
    hold("name of NULL", pdbmerge_name(NULL, 0, 0x1234, NULL, 0, &size, &fault), 22);
    hold_fault("name of NULL", &fault, 22, "22 RecordShort index 0x1234");
    hold("members of NULL", pdbmerge_members(NULL, 0, NULL, 0, NULL, 0, &size, &fault), 1);
    hold_fault("members of NULL", &fault, 1, "1 Short");
    hold("size is as before", size, 7);
}

static void hold_null_pairs(void) {
    pdbmerge_fault fault;
    pdbmerge_seed seed = {{0}};
    uint64_t count = 7;
    uint32_t number = pdbmerge_diff(NULL, 0, NULL, 0, &seed, NULL, 0, &count, &fault);
    hold("diff of NULL", number, 1);
    hold_input(&fault, 0, "file 0: 1 Short");
    number = pdbmerge_diff(first.bytes, first.length, NULL, 0, &seed, NULL, 0, &count, &fault);
    hold("diff with NULL", number, 1);
    hold_input(&fault, 1, "file 1: 1 Short");
    hold("count is as before", count, 7);
    number = pdbmerge_diff(first.bytes, first.length, first.bytes, first.length, &seed,
                           NULL, 0, &count, &fault);
    hold("diff of a file with itself", number, PDBMERGE_OK);
    hold("count of no differences", count, 0);
}

static void hold_null_changes(void) {
    pdbmerge_fault fault;
    pdbmerge_seed seed = {{0}};
    uint64_t size = 7;
    uint32_t number = pdbmerge_changes(NULL, 0, NULL, 0, &seed, NULL, 0, &size, &fault);
    hold("changes of NULL", number, 1);
    hold_input(&fault, 0, "file 0: 1 Short");
    number = pdbmerge_changes(first.bytes, first.length, NULL, 0, &seed, NULL, 0, &size, &fault);
    hold("changes with NULL", number, 1);
    hold_input(&fault, 1, "file 1: 1 Short");
    hold("size is as before", size, 7);
    number = pdbmerge_changes(first.bytes, first.length, first.bytes, first.length, &seed,
                              NULL, 0, &size, &fault);
    hold("changes of a file with itself", number, PDBMERGE_OK);
    hold("the size of no text", size, 0);
}

/* A name of no bytes is NULL, and one that no type has adds nothing. */
static void hold_null_names(void) {
    static const pdbmerge_slice names[2] = {{NULL, 0}, {(const uint8_t *)"no such type", 12}};
    pdbmerge_fault fault;
    uint64_t size = 7;
    uint32_t number = pdbmerge_members(first.bytes, first.length, names, 2, NULL, 0, &size, &fault);
    hold("members of names that no type has", number, PDBMERGE_OK);
    hold("the size of their text", size, 0);
}

/* A file without streams has neither sizes nor blocks. */
static void hold_no_streams(void) {
    static const pdbmerge_container wanted = {4096, 5, 0, 4, 0};
    pdbmerge_fault fault;
    pdbmerge_container container;
    uint64_t count = 7;
    memset(&container, PATTERN, sizeof container);
    uint32_t number = pdbmerge_layout(empty.bytes, empty.length, &container, NULL, 0, &fault);
    hold("layout of no streams", number, PDBMERGE_OK);
    hold("their container", memcmp(&container, &wanted, sizeof wanted) == 0, 1);
    number = pdbmerge_blocks(empty.bytes, empty.length, NULL, 0, &count, &fault);
    hold("blocks of no streams", number, PDBMERGE_OK);
    hold("how many they are", count, 0);
}

/* A stream 1 with neither named streams nor feature codes. */
static void hold_no_names(void) {
    static const uint32_t words[13] = {20000404, 0, 1, 0, 0, 0, 0, 0, 0, 8, 0, 0, 0};
    const uint8_t *plain = (const uint8_t *)words;
    pdbmerge_fault fault;
    uint64_t size = 7;
    uint32_t number = pdbmerge_named_streams(plain, sizeof words, NULL, 0, &size, &fault);
    hold("no named streams", number, PDBMERGE_OK);
    hold("how many they are", size, 0);
    size = 7;
    number = pdbmerge_stream_names(plain, sizeof words, NULL, 0, &size, &fault);
    hold("no stream names", number, PDBMERGE_OK);
    hold("how many bytes they have", size, 0);
    size = 7;
    number = pdbmerge_features(plain, sizeof words, NULL, 0, &size, &fault);
    hold("no features", number, PDBMERGE_OK);
    hold("how many they are", size, 0);
}

/* Streams and records that have nothing to list. */
static void hold_null_room(void) {
    static const uint32_t header[HEADER / 4] = {20040203, HEADER, 0x1000, 0x1000};
    static const uint8_t label[] = {6, 0, 0x0e, 0, 0, 0, 0, 0};
    pdbmerge_fault fault;
    uint64_t size = 7;
    uint32_t number = pdbmerge_stream(cycle.bytes, cycle.length, 0, NULL, 0, &size, &fault);
    hold("an empty stream", number, PDBMERGE_OK);
    hold("size of an empty stream", size, 0);
    size = 7;
    number = pdbmerge_records((const uint8_t *)header, HEADER, NULL, 0, &size, &fault);
    hold("a type stream without records", number, PDBMERGE_OK);
    hold("how many they are", size, 0);
    hold_no_record((pdbmerge_slice){(const uint8_t *)header, HEADER}, 0x1000);
    size = 7;
    uint64_t records = 7;
    number = pdbmerge_all_references((const uint8_t *)header, HEADER, NULL, 0, NULL, 0, &size, &records, &fault);
    hold("what no records name", number, PDBMERGE_OK);
    hold("how much that is", size, 0);
    hold("how many they are", records, 0);
    size = 7;
    number = pdbmerge_references(label, sizeof label, 0x1000, NULL, 0, &size, &fault);
    hold("a record that names nothing", number, PDBMERGE_OK);
    hold("what it names", size, 0);
    number = pdbmerge_name(label, sizeof label, 0x1000, NULL, 0, &size, &fault);
    hold("a record without a name", number, PDBMERGE_OK);
    hold("the length of no name", size, PDBMERGE_NO_NAME);
}

/* ---- Merges that are refused */

/* A merge with maps has the same fault, and leaves all memory as it was. */
static void hold_refused_maps(const pdbmerge_slice *files, size_t count, pdbmerge_settings settings,
                              const pdbmerge_fault *wanted) {
    struct rooms to = enough();
    pdbmerge_report report;
    pdbmerge_fault fault;
    uint64_t total = 7;
    memset(&report, PATTERN, sizeof report);
    uint32_t number = pdbmerge_merge_map(files, count, &settings, to.out, to.room, to.indices, to.index_room,
                                         to.counts, to.count_room, &report, &total, &fault);
    hold("a merge with maps that is refused", number, wanted->number);
    hold("its input", fault.input, wanted->input);
    hold_text("its text", fault.text, wanted->text);
    hold("its rooms are as before", all_untouched(to, NULL), 1);
    hold("its report is as before", is_untouched((uint8_t *)&report, 0, sizeof report), 1);
    hold("its total is as before", total, 7);
}

/* So has a merge by a plan that stops, with each of its other choices. */
static void hold_refused_plan(const pdbmerge_slice *files, size_t count, pdbmerge_settings settings,
                              const pdbmerge_fault *wanted) {
    for (uint32_t choices = 0; choices < 4; choices++) {
        pdbmerge_plan plan = {settings, choices % 2, PDBMERGE_STOP, choices / 2};
        struct plan_rooms to = enough_for_plan();
        struct plan_results results;
        pdbmerge_fault fault;
        memset(&results, PATTERN, sizeof results);
        uint32_t number = merge_plan(files, count, &plan, to, &results, &fault);
        hold("a merge by a plan that is refused", number, wanted->number);
        hold("its fault", memcmp(&fault, wanted, sizeof fault) == 0, 1);
        hold("its rooms are as before", plan_untouched(to, NULL), 1);
        hold("its report and totals are as before", is_untouched((uint8_t *)&results, 0, sizeof results), 1);
    }
}

/* So has a merge by types. */
static void hold_refused_by_types(const pdbmerge_slice *files, size_t count, pdbmerge_settings settings,
                                  const pdbmerge_fault *wanted) {
    static uint8_t out[1 << 10];
    pdbmerge_report report;
    pdbmerge_fault fault;
    memset(out, PATTERN, sizeof out);
    memset(&report, PATTERN, sizeof report);
    uint32_t number = pdbmerge_merge_by_types(files, count, &settings, out, sizeof out, &report, &fault);
    hold("a merge by types that is refused", number, wanted->number);
    hold("its fault", memcmp(&fault, wanted, sizeof fault) == 0, 1);
    hold("its out is as before", is_untouched(out, 0, sizeof out), 1);
    hold("its report is as before", is_untouched((uint8_t *)&report, 0, sizeof report), 1);
}

/* And the GUID of types, which has neither a limit nor a block size. */
static void hold_refused_guid(const pdbmerge_slice *files, size_t count, const pdbmerge_fault *wanted) {
    pdbmerge_seed seed = {{0}};
    pdbmerge_guid guid;
    pdbmerge_fault fault;
    memset(&guid, PATTERN, sizeof guid);
    uint32_t number = pdbmerge_guid_of_types(files, count, &seed, &guid, &fault);
    hold("a GUID of types that is refused", number, wanted->number);
    hold("its fault", memcmp(&fault, wanted, sizeof fault) == 0, 1);
    hold("the GUID is as before", is_untouched(guid.bytes, 0, sizeof guid.bytes), 1);
}

/* A merge that is refused leaves memory and report as they were. */
static pdbmerge_fault refused(const pdbmerge_slice *files, size_t count, pdbmerge_settings settings,
                              uint32_t wanted) {
    static uint8_t out[1 << 10];
    pdbmerge_report report;
    pdbmerge_fault fault;
    memset(out, PATTERN, sizeof out);
    memset(&report, PATTERN, sizeof report);
    uint32_t number = pdbmerge_merge(files, count, &settings, out, sizeof out, &report, &fault);
    hold("a merge that is refused", number, wanted);
    hold("its fault", fault.number, wanted);
    hold("out is as before", is_untouched(out, 0, sizeof out), 1);
    hold("the report is as before", is_untouched((uint8_t *)&report, 0, sizeof report), 1);
    hold_refused_maps(files, count, settings, &fault);
    hold_refused_plan(files, count, settings, &fault);
    hold_refused_by_types(files, count, settings, &fault);
    if (wanted < PDBMERGE_TOO_LARGE || wanted == 34)
        hold_refused_guid(files, count, &fault);
    return fault;
}

static void hold_merges(void) {
    pdbmerge_settings settings = settings_of(4096);
    static const uint8_t zeros[56];
    pdbmerge_slice empty = {NULL, 0}, magic = {zeros, sizeof zeros};
    pdbmerge_slice files[3] = {first, empty, magic};
    pdbmerge_fault fault = refused(files, 3, settings, 1);
    hold_input(&fault, 1, "file 1: 1 Short");
    files[1] = magic;
    fault = refused(files, 3, settings, 2);
    hold_input(&fault, 1, "file 1: 2 Magic");
    settings.limit = 24;
    fault = refused(files, 3, settings, PDBMERGE_TOO_LARGE);
    hold("the file that is too large", fault.input, 0);
    hold("its text", strncmp(fault.text, "file 0: 32 TooLarge bytes ", 26), 0);
}

/* The first setting that is wrong is named: a limit before a block size. */
static void hold_settings(void) {
    static const uint32_t sizes[] = {0, 1, 256, 511, 513, 4095, 4097, 65536, UINT32_MAX};
    pdbmerge_slice bad = {NULL, 0};
    char text[64];
    for (size_t at = 0; at < sizeof sizes / sizeof *sizes; at++) {
        pdbmerge_settings settings = settings_of(sizes[at]);
        pdbmerge_fault fault = refused(&bad, 1, settings, PDBMERGE_SETTINGS);
        sprintf(text, "101 Settings block_size %u", (unsigned)sizes[at]);
        hold_fault("a block size that is none", &fault, PDBMERGE_SETTINGS, text);
        settings.limit = (1u << 30) + 1;
        fault = refused(&bad, 1, settings, PDBMERGE_SETTINGS);
        hold_fault("both are none", &fault, PDBMERGE_SETTINGS, "101 Settings limit 1073741825");
    }
    pdbmerge_settings settings = settings_of(4096);
    settings.limit = UINT32_MAX;
    pdbmerge_fault fault = refused(NULL, 0, settings, PDBMERGE_SETTINGS);
    hold_fault("a limit that is too high", &fault, PDBMERGE_SETTINGS, "101 Settings limit 4294967295");
}

/* The GUID of no types: the first bytes of the SHA-256 of no bytes, as a UUID of version 8. */
static const uint8_t NO_TYPES[16] = {0xe3, 0xb0, 0xc4, 0x42, 0x98, 0xfc, 0x8c, 0x14,
                                     0x9a, 0xfb, 0xf4, 0xc8, 0x99, 0x6f, 0xb9, 0x24};

/* A merge by types gives the file the GUID of no types, which is that of no files too. */
static void hold_guid_of_nothing(void) {
    pdbmerge_settings settings = settings_of(4096);
    pdbmerge_fault fault;
    pdbmerge_report report;
    pdbmerge_identity identity;
    pdbmerge_guid guid;
    uint8_t *out = allocate(1 << 18);
    uint32_t number = pdbmerge_merge_by_types(NULL, 0, &settings, out, 1 << 18, &report, &fault);
    hold("no files by types", number, PDBMERGE_OK);
    hold("what identifies them", pdbmerge_identify(out, report.length, &identity, &fault), PDBMERGE_OK);
    hold("their GUID", memcmp(identity.guid, NO_TYPES, sizeof NO_TYPES) == 0, 1);
    number = pdbmerge_guid_of_types(NULL, 0, &settings.seed, &guid, &fault);
    hold("the GUID of no files", number, PDBMERGE_OK);
    hold_fault("the GUID of no files", &fault, PDBMERGE_OK, "");
    hold("its bytes", memcmp(guid.bytes, NO_TYPES, sizeof NO_TYPES) == 0, 1);
    free(out);
}

/* ---- Merges by a plan */

/* What is left out makes no difference to the file, nor to the maps of the other files. */
static void hold_skipped(void) {
    static uint8_t out[FILE_ROOM];
    static uint32_t indices[INDEX_ROOM], counts[COUNT_ROOM];
    pdbmerge_plan plan = skipping();
    pdbmerge_slice files[3] = {first, cycle, second}, others[2] = {first, second};
    struct plan_rooms to = enough_for_plan();
    struct plan_results results;
    pdbmerge_report report;
    pdbmerge_fault fault;
    uint64_t total = 0;
    hold("a plan that skips", merge_plan(files, 3, &plan, to, &results, &fault), PDBMERGE_OK);
    hold_fault("a plan that skips", &fault, PDBMERGE_OK, "");
    hold("how many files have a map", results.totals.counts, 3);
    hold("how many files are left out", results.totals.left_out, 1);
    hold("the file that is left out", to.left_out[0].file, 1);
    hold("the number of its fault", to.left_out[0].number, 34);
    uint32_t number = pdbmerge_merge_map(others, 2, &plan.settings, out, sizeof out, indices, INDEX_ROOM,
                                         counts, COUNT_ROOM, &report, &total, &fault);
    hold("the maps of the others", number, PDBMERGE_OK);
    hold("their total", results.totals.indices, total);
    hold("their indices", memcmp(to.maps.indices, indices, total * sizeof *indices) == 0, 1);
    hold("the first count", to.maps.counts[0], counts[0]);
    hold("the count of the file that is left out", to.maps.counts[1], 0);
    hold("the last count", to.maps.counts[2], counts[1]);
    number = pdbmerge_merge_by_types(others, 2, &plan.settings, out, sizeof out, &report, &fault);
    hold("a merge of the others by types", number, PDBMERGE_OK);
    hold("its report", memcmp(&report, &results.report, sizeof report) == 0, 1);
    hold("its bytes", memcmp(out, to.maps.out, report.length) == 0, 1);
}

/* Where nothing is listed, each room but that of the file may be NULL. The file is that of a merge. */
static void hold_plain_plan(void) {
    static uint8_t out[FILE_ROOM];
    pdbmerge_plan plan = {settings_of(4096), PDBMERGE_GUID_GIVEN, PDBMERGE_STOP, PDBMERGE_NO_MAPS};
    pdbmerge_slice files[2] = {first, second};
    struct plan_rooms to = {{enough().out, FILE_ROOM, NULL, 0, NULL, 0}, NULL, 0};
    struct plan_results results;
    pdbmerge_report report;
    pdbmerge_fault fault;
    memset(&results, PATTERN, sizeof results);
    hold("a plan without lists", merge_plan(files, 2, &plan, to, &results, &fault), PDBMERGE_OK);
    hold("its total of indices", results.totals.indices, 0);
    hold("its total of counts", results.totals.counts, 0);
    hold("how many files it leaves out", results.totals.left_out, 0);
    hold("the same merge", pdbmerge_merge(files, 2, &plan.settings, out, sizeof out, &report, &fault), PDBMERGE_OK);
    hold("its report", memcmp(&report, &results.report, sizeof report) == 0, 1);
    hold("its bytes", memcmp(out, to.maps.out, report.length) == 0, 1);
}

/* Where every file is left out the file has no types. What is too large is not left out. */
static void hold_all_skipped(void) {
    pdbmerge_plan plan = skipping();
    pdbmerge_slice files[3] = {cycle, {NULL, 0}, first};
    struct plan_rooms to = enough_for_plan();
    struct plan_results results;
    pdbmerge_identity identity;
    pdbmerge_fault fault;
    hold("a plan that skips all files", merge_plan(files, 2, &plan, to, &results, &fault), PDBMERGE_OK);
    hold("its types", results.report.types, 0);
    hold("how many files it leaves out", results.totals.left_out, 2);
    hold("the first of them", to.left_out[0].file, 0);
    hold("its fault", to.left_out[0].number, 34);
    hold("the second of them", to.left_out[1].file, 1);
    hold("its fault", to.left_out[1].number, 1);
    hold("what identifies it", pdbmerge_identify(to.maps.out, results.report.length, &identity, &fault), PDBMERGE_OK);
    hold("its GUID", memcmp(identity.guid, NO_TYPES, sizeof NO_TYPES) == 0, 1);
    plan.settings.limit = 24;
    hold("a plan with a low limit", merge_plan(files, 3, &plan, to, &results, &fault), PDBMERGE_TOO_LARGE);
    hold("the file that is too large", fault.input, 2);
    hold("its text", strncmp(fault.text, "file 2: 32 TooLarge bytes ", 26), 0);
}

/* A plan with such a choice is refused, and nothing but the fault is written. */
static void hold_refused_choice(pdbmerge_plan plan, const char *text) {
    pdbmerge_slice bad = {NULL, 0};
    struct plan_rooms to = enough_for_plan();
    struct plan_results results;
    pdbmerge_fault fault;
    memset(&results, PATTERN, sizeof results);
    hold(text, merge_plan(&bad, 1, &plan, to, &results, &fault), PDBMERGE_SETTINGS);
    hold_fault(text, &fault, PDBMERGE_SETTINGS, text);
    hold("its rooms are as before", plan_untouched(to, NULL), 1);
    hold("its report and totals are as before", is_untouched((uint8_t *)&results, 0, sizeof results), 1);
}

/* The first choice that is wrong is named, in the order of the fields. */
static void hold_choices(void) {
    pdbmerge_plan plan = skipping();
    plan.maps = 2;
    hold_refused_choice(plan, "101 Settings maps 2");
    plan.refused = UINT32_MAX;
    hold_refused_choice(plan, "101 Settings refused 4294967295");
    plan.guid = 7;
    hold_refused_choice(plan, "101 Settings guid 7");
    plan.settings.block_size = 100;
    hold_refused_choice(plan, "101 Settings block_size 100");
    plan.settings.limit = (1u << 30) + 1;
    hold_refused_choice(plan, "101 Settings limit 1073741825");
}

/* No files have no types, and each block size and limit can be had. */
static void hold_no_files(void) {
    pdbmerge_fault fault;
    pdbmerge_report report;
    pdbmerge_counts counts;
    uint8_t *out = allocate(1 << 18);
    for (uint32_t size = 512; size <= 32768; size *= 2) {
        pdbmerge_settings settings = settings_of(size);
        hold("no files", pdbmerge_merge(NULL, 0, &settings, out, 1 << 18, &report, &fault), PDBMERGE_OK);
        hold_fault("no files", &fault, PDBMERGE_OK, "");
        hold("types of no files", report.types, 0);
        hold("bytes of no files", report.bytes, 0);
        hold("what was made of no files", pdbmerge_check(out, report.length, &counts, &fault), PDBMERGE_OK);
        hold("its records", counts.records, 0);
    }
    free(out);
}

/* ---- A long text */

/* A text is cut where the room for it ends, and its whole length is told. */
static void hold_long_text(const char *what, const pdbmerge_fault *fault, const char *begin) {
    char *text = allocate(strlen(begin) + 16 * cycles);
    int length = sprintf(text, "%s34 Cycle", begin);
    for (unsigned long at = 0; at < cycles; at++)
        length += sprintf(text + length, " 0x%lx", 0x1000 + at);
    hold("the text is long", length > KEPT, 1);
    hold(what, fault->length, (uint64_t)length);
    text[KEPT] = '\0';
    hold_text(what, fault->text, text);
    free(text);
}

static void hold_long_texts(void) {
    pdbmerge_fault fault;
    pdbmerge_counts counts;
    pdbmerge_slice files[2] = {first, cycle};
    hold("check of cycles", pdbmerge_check(cycle.bytes, cycle.length, &counts, &fault), 34);
    hold("input of a check", fault.input, PDBMERGE_NO_INPUT);
    hold_long_text("check of cycles", &fault, "");
    fault = refused(files, 2, settings_of(4096), 34);
    hold("input of a merge", fault.input, 1);
    hold_long_text("merge of cycles", &fault, "file 1: ");
}

/* A stream of the first file. */
static pdbmerge_slice copy_of(uint32_t number) {
    pdbmerge_fault fault;
    uint64_t length = 0;
    uint8_t *copy = allocate(first.length);
    uint32_t answer = pdbmerge_stream(first.bytes, first.length, number, copy, first.length, &length, &fault);
    hold("a stream of the first file", answer, PDBMERGE_OK);
    return (pdbmerge_slice){copy, length};
}

int main(int argc, char **argv) {
    if (argc != 6)
        return 2;
    first = read_file(argv[1]);
    second = read_file(argv[2]);
    cycle = read_file(argv[3]);
    cycles = strtoul(argv[4], NULL, 10);
    empty = read_file(argv[5]);
    info = copy_of(1);
    stream = copy_of(2);
    if (wrong != 0)
        return finish("room");
    for (size_t at = 0; at < sizeof ROWS / sizeof *ROWS; at++)
        hold_rooms(&ROWS[at]);
    hold_records();
    hold_all_references();
    hold_leaf_fault();
    hold_null_files();
    hold_null_lists();
    hold_null_pairs();
    hold_null_changes();
    hold_null_names();
    hold_no_streams();
    hold_no_names();
    hold_null_room();
    hold_merges();
    hold_settings();
    hold_no_files();
    hold_guid_of_nothing();
    hold_skipped();
    hold_plain_plan();
    hold_all_skipped();
    hold_choices();
    hold_long_texts();
    return finish("room");
}
