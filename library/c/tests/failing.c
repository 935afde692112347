/* Lets each allocation of each call fail in turn, and looks at the answer and at what was written.
 *
 * usage: failing FIRST SECOND REFUSED, three files, of which the calls refuse the last one
 *
 * It is linked with --wrap=malloc,--wrap=realloc,--wrap=free, so that the library allocates here.
 * After an allocation that failed the answer is `33 Memory`, and nothing else was written; or it is
 * the right one. Nothing that a call allocated is left when it returns. */
#include "checks.h"

void *__real_malloc(size_t size);
void *__real_realloc(void *block, size_t size);
void __real_free(void *block);
void *__wrap_malloc(size_t size);
void *__wrap_realloc(void *block, size_t size);
void __wrap_free(void *block);

/* The room for each list of numbers. */
enum { NUMBERS = 1 << 12 };

/* All that the calls write but their faults. */
struct results {
    pdbmerge_identity identity;
    pdbmerge_container container;
    pdbmerge_counts counts;
    pdbmerge_report report;
    pdbmerge_guid guid;
    uint64_t size, total;
    uint32_t numbers[NUMBERS];
    uint32_t maps[3];
    pdbmerge_left_out left_out[3];
    pdbmerge_totals totals;
    uint64_t offsets[1 << 12];
    pdbmerge_reference references[1 << 12];
    pdbmerge_difference differences[1 << 12];
    uint8_t out[1 << 19];
};

static long allocations, live, fails_at;
static pdbmerge_slice files[3];

static int fails(void) {
    return ++allocations == fails_at;
}

void *__wrap_malloc(size_t size) {
    void *block = fails() ? NULL : __real_malloc(size);
    live += block != NULL;
    return block;
}

void *__wrap_realloc(void *block, size_t size) {
    void *moved = fails() ? NULL : __real_realloc(block, size);
    live += block == NULL && moved != NULL;
    return moved;
}

void __wrap_free(void *block) {
    live -= block != NULL;
    __real_free(block);
}

/* ---- The calls */

static uint32_t run_identify(struct results *to, pdbmerge_fault *fault) {
    return pdbmerge_identify(files[0].bytes, files[0].length, &to->identity, fault);
}

static uint32_t run_layout(struct results *to, pdbmerge_fault *fault) {
    return pdbmerge_layout(files[0].bytes, files[0].length, &to->container, to->numbers, NUMBERS, fault);
}

static uint32_t run_layout_room(struct results *to, pdbmerge_fault *fault) {
    return pdbmerge_layout(files[0].bytes, files[0].length, &to->container, to->numbers, 0, fault);
}

static uint32_t run_blocks(struct results *to, pdbmerge_fault *fault) {
    return pdbmerge_blocks(files[0].bytes, files[0].length, to->numbers, NUMBERS, &to->size, fault);
}

static uint32_t run_check(struct results *to, pdbmerge_fault *fault) {
    return pdbmerge_check(files[0].bytes, files[0].length, &to->counts, fault);
}

static uint32_t run_check_refused(struct results *to, pdbmerge_fault *fault) {
    return pdbmerge_check(files[2].bytes, files[2].length, &to->counts, fault);
}

static uint32_t merge(size_t count, size_t room, struct results *to, pdbmerge_fault *fault) {
    pdbmerge_settings settings = settings_of(4096);
    return pdbmerge_merge(files, count, &settings, to->out, room, &to->report, fault);
}

static uint32_t run_merge(struct results *to, pdbmerge_fault *fault) {
    return merge(2, sizeof to->out, to, fault);
}

static uint32_t run_merge_refused(struct results *to, pdbmerge_fault *fault) {
    return merge(3, sizeof to->out, to, fault);
}

static uint32_t run_merge_room(struct results *to, pdbmerge_fault *fault) {
    return merge(2, 0, to, fault);
}

static uint32_t merge_by_types(size_t count, size_t room, struct results *to, pdbmerge_fault *fault) {
    pdbmerge_settings settings = settings_of(4096);
    return pdbmerge_merge_by_types(files, count, &settings, to->out, room, &to->report, fault);
}

static uint32_t run_merge_by_types(struct results *to, pdbmerge_fault *fault) {
    return merge_by_types(2, sizeof to->out, to, fault);
}

static uint32_t run_merge_by_types_refused(struct results *to, pdbmerge_fault *fault) {
    return merge_by_types(3, sizeof to->out, to, fault);
}

static uint32_t run_merge_by_types_room(struct results *to, pdbmerge_fault *fault) {
    return merge_by_types(2, 0, to, fault);
}

static uint32_t guid_of_types(size_t count, struct results *to, pdbmerge_fault *fault) {
    pdbmerge_seed seed = {{1}};
    return pdbmerge_guid_of_types(files, count, &seed, &to->guid, fault);
}

static uint32_t run_guid_of_types(struct results *to, pdbmerge_fault *fault) {
    return guid_of_types(2, to, fault);
}

static uint32_t run_guid_of_types_refused(struct results *to, pdbmerge_fault *fault) {
    return guid_of_types(3, to, fault);
}

static uint32_t merge_map(size_t count, size_t index_room, struct results *to, pdbmerge_fault *fault) {
    pdbmerge_settings settings = settings_of(4096);
    return pdbmerge_merge_map(files, count, &settings, to->out, sizeof to->out, to->numbers, index_room,
                              to->maps, count, &to->report, &to->size, fault);
}

static uint32_t run_merge_map(struct results *to, pdbmerge_fault *fault) {
    return merge_map(2, NUMBERS, to, fault);
}

static uint32_t run_merge_map_refused(struct results *to, pdbmerge_fault *fault) {
    return merge_map(3, NUMBERS, to, fault);
}

static uint32_t run_merge_map_room(struct results *to, pdbmerge_fault *fault) {
    return merge_map(2, 0, to, fault);
}

static uint32_t merge_plan(uint32_t refused, size_t left_out_room, struct results *to, pdbmerge_fault *fault) {
    pdbmerge_plan plan = {settings_of(4096), PDBMERGE_GUID_OF_TYPES, refused, PDBMERGE_MAPS};
    return pdbmerge_merge_plan(files, 3, &plan, to->out, sizeof to->out, to->numbers, NUMBERS, to->maps, 3,
                               to->left_out, left_out_room, &to->report, &to->totals, fault);
}

static uint32_t run_merge_plan(struct results *to, pdbmerge_fault *fault) {
    return merge_plan(PDBMERGE_SKIP, 3, to, fault);
}

static uint32_t run_merge_plan_refused(struct results *to, pdbmerge_fault *fault) {
    return merge_plan(PDBMERGE_STOP, 3, to, fault);
}

static uint32_t run_merge_plan_room(struct results *to, pdbmerge_fault *fault) {
    return merge_plan(PDBMERGE_SKIP, 0, to, fault);
}

/* Without maps nothing is listed but the file that is left out. */
static uint32_t run_merge_plan_unmapped(struct results *to, pdbmerge_fault *fault) {
    pdbmerge_plan plan = {settings_of(4096), PDBMERGE_GUID_GIVEN, PDBMERGE_SKIP, PDBMERGE_NO_MAPS};
    return pdbmerge_merge_plan(files, 3, &plan, to->out, sizeof to->out, NULL, 0, NULL, 0,
                               to->left_out, 3, &to->report, &to->totals, fault);
}

static uint32_t stream_of(uint32_t number, struct results *to, pdbmerge_fault *fault) {
    return pdbmerge_stream(files[0].bytes, files[0].length, number,
                           to->out, sizeof to->out, &to->size, fault);
}

static uint32_t run_stream(struct results *to, pdbmerge_fault *fault) {
    return stream_of(2, to, fault);
}

static uint32_t diff(const pdbmerge_slice *second, struct results *to, pdbmerge_fault *fault) {
    pdbmerge_seed seed = {{1}};
    return pdbmerge_diff(files[0].bytes, files[0].length, second->bytes, second->length, &seed,
                         to->differences, sizeof to->differences / sizeof *to->differences, &to->size, fault);
}

static uint32_t run_diff(struct results *to, pdbmerge_fault *fault) {
    return diff(&files[1], to, fault);
}

static uint32_t run_diff_refused(struct results *to, pdbmerge_fault *fault) {
    return diff(&files[2], to, fault);
}

static uint32_t run_members(struct results *to, pdbmerge_fault *fault) {
    return pdbmerge_members(files[0].bytes, files[0].length, NULL, 0, to->out, sizeof to->out, &to->size, fault);
}

static uint32_t run_members_named(struct results *to, pdbmerge_fault *fault) {
    static const pdbmerge_slice names[2] = {{(const uint8_t *)"C0", 2}, {(const uint8_t *)"no such type", 12}};
    return pdbmerge_members(files[0].bytes, files[0].length, names, 2, to->out, sizeof to->out, &to->size, fault);
}

static uint32_t run_members_refused(struct results *to, pdbmerge_fault *fault) {
    return pdbmerge_members(files[2].bytes, files[2].length, NULL, 0, to->out, sizeof to->out, &to->size, fault);
}

static uint32_t changes(const pdbmerge_slice *second, struct results *to, pdbmerge_fault *fault) {
    pdbmerge_seed seed = {{1}};
    return pdbmerge_changes(files[0].bytes, files[0].length, second->bytes, second->length, &seed,
                            to->out, sizeof to->out, &to->size, fault);
}

static uint32_t run_changes(struct results *to, pdbmerge_fault *fault) {
    return changes(&files[1], to, fault);
}

static uint32_t run_changes_refused(struct results *to, pdbmerge_fault *fault) {
    return changes(&files[2], to, fault);
}

/* Stream 1 and stream 2 of the first file. */
static pdbmerge_slice info, stream;

static uint32_t run_named_streams(struct results *to, pdbmerge_fault *fault) {
    return pdbmerge_named_streams(info.bytes, info.length, to->numbers, NUMBERS, &to->size, fault);
}

static uint32_t run_stream_names(struct results *to, pdbmerge_fault *fault) {
    return pdbmerge_stream_names(info.bytes, info.length, to->out, sizeof to->out, &to->size, fault);
}

static uint32_t run_features(struct results *to, pdbmerge_fault *fault) {
    return pdbmerge_features(info.bytes, info.length, to->numbers, NUMBERS, &to->size, fault);
}

static uint32_t run_record(struct results *to, pdbmerge_fault *fault) {
    return pdbmerge_record(stream.bytes, stream.length, 0x1001, &to->size, fault);
}

static uint32_t run_no_record(struct results *to, pdbmerge_fault *fault) {
    return pdbmerge_record(stream.bytes, stream.length, 0xfff, &to->size, fault);
}

static uint32_t run_records(struct results *to, pdbmerge_fault *fault) {
    return pdbmerge_records(stream.bytes, stream.length,
                            to->offsets, sizeof to->offsets / sizeof *to->offsets, &to->size, fault);
}

/* Its records begin behind the header, which has 56 bytes. */
static uint32_t run_references(struct results *to, pdbmerge_fault *fault) {
    return pdbmerge_references(stream.bytes + 56, stream.length - 56, 0x1000, to->references,
                               sizeof to->references / sizeof *to->references, &to->size, fault);
}

static uint32_t all_references(size_t room, struct results *to, pdbmerge_fault *fault) {
    return pdbmerge_all_references(stream.bytes, stream.length, to->references, room, to->numbers, NUMBERS,
                                   &to->total, &to->size, fault);
}

static uint32_t run_all_references(struct results *to, pdbmerge_fault *fault) {
    return all_references(sizeof to->references / sizeof *to->references, to, fault);
}

static uint32_t run_all_references_room(struct results *to, pdbmerge_fault *fault) {
    return all_references(0, to, fault);
}

static uint32_t run_name(struct results *to, pdbmerge_fault *fault) {
    return pdbmerge_name(stream.bytes + 56, stream.length - 56, 0x1000,
                         to->out, sizeof to->out, &to->size, fault);
}

/* ---- Failing */

static const struct call {
    const char *name;
    uint32_t (*run)(struct results *, pdbmerge_fault *);
    uint32_t number; /* the right answer */
} CALLS[] = {
    {"identify", run_identify, PDBMERGE_OK},
    {"layout", run_layout, PDBMERGE_OK},
    {"layout without room", run_layout_room, PDBMERGE_ROOM},
    {"blocks", run_blocks, PDBMERGE_OK},
    {"check", run_check, PDBMERGE_OK},
    {"check of a refused file", run_check_refused, 34},
    {"merge", run_merge, PDBMERGE_OK},
    {"merge of a refused file", run_merge_refused, 34},
    {"merge without room", run_merge_room, PDBMERGE_ROOM},
    {"merge with maps", run_merge_map, PDBMERGE_OK},
    {"merge with maps of a refused file", run_merge_map_refused, 34},
    {"merge without room for maps", run_merge_map_room, PDBMERGE_ROOM},
    {"merge by types", run_merge_by_types, PDBMERGE_OK},
    {"merge by types of a refused file", run_merge_by_types_refused, 34},
    {"merge by types without room", run_merge_by_types_room, PDBMERGE_ROOM},
    {"merge by a plan", run_merge_plan, PDBMERGE_OK},
    {"merge by a plan without maps", run_merge_plan_unmapped, PDBMERGE_OK},
    {"merge by a plan of a refused file", run_merge_plan_refused, 34},
    {"merge by a plan without room for what is left out", run_merge_plan_room, PDBMERGE_ROOM},
    {"GUID of types", run_guid_of_types, PDBMERGE_OK},
    {"GUID of types of a refused file", run_guid_of_types_refused, 34},
    {"stream", run_stream, PDBMERGE_OK},
    {"named streams", run_named_streams, PDBMERGE_OK},
    {"stream names", run_stream_names, PDBMERGE_OK},
    {"features", run_features, PDBMERGE_OK},
    {"records", run_records, PDBMERGE_OK},
    {"record", run_record, PDBMERGE_OK},
    {"record that is not there", run_no_record, 39},
    {"references", run_references, PDBMERGE_OK},
    {"references of all records", run_all_references, PDBMERGE_OK},
    {"references of all records without room", run_all_references_room, PDBMERGE_ROOM},
    {"name", run_name, PDBMERGE_OK},
    {"diff", run_diff, PDBMERGE_OK},
    {"diff of a refused file", run_diff_refused, 34},
    {"members", run_members, PDBMERGE_OK},
    {"members of names", run_members_named, PDBMERGE_OK},
    {"members of a refused file", run_members_refused, 34},
    {"changes", run_changes, PDBMERGE_OK},
    {"changes of a refused file", run_changes_refused, 34},
};

/* The answer of a call of which this allocation fails, and nothing before it was written. */
struct answer {
    uint32_t number;
    pdbmerge_fault fault;
    struct results results;
};

static void run(const struct call *call, long at, struct answer *answer) {
    memset(answer, 0xA5, sizeof *answer);
    allocations = live = 0;
    fails_at = at;
    answer->number = call->run(&answer->results, &answer->fault);
    hold(call->name, answer->fault.number, answer->number);
    hold("blocks that are left", (uint64_t)live, 0);
}

/* Lets one allocation fail. Whether the answer was 33. */
static int fail(const struct call *call, long at, const struct answer *right,
                const struct results *untouched) {
    static struct answer answer;
    run(call, at, &answer);
    if (answer.number != PDBMERGE_MEMORY) {
        hold(call->name, memcmp(&answer, right, sizeof answer) == 0, 1);
        return 0;
    }
    hold_text(call->name, answer.fault.text, "33 Memory");
    hold("length of the text", answer.fault.length, 9);
    hold("input of the fault", answer.fault.input, PDBMERGE_NO_INPUT);
    hold("nothing is written after 33", memcmp(&answer.results, untouched, sizeof *untouched) == 0, 1);
    return 1;
}

/* Lets each allocation of a call fail. How many answers were 33. */
static long fail_each(const struct call *call) {
    static struct answer right;
    static struct results untouched;
    memset(&untouched, 0xA5, sizeof untouched);
    run(call, 0, &right);
    hold(call->name, right.number, call->number);
    long all = allocations, refused = 0;
    for (long at = 1; at <= all; at++)
        refused += fail(call, at, &right, &untouched);
    printf("%s: %ld allocations, 33 for %ld\n", call->name, all, refused);
    return refused;
}

/* A stream of the first file. */
static pdbmerge_slice copy_of(uint32_t number) {
    static struct results results;
    pdbmerge_fault fault;
    hold("a stream of the first file", stream_of(number, &results, &fault), PDBMERGE_OK);
    pdbmerge_slice copy = {memcpy(allocate(results.size), results.out, results.size), results.size};
    return copy;
}

int main(int argc, char **argv) {
    long refused = 0;
    if (argc != 4)
        return 2;
    for (int at = 0; at < 3; at++)
        files[at] = read_file(argv[at + 1]);
    info = copy_of(1);
    stream = copy_of(2);
    for (size_t at = 0; at < sizeof CALLS / sizeof *CALLS; at++)
        refused += fail_each(&CALLS[at]);
    hold("some call was refused memory", refused > 0, 1);
    return finish("failing");
}
