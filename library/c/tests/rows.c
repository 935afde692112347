/* Answers as the program does, by the calls of the library alone, so that the tests of the program
 * can be run on the library. This is a program in C, and one in C++ too.
 *
 * usage: rows COMMAND WORD.., with the words of the program
 *
 * It answers every row of the tables of examples/. The status is 2 where a call gives more block
 * numbers, or more bytes of names, than the streams have, where it counts something else than it
 * lists, and where the GUID of types is not that of the file that was merged by types. */
#include "checks.h"

enum {
    FIRST = 0x1000,          /* the type index of the first record */
    MOST_NAMED = 1 << 14,    /* a record has fewer than 2^16 bytes and 2, and an index has 4 */
    MOST_OF_NAME = 1 << 16,
    DIFFERENT = 3            /* the status of `diff` where two files differ */
};

/* The leaves of docs/FORMAT.md: tests/library makes leaves.h of its table. */
static const struct {
    unsigned kind;
    const char *name;
} LEAVES[] = {
#include "leaves.h"
};

/* The words of a command. */
struct line {
    pdbmerge_settings settings;
    int origins;
    int members;
    int by_types; /* whether the GUID is made of the types */
    int count;
    const char **words; /* those that belong to no option */
};

/* Numbers that a call lists. */
struct numbers {
    const uint32_t *items;
    uint64_t count;
};

/* The container of a file, and the sizes and the blocks of its streams. */
struct layout {
    pdbmerge_container container;
    const uint32_t *sizes;
    struct numbers blocks;
};

/* The streams that have a name, and their names, each with a NUL behind it. */
struct names {
    struct numbers streams;
    const uint8_t *texts;
    uint64_t size;
};

/* Text that a call made. */
struct text {
    const uint8_t *bytes;
    uint64_t size;
};

/* Stream 2 of a file, and where its records begin. */
struct types {
    pdbmerge_slice stream;
    const uint64_t *offsets;
    uint64_t count;
};

/* What all records name, one after the other, and how much each of them names. */
struct named {
    const pdbmerge_reference *references;
    const uint32_t *counts;
    uint64_t total, records;
};

/* A type record, what it names and what it is called. */
struct record {
    const uint8_t *bytes;
    unsigned size, kind, index;
    uint64_t named, name_length;
    pdbmerge_reference references[MOST_NAMED];
    uint8_t name[MOST_OF_NAME];
};

/* What the last call said of its fault. */
static pdbmerge_fault fault;

/* ---- Reading by the calls. Each returns the number of the fault. */

/* Whether an answer says how much room to give. */
static int is_sized(uint32_t answer) {
    return answer == PDBMERGE_OK || answer == PDBMERGE_ROOM;
}

/* A call that lists numbers of some bytes: of a file, or of a stream. */
typedef uint32_t listing(const uint8_t *, size_t, uint32_t *, size_t, uint64_t *, pdbmerge_fault *);

static uint32_t list(listing *call, pdbmerge_slice of, struct numbers *numbers) {
    uint32_t answer = call(of.bytes, of.length, NULL, 0, &numbers->count, &fault);
    if (!is_sized(answer))
        return answer;
    uint32_t *room = ALLOCATE(uint32_t, numbers->count);
    numbers->items = room;
    return call(of.bytes, of.length, room, numbers->count, &numbers->count, &fault);
}

static uint32_t read_layout(pdbmerge_slice file, struct layout *layout) {
    pdbmerge_container *container = &layout->container;
    uint32_t answer = pdbmerge_layout(file.bytes, file.length, container, NULL, 0, &fault);
    if (!is_sized(answer))
        return answer;
    uint32_t *room = ALLOCATE(uint32_t, container->streams);
    layout->sizes = room;
    answer = pdbmerge_layout(file.bytes, file.length, container, room, container->streams, &fault);
    return answer != PDBMERGE_OK ? answer : list(pdbmerge_blocks, file, &layout->blocks);
}

static uint32_t read_stream(pdbmerge_slice file, uint32_t number, pdbmerge_slice *stream) {
    uint64_t length;
    uint32_t answer = pdbmerge_stream(file.bytes, file.length, number, NULL, 0, &length, &fault);
    if (!is_sized(answer))
        return answer;
    uint8_t *room = ALLOCATE(uint8_t, length);
    stream->bytes = room;
    stream->length = length;
    return pdbmerge_stream(file.bytes, file.length, number, room, length, &length, &fault);
}

static uint32_t read_names(pdbmerge_slice stream, struct names *names) {
    uint32_t answer = list(pdbmerge_named_streams, stream, &names->streams);
    if (answer != PDBMERGE_OK)
        return answer;
    answer = pdbmerge_stream_names(stream.bytes, stream.length, NULL, 0, &names->size, &fault);
    if (!is_sized(answer))
        return answer;
    uint8_t *room = ALLOCATE(uint8_t, names->size);
    names->texts = room;
    return pdbmerge_stream_names(stream.bytes, stream.length, room, names->size, &names->size, &fault);
}

static uint32_t read_members(pdbmerge_slice file, pdbmerge_slice *names, size_t count, struct text *text) {
    uint32_t answer = pdbmerge_members(file.bytes, file.length, names, count, NULL, 0, &text->size, &fault);
    if (!is_sized(answer))
        return answer;
    uint8_t *room = ALLOCATE(uint8_t, text->size);
    text->bytes = room;
    return pdbmerge_members(file.bytes, file.length, names, count, room, text->size, &text->size, &fault);
}

static uint32_t read_changes(pdbmerge_slice first, pdbmerge_slice second, const pdbmerge_seed *seed,
                             struct text *text) {
    uint32_t answer = pdbmerge_changes(first.bytes, first.length, second.bytes, second.length, seed,
                                       NULL, 0, &text->size, &fault);
    if (!is_sized(answer))
        return answer;
    uint8_t *room = ALLOCATE(uint8_t, text->size);
    text->bytes = room;
    return pdbmerge_changes(first.bytes, first.length, second.bytes, second.length, seed,
                            room, text->size, &text->size, &fault);
}

static uint32_t read_types(pdbmerge_slice file, struct types *types) {
    pdbmerge_slice *stream = &types->stream;
    uint32_t answer = read_stream(file, 2, stream);
    if (answer != PDBMERGE_OK)
        return answer;
    answer = pdbmerge_records(stream->bytes, stream->length, NULL, 0, &types->count, &fault);
    if (!is_sized(answer))
        return answer;
    uint64_t *room = ALLOCATE(uint64_t, types->count);
    types->offsets = room;
    return pdbmerge_records(stream->bytes, stream->length, room, types->count, &types->count, &fault);
}

static uint32_t read_named(pdbmerge_slice stream, struct named *named) {
    uint32_t answer = pdbmerge_all_references(stream.bytes, stream.length, NULL, 0, NULL, 0,
                                              &named->total, &named->records, &fault);
    if (!is_sized(answer))
        return answer;
    pdbmerge_reference *references = ALLOCATE(pdbmerge_reference, named->total);
    uint32_t *counts = ALLOCATE(uint32_t, named->records);
    named->references = references;
    named->counts = counts;
    return pdbmerge_all_references(stream.bytes, stream.length, references, named->total,
                                   counts, named->records, &named->total, &named->records, &fault);
}

/* The bytes of the record at an offset of stream 2, without what it names. */
static void find_record(pdbmerge_slice stream, uint64_t offset, unsigned index, struct record *record) {
    record->bytes = stream.bytes + offset;
    record->size = 2 + record->bytes[0] + 256u * record->bytes[1];
    record->kind = record->bytes[2] + 256u * record->bytes[3];
    record->index = index;
}

/* The name of the type that a record describes; `left` is how many bytes there are from the record on. */
static uint32_t read_name(struct record *record, uint64_t left) {
    return pdbmerge_name(record->bytes, left, record->index,
                         record->name, MOST_OF_NAME, &record->name_length, &fault);
}

static uint32_t read_record(pdbmerge_slice stream, uint64_t offset, unsigned index, struct record *record) {
    find_record(stream, offset, index, record);
    uint64_t left = stream.length - offset;
    uint32_t answer = pdbmerge_references(record->bytes, left, index,
                                          record->references, MOST_NAMED, &record->named, &fault);
    return answer != PDBMERGE_OK ? answer : read_name(record, left);
}

/* Reads the record at a position, from 0. */
static uint32_t read_nth(const struct types *types, uint64_t at, struct record *record) {
    return read_record(types->stream, types->offsets[at], FIRST + (unsigned)at, record);
}

/* ---- Printing as docs/COMMANDS.md says. */

static int refused(void) {
    fprintf(stderr, "pdbmerge: %s\n", fault.text);
    return 1;
}

static void print_quoted(const uint8_t *bytes, uint64_t length) {
    putchar('"');
    for (uint64_t at = 0; at < length; at++) {
        uint8_t byte = bytes[at];
        if (byte >= 0x20 && byte <= 0x7e && byte != '"' && byte != '\\')
            putchar(byte);
        else
            printf("\\x%02x", byte);
    }
    putchar('"');
}

static const char *leaf_of(unsigned kind) {
    for (size_t at = 0; at < sizeof LEAVES / sizeof *LEAVES; at++)
        if (LEAVES[at].kind == kind)
            return LEAVES[at].name;
    return "a leaf that is in no table";
}

static void print_type(const struct record *record) {
    printf("0x%x %s %u", record->index, leaf_of(record->kind), record->size);
    for (uint64_t at = 0; at < record->named; at++)
        printf(" 0x%x", (unsigned)record->references[at].index);
    if (record->name_length != PDBMERGE_NO_NAME) {
        putchar(' ');
        print_quoted(record->name, record->name_length);
    }
    putchar('\n');
}

static void print_guid(const uint8_t *guid) {
    for (int at = 0; at < 16; at++)
        printf(at == 4 || at == 6 || at == 8 || at == 10 ? "-%02x" : "%02x", guid[at]);
    putchar('\n');
}

static void print_header(pdbmerge_slice stream, const pdbmerge_identity *identity) {
    uint32_t head[2];
    memcpy(head, stream.bytes, sizeof head);
    printf("version %u\nsignature 0x%x\n", (unsigned)head[0], (unsigned)head[1]);
    printf("age %u\nguid ", (unsigned)identity->age);
    print_guid(identity->guid);
}

/* Prints the line of each named stream. Whether their names are all that was copied. */
static int print_names(const struct names *names) {
    const uint8_t *text = names->texts;
    for (uint64_t at = 0; at < names->streams.count; at++) {
        size_t length = strlen((const char *)text);
        printf("name ");
        print_quoted(text, length);
        printf(" %u\n", (unsigned)names->streams.items[at]);
        text += length + 1;
    }
    return text == names->texts + names->size;
}

/* Prints numbers, each with a text in front of it and one behind it. */
static void print_numbers(const char *front, const uint32_t *numbers, uint64_t count, const char *behind) {
    for (uint64_t at = 0; at < count; at++)
        printf("%s%u%s", front, (unsigned)numbers[at], behind);
}

static void print_container(const pdbmerge_container *container) {
    printf("block-size %u\nblocks %u\n", (unsigned)container->block_size, (unsigned)container->blocks);
    printf("free %u\ndirectory %u\nstreams %u\n", (unsigned)container->free_blocks,
           (unsigned)container->directory_bytes, (unsigned)container->streams);
}

/* Prints the line of each stream. Whether their blocks are all that were listed. */
static int print_streams(const struct layout *layout) {
    uint64_t before = 0, block_size = layout->container.block_size;
    for (uint32_t at = 0; at < layout->container.streams; at++) {
        uint64_t count = (layout->sizes[at] + block_size - 1) / block_size;
        printf("%u %u", (unsigned)at, (unsigned)layout->sizes[at]);
        print_numbers(" ", layout->blocks.items + before, count, "");
        putchar('\n');
        before += count;
    }
    return before == layout->blocks.count;
}

/* ---- The commands. Each returns the status. */

static int run_check(const struct line *line) {
    pdbmerge_slice file = read_file(line->words[0]);
    pdbmerge_counts counts;
    if (pdbmerge_check(file.bytes, file.length, &counts, &fault) != PDBMERGE_OK)
        return refused();
    printf("accepted\nrecords %u\nbytes %u\nlevels %u\n",
           (unsigned)counts.records, (unsigned)counts.bytes, (unsigned)counts.levels);
    return 0;
}

static int run_records(const struct line *line) {
    static struct types types;
    static struct record record;
    if (read_types(read_file(line->words[0]), &types) != PDBMERGE_OK)
        return refused();
    for (uint64_t at = 0; at < types.count; at++) {
        find_record(types.stream, types.offsets[at], FIRST + (unsigned)at, &record);
        printf("0x%x 0x%04x %u\n", record.index, record.kind, record.size);
    }
    return 0;
}

static int run_record(const struct line *line) {
    static struct record record;
    uint32_t index = (uint32_t)strtoul(line->words[1], NULL, 16);
    pdbmerge_slice stream;
    uint64_t offset;
    if (read_stream(read_file(line->words[0]), 2, &stream) != PDBMERGE_OK)
        return refused();
    if (pdbmerge_record(stream.bytes, stream.length, index, &offset, &fault) != PDBMERGE_OK)
        return refused();
    if (read_record(stream, offset, index, &record) != PDBMERGE_OK)
        return refused();
    for (unsigned byte = 0; byte < record.size; byte++)
        printf("%02x", record.bytes[byte]);
    putchar('\n');
    for (uint64_t named = 0; named < record.named; named++) {
        pdbmerge_reference reference = record.references[named];
        printf("%u 0x%x\n", (unsigned)reference.place, (unsigned)reference.index);
    }
    if (record.name_length != PDBMERGE_NO_NAME) {
        printf("name ");
        print_quoted(record.name, record.name_length);
        putchar('\n');
    }
    return 0;
}

/* What all records name is read at once, so nothing is printed before a refusal. */
static int run_types(const struct line *line) {
    static struct types types;
    static struct record record;
    struct named named;
    if (read_types(read_file(line->words[0]), &types) != PDBMERGE_OK)
        return refused();
    if (read_named(types.stream, &named) != PDBMERGE_OK)
        return refused();
    const pdbmerge_reference *next = named.references;
    for (uint64_t at = 0; at < types.count && at < named.records; at++) {
        find_record(types.stream, types.offsets[at], FIRST + (unsigned)at, &record);
        record.named = named.counts[at];
        memcpy(record.references, next, record.named * sizeof *next);
        next += record.named;
        if (read_name(&record, types.stream.length - types.offsets[at]) != PDBMERGE_OK)
            return refused();
        print_type(&record);
    }
    return next == named.references + named.total && named.records == types.count ? 0 : 2;
}

static int run_info(const struct line *line) {
    pdbmerge_slice file = read_file(line->words[0]), stream;
    pdbmerge_identity identity;
    struct names names;
    struct numbers features;
    if (pdbmerge_identify(file.bytes, file.length, &identity, &fault) != PDBMERGE_OK)
        return refused();
    if (read_stream(file, 1, &stream) != PDBMERGE_OK || read_names(stream, &names) != PDBMERGE_OK)
        return refused();
    if (list(pdbmerge_features, stream, &features) != PDBMERGE_OK)
        return refused();
    print_header(stream, &identity);
    int is_whole = print_names(&names);
    print_numbers("feature ", features.items, features.count, "\n");
    return is_whole ? 0 : 2;
}

static int run_streams(const struct line *line) {
    struct layout layout;
    if (read_layout(read_file(line->words[0]), &layout) != PDBMERGE_OK)
        return refused();
    print_container(&layout.container);
    return print_streams(&layout) ? 0 : 2;
}

static int run_members(const struct line *line) {
    size_t count = (size_t)line->count - 1;
    pdbmerge_slice *names = ALLOCATE(pdbmerge_slice, count);
    for (size_t at = 0; at < count; at++) {
        names[at].bytes = (const uint8_t *)line->words[at + 1];
        names[at].length = strlen(line->words[at + 1]);
    }
    struct text text;
    if (read_members(read_file(line->words[0]), names, count, &text) != PDBMERGE_OK)
        return refused();
    fwrite(text.bytes, 1, text.size, stdout);
    return 0;
}

static int run_changes(const struct line *line) {
    struct text text;
    uint32_t answer = read_changes(read_file(line->words[0]), read_file(line->words[1]),
                                   &line->settings.seed, &text);
    if (answer != PDBMERGE_OK)
        return refused();
    fwrite(text.bytes, 1, text.size, stdout);
    return text.size != 0 ? DIFFERENT : 0;
}

static int run_diff(const struct line *line) {
    if (line->members)
        return run_changes(line);
    pdbmerge_slice files[2] = {read_file(line->words[0]), read_file(line->words[1])};
    static struct types types[2];
    static struct record record;
    uint64_t count;
    pdbmerge_difference *differences = NULL;
    uint32_t answer = pdbmerge_diff(files[0].bytes, files[0].length, files[1].bytes, files[1].length,
                                    &line->settings.seed, NULL, 0, &count, &fault);
    if (answer == PDBMERGE_ROOM) {
        differences = ALLOCATE(pdbmerge_difference, count);
        answer = pdbmerge_diff(files[0].bytes, files[0].length, files[1].bytes, files[1].length,
                               &line->settings.seed, differences, count, &count, &fault);
    }
    if (answer != PDBMERGE_OK || read_types(files[0], &types[0]) || read_types(files[1], &types[1]))
        return refused();
    for (uint64_t at = 0; at < count; at++) {
        if (line->origins && !differences[at].origin)
            continue;
        read_nth(&types[differences[at].input], differences[at].index - FIRST, &record);
        printf(differences[at].input == 0 ? "- " : "+ ");
        print_type(&record);
    }
    return count != 0 ? DIFFERENT : 0;
}

/* A call that merges. */
typedef uint32_t merging(const pdbmerge_slice *, size_t, const pdbmerge_settings *, uint8_t *, size_t,
                         pdbmerge_report *, pdbmerge_fault *);

/* Whether the file has the GUID that is made of the types of these files. */
static int has_guid(const pdbmerge_slice *files, size_t count, const pdbmerge_seed *seed, pdbmerge_slice file) {
    pdbmerge_identity identity;
    pdbmerge_guid guid;
    return pdbmerge_guid_of_types(files, count, seed, &guid, &fault) == PDBMERGE_OK
        && pdbmerge_identify(file.bytes, file.length, &identity, &fault) == PDBMERGE_OK
        && memcmp(guid.bytes, identity.guid, sizeof guid.bytes) == 0;
}

static int run_merge(const struct line *line) {
    size_t count = (size_t)line->count - 1;
    pdbmerge_slice *files = ALLOCATE(pdbmerge_slice, count);
    for (size_t at = 0; at < count; at++)
        files[at] = read_file(line->words[at + 1]);
    merging *call = line->by_types ? pdbmerge_merge_by_types : pdbmerge_merge;
    pdbmerge_report report;
    uint32_t answer = call(files, count, &line->settings, NULL, 0, &report, &fault);
    if (answer != PDBMERGE_ROOM)
        return refused();
    uint8_t *out = ALLOCATE(uint8_t, report.length);
    if (call(files, count, &line->settings, out, report.length, &report, &fault) != PDBMERGE_OK)
        return refused();
    pdbmerge_slice merged = {out, (size_t)report.length};
    if (line->by_types && !has_guid(files, count, &line->settings.seed, merged))
        return 2;
    FILE *file = fopen(line->words[0], "wb");
    if (file == NULL || fwrite(out, 1, report.length, file) != report.length || fclose(file) != 0) {
        perror(line->words[0]);
        return 2;
    }
    printf("types %u\nbytes %u\nfile %llu\n",
           (unsigned)report.types, (unsigned)report.bytes, (unsigned long long)report.length);
    return 0;
}

/* ---- The command line */

/* Reads a GUID: two digits a byte, and hyphens between some of them. */
static void read_guid(const char *text, uint8_t *guid) {
    for (int at = 0; at < 16; at++) {
        unsigned byte = 0;
        text += *text == '-';
        if (sscanf(text, "%2x", &byte) != 1)
            exit(2);
        guid[at] = (uint8_t)byte;
        text += 2;
    }
}

/* Takes the word at a position, and the value after it where it is an option. How many were taken. */
static int take_word(struct line *line, char **words, int at) {
    const char *word = words[at], *value = words[at + 1];
    if (strcmp(word, "--origins") == 0) {
        line->origins = 1;
        return 1;
    }
    if (strcmp(word, "--members") == 0) {
        line->members = 1;
        return 1;
    }
    if (strncmp(word, "--", 2) != 0 || value == NULL) {
        line->words[line->count++] = word;
        return 1;
    }
    if (strcmp(word, "--guid") == 0 && strcmp(value, "types") == 0)
        line->by_types = 1;
    else if (strcmp(word, "--guid") == 0)
        read_guid(value, line->settings.guid);
    else if (strcmp(word, "--age") == 0)
        line->settings.age = (uint32_t)strtoul(value, NULL, 10);
    else if (strcmp(word, "--limit") == 0)
        line->settings.limit = (uint32_t)strtoul(value, NULL, 10);
    else if (strcmp(word, "--block-size") == 0)
        line->settings.block_size = (uint32_t)strtoul(value, NULL, 10);
    else
        exit(2);
    return 2;
}

/* The commands, and how many words each takes at least. */
static const struct {
    const char *name;
    int words;
    int (*run)(const struct line *);
} COMMANDS[] = {
    {"check", 1, run_check},     {"records", 1, run_records}, {"record", 2, run_record},
    {"types", 1, run_types},     {"info", 1, run_info},       {"diff", 2, run_diff},
    {"streams", 1, run_streams}, {"merge", 2, run_merge},     {"members", 1, run_members},
};

int main(int argc, char **argv) {
    struct line line = {settings_of(4096), 0, 0, 0, 0, ALLOCATE(const char *, (size_t)argc)};
    for (int at = 2; at < argc;)
        at += take_word(&line, argv, at);
    for (size_t at = 0; argc > 1 && at < sizeof COMMANDS / sizeof *COMMANDS; at++)
        if (strcmp(argv[1], COMMANDS[at].name) == 0 && line.count >= COMMANDS[at].words)
            return COMMANDS[at].run(&line);
    fprintf(stderr, "rows: no such command\n");
    return 2;
}
