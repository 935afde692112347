/* pdbmerge: the types of Program Database (PDB) files, checked, merged, compared and shown.
 *
 * Each call takes bytes in memory, and answers into memory of the caller. The library opens no file,
 * starts no thread, prints nothing, never ends the process and takes no lock.
 *
 * ANSWERS. A call returns PDBMERGE_OK, or the number of a fault. Numbers below 100 are those that the
 * program prints, and never change their meaning: docs/FAULTS.md explains each. Unless a call returns
 * PDBMERGE_OK, it leaves `out` and each result as they were, but for `fault` and for what is said of
 * PDBMERGE_ROOM.
 *
 * MEMORY. All memory that a call reads or writes is the caller's, and is lent for the call alone: the
 * library keeps no pointer, and frees nothing that it did not allocate. What a call allocates, by
 * malloc and realloc, it frees before it returns, whatever it returns.
 *
 * POINTERS. A pointer before a length or a number of items may be NULL where that is 0. No other
 * pointer may be NULL. Memory that a call writes overlaps nothing else that is passed to it. A length
 * is at most PTRDIFF_MAX. What a call reads does not change while it runs: so a mapped file must not
 * be truncated or written meanwhile.
 *
 * THREADS. Nothing is kept between calls, and calls share nothing. Any number of threads may call at
 * the same time, also on the same bytes, each with results of its own. Don't call from a signal
 * handler, nor in the child of fork before exec where the process has threads.
 *
 * VERSIONS. Structs and calls never change; what is new is a new call. So the soname stays. */
#ifndef PDBMERGE_H
#define PDBMERGE_H

#include <stddef.h>
#include <stdint.h>

#ifdef __cplusplus
extern "C" {
#endif

/* The version of this header: major, minor and patch, a byte each. */
#define PDBMERGE_VERSION 0x000200

/* What a call returns. */
enum {
    PDBMERGE_OK = 0,
    /* 1 to 31 and 34: the bytes are refused. 39: there is no such record. `text` of the fault says why. */
    PDBMERGE_TOO_LARGE = 32, /* the types have more bytes together than the limit */
    PDBMERGE_MEMORY = 33,    /* malloc or realloc returned NULL */
    PDBMERGE_ROOM = 100,     /* there is too little room; the call says how much it takes */
    PDBMERGE_SETTINGS = 101  /* no file can have the limit or the block size, or a choice of a plan is none;
                                `text` says which */
};

/* The input of a fault that names none. */
#define PDBMERGE_NO_INPUT UINT64_MAX

/* The length of a name that is not there. */
#define PDBMERGE_NO_NAME UINT64_MAX

/* What a call says of its fault. Each call writes it; after PDBMERGE_OK it names no fault. */
typedef struct pdbmerge_fault {
    uint64_t input;    /* the position of the input at fault, from 0, or PDBMERGE_NO_INPUT */
    uint64_t length;   /* how many bytes the whole text has, without a NUL */
    uint32_t number;   /* what the call returned */
    char text[236];    /* as the program prints it, as "file 1: 2 Magic": at most 235 bytes of it, and NULs */
} pdbmerge_fault;

/* Some bytes: those of a file, or of a name. */
typedef struct pdbmerge_slice {
    const uint8_t *bytes;
    size_t length;
} pdbmerge_slice;

/* Random bytes, for hashes alone: no answer depends on them. With bytes that a stranger can foresee
 * a hostile file can make a call slow. */
typedef struct pdbmerge_seed {
    uint8_t bytes[16];
} pdbmerge_seed;

/* The version of the library, as PDBMERGE_VERSION. */
uint32_t pdbmerge_version(void);

/* What identifies a file. */
typedef struct pdbmerge_identity {
    uint8_t guid[16];    /* in the order in which it is printed */
    uint32_t age;        /* that of stream 1 */
    uint32_t block_size; /* of the container, in bytes */
} pdbmerge_identity;

/* Reads what identifies a file: the superblock, the stream directory and the header of stream 1.
 * Faults, in order: 1 to 10, 11, 12; and 33. */
uint32_t pdbmerge_identify(const uint8_t *file, size_t length,
                           pdbmerge_identity *identity, pdbmerge_fault *fault);

/* What the container of a file has. */
typedef struct pdbmerge_container {
    uint32_t block_size;      /* how many bytes a block has */
    uint32_t blocks;          /* how many blocks the superblock counts */
    uint32_t free_blocks;     /* how many of them are free, by the free block map in force */
    uint32_t directory_bytes; /* how many bytes the stream directory has */
    uint32_t streams;         /* how many streams it lists */
} pdbmerge_container;

/* Reads the container of a file, and lists the sizes of its streams in bytes, in the order of their
 * numbers. A nil stream has size 0. `room` is how many sizes there is room for. `container` is written
 * after PDBMERGE_OK and after PDBMERGE_ROOM. Faults, in order: 1 to 10; 33; 100. */
uint32_t pdbmerge_layout(const uint8_t *file, size_t length, pdbmerge_container *container,
                         uint32_t *sizes, size_t room, pdbmerge_fault *fault);

/* Lists the numbers of the blocks of all streams, one stream after the other, each in the order of its
 * bytes. A stream has as many blocks as its size needs, so the sizes of pdbmerge_layout tell the room.
 * `count` is how many there are, also after PDBMERGE_ROOM. Faults, in order: 1 to 10; 33; 100. */
uint32_t pdbmerge_blocks(const uint8_t *file, size_t length,
                         uint32_t *blocks, size_t room, uint64_t *count, pdbmerge_fault *fault);

/* What an accepted file has. */
typedef struct pdbmerge_counts {
    uint32_t records; /* type records */
    uint32_t bytes;   /* of all records together, with their length fields */
    uint32_t levels;  /* types in the longest chain of references */
} pdbmerge_counts;

/* Checks whether the types of a file can be trusted, as the command `check` does. After PDBMERGE_OK
 * the file is accepted. Faults, in order: 1 to 12, 16 to 31, 34; and 33. */
uint32_t pdbmerge_check(const uint8_t *file, size_t length,
                        pdbmerge_counts *counts, pdbmerge_fault *fault);

/* What a file that is written is to have. */
typedef struct pdbmerge_settings {
    uint8_t guid[16];    /* in the order in which it is printed */
    uint32_t age;
    uint32_t limit;      /* the most bytes that the type records may have together, at most 2^30 */
    uint32_t block_size; /* 512, 1024, 2048, 4096, 8192, 16384 or 32768; 4096 is usual */
    pdbmerge_seed seed;
} pdbmerge_settings;

/* What was written. */
typedef struct pdbmerge_report {
    uint64_t length; /* how many bytes the file has; also after PDBMERGE_ROOM */
    uint32_t types;  /* how many types it has; also after PDBMERGE_ROOM */
    uint32_t bytes;  /* how many bytes their records have together; also after PDBMERGE_ROOM */
} pdbmerge_report;

/* Writes one file with exactly the types of all `count` files, each once, in canonical order, to the
 * front of `out`, which has room for `room` bytes. The same types give the same bytes: the order of
 * the files, how often one is given, and which were merged before make no difference.
 * Faults, in order: 101; those of pdbmerge_check and 32, of the first file that has one; 33; 100. */
uint32_t pdbmerge_merge(const pdbmerge_slice *files, size_t count,
                        const pdbmerge_settings *settings, uint8_t *out, size_t room,
                        pdbmerge_report *report, pdbmerge_fault *fault);

/* Merges as pdbmerge_merge does, and lists where the types of each file went: for each type record of the
 * file, in the order of their type indices, the type index of its type in the file that is written. These
 * maps stand one after the other in `indices`, in the order of the files; `index_room` is how many type
 * indices there is room for. `counts` has how many records each file has; `count_room` is at least `count`.
 * `total` is how many records all files have. `report` and `total` are written after PDBMERGE_OK and after
 * PDBMERGE_ROOM, which says that one of the three rooms is too little. Faults are those of pdbmerge_merge. */
uint32_t pdbmerge_merge_map(const pdbmerge_slice *files, size_t count,
                            const pdbmerge_settings *settings, uint8_t *out, size_t room,
                            uint32_t *indices, size_t index_room,
                            uint32_t *counts, size_t count_room,
                            pdbmerge_report *report, uint64_t *total, pdbmerge_fault *fault);

/* Merges as pdbmerge_merge does, but the GUID of the file is made of its types, and that of the settings
 * is not used: so files with the same types give the same file without a GUID to choose. The command
 * `merge --guid types` does the same. Faults are those of pdbmerge_merge. */
uint32_t pdbmerge_merge_by_types(const pdbmerge_slice *files, size_t count,
                                 const pdbmerge_settings *settings, uint8_t *out, size_t room,
                                 pdbmerge_report *report, pdbmerge_fault *fault);

/* What a plan may choose. */
enum {
    PDBMERGE_GUID_GIVEN = 0,    /* the GUID of the file is that of the settings */
    PDBMERGE_GUID_OF_TYPES = 1, /* it is made of the types, as pdbmerge_merge_by_types makes it */
    PDBMERGE_STOP = 0,          /* a file that is refused ends the merge */
    PDBMERGE_SKIP = 1,          /* it is left out */
    PDBMERGE_NO_MAPS = 0,       /* no maps are listed */
    PDBMERGE_MAPS = 1           /* the maps are listed, as pdbmerge_merge_map lists them */
};

/* How files are merged into one. */
typedef struct pdbmerge_plan {
    pdbmerge_settings settings;
    uint32_t guid;    /* PDBMERGE_GUID_GIVEN or PDBMERGE_GUID_OF_TYPES */
    uint32_t refused; /* PDBMERGE_STOP or PDBMERGE_SKIP */
    uint32_t maps;    /* PDBMERGE_NO_MAPS or PDBMERGE_MAPS */
} pdbmerge_plan;

/* A file that was left out. */
typedef struct pdbmerge_left_out {
    uint64_t file;   /* its position, from 0 */
    uint64_t number; /* the number of its first fault: pdbmerge_check of the file tells its text */
} pdbmerge_left_out;

/* How long the lists of a merge by a plan are; also after PDBMERGE_ROOM. */
typedef struct pdbmerge_totals {
    uint64_t indices;  /* how many type indices all maps have; 0 without maps */
    uint64_t counts;   /* how many files have a map; 0 without maps */
    uint64_t left_out; /* how many files were left out */
} pdbmerge_totals;

/* Merges as a plan says. With PDBMERGE_STOP and without maps this is pdbmerge_merge, or
 * pdbmerge_merge_by_types. With PDBMERGE_SKIP a file that pdbmerge_check refuses is left out: the file that
 * is written has exactly the types of the others, as if only these were given. `left_out` has the files that
 * were left out, in their order. With PDBMERGE_MAPS `indices` and `counts` have what pdbmerge_merge_map
 * lists; a file that was left out has a count of 0. Without maps they get nothing. Each room may be 0 where
 * nothing is listed. `report` and `totals` are written after PDBMERGE_OK and after PDBMERGE_ROOM, which says
 * that one of the four rooms is too little, and then none of the four is written to.
 * Faults, in order: 101, for the limit, the block size, `guid`, `refused` or `maps`; those of pdbmerge_check,
 * unless they are skipped, and 32, of the first file that has one; 33; 100. */
uint32_t pdbmerge_merge_plan(const pdbmerge_slice *files, size_t count,
                             const pdbmerge_plan *plan, uint8_t *out, size_t room,
                             uint32_t *indices, size_t index_room,
                             uint32_t *counts, size_t count_room,
                             pdbmerge_left_out *left_out, size_t left_out_room,
                             pdbmerge_report *report, pdbmerge_totals *totals, pdbmerge_fault *fault);

/* A GUID. */
typedef struct pdbmerge_guid {
    uint8_t bytes[16]; /* in the order in which it is printed */
} pdbmerge_guid;

/* Makes the GUID of the types of all `count` files: that of the file that pdbmerge_merge_by_types writes.
 * The same types give the same GUID. No file is written. Faults, in order: those of pdbmerge_check and 32,
 * of the first file that has one; 33. */
uint32_t pdbmerge_guid_of_types(const pdbmerge_slice *files, size_t count, const pdbmerge_seed *seed,
                                pdbmerge_guid *guid, pdbmerge_fault *fault);

/* Copies a stream of a file, by its number from 0, to the front of `out`. Stream 2 holds the type
 * records. `size` is how many bytes the stream has, also after PDBMERGE_ROOM.
 * Faults, in order: 1 to 10, 11; 33; 100. */
uint32_t pdbmerge_stream(const uint8_t *file, size_t length, uint32_t stream,
                         uint8_t *out, size_t room, uint64_t *size, pdbmerge_fault *fault);

/* Lists the numbers of the streams that have a name, in the order of the buckets of the named stream
 * map. `stream` are the bytes of stream 1, as pdbmerge_stream copies them. `count` is how many there
 * are, also after PDBMERGE_ROOM. Faults, in order: 12 to 15; 33; 100. */
uint32_t pdbmerge_named_streams(const uint8_t *stream, size_t length,
                                uint32_t *numbers, size_t room, uint64_t *count, pdbmerge_fault *fault);

/* Copies the names of these streams to the front of `out`, in the same order, each with a NUL behind
 * it. `size` is how many bytes they have together, also after PDBMERGE_ROOM. Names may share bytes of
 * stream 1, and have far more together. Faults, in order: 12 to 15; 33; 100. */
uint32_t pdbmerge_stream_names(const uint8_t *stream, size_t length,
                               uint8_t *out, size_t room, uint64_t *size, pdbmerge_fault *fault);

/* Lists the feature codes that end stream 1. `count` is how many there are, also after PDBMERGE_ROOM.
 * Faults, in order: 12 to 15; 33; 100. */
uint32_t pdbmerge_features(const uint8_t *stream, size_t length,
                           uint32_t *features, size_t room, uint64_t *count, pdbmerge_fault *fault);

/* Lists where each type record begins: offsets in the bytes of stream 2, as pdbmerge_stream copies
 * them. The records have the type indices 0x1000, 0x1001 and so on. A record begins with two bytes,
 * the lower one first, that say how many follow them; the next two are its kind. `room` is how many
 * offsets there is room for, and `count` how many records there are, also after PDBMERGE_ROOM.
 * Faults, in order: 16 to 24; 33; 100. */
uint32_t pdbmerge_records(const uint8_t *stream, size_t length,
                          uint64_t *offsets, size_t room, uint64_t *count, pdbmerge_fault *fault);

/* Finds where the record with this type index begins: its offset in the bytes of stream 2. All records are
 * framed, since a fault of any of them comes first, but none is listed: this allocates four bytes for every
 * 64 records. Faults, in order: 16 to 24; 33; 39, where no record has the index. */
uint32_t pdbmerge_record(const uint8_t *stream, size_t length, uint32_t index,
                         uint64_t *offset, pdbmerge_fault *fault);

/* A type that a record names. */
typedef struct pdbmerge_reference {
    uint32_t place; /* where its type index stands: the offset in the record, behind its first four bytes */
    uint32_t index; /* the type index: of a simple type below 0x1000, else of a record */
} pdbmerge_reference;

/* Lists the types that a record names, in the order of their places. `record` is what stands from the
 * front of the record on; what follows the record is not looked at. `index` is the type index of the
 * record, which only the text of a fault names. `count` is how many there are, also after
 * PDBMERGE_ROOM. Faults, in order: 22, 23, 25 to 30; 33; 100. */
uint32_t pdbmerge_references(const uint8_t *record, size_t length, uint32_t index,
                             pdbmerge_reference *references, size_t room,
                             uint64_t *count, pdbmerge_fault *fault);

/* Lists the types that all records of stream 2 name, in one call: those of the first record, then those
 * of the second, and so on, each record's in the order of their places. `room` is how many there is room
 * for. `counts` has how many each record names, and 0 where it names none; `count_room` is how many
 * counts there is room for. `total` is how many all records name, and `records` how many records there
 * are: both are written after PDBMERGE_OK and after PDBMERGE_ROOM, which says that one of the two rooms
 * is too little, and then neither is written to. Faults, in order: 16 to 24; 25 to 30, of the first record
 * that has one; 33; 100. */
uint32_t pdbmerge_all_references(const uint8_t *stream, size_t length,
                                 pdbmerge_reference *references, size_t room,
                                 uint32_t *counts, size_t count_room,
                                 uint64_t *total, uint64_t *records, pdbmerge_fault *fault);

/* Copies the name of the type that a record describes to the front of `out`, without a NUL. `size` is
 * how many bytes it has, also after PDBMERGE_ROOM, or PDBMERGE_NO_NAME where there is none, or none
 * that can be read. The rest is as for pdbmerge_references. Faults, in order: 22, 23; 100. */
uint32_t pdbmerge_name(const uint8_t *record, size_t length, uint32_t index,
                       uint8_t *out, size_t room, uint64_t *size, pdbmerge_fault *fault);

/* A type that only one of two files has. */
typedef struct pdbmerge_difference {
    uint32_t input;  /* the file that has it: 0 or 1 */
    uint32_t index;  /* the type index of its first record there */
    uint32_t origin; /* 1 where the difference begins: the other file has each type that it names; else 0 */
} pdbmerge_difference;

/* Lists the types that only one of two files has, each once, as the command `diff` does: first those
 * of the first file, then those of the second, each in the order of their type indices. There are
 * none exactly where both files have the same types. `count` is how many there are, also after
 * PDBMERGE_ROOM. Faults, in order: those of pdbmerge_check of the first file, then of the second; 33;
 * 100. */
uint32_t pdbmerge_diff(const uint8_t *first, size_t first_length,
                       const uint8_t *second, size_t second_length, const pdbmerge_seed *seed,
                       pdbmerge_difference *differences, size_t room,
                       uint64_t *count, pdbmerge_fault *fault);

/* Copies the text of the definitions of a file to the front of `out`, as the command `members` prints
 * it (docs/WORDS.md): of those with one of the `count` names, or of all where `count` is 0. What is only
 * declared is shown where a name asks for it, and the file defines nothing with that name. A name that no
 * definition has adds nothing. `size` is how many bytes the text has, also after PDBMERGE_ROOM.
 * Faults, in order: those of pdbmerge_check; 33; 100. */
uint32_t pdbmerge_members(const uint8_t *file, size_t length,
                          const pdbmerge_slice *names, size_t count,
                          uint8_t *out, size_t room, uint64_t *size, pdbmerge_fault *fault);

/* Copies what changed between the definitions of two files to the front of `out`, as the command
 * `diff --members` prints it. The text is empty exactly where both files have the same definitions, and
 * so where they have the same types. `size` is how many bytes it has, also after PDBMERGE_ROOM. Faults,
 * in order: those of pdbmerge_check of the first file, then of the second; 33; 100. */
uint32_t pdbmerge_changes(const uint8_t *first, size_t first_length,
                          const uint8_t *second, size_t second_length, const pdbmerge_seed *seed,
                          uint8_t *out, size_t room, uint64_t *size, pdbmerge_fault *fault);

#ifdef __cplusplus
}
#endif

#endif
