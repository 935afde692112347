/* Prints the layout of each struct of pdbmerge.h, a line for its size and one for each offset, in the
 * order of the header. The numbers are those of the x86-64 ABI, and are held when this is compiled.
 *
 * usage: layout. tests/library compares the lines with those of the other languages. */
#include <pdbmerge.h>
#include <stdio.h>

#define SIZE(name, bytes)                                  \
    do {                                                   \
        _Static_assert(sizeof(name) == (bytes), #name);    \
        printf(#name " size %zu\n", sizeof(name));         \
    } while (0)
#define FIELD(name, field, place)                                             \
    do {                                                                      \
        _Static_assert(offsetof(name, field) == (place), #name "." #field);   \
        printf(#name "." #field " offset %zu\n", offsetof(name, field));      \
    } while (0)

/* What every call takes, and what tells of one file. */
static void print_common(void) {
    SIZE(pdbmerge_fault, 256);
    FIELD(pdbmerge_fault, input, 0);
    FIELD(pdbmerge_fault, length, 8);
    FIELD(pdbmerge_fault, number, 16);
    FIELD(pdbmerge_fault, text, 20);
    SIZE(pdbmerge_slice, 16);
    FIELD(pdbmerge_slice, bytes, 0);
    FIELD(pdbmerge_slice, length, 8);
    SIZE(pdbmerge_seed, 16);
    FIELD(pdbmerge_seed, bytes, 0);
    SIZE(pdbmerge_identity, 24);
    FIELD(pdbmerge_identity, guid, 0);
    FIELD(pdbmerge_identity, age, 16);
    FIELD(pdbmerge_identity, block_size, 20);
    SIZE(pdbmerge_container, 20);
    FIELD(pdbmerge_container, block_size, 0);
    FIELD(pdbmerge_container, blocks, 4);
    FIELD(pdbmerge_container, free_blocks, 8);
    FIELD(pdbmerge_container, directory_bytes, 12);
    FIELD(pdbmerge_container, streams, 16);
    SIZE(pdbmerge_counts, 12);
    FIELD(pdbmerge_counts, records, 0);
    FIELD(pdbmerge_counts, bytes, 4);
    FIELD(pdbmerge_counts, levels, 8);
}

/* What a merge takes and tells, and the rows of lists. */
static void print_others(void) {
    SIZE(pdbmerge_settings, 44);
    FIELD(pdbmerge_settings, guid, 0);
    FIELD(pdbmerge_settings, age, 16);
    FIELD(pdbmerge_settings, limit, 20);
    FIELD(pdbmerge_settings, block_size, 24);
    FIELD(pdbmerge_settings, seed, 28);
    SIZE(pdbmerge_report, 16);
    FIELD(pdbmerge_report, length, 0);
    FIELD(pdbmerge_report, types, 8);
    FIELD(pdbmerge_report, bytes, 12);
    SIZE(pdbmerge_plan, 56);
    FIELD(pdbmerge_plan, settings, 0);
    FIELD(pdbmerge_plan, guid, 44);
    FIELD(pdbmerge_plan, refused, 48);
    FIELD(pdbmerge_plan, maps, 52);
    SIZE(pdbmerge_left_out, 16);
    FIELD(pdbmerge_left_out, file, 0);
    FIELD(pdbmerge_left_out, number, 8);
    SIZE(pdbmerge_totals, 24);
    FIELD(pdbmerge_totals, indices, 0);
    FIELD(pdbmerge_totals, counts, 8);
    FIELD(pdbmerge_totals, left_out, 16);
    SIZE(pdbmerge_guid, 16);
    FIELD(pdbmerge_guid, bytes, 0);
    SIZE(pdbmerge_reference, 8);
    FIELD(pdbmerge_reference, place, 0);
    FIELD(pdbmerge_reference, index, 4);
    SIZE(pdbmerge_difference, 12);
    FIELD(pdbmerge_difference, input, 0);
    FIELD(pdbmerge_difference, index, 4);
    FIELD(pdbmerge_difference, origin, 8);
}

int main(void) {
    print_common();
    print_others();
    return 0;
}
