//! The declarations of `pdbmerge.h`, which says what each call does and what it asks of its pointers.
//! The crate `pdbmerge` has safe calls.
#![no_std]
#![allow(non_camel_case_types)]
#![deny(missing_docs, unsafe_op_in_unsafe_fn)]

/// The version of the header: major, minor and patch, a byte each.
pub const PDBMERGE_VERSION: u32 = 0x000100;

/// The answer is there.
pub const PDBMERGE_OK: u32 = 0;
/// The types have more bytes together than the limit.
pub const PDBMERGE_TOO_LARGE: u32 = 32;
/// There was not enough memory.
pub const PDBMERGE_MEMORY: u32 = 33;
/// There is too little room; the call says how much it takes.
pub const PDBMERGE_ROOM: u32 = 100;
/// No file can have the limit or the block size, or a choice of a plan is none; the text says which.
pub const PDBMERGE_SETTINGS: u32 = 101;

/// The GUID of the file is that of the settings.
pub const PDBMERGE_GUID_GIVEN: u32 = 0;
/// The GUID of the file is made of its types.
pub const PDBMERGE_GUID_OF_TYPES: u32 = 1;
/// A file that is refused ends the merge.
pub const PDBMERGE_STOP: u32 = 0;
/// A file that is refused is left out.
pub const PDBMERGE_SKIP: u32 = 1;
/// No maps are listed.
pub const PDBMERGE_NO_MAPS: u32 = 0;
/// The maps are listed.
pub const PDBMERGE_MAPS: u32 = 1;

/// The input of a fault that names none.
pub const PDBMERGE_NO_INPUT: u64 = u64::MAX;
/// The length of a name that is not there.
pub const PDBMERGE_NO_NAME: u64 = u64::MAX;

/// What a call says of its fault.
#[repr(C)]
#[derive(Clone, Copy, Debug)]
pub struct pdbmerge_fault {
    /// The position of the input at fault, or [`PDBMERGE_NO_INPUT`].
    pub input: u64,
    /// How many bytes the whole text has.
    pub length: u64,
    /// What the call returned.
    pub number: u32,
    /// The text, or its first 235 bytes, and NULs.
    pub text: [u8; 236],
}

/// Some bytes: those of a file, or of a name.
#[repr(C)]
#[derive(Clone, Copy, Debug)]
pub struct pdbmerge_slice {
    /// The first byte.
    pub bytes: *const u8,
    /// How many bytes there are.
    pub length: usize,
}

/// Random bytes, for hashes alone.
#[repr(C)]
#[derive(Clone, Copy, Debug)]
pub struct pdbmerge_seed {
    /// The bytes.
    pub bytes: [u8; 16],
}

/// What identifies a file.
#[repr(C)]
#[derive(Clone, Copy, Debug, Default)]
pub struct pdbmerge_identity {
    /// The GUID, in the order in which it is printed.
    pub guid: [u8; 16],
    /// The age.
    pub age: u32,
    /// The size of a block, in bytes.
    pub block_size: u32,
}

/// What the container of a file has.
#[repr(C)]
#[derive(Clone, Copy, Debug, Default)]
pub struct pdbmerge_container {
    /// How many bytes a block has.
    pub block_size: u32,
    /// How many blocks the superblock counts.
    pub blocks: u32,
    /// How many of them are free.
    pub free_blocks: u32,
    /// How many bytes the stream directory has.
    pub directory_bytes: u32,
    /// How many streams it lists.
    pub streams: u32,
}

/// What an accepted file has.
#[repr(C)]
#[derive(Clone, Copy, Debug, Default)]
pub struct pdbmerge_counts {
    /// How many type records.
    pub records: u32,
    /// How many bytes all records have together.
    pub bytes: u32,
    /// How many types are in the longest chain of references.
    pub levels: u32,
}

/// What a file that is written is to have.
#[repr(C)]
#[derive(Clone, Copy, Debug)]
pub struct pdbmerge_settings {
    /// The GUID, in the order in which it is printed.
    pub guid: [u8; 16],
    /// The age.
    pub age: u32,
    /// The most bytes that the type records may have together.
    pub limit: u32,
    /// The size of a block, in bytes.
    pub block_size: u32,
    /// Random bytes.
    pub seed: pdbmerge_seed,
}

/// What was written.
#[repr(C)]
#[derive(Clone, Copy, Debug, Default)]
pub struct pdbmerge_report {
    /// How many bytes the file has.
    pub length: u64,
    /// How many types it has.
    pub types: u32,
    /// How many bytes their records have together.
    pub bytes: u32,
}

/// How files are merged into one.
#[repr(C)]
#[derive(Clone, Copy, Debug)]
pub struct pdbmerge_plan {
    /// What the file is to have.
    pub settings: pdbmerge_settings,
    /// [`PDBMERGE_GUID_GIVEN`] or [`PDBMERGE_GUID_OF_TYPES`].
    pub guid: u32,
    /// [`PDBMERGE_STOP`] or [`PDBMERGE_SKIP`].
    pub refused: u32,
    /// [`PDBMERGE_NO_MAPS`] or [`PDBMERGE_MAPS`].
    pub maps: u32,
}

/// A file that was left out.
#[repr(C)]
#[derive(Clone, Copy, Debug, Default)]
pub struct pdbmerge_left_out {
    /// Its position, from 0.
    pub file: u64,
    /// The number of its first fault.
    pub number: u64,
}

/// How long the lists of a merge by a plan are.
#[repr(C)]
#[derive(Clone, Copy, Debug, Default)]
pub struct pdbmerge_totals {
    /// How many type indices all maps have.
    pub indices: u64,
    /// How many files have a map.
    pub counts: u64,
    /// How many files were left out.
    pub left_out: u64,
}

/// A GUID.
#[repr(C)]
#[derive(Clone, Copy, Debug, Default)]
pub struct pdbmerge_guid {
    /// Its bytes, in the order in which they are printed.
    pub bytes: [u8; 16],
}

/// A type that a record names.
#[repr(C)]
#[derive(Clone, Copy, Debug, Default)]
pub struct pdbmerge_reference {
    /// Where its type index stands in the record, counted behind the first four bytes.
    pub place: u32,
    /// The type index.
    pub index: u32,
}

/// A type that only one of two files has.
#[repr(C)]
#[derive(Clone, Copy, Debug, Default)]
pub struct pdbmerge_difference {
    /// The file that has it: 0 or 1.
    pub input: u32,
    /// The type index of its first record there.
    pub index: u32,
    /// 1 where the difference begins, else 0.
    pub origin: u32,
}

const _: () = {
    use core::mem::size_of;
    assert!(size_of::<pdbmerge_fault>() == 256);
    assert!(size_of::<pdbmerge_slice>() == 2 * size_of::<usize>());
    assert!(size_of::<pdbmerge_seed>() == 16);
    assert!(size_of::<pdbmerge_identity>() == 24);
    assert!(size_of::<pdbmerge_container>() == 20);
    assert!(size_of::<pdbmerge_counts>() == 12);
    assert!(size_of::<pdbmerge_settings>() == 44);
    assert!(size_of::<pdbmerge_report>() == 16);
    assert!(size_of::<pdbmerge_plan>() == 56);
    assert!(size_of::<pdbmerge_left_out>() == 16);
    assert!(size_of::<pdbmerge_totals>() == 24);
    assert!(size_of::<pdbmerge_guid>() == 16);
    assert!(size_of::<pdbmerge_reference>() == 8);
    assert!(size_of::<pdbmerge_difference>() == 12);
};

extern "C" {
    /// The version of the library, as [`PDBMERGE_VERSION`].
    pub fn pdbmerge_version() -> u32;

    /// Reads what identifies a file.
    pub fn pdbmerge_identify(
        file: *const u8,
        length: usize,
        identity: *mut pdbmerge_identity,
        fault: *mut pdbmerge_fault,
    ) -> u32;

    /// Reads the container of a file, and lists the sizes of its streams.
    pub fn pdbmerge_layout(
        file: *const u8,
        length: usize,
        container: *mut pdbmerge_container,
        sizes: *mut u32,
        room: usize,
        fault: *mut pdbmerge_fault,
    ) -> u32;

    /// Lists the numbers of the blocks of all streams.
    pub fn pdbmerge_blocks(
        file: *const u8,
        length: usize,
        blocks: *mut u32,
        room: usize,
        count: *mut u64,
        fault: *mut pdbmerge_fault,
    ) -> u32;

    /// Checks whether the types of a file can be trusted.
    pub fn pdbmerge_check(
        file: *const u8,
        length: usize,
        counts: *mut pdbmerge_counts,
        fault: *mut pdbmerge_fault,
    ) -> u32;

    /// Writes one file with exactly the types of all files.
    pub fn pdbmerge_merge(
        files: *const pdbmerge_slice,
        count: usize,
        settings: *const pdbmerge_settings,
        out: *mut u8,
        room: usize,
        report: *mut pdbmerge_report,
        fault: *mut pdbmerge_fault,
    ) -> u32;

    /// Merges, and lists where the types of each file went.
    pub fn pdbmerge_merge_map(
        files: *const pdbmerge_slice,
        count: usize,
        settings: *const pdbmerge_settings,
        out: *mut u8,
        room: usize,
        indices: *mut u32,
        index_room: usize,
        counts: *mut u32,
        count_room: usize,
        report: *mut pdbmerge_report,
        total: *mut u64,
        fault: *mut pdbmerge_fault,
    ) -> u32;

    /// Merges, and makes the GUID of the file of its types.
    pub fn pdbmerge_merge_by_types(
        files: *const pdbmerge_slice,
        count: usize,
        settings: *const pdbmerge_settings,
        out: *mut u8,
        room: usize,
        report: *mut pdbmerge_report,
        fault: *mut pdbmerge_fault,
    ) -> u32;

    /// Merges as a plan says: it may leave out the files that are refused.
    pub fn pdbmerge_merge_plan(
        files: *const pdbmerge_slice,
        count: usize,
        plan: *const pdbmerge_plan,
        out: *mut u8,
        room: usize,
        indices: *mut u32,
        index_room: usize,
        counts: *mut u32,
        count_room: usize,
        left_out: *mut pdbmerge_left_out,
        left_out_room: usize,
        report: *mut pdbmerge_report,
        totals: *mut pdbmerge_totals,
        fault: *mut pdbmerge_fault,
    ) -> u32;

    /// Makes the GUID of the types of all files.
    pub fn pdbmerge_guid_of_types(
        files: *const pdbmerge_slice,
        count: usize,
        seed: *const pdbmerge_seed,
        guid: *mut pdbmerge_guid,
        fault: *mut pdbmerge_fault,
    ) -> u32;

    /// Copies a stream of a file.
    pub fn pdbmerge_stream(
        file: *const u8,
        length: usize,
        stream: u32,
        out: *mut u8,
        room: usize,
        size: *mut u64,
        fault: *mut pdbmerge_fault,
    ) -> u32;

    /// Lists the numbers of the streams that have a name.
    pub fn pdbmerge_named_streams(
        stream: *const u8,
        length: usize,
        numbers: *mut u32,
        room: usize,
        count: *mut u64,
        fault: *mut pdbmerge_fault,
    ) -> u32;

    /// Copies the names of these streams, each with a NUL behind it.
    pub fn pdbmerge_stream_names(
        stream: *const u8,
        length: usize,
        out: *mut u8,
        room: usize,
        size: *mut u64,
        fault: *mut pdbmerge_fault,
    ) -> u32;

    /// Lists the feature codes that end stream 1.
    pub fn pdbmerge_features(
        stream: *const u8,
        length: usize,
        features: *mut u32,
        room: usize,
        count: *mut u64,
        fault: *mut pdbmerge_fault,
    ) -> u32;

    /// Lists where each type record begins.
    pub fn pdbmerge_records(
        stream: *const u8,
        length: usize,
        offsets: *mut u64,
        room: usize,
        count: *mut u64,
        fault: *mut pdbmerge_fault,
    ) -> u32;

    /// Finds where the record with a type index begins.
    pub fn pdbmerge_record(
        stream: *const u8,
        length: usize,
        index: u32,
        offset: *mut u64,
        fault: *mut pdbmerge_fault,
    ) -> u32;

    /// Lists the types that a record names.
    pub fn pdbmerge_references(
        record: *const u8,
        length: usize,
        index: u32,
        references: *mut pdbmerge_reference,
        room: usize,
        count: *mut u64,
        fault: *mut pdbmerge_fault,
    ) -> u32;

    /// Lists the types that all records name.
    pub fn pdbmerge_all_references(
        stream: *const u8,
        length: usize,
        references: *mut pdbmerge_reference,
        room: usize,
        counts: *mut u32,
        count_room: usize,
        total: *mut u64,
        records: *mut u64,
        fault: *mut pdbmerge_fault,
    ) -> u32;

    /// Copies the name of the type that a record describes.
    pub fn pdbmerge_name(
        record: *const u8,
        length: usize,
        index: u32,
        out: *mut u8,
        room: usize,
        size: *mut u64,
        fault: *mut pdbmerge_fault,
    ) -> u32;

    /// Lists the types that only one of two files has.
    pub fn pdbmerge_diff(
        first: *const u8,
        first_length: usize,
        second: *const u8,
        second_length: usize,
        seed: *const pdbmerge_seed,
        differences: *mut pdbmerge_difference,
        room: usize,
        count: *mut u64,
        fault: *mut pdbmerge_fault,
    ) -> u32;

    /// Copies the text of the definitions of a file.
    pub fn pdbmerge_members(
        file: *const u8,
        length: usize,
        names: *const pdbmerge_slice,
        count: usize,
        out: *mut u8,
        room: usize,
        size: *mut u64,
        fault: *mut pdbmerge_fault,
    ) -> u32;

    /// Copies what changed between the definitions of two files.
    pub fn pdbmerge_changes(
        first: *const u8,
        first_length: usize,
        second: *const u8,
        second_length: usize,
        seed: *const pdbmerge_seed,
        out: *mut u8,
        room: usize,
        size: *mut u64,
        fault: *mut pdbmerge_fault,
    ) -> u32;
}
