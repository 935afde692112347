//! The types of Program Database (PDB) files: checked, merged, compared and shown by libpdbmerge.
//!
//! Each call takes files as they are in memory. A mapped file must not be written or truncated while a
//! call runs. Any number of threads may call at the same time.
//!
#![cfg_attr(feature = "std", doc = "```")]
#![cfg_attr(not(feature = "std"), doc = "```ignore")]
//! # std::env::set_current_dir(concat!(env!("CARGO_MANIFEST_DIR"), "/../../.."))?;
//! use pdbmerge::{merge, Settings};
//!
//! let files = [std::fs::read("examples/plain.pdb")?, std::fs::read("examples/data.pdb")?];
//! let settings = Settings::new([0x11; 16], 1);
//! let merged = merge(&files, &settings)?;
//! println!("{} types, {} bytes", merged.types, merged.file.len());
//! # Ok::<(), Box<dyn std::error::Error>>(())
//! ```
//!
//! Without the feature `std`, which is on by default, the crate needs `alloc` alone, and the caller
//! gives the [`Seed`] of a merge or a comparison.
#![no_std]
#![deny(
    missing_docs,
    unsafe_op_in_unsafe_fn,
    clippy::undocumented_unsafe_blocks
)]

extern crate alloc;
#[cfg(feature = "std")]
extern crate std;

mod call;
mod definition;
mod error;
mod info;
mod layout;
mod maps;
mod record;
mod references;
mod settings;

use alloc::vec::Vec;

use pdbmerge_sys as sys;

use call::{done, no_fault, written};
#[cfg(feature = "std")]
pub use definition::changes;
pub use definition::{
    changes_with_seed, members, members_named, Change, Definition, DefinitionKind, Member,
};
pub use error::{Error, ErrorKind};
pub use info::{features, named_streams, NamedStream};
pub use layout::{layout, Layout, Stream};
#[cfg(feature = "std")]
pub use maps::merge_with_maps;
pub use maps::merge_with_maps_and_seed;
pub use record::{records, types, Iter, Record, Records, Reference};
pub use references::{references, References};
pub use settings::{Seed, Settings};

/// What identifies a file. A symbol server matches on the GUID and the age.
#[derive(Clone, Copy, Debug, PartialEq, Eq, Hash)]
pub struct Identity {
    /// The GUID, in the order in which it is printed.
    pub guid: [u8; 16],
    /// The age.
    pub age: u32,
    /// The size of a block, in bytes.
    pub block_size: u32,
}

/// What an accepted file has.
#[derive(Clone, Copy, Debug, PartialEq, Eq, Hash)]
pub struct Counts {
    /// How many type records.
    pub records: u32,
    /// How many bytes all records have together, with their length fields.
    pub bytes: u32,
    /// How many types are in the longest chain of references.
    pub levels: u32,
}

/// A file that was written.
#[derive(Clone, Debug, PartialEq, Eq)]
pub struct Merged {
    /// The bytes of the file.
    pub file: Vec<u8>,
    /// How many types it has.
    pub types: u32,
    /// How many bytes their records have together.
    pub bytes: u32,
}

/// A type that only one of two files has.
#[derive(Clone, Copy, Debug, PartialEq, Eq, Hash)]
pub struct Difference {
    /// The file that has it: 0 or 1.
    pub input: usize,
    /// The type index of its first record there.
    pub index: u32,
    /// Whether the difference begins here: the other file has each type that it names.
    pub origin: bool,
}

/// The version of the library: major, minor and patch.
pub fn version() -> (u8, u8, u8) {
    // SAFETY: the call takes nothing.
    let [_, major, minor, patch] = unsafe { sys::pdbmerge_version() }.to_be_bytes();
    (major, minor, patch)
}

/// What identifies a file. Its types are not looked at.
pub fn identify(file: &[u8]) -> Result<Identity, Error> {
    let (mut identity, mut fault) = (sys::pdbmerge_identity::default(), no_fault());
    // SAFETY: the file is as long as said, and is lent for the call alone.
    let status =
        unsafe { sys::pdbmerge_identify(file.as_ptr(), file.len(), &mut identity, &mut fault) };
    done(status, &fault)?;
    Ok(Identity {
        guid: identity.guid,
        age: identity.age,
        block_size: identity.block_size,
    })
}

/// Checks whether the types of a file can be trusted, as the command `check` does.
pub fn check(file: &[u8]) -> Result<Counts, Error> {
    let (mut counts, mut fault) = (sys::pdbmerge_counts::default(), no_fault());
    // SAFETY: the file is as long as said, and is lent for the call alone.
    let status = unsafe { sys::pdbmerge_check(file.as_ptr(), file.len(), &mut counts, &mut fault) };
    done(status, &fault)?;
    Ok(Counts {
        records: counts.records,
        bytes: counts.bytes,
        levels: counts.levels,
    })
}

/// One file with exactly the types of all files, each once, in canonical order. The same types give the
/// same bytes, whatever the order of the files and however often one is given.
#[cfg(feature = "std")]
pub fn merge<T: AsRef<[u8]>>(files: &[T], settings: &Settings) -> Result<Merged, Error> {
    merge_with_seed(files, settings, Seed::random())
}

/// As `merge`, with a seed of the caller.
pub fn merge_with_seed<T: AsRef<[u8]>>(
    files: &[T],
    settings: &Settings,
    seed: Seed,
) -> Result<Merged, Error> {
    // SAFETY: this is a call of the library.
    unsafe { merged(sys::pdbmerge_merge, files, settings, seed) }
}

/// As `merge`, but the GUID is that of [`guid_of_types_with_seed`], and that of the settings is not used.
/// So the same types give the same file without a GUID to choose.
#[cfg(feature = "std")]
pub fn merge_by_types<T: AsRef<[u8]>>(files: &[T], settings: &Settings) -> Result<Merged, Error> {
    merge_by_types_with_seed(files, settings, Seed::random())
}

/// As `merge_by_types`, with a seed of the caller.
pub fn merge_by_types_with_seed<T: AsRef<[u8]>>(
    files: &[T],
    settings: &Settings,
    seed: Seed,
) -> Result<Merged, Error> {
    // SAFETY: this is a call of the library.
    unsafe { merged(sys::pdbmerge_merge_by_types, files, settings, seed) }
}

/// The GUID that is made of the types of all files, in the order in which it is printed. The same types
/// give the same GUID. No file is made.
#[cfg(feature = "std")]
pub fn guid_of_types<T: AsRef<[u8]>>(files: &[T]) -> Result<[u8; 16], Error> {
    guid_of_types_with_seed(files, Seed::random())
}

/// As `guid_of_types`, with a seed of the caller.
pub fn guid_of_types_with_seed<T: AsRef<[u8]>>(files: &[T], seed: Seed) -> Result<[u8; 16], Error> {
    let slices: Vec<_> = files.iter().map(|file| lent(file.as_ref())).collect();
    let (mut guid, mut fault) = (sys::pdbmerge_guid::default(), no_fault());
    let (bytes, count, seed) = (slices.as_ptr(), slices.len(), seed.lent());
    // SAFETY: each file is as long as said, and `files` lends them until the call has returned.
    let status = unsafe { sys::pdbmerge_guid_of_types(bytes, count, &seed, &mut guid, &mut fault) };
    done(status, &fault)?;
    Ok(guid.bytes)
}

/// A call that merges.
type Merges = unsafe extern "C" fn(
    *const sys::pdbmerge_slice,
    usize,
    *const sys::pdbmerge_settings,
    *mut u8,
    usize,
    *mut sys::pdbmerge_report,
    *mut sys::pdbmerge_fault,
) -> u32;

/// What a call merges of files.
///
/// # Safety
///
/// `call` is a call of the library.
unsafe fn merged<T: AsRef<[u8]>>(
    call: Merges,
    files: &[T],
    settings: &Settings,
    seed: Seed,
) -> Result<Merged, Error> {
    let slices: Vec<_> = files.iter().map(|file| lent(file.as_ref())).collect();
    let settings = settings.lent(seed);
    let mut report = sys::pdbmerge_report::default();
    // SAFETY: each file is as long as said, and `files` lends them until the call has returned.
    let mut file = unsafe {
        written(room(&slices, settings.limit), |out, room, length, fault| {
            let (bytes, count) = (slices.as_ptr(), slices.len());
            let status = call(bytes, count, &settings, out, room, &mut report, fault);
            *length = report.length;
            status
        })?
    };
    file.shrink_to_fit();
    Ok(Merged {
        file,
        types: report.types,
        bytes: report.bytes,
    })
}

/// Bytes as a call takes several of them.
pub(crate) fn lent(bytes: &[u8]) -> sys::pdbmerge_slice {
    sys::pdbmerge_slice {
        bytes: bytes.as_ptr(),
        length: bytes.len(),
    }
}

/// Room for what is merged, unless streams share blocks: the types, the lists of blocks, and the other
/// streams.
pub(crate) fn room(files: &[sys::pdbmerge_slice], limit: u32) -> usize {
    const LARGEST_BLOCK: usize = 32768;
    let total = files
        .iter()
        .fold(0, |sum: usize, file| sum.saturating_add(file.length));
    let types = total.min(limit as usize);
    types + types / 64 + 16 * LARGEST_BLOCK
}

/// A copy of a stream of a file, by its number from 0.
pub fn stream(file: &[u8], number: u32) -> Result<Vec<u8>, Error> {
    // SAFETY: the file is as long as said, and is lent for the call alone.
    unsafe {
        written(0, |out, room, size, fault| {
            sys::pdbmerge_stream(file.as_ptr(), file.len(), number, out, room, size, fault)
        })
    }
}

/// The types that only one of two files has, those of the first file first. There are none exactly
/// where both files have the same types.
#[cfg(feature = "std")]
pub fn diff(first: &[u8], second: &[u8]) -> Result<Vec<Difference>, Error> {
    diff_with_seed(first, second, Seed::random())
}

/// As `diff`, with a seed of the caller.
pub fn diff_with_seed(first: &[u8], second: &[u8], seed: Seed) -> Result<Vec<Difference>, Error> {
    let seed = seed.lent();
    // SAFETY: both files are as long as said, and are lent for the call alone.
    let found = unsafe {
        written(256, |out, room, count, fault| {
            sys::pdbmerge_diff(
                first.as_ptr(),
                first.len(),
                second.as_ptr(),
                second.len(),
                &seed,
                out,
                room,
                count,
                fault,
            )
        })?
    };
    Ok(found.iter().map(Difference::of).collect())
}

impl Difference {
    fn of(found: &sys::pdbmerge_difference) -> Self {
        Difference {
            input: found.input as usize,
            index: found.index,
            origin: found.origin != 0,
        }
    }
}
