use alloc::vec::Vec;

use pdbmerge_sys as sys;

use crate::call::{copied, listed, room_for};
use crate::{stream, Error};

/// The stream that holds the names of streams and the feature codes.
const INFO: u32 = 1;

/// A stream that has a name.
#[derive(Clone, Debug, PartialEq, Eq, Hash)]
pub struct NamedStream {
    /// The name, without a NUL.
    pub name: Vec<u8>,
    /// The number of the stream.
    pub number: u32,
}

/// The streams of a file that have a name, in the order of its named stream map.
pub fn named_streams(file: &[u8]) -> Result<Vec<NamedStream>, Error> {
    let stream = stream(file, INFO)?;
    // SAFETY: this is a call of the library.
    let numbers = unsafe { listed(sys::pdbmerge_named_streams, &stream, 0)? };
    // SAFETY: as before.
    let names = unsafe { listed(sys::pdbmerge_stream_names, &stream, 0)? };
    let mut named = room_for(numbers.len())?;
    // A NUL ends each name.
    for (number, name) in numbers.into_iter().zip(names.split(|byte| *byte == 0)) {
        let name = copied(name)?;
        named.push(NamedStream { name, number });
    }
    Ok(named)
}

/// The feature codes of a file, in the order in which they stand there.
pub fn features(file: &[u8]) -> Result<Vec<u32>, Error> {
    let stream = stream(file, INFO)?;
    // SAFETY: this is a call of the library.
    unsafe { listed(sys::pdbmerge_features, &stream, 0) }
}
