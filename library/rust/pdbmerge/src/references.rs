use alloc::vec::Vec;

use pdbmerge_sys as sys;

use crate::call::{done, no_fault, room_for};
use crate::record::{FIRST, TYPES};
use crate::{stream, Error, Reference};

/// Few records have less bytes, and few references stand in less of them. Where there are more than the room
/// holds, the call is made once more.
const RECORD: usize = 8;

/// What each type record of a file names.
#[derive(Clone, Debug)]
pub struct References {
    all: Vec<Reference>,
    /// Where what a record names ends. It begins where that of the record before ends.
    ends: Vec<usize>,
}

/// What each type record of a file names, by one call for all records. They are not checked as types, but
/// each has to be one whose references can be read.
pub fn references(file: &[u8]) -> Result<References, Error> {
    let stream = stream(file, TYPES)?;
    let (mut room, mut records) = (stream.len() / RECORD, stream.len() / RECORD);
    loop {
        match listed(&stream, room, records)? {
            Answer::Listed(all, counts) => return Ok(References::of(all, &counts)),
            Answer::Needs(total, counts) => (room, records) = (total, counts),
        }
    }
}

/// What a call answers: what all records name, and how much each names; or how much room both need.
enum Answer {
    Listed(Vec<sys::pdbmerge_reference>, Vec<u32>),
    Needs(usize, usize),
}

/// Lists what all records name, with room for so many references and for so many records.
fn listed(stream: &[u8], room: usize, count_room: usize) -> Result<Answer, Error> {
    let (mut all, mut counts) = (room_for(room)?, room_for::<u32>(count_room)?);
    let (mut total, mut records, mut fault) = (0, 0, no_fault());
    // SAFETY: the stream is as long as said, and is lent for the call alone; there is room as said.
    let status = unsafe {
        sys::pdbmerge_all_references(
            stream.as_ptr(),
            stream.len(),
            all.as_mut_ptr(),
            room,
            counts.as_mut_ptr(),
            count_room,
            &mut total,
            &mut records,
            &mut fault,
        )
    };
    let enough = done(status, &fault)?;
    let total = usize::try_from(total).map_err(|_| Error::memory())?;
    let records = usize::try_from(records).map_err(|_| Error::memory())?;
    if !enough {
        return Ok(Answer::Needs(total, records));
    }
    // SAFETY: the call has written all of these, so there was room for them.
    unsafe {
        all.set_len(total);
        counts.set_len(records);
    }
    Ok(Answer::Listed(all, counts))
}

impl References {
    fn of(all: Vec<sys::pdbmerge_reference>, counts: &[u32]) -> Self {
        let mut end = 0;
        let ends = counts.iter().map(|count| {
            end += *count as usize;
            end
        });
        References {
            ends: ends.collect(),
            all: all.into_iter().map(Reference::of).collect(),
        }
    }

    /// How many records there are.
    pub fn len(&self) -> usize {
        self.ends.len()
    }

    /// Whether there are none.
    pub fn is_empty(&self) -> bool {
        self.ends.is_empty()
    }

    /// What all records name, one record after the other.
    pub fn all(&self) -> &[Reference] {
        &self.all
    }

    /// What the record of a type index names, in the order of the places.
    pub fn get(&self, index: u32) -> Option<&[Reference]> {
        self.at(index.checked_sub(FIRST)? as usize)
    }

    /// What each record names, in the order of their type indices.
    pub fn iter(
        &self,
    ) -> impl DoubleEndedIterator<Item = &[Reference]> + ExactSizeIterator + Clone + '_ {
        (0..self.len()).map(|position| self.at(position).unwrap_or_default())
    }

    /// What the record at a position names.
    fn at(&self, position: usize) -> Option<&[Reference]> {
        let end = *self.ends.get(position)?;
        let begin = position
            .checked_sub(1)
            .map_or(0, |before| self.ends[before]);
        self.all.get(begin..end)
    }
}
