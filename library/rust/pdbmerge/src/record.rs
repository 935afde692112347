use alloc::vec::Vec;
use core::iter::FusedIterator;
use core::ops::Range;

use pdbmerge_sys as sys;

use crate::call::{done, listed, no_fault, written};
use crate::{check, stream, Error};

/// The stream that holds the type records.
pub(crate) const TYPES: u32 = 2;
/// The type index of the first record.
pub(crate) const FIRST: u32 = 0x1000;

/// The type records of a file.
#[derive(Clone, Debug)]
pub struct Records {
    stream: Vec<u8>,
    offsets: Vec<u64>,
}

/// The type records of a file, which are not checked as types.
pub fn records(file: &[u8]) -> Result<Records, Error> {
    let stream = stream(file, TYPES)?;
    // SAFETY: this is a call of the library.
    let offsets = unsafe { listed(sys::pdbmerge_records, &stream, 0)? };
    Ok(Records { stream, offsets })
}

/// The type records of a file that [`check`] accepts.
pub fn types(file: &[u8]) -> Result<Records, Error> {
    check(file)?;
    records(file)
}

impl Records {
    /// How many records there are.
    pub fn len(&self) -> usize {
        self.offsets.len()
    }

    /// Whether there are none.
    pub fn is_empty(&self) -> bool {
        self.offsets.is_empty()
    }

    /// The record of a type index.
    pub fn get(&self, index: u32) -> Option<Record<'_>> {
        let offset = *self.offsets.get(index.checked_sub(FIRST)? as usize)?;
        self.at(index, offset)
    }

    /// The record of a type index; the error 39 where there is none. It is looked for from the front of
    /// the records on: [`get`](Self::get) is faster.
    pub fn find(&self, index: u32) -> Result<Record<'_>, Error> {
        let (mut offset, mut fault) = (0, no_fault());
        let (bytes, length) = (self.stream.as_ptr(), self.stream.len());
        // SAFETY: the stream is as long as said, and is lent for the call alone.
        let status = unsafe { sys::pdbmerge_record(bytes, length, index, &mut offset, &mut fault) };
        done(status, &fault)?;
        // There is a record at each offset that the call gives.
        self.at(index, offset).ok_or_else(|| Error::of(&fault))
    }

    /// The record that begins at this offset.
    fn at(&self, index: u32, offset: u64) -> Option<Record<'_>> {
        Record::new(index, self.stream.get(offset as usize..)?)
    }

    /// The records in the order of their type indices.
    pub fn iter(&self) -> Iter<'_> {
        let end = FIRST + self.offsets.len() as u32;
        Iter {
            records: self,
            indices: FIRST..end,
        }
    }
}

impl<'a> IntoIterator for &'a Records {
    type Item = Record<'a>;
    type IntoIter = Iter<'a>;

    fn into_iter(self) -> Iter<'a> {
        self.iter()
    }
}

/// An iterator over the type records of a file.
#[derive(Clone, Debug)]
pub struct Iter<'a> {
    records: &'a Records,
    indices: Range<u32>,
}

impl<'a> Iterator for Iter<'a> {
    type Item = Record<'a>;

    fn next(&mut self) -> Option<Record<'a>> {
        self.records.get(self.indices.next()?)
    }

    fn size_hint(&self) -> (usize, Option<usize>) {
        self.indices.size_hint()
    }
}

impl DoubleEndedIterator for Iter<'_> {
    fn next_back(&mut self) -> Option<Self::Item> {
        self.records.get(self.indices.next_back()?)
    }
}

impl ExactSizeIterator for Iter<'_> {}

impl FusedIterator for Iter<'_> {}

/// A type record.
#[derive(Clone, Copy, Debug, PartialEq, Eq)]
pub struct Record<'a> {
    index: u32,
    kind: u16,
    bytes: &'a [u8],
}

/// A type that a record names.
#[derive(Clone, Copy, Debug, PartialEq, Eq, Hash)]
pub struct Reference {
    /// Where its type index stands in the record, counted behind the first four bytes.
    pub place: u32,
    /// The type index: of a simple type below 0x1000, else of a record.
    pub index: u32,
}

impl Reference {
    pub(crate) fn of(found: sys::pdbmerge_reference) -> Self {
        Reference {
            place: found.place,
            index: found.index,
        }
    }
}

impl<'a> Record<'a> {
    /// The record at the front of some bytes, and the type index that it has. There is none where the
    /// bytes are fewer than its length says, or the length leaves no room for its kind.
    pub fn new(index: u32, bytes: &'a [u8]) -> Option<Self> {
        let length = u16::from_le_bytes([*bytes.first()?, *bytes.get(1)?]);
        let bytes = bytes.get(..usize::from(length) + 2)?;
        let kind = u16::from_le_bytes([*bytes.get(2)?, *bytes.get(3)?]);
        Some(Record { index, kind, bytes })
    }

    /// The type index.
    pub fn index(&self) -> u32 {
        self.index
    }

    /// The kind, as 0x1505 for a structure.
    pub fn kind(&self) -> u16 {
        self.kind
    }

    /// The whole record: its length, its kind and its body.
    pub fn bytes(&self) -> &'a [u8] {
        self.bytes
    }

    /// The types that the record names, in the order of their places.
    pub fn references(&self) -> Result<Vec<Reference>, Error> {
        // SAFETY: the record is as long as said, and is lent for the call alone.
        let named = unsafe {
            written(16, |out, room, count, fault| {
                let (bytes, length) = (self.bytes.as_ptr(), self.bytes.len());
                sys::pdbmerge_references(bytes, length, self.index, out, room, count, fault)
            })?
        };
        Ok(named.into_iter().map(Reference::of).collect())
    }

    /// The name of the type; `None` where there is none, or none that can be read.
    pub fn name(&self) -> Result<Option<Vec<u8>>, Error> {
        let mut named = true;
        // SAFETY: the record is as long as said, and is lent for the call alone. Where there is no name,
        // nothing is written, and no length is told.
        let name = unsafe {
            written(64, |out, room, size, fault| {
                let (bytes, length) = (self.bytes.as_ptr(), self.bytes.len());
                let status = sys::pdbmerge_name(bytes, length, self.index, out, room, size, fault);
                named = *size != sys::PDBMERGE_NO_NAME;
                if !named {
                    *size = 0;
                }
                status
            })?
        };
        Ok(named.then_some(name))
    }
}
