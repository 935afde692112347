use alloc::vec::Vec;

use pdbmerge_sys as sys;

use crate::call::{copied, listed, room_for, written};
use crate::Error;

/// What the container of a file has.
#[derive(Clone, Debug, PartialEq, Eq, Hash)]
pub struct Layout {
    /// The size of a block, in bytes.
    pub block_size: u32,
    /// How many blocks there are.
    pub blocks: u32,
    /// How many of them are free.
    pub free_blocks: u32,
    /// How many bytes the stream directory has.
    pub directory_bytes: u32,
    /// The streams, in the order of their numbers.
    pub streams: Vec<Stream>,
}

/// A stream of a file.
#[derive(Clone, Debug, PartialEq, Eq, Hash)]
pub struct Stream {
    /// How many bytes it has.
    pub size: u32,
    /// The numbers of its blocks, in the order of its bytes.
    pub blocks: Vec<u32>,
}

/// The container of a file: its blocks, and which of them each stream has.
pub fn layout(file: &[u8]) -> Result<Layout, Error> {
    let mut container = sys::pdbmerge_container::default();
    // SAFETY: the file is as long as said, and is lent for the call alone.
    let sizes: Vec<u32> = unsafe {
        written(256, |out, room, count, fault| {
            let (bytes, length) = (file.as_ptr(), file.len());
            let status = sys::pdbmerge_layout(bytes, length, &mut container, out, room, fault);
            *count = container.streams.into();
            status
        })?
    };
    let room = sizes
        .iter()
        .map(|size| needed(*size, container.block_size))
        .sum();
    // SAFETY: this is a call of the library.
    let blocks = unsafe { listed(sys::pdbmerge_blocks, file, room)? };
    Ok(Layout {
        block_size: container.block_size,
        blocks: container.blocks,
        free_blocks: container.free_blocks,
        directory_bytes: container.directory_bytes,
        streams: streams(&sizes, &blocks, container.block_size)?,
    })
}

/// How many blocks so many bytes take. No file has blocks of 0 bytes.
fn needed(size: u32, block_size: u32) -> usize {
    let block_size = block_size.max(1);
    (size / block_size) as usize + usize::from(size % block_size != 0)
}

/// The streams of these sizes, whose blocks stand one after the other.
fn streams(sizes: &[u32], blocks: &[u32], block_size: u32) -> Result<Vec<Stream>, Error> {
    let (mut streams, mut rest) = (room_for(sizes.len())?, blocks);
    for &size in sizes {
        let (own, others) = rest.split_at(needed(size, block_size).min(rest.len()));
        let blocks = copied(own)?;
        streams.push(Stream { size, blocks });
        rest = others;
    }
    Ok(streams)
}
