//! Small files for the tests.

use std::ops::Range;

/// The size of a block, in bytes.
pub const BLOCK: usize = 512;

/// Numbers as they stand in a file.
pub fn words(numbers: &[u32]) -> Vec<u8> {
    let bytes = numbers.iter().flat_map(|number| number.to_le_bytes());
    bytes.collect()
}

/// The file of these streams. No block is free.
pub fn container(streams: &[Vec<u8>]) -> Vec<u8> {
    // The superblock, both free block maps and the block map come first.
    let mut file = vec![0; 4 * BLOCK];
    let mut lists = Vec::new();
    for stream in streams {
        lists.extend(append(&mut file, stream));
    }
    let mut directory = vec![streams.len() as u32];
    directory.extend(streams.iter().map(|stream| stream.len() as u32));
    directory.extend(lists);
    let directory = words(&directory);
    let block_map: Vec<u32> = append(&mut file, &directory).collect();
    let count = (file.len() / BLOCK) as u32;
    put(&mut file, 0, b"Microsoft C/C++ MSF 7.00\r\n\x1aDS\0\0\0");
    let sizes = [BLOCK as u32, 1, count, directory.len() as u32, 0, 3];
    put(&mut file, 32, &words(&sizes));
    put(&mut file, 3 * BLOCK, &words(&block_map));
    file
}

/// Puts bytes into new blocks at the end of a file. Returns the numbers of the blocks.
fn append(file: &mut Vec<u8>, bytes: &[u8]) -> Range<u32> {
    let first = file.len() / BLOCK;
    for part in bytes.chunks(BLOCK) {
        file.extend(part);
        file.resize(file.len() + BLOCK - part.len(), 0);
    }
    first as u32..(file.len() / BLOCK) as u32
}

/// Puts bytes into a file, over those that are there.
fn put(file: &mut [u8], at: usize, bytes: &[u8]) {
    file[at..][..bytes.len()].copy_from_slice(bytes);
}
