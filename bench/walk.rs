//! What `pdbmerge records` does, in plain Rust with no checks beyond Rust's own: for comparison.
use std::fmt::Write as _;
use std::io::Write as _;

fn u32_at(bytes: &[u8], at: usize) -> usize {
    u32::from_le_bytes(bytes[at..at + 4].try_into().unwrap()) as usize
}

fn main() {
    let words: Vec<String> = std::env::args().collect();
    let file = std::fs::read(&words[2]).unwrap();
    let block = u32_at(&file, 32);
    let directory_len = u32_at(&file, 44);
    let map = u32_at(&file, 52) * block;
    let mut directory = Vec::new();
    for k in 0..directory_len.div_ceil(block) {
        let at = u32_at(&file, map + 4 * k) * block;
        directory.extend_from_slice(&file[at..at + block]);
    }
    let streams = u32_at(&directory, 0);
    let size = |s: usize| u32_at(&directory, 4 + 4 * s);
    let before: usize = (0..2).map(|s| size(s).div_ceil(block)).sum();
    let list = 4 + 4 * streams + 4 * before;
    let mut stream = Vec::with_capacity(size(2));
    for k in 0..size(2).div_ceil(block) {
        let at = u32_at(&directory, list + 4 * k) * block;
        let len = block.min(size(2) - k * block);
        stream.extend_from_slice(&file[at..at + len]);
    }
    let records = &stream[56..56 + u32_at(&stream, 16)];
    let (mut at, mut index, mut text) = (0, 0x1000, String::new());
    let mut kinds = 0usize;
    while at < records.len() {
        let len = u16::from_le_bytes([records[at], records[at + 1]]) as usize + 2;
        let kind = u16::from_le_bytes([records[at + 2], records[at + 3]]);
        if words[1] == "records" {
            writeln!(text, "{index:#x} {kind:#06x} {len}").unwrap();
        }
        kinds += kind as usize;
        at += len;
        index += 1;
    }
    if words[1] == "walk" {
        writeln!(text, "{kinds}").unwrap();
    }
    std::io::stdout().write_all(text.as_bytes()).unwrap();
}
