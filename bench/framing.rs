// Plain Rust: finding where records begin, in one pass and in two. Prints seconds, the best of seven.
use std::time::Instant;

/// The length of the record that begins at an offset, if it is sound.
fn record_len(bytes: &[u8], start: usize) -> Option<usize> {
    let left = bytes.len() - start;
    if left < 2 {
        return None;
    }
    let len = usize::from(u16::from_le_bytes([bytes[start], bytes[start + 1]]));
    let whole = len + 2;
    (len >= 2 && whole % 4 == 0 && left >= whole).then_some(whole)
}

/// The starts of every `stride`-th record, in a list that grows as records are found.
fn one_pass(bytes: &[u8], stride: usize) -> Option<Vec<u32>> {
    let (mut starts, mut start, mut found) = (Vec::new(), 0, 0);
    while start < bytes.len() {
        if found % stride == 0 {
            starts.push(start as u32);
        }
        start += record_len(bytes, start)?;
        found += 1;
    }
    Some(starts)
}

/// The same starts: one pass checks and counts the records, and one fills a list of the right size.
fn two_passes(bytes: &[u8], stride: usize) -> Option<Vec<u32>> {
    let (mut start, mut count) = (0, 0);
    while start < bytes.len() {
        start += record_len(bytes, start)?;
        count += 1;
    }
    let (mut starts, mut start) = (Vec::with_capacity(usize::div_ceil(count, stride)), 0);
    for position in 0..count {
        if position % stride == 0 {
            starts.push(start as u32);
        }
        start += record_len(bytes, start)?;
    }
    Some(starts)
}

/// Records of 12 to 28 bytes, 200 MB in all.
fn records() -> Vec<u8> {
    let mut bytes = Vec::with_capacity(200_000_028);
    for number in 0usize.. {
        if bytes.len() >= 200_000_000 {
            break;
        }
        let len = 10 + 4 * (number * 7 % 5);
        bytes.extend_from_slice(&(len as u16).to_le_bytes());
        bytes.resize(bytes.len() + len, 1);
    }
    bytes
}

fn main() {
    let bytes = records();
    let ways: [(&str, fn(&[u8], usize) -> Option<Vec<u32>>, usize); 4] = [
        ("two passes, each start", two_passes, 1),
        ("two passes, every 16th start", two_passes, 16),
        ("one pass, every 64th start", one_pass, 64),
        ("one pass, every 16th start", one_pass, 16),
    ];
    let mut best = [f64::MAX; 4];
    for _ in 0..7 {
        for ((_, starts, stride), best) in ways.iter().zip(&mut best) {
            let begin = Instant::now();
            let found = starts(&bytes, *stride).expect("sound records");
            *best = best.min(begin.elapsed().as_secs_f64());
            assert!(!found.is_empty());
        }
    }
    for ((name, _, _), best) in ways.iter().zip(best) {
        println!("{name:30} {best:.3} s");
    }
}
