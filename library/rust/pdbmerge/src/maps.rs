use alloc::vec::Vec;

use pdbmerge_sys as sys;

use crate::call::{copied, done, no_fault, room_for};
use crate::{lent, room, Error, Merged, Seed, Settings};

/// Few records have less bytes. Where there are more than the room for maps holds, it is merged once more.
const RECORD: usize = 8;

/// As `merge`, and the map of each file, in the order of the files: for each of its type records the type
/// index of its type in the file that was written. The record with the index 0x1000 is the first.
#[cfg(feature = "std")]
pub fn merge_with_maps<T: AsRef<[u8]>>(
    files: &[T],
    settings: &Settings,
) -> Result<(Merged, Vec<Vec<u32>>), Error> {
    merge_with_maps_and_seed(files, settings, Seed::random())
}

/// As `merge_with_maps`, with a seed of the caller.
pub fn merge_with_maps_and_seed<T: AsRef<[u8]>>(
    files: &[T],
    settings: &Settings,
    seed: Seed,
) -> Result<(Merged, Vec<Vec<u32>>), Error> {
    let slices: Vec<_> = files.iter().map(|file| lent(file.as_ref())).collect();
    let settings = settings.lent(seed);
    let mut room = room(&slices, settings.limit);
    let mut records = slices.iter().map(|file| file.length / RECORD).sum();
    loop {
        match merged(&slices, &settings, room, records)? {
            Answer::Made(merged, maps) => return Ok((merged, maps)),
            Answer::Needs(bytes, indices) => (room, records) = (bytes, indices),
        }
    }
}

/// What a call answers: a file and its maps, or how many bytes and how many type indices need room.
enum Answer {
    Made(Merged, Vec<Vec<u32>>),
    Needs(usize, usize),
}

/// Merges once, with room for so many bytes and for the type indices of so many records.
fn merged(
    files: &[sys::pdbmerge_slice],
    settings: &sys::pdbmerge_settings,
    room: usize,
    records: usize,
) -> Result<Answer, Error> {
    let (mut file, mut indices) = (room_for::<u8>(room)?, room_for::<u32>(records)?);
    let mut counts = room_for::<u32>(files.len())?;
    let (mut report, mut total, mut fault) = (sys::pdbmerge_report::default(), 0, no_fault());
    // SAFETY: each file is as long as said, and is lent for the call alone; there is room as said.
    let status = unsafe {
        sys::pdbmerge_merge_map(
            files.as_ptr(),
            files.len(),
            settings,
            file.as_mut_ptr(),
            room,
            indices.as_mut_ptr(),
            records,
            counts.as_mut_ptr(),
            files.len(),
            &mut report,
            &mut total,
            &mut fault,
        )
    };
    let enough = done(status, &fault)?;
    let length = usize::try_from(report.length).map_err(|_| Error::memory())?;
    let total = usize::try_from(total).map_err(|_| Error::memory())?;
    if !enough {
        return Ok(Answer::Needs(length, total));
    }
    // SAFETY: the call has written all of these, so there was room for them.
    unsafe {
        file.set_len(length);
        indices.set_len(total);
        counts.set_len(files.len());
    }
    file.shrink_to_fit();
    let (types, bytes) = (report.types, report.bytes);
    let merged = Merged { file, types, bytes };
    Ok(Answer::Made(merged, cut(&indices, &counts)?))
}

/// Maps that stand one after the other, each by itself.
fn cut(indices: &[u32], counts: &[u32]) -> Result<Vec<Vec<u32>>, Error> {
    let mut maps = room_for(counts.len())?;
    let mut rest = indices;
    for &count in counts {
        let (map, behind) = rest.split_at(count as usize);
        maps.push(copied(map)?);
        rest = behind;
    }
    Ok(maps)
}
