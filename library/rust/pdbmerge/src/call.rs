//! What the calls have in common.

use alloc::vec::Vec;

use pdbmerge_sys as sys;

use crate::Error;

/// A fault for a call to write.
pub(crate) fn no_fault() -> sys::pdbmerge_fault {
    sys::pdbmerge_fault {
        input: sys::PDBMERGE_NO_INPUT,
        length: 0,
        number: 0,
        text: [0; 236],
    }
}

/// Whether there was enough room, unless there is a fault.
pub(crate) fn done(status: u32, fault: &sys::pdbmerge_fault) -> Result<bool, Error> {
    match status {
        sys::PDBMERGE_OK => Ok(true),
        sys::PDBMERGE_ROOM => Ok(false),
        _ => Err(Error::of(fault)),
    }
}

/// A list without items, with room for so many.
pub(crate) fn room_for<T>(count: usize) -> Result<Vec<T>, Error> {
    let mut items = Vec::new();
    items
        .try_reserve_exact(count)
        .map_err(|_| Error::memory())?;
    Ok(items)
}

/// A copy of some items.
pub(crate) fn copied<T: Copy>(items: &[T]) -> Result<Vec<T>, Error> {
    let mut copy = room_for(items.len())?;
    copy.extend_from_slice(items);
    Ok(copy)
}

/// The items that a call writes. If there was too little room, it is called once more.
///
/// # Safety
///
/// `call` gets a pointer to room for so many items. Where it returns `PDBMERGE_OK`, it has written as
/// many items as it says there are; where it returns `PDBMERGE_ROOM`, it says how many there are.
pub(crate) unsafe fn written<T>(
    room: usize,
    mut call: impl FnMut(*mut T, usize, &mut u64, &mut sys::pdbmerge_fault) -> u32,
) -> Result<Vec<T>, Error> {
    let mut room = room;
    loop {
        let mut items = room_for(room)?;
        let (mut count, mut fault) = (0, no_fault());
        let status = call(items.as_mut_ptr(), room, &mut count, &mut fault);
        let enough = done(status, &fault)?;
        let count = usize::try_from(count).map_err(|_| Error::memory())?;
        if enough {
            // SAFETY: the call has written these items, so there was room for them.
            unsafe { items.set_len(count) };
            return Ok(items);
        }
        room = count;
    }
}

/// A call that lists items of some bytes.
pub(crate) type Lists<T> = unsafe extern "C" fn(
    *const u8,
    usize,
    *mut T,
    usize,
    *mut u64,
    *mut sys::pdbmerge_fault,
) -> u32;

/// The items that a call lists of some bytes, with room for so many at first.
///
/// # Safety
///
/// `call` is a call of the library.
pub(crate) unsafe fn listed<T>(call: Lists<T>, bytes: &[u8], room: usize) -> Result<Vec<T>, Error> {
    // SAFETY: the bytes are as long as said, and are lent for the call alone.
    unsafe {
        written(room, |out, room, count, fault| {
            call(bytes.as_ptr(), bytes.len(), out, room, count, fault)
        })
    }
}
