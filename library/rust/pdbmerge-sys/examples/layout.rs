//! Prints the size of each struct and the offset of each field, in the order of `pdbmerge.h`.
//! `tests/library` compares the lines with those of C.

use std::mem::{size_of, MaybeUninit};
use std::ptr::addr_of;

use pdbmerge_sys::*;

/// Prints the lines of a struct.
macro_rules! show {
    ($name:ident: $($field:ident)*) => {
        println!("{} size {}", stringify!($name), size_of::<$name>());
        let place = MaybeUninit::<$name>::uninit();
        let front = place.as_ptr();
        $(
            // SAFETY: the place of a field is asked for, and nothing is read.
            let field = unsafe { addr_of!((*front).$field) };
            let offset = field as usize - front as usize;
            println!("{}.{} offset {}", stringify!($name), stringify!($field), offset);
        )*
    };
}

fn main() {
    show!(pdbmerge_fault: input length number text);
    show!(pdbmerge_slice: bytes length);
    show!(pdbmerge_seed: bytes);
    show!(pdbmerge_identity: guid age block_size);
    show!(pdbmerge_container: block_size blocks free_blocks directory_bytes streams);
    show!(pdbmerge_counts: records bytes levels);
    show!(pdbmerge_settings: guid age limit block_size seed);
    show!(pdbmerge_report: length types bytes);
    show!(pdbmerge_plan: settings guid refused maps);
    show!(pdbmerge_left_out: file number);
    show!(pdbmerge_totals: indices counts left_out);
    show!(pdbmerge_guid: bytes);
    show!(pdbmerge_reference: place index);
    show!(pdbmerge_difference: input index origin);
}
