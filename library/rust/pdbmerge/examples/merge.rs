//! Merges the types of PDB files: `cargo run --example merge -- OUT IN..`

use std::error::Error;
use std::{env, fs};

use pdbmerge::{merge, Settings};

fn main() -> Result<(), Box<dyn Error>> {
    let mut arguments = env::args_os().skip(1);
    let out = arguments.next().ok_or("usage: merge OUT IN..")?;
    let files = arguments.map(fs::read).collect::<Result<Vec<_>, _>>()?;
    let guid = 0x0011_2233_4455_6677_8899_aabb_ccdd_eeff_u128.to_be_bytes();
    let merged = merge(&files, &Settings::new(guid, 1))?;
    fs::write(out, &merged.file)?;
    println!(
        "types {}\nbytes {}\nfile {}",
        merged.types,
        merged.bytes,
        merged.file.len()
    );
    Ok(())
}
