//! The shipped files and the settings of the tables.

use std::fs;
use std::path::{Path, PathBuf};

use pdbmerge::Settings;

/// The top of what the tests read: `tests/files` where the crate was packed with it, else the top of the
/// repository.
pub fn root() -> PathBuf {
    let own = Path::new(env!("CARGO_MANIFEST_DIR"));
    let packed = own.join("tests/files");
    if packed.is_dir() {
        packed
    } else {
        own.join("../../..")
    }
}

/// The bytes of a shipped file.
pub fn content(name: &str) -> Vec<u8> {
    let path = root().join("examples").join(name);
    fs::read(&path).unwrap_or_else(|fault| panic!("{}: {fault}", path.display()))
}

/// The settings of the merges in the tables.
pub fn settings() -> Settings {
    let guid = 0x0011_2233_4455_6677_8899_aabb_ccdd_eeff_u128;
    Settings::new(guid.to_be_bytes(), 1)
}
