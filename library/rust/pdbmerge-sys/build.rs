//! Finds libpdbmerge: in the folder that `PDBMERGE_LIB_DIR` names, else as pkg-config says, else where
//! the linker looks. `PDBMERGE_STATIC=1` chooses the archive, which is then part of the program.

use std::env;
use std::process::Command;

fn main() {
    println!("cargo:rerun-if-env-changed=PDBMERGE_LIB_DIR");
    println!("cargo:rerun-if-env-changed=PDBMERGE_STATIC");
    println!("cargo:rerun-if-env-changed=PKG_CONFIG_PATH");
    for folder in folders() {
        println!("cargo:rustc-link-search=native={folder}");
    }
    let archive = env::var("PDBMERGE_STATIC").map_or(false, |value| value == "1");
    let kind = if archive { "static" } else { "dylib" };
    println!("cargo:rustc-link-lib={kind}=pdbmerge");
}

/// The folders in which the library is looked for, before those of the linker.
fn folders() -> Vec<String> {
    match env::var("PDBMERGE_LIB_DIR") {
        Ok(folder) => vec![folder],
        Err(_) => told_folders(),
    }
}

/// The folders that pkg-config tells; none where it is not there, or doesn't know the library. It is asked
/// for those of the system too: the linker looks there for a shared library, but rustc for no archive.
fn told_folders() -> Vec<String> {
    let asked = Command::new("pkg-config")
        .env("PKG_CONFIG_ALLOW_SYSTEM_LIBS", "1")
        .args(["--libs-only-L", "pdbmerge"])
        .output();
    let told = match asked {
        Ok(answer) if answer.status.success() => answer.stdout,
        _ => Vec::new(),
    };
    let words = String::from_utf8_lossy(&told);
    let folders = words
        .split_whitespace()
        .filter_map(|word| word.strip_prefix("-L"));
    folders.map(String::from).collect()
}
