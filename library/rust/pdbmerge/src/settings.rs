use pdbmerge_sys as sys;

/// What a file that is written is to have.
#[derive(Clone, Copy, Debug, PartialEq, Eq, Hash)]
pub struct Settings {
    /// The GUID, in the order in which it is printed.
    pub guid: [u8; 16],
    /// The age.
    pub age: u32,
    /// The most bytes that the type records may have together, at most 2^30.
    pub limit: u32,
    /// The size of a block: 512, 1024, 2048, 4096, 8192, 16384 or 32768.
    pub block_size: u32,
}

impl Settings {
    /// The greatest limit and blocks of 4096 bytes, which are usual.
    pub fn new(guid: [u8; 16], age: u32) -> Self {
        Settings {
            guid,
            age,
            limit: 1 << 30,
            block_size: 4096,
        }
    }

    pub(crate) fn lent(&self, seed: Seed) -> sys::pdbmerge_settings {
        let Settings {
            guid,
            age,
            limit,
            block_size,
        } = *self;
        sys::pdbmerge_settings {
            guid,
            age,
            limit,
            block_size,
            seed: seed.lent(),
        }
    }
}

/// Random bytes, for hashes alone: no answer depends on them. With bytes that a stranger can foresee a
/// hostile file can make a call slow.
#[derive(Clone, Copy, Debug)]
pub struct Seed(pub [u8; 16]);

impl Seed {
    /// Bytes that a stranger can't foresee: hashes under a key that the system chose.
    #[cfg(feature = "std")]
    pub fn random() -> Self {
        use std::collections::hash_map::RandomState;
        use std::hash::{BuildHasher, Hasher};

        let key = RandomState::new();
        let mut bytes = [0; 16];
        for (number, half) in bytes.chunks_exact_mut(8).enumerate() {
            let mut hasher = key.build_hasher();
            hasher.write_usize(number);
            half.copy_from_slice(&hasher.finish().to_ne_bytes());
        }
        Seed(bytes)
    }

    pub(crate) fn lent(self) -> sys::pdbmerge_seed {
        sys::pdbmerge_seed { bytes: self.0 }
    }
}
