use alloc::borrow::Cow;
use alloc::string::String;
use core::fmt;

use pdbmerge_sys as sys;

/// Why a call gave no answer. Its text is that of the program `pdbmerge`.
#[derive(Clone, Debug, PartialEq, Eq)]
pub struct Error {
    number: u32,
    input: Option<usize>,
    text: Cow<'static, str>,
}

/// What kind of error it is.
#[non_exhaustive]
#[derive(Clone, Copy, Debug, PartialEq, Eq, Hash)]
pub enum ErrorKind {
    /// The bytes of a file or of a record are refused.
    Refused,
    /// The types of the files have more bytes together than the limit.
    TooLarge,
    /// There was not enough memory.
    Memory,
    /// The limit or the block size is none that a file can have.
    Settings,
}

impl Error {
    /// The number of the fault, which never changes its meaning.
    pub fn number(&self) -> u32 {
        self.number
    }

    /// The position of the file at fault, if the error is about one of several.
    pub fn input(&self) -> Option<usize> {
        self.input
    }

    /// What kind of error it is.
    pub fn kind(&self) -> ErrorKind {
        match self.number {
            sys::PDBMERGE_TOO_LARGE => ErrorKind::TooLarge,
            sys::PDBMERGE_MEMORY => ErrorKind::Memory,
            sys::PDBMERGE_SETTINGS => ErrorKind::Settings,
            _ => ErrorKind::Refused,
        }
    }

    /// Out of memory, which is said without any.
    pub(crate) fn memory() -> Self {
        let text = Cow::Borrowed("33 Memory");
        Error {
            number: sys::PDBMERGE_MEMORY,
            input: None,
            text,
        }
    }

    pub(crate) fn of(fault: &sys::pdbmerge_fault) -> Self {
        if fault.number == sys::PDBMERGE_MEMORY {
            return Error::memory();
        }
        let known = fault.text.iter().take_while(|byte| **byte != 0).count();
        let mut text = String::from_utf8_lossy(&fault.text[..known]).into_owned();
        if fault.length > known as u64 {
            text.push_str("...");
        }
        let input = match fault.input {
            sys::PDBMERGE_NO_INPUT => None,
            input => usize::try_from(input).ok(),
        };
        Error {
            number: fault.number,
            input,
            text: Cow::Owned(text),
        }
    }
}

impl fmt::Display for Error {
    fn fmt(&self, f: &mut fmt::Formatter<'_>) -> fmt::Result {
        f.write_str(&self.text)
    }
}

#[cfg(feature = "std")]
impl std::error::Error for Error {}

#[cfg(test)]
mod tests {
    use super::*;
    use crate::call::no_fault;
    use alloc::string::ToString;

    #[test]
    fn a_text_that_was_cut_says_so() {
        let mut fault = no_fault();
        fault.number = 34;
        fault.length = 235;
        fault.text[..235].fill(b'x');
        assert_eq!(Error::of(&fault).to_string(), "x".repeat(235));
        fault.length = 236;
        assert_eq!(Error::of(&fault).to_string(), "x".repeat(235) + "...");
    }

    #[test]
    fn out_of_memory_has_its_kind() {
        let mut fault = no_fault();
        fault.number = 33;
        for error in [Error::of(&fault), Error::memory()] {
            assert_eq!(error.to_string(), "33 Memory");
            assert_eq!((error.kind(), error.input()), (ErrorKind::Memory, None));
        }
    }
}
