//! Small stand-ins for what the six files import from the rest of turso_core.

use std::fmt;

use alloc::TryReserveError;

pub type Result<T, E = LimboError> = std::result::Result<T, E>;
pub type ValueBlob = alloc::Vec<u8>;

/// The errors that the six files make, with their words.
#[derive(Debug)]
pub enum LimboError {
    ConversionError(String),
    InternalError(String),
    InvalidArgument(String),
    OutOfMemory(TryReserveError),
}

impl fmt::Display for LimboError {
    fn fmt(&self, f: &mut fmt::Formatter<'_>) -> fmt::Result {
        match self {
            Self::ConversionError(words)
            | Self::InternalError(words)
            | Self::InvalidArgument(words) => f.write_str(words),
            Self::OutOfMemory(error) => error.fmt(f),
        }
    }
}

impl From<TryReserveError> for LimboError {
    fn from(error: TryReserveError) -> Self {
        Self::OutOfMemory(error)
    }
}

/// A debug assertion, which a release build leaves out.
macro_rules! turso_debug_assert {
    ($($condition:tt)*) => {
        debug_assert!($($condition)*)
    };
}
pub(crate) use turso_debug_assert;

pub mod types {
    use super::alloc::TryReserveError;
    use super::ValueBlob;

    pub fn value_blob_from_slice(bytes: &[u8]) -> Result<ValueBlob, TryReserveError> {
        let mut blob = ValueBlob::new();
        blob.try_reserve_exact(bytes.len())?;
        blob.extend_from_slice(bytes);
        Ok(blob)
    }
}

/// `crate::alloc` as a stable build has it: the standard collections, with fallible names.
pub mod alloc {
    pub use std::collections::TryReserveError;
    pub use std::vec;
    pub use std::vec::Vec;

    pub trait TursoAllocExt {
        fn new() -> Self;
    }

    impl<T> TursoAllocExt for Vec<T> {
        fn new() -> Self {
            Vec::new()
        }
    }

    pub trait TursoTryWithCapacityExt: Sized {
        fn try_with_capacity_ext(capacity: usize) -> Result<Self, TryReserveError>;
    }

    impl<T> TursoTryWithCapacityExt for Vec<T> {
        fn try_with_capacity_ext(capacity: usize) -> Result<Self, TryReserveError> {
            let mut items = Vec::new();
            items.try_reserve_exact(capacity)?;
            Ok(items)
        }
    }

    pub trait TursoVecExt<T> {
        fn try_push(&mut self, item: T) -> Result<(), TryReserveError>;
    }

    impl<T> TursoVecExt<T> for Vec<T> {
        fn try_push(&mut self, item: T) -> Result<(), TryReserveError> {
            self.try_reserve(1)?;
            self.push(item);
            Ok(())
        }
    }

    pub trait TursoIteratorExt: Iterator + Sized {
        fn try_collect<C: FromIterator<Self::Item>>(self) -> Result<C, TryReserveError> {
            Ok(self.collect())
        }
    }

    impl<I: Iterator> TursoIteratorExt for I {}

    macro_rules! try_vec {
        ($element:expr; $count:expr) => {
            Ok::<_, $crate::alloc::TryReserveError>(std::vec![$element; $count])
        };
    }
    pub(crate) use try_vec;
}
