//! The postcard wire format, written from its public document.
//!
//! The reference counts the bytes of messages and records by `postcard::to_allocvec`. The crate
//! of that name is not at hand, so this one stands in for it: the format's varints, tagged
//! unions and length-prefixed sequences, over serde's data model.

mod de;
mod ser;

use std::fmt::{self, Display};

pub use de::from_bytes;
pub use ser::to_allocvec;

/// Why a value has no encoding, or bytes no value.
#[derive(Debug, Clone, PartialEq, Eq)]
pub enum Error {
    /// A sequence or map whose length is not known when it begins.
    LengthUnknown,
    /// The format is not self-describing: a type must say what it expects.
    NotSelfDescribing,
    /// The bytes end inside a value.
    UnexpectedEnd,
    /// Bytes are left over after the value.
    TrailingBytes,
    /// A varint that is longer or larger than its type allows.
    BadVarint,
    /// A bool, option, char or string that is no value of its type.
    BadValue,
    /// What the type itself objected to.
    Custom(String),
}

impl Display for Error {
    fn fmt(&self, f: &mut fmt::Formatter<'_>) -> fmt::Result {
        let text = match self {
            Error::LengthUnknown => "the length of a sequence is not known when it begins",
            Error::NotSelfDescribing => "the format does not describe its values",
            Error::UnexpectedEnd => "the bytes end inside a value",
            Error::TrailingBytes => "bytes are left over after the value",
            Error::BadVarint => "a varint does not fit its type",
            Error::BadValue => "the bytes are no value of the type",
            Error::Custom(text) => text,
        };
        f.write_str(text)
    }
}

impl std::error::Error for Error {}

impl serde::ser::Error for Error {
    fn custom<T: Display>(text: T) -> Self {
        Error::Custom(text.to_string())
    }
}

impl serde::de::Error for Error {
    fn custom<T: Display>(text: T) -> Self {
        Error::Custom(text.to_string())
    }
}
