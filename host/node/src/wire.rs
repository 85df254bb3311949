//! Messages as bytes.

use serde::Serialize;
use serde::de::DeserializeOwned;

/// A message that goes over the network as bytes.
///
/// What has serde's traits goes in the postcard format, whose length the reference counts. A
/// message with a form of its own implements this trait instead of serde's.
pub trait Wire: Sized {
    /// The message as bytes.
    fn to_bytes(&self) -> Vec<u8>;

    /// The message of these bytes, or none.
    fn from_bytes(bytes: &[u8]) -> Option<Self>;
}

impl<M: Serialize + DeserializeOwned> Wire for M {
    /// What has no encoding has no bytes, as in the reference's count.
    fn to_bytes(&self) -> Vec<u8> {
        postcard::to_allocvec(self).unwrap_or_default()
    }

    fn from_bytes(bytes: &[u8]) -> Option<Self> {
        postcard::from_bytes(bytes).ok()
    }
}
