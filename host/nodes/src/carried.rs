//! A message of the judge as the reference carries it.

use std::fmt;
use std::marker::PhantomData;

use node::Wire;
use serde::de::{self, SeqAccess};
use serde::ser::SerializeTuple;
use serde::{Deserialize, Deserializer, Serialize, Serializer};

/// A message under the reference's trait. On the wire it is its bytes and nothing more, so that it
/// can have every length, 0 included.
#[derive(Debug, Clone, PartialEq, Eq, Hash)]
pub struct Carried<M>(pub M);

impl<M: Wire> Serialize for Carried<M> {
    fn serialize<S: Serializer>(&self, serializer: S) -> Result<S::Ok, S::Error> {
        let bytes = self.0.to_bytes();
        let mut tuple = serializer.serialize_tuple(bytes.len())?;
        for byte in &bytes {
            tuple.serialize_element(byte)?;
        }
        tuple.end()
    }
}

impl<'de, M: Wire> Deserialize<'de> for Carried<M> {
    fn deserialize<D: Deserializer<'de>>(deserializer: D) -> Result<Self, D::Error> {
        deserializer.deserialize_tuple(usize::MAX, Rest(PhantomData))
    }
}

/// Takes every byte that is left.
struct Rest<M>(PhantomData<M>);

impl<'de, M: Wire> de::Visitor<'de> for Rest<M> {
    type Value = Carried<M>;

    fn expecting(&self, f: &mut fmt::Formatter<'_>) -> fmt::Result {
        f.write_str("the bytes of a message")
    }

    fn visit_seq<A: SeqAccess<'de>>(self, mut bytes: A) -> Result<Carried<M>, A::Error> {
        let next = || bytes.next_element().ok().flatten();
        let bytes: Vec<u8> = std::iter::from_fn(next).collect();
        let message = M::from_bytes(&bytes);
        message
            .map(Carried)
            .ok_or_else(|| de::Error::custom("the bytes are no message"))
    }
}
