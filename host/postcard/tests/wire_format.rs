//! Vectors computed by hand from the wire format's document, and values there and back.

use std::collections::BTreeMap;
use std::fmt::Debug;

use postcard::{Error, from_bytes, to_allocvec};
use serde::de::DeserializeOwned;
use serde::{Deserialize, Serialize};

/// Requires the encoding, and that it decodes to the value.
fn both_ways<T: Serialize + DeserializeOwned + PartialEq + Debug>(value: T, bytes: &[u8]) {
    assert_eq!(to_allocvec(&value).unwrap(), bytes, "encoding {value:?}");
    assert_eq!(from_bytes::<T>(bytes).unwrap(), value, "decoding {bytes:?}");
}

#[test]
fn unsigned_numbers_are_varints() {
    both_ways(0u16, &[0x00]);
    both_ways(127u16, &[0x7F]);
    both_ways(128u16, &[0x80, 0x01]);
    both_ways(16_383u16, &[0xFF, 0x7F]);
    both_ways(16_384u16, &[0x80, 0x80, 0x01]);
    both_ways(16_385u16, &[0x81, 0x80, 0x01]);
    both_ways(65_535u16, &[0xFF, 0xFF, 0x03]);
    both_ways(u32::MAX, &[0xFF, 0xFF, 0xFF, 0xFF, 0x0F]);
    both_ways(
        u64::MAX,
        &[0xFF, 0xFF, 0xFF, 0xFF, 0xFF, 0xFF, 0xFF, 0xFF, 0xFF, 0x01],
    );
    let mut longest = [0xFF; 19];
    longest[18] = 0x03;
    both_ways(u128::MAX, &longest);
}

#[test]
fn a_varint_takes_seven_bits_a_byte() {
    for bits in 0..=64u32 {
        let largest = if bits == 0 {
            0
        } else {
            u64::MAX >> (64 - bits)
        };
        let bytes = bits.div_ceil(7).max(1) as usize;
        assert_eq!(to_allocvec(&largest).unwrap().len(), bytes, "{largest}");
    }
}

#[test]
fn signed_numbers_alternate() {
    both_ways(0i16, &[0x00]);
    both_ways(-1i16, &[0x01]);
    both_ways(1i16, &[0x02]);
    both_ways(63i16, &[0x7E]);
    both_ways(-64i16, &[0x7F]);
    both_ways(64i16, &[0x80, 0x01]);
    both_ways(-65i16, &[0x81, 0x01]);
    both_ways(32_767i16, &[0xFE, 0xFF, 0x03]);
    both_ways(-32_768i16, &[0xFF, 0xFF, 0x03]);
    both_ways(i128::MIN, &to_allocvec(&u128::MAX).unwrap());
}

#[test]
#[allow(clippy::excessive_precision)] // as the document writes it
fn single_bytes_and_floats_stand_as_they_are() {
    both_ways(true, &[0x01]);
    both_ways(false, &[0x00]);
    both_ways(0xF8u8, &[0xF8]);
    both_ways(-2i8, &[0xFE]);
    both_ways(-32.005_859_375f32, &[0x00, 0x06, 0x00, 0xC2]);
    both_ways(
        -32.005_859_375f64,
        &[0x00, 0x00, 0x00, 0x00, 0xC0, 0x00, 0x40, 0xC0],
    );
}

#[test]
fn strings_and_sequences_have_their_length_in_front() {
    both_ways("hello".to_string(), b"\x05hello");
    both_ways('é', &[0x02, 0xC3, 0xA9]);
    both_ways(Vec::<u8>::new(), &[0x00]);
    both_ways(vec![1u16, 300], &[0x02, 0x01, 0xAC, 0x02]);
    both_ways(
        BTreeMap::from([(1u8, 2u32), (3, 400)]),
        &[0x02, 0x01, 0x02, 0x03, 0x90, 0x03],
    );
    let long = vec![7u8; 200];
    assert_eq!(to_allocvec(&long).unwrap()[..3], [0xC8, 0x01, 0x07]);
}

#[derive(Debug, PartialEq, Serialize, Deserialize)]
struct Unit;

#[derive(Debug, PartialEq, Serialize, Deserialize)]
struct Newtype(u64);

#[derive(Debug, PartialEq, Serialize, Deserialize)]
struct Fields {
    first: u64,
    second: Option<u64>,
}

#[derive(Debug, PartialEq, Serialize, Deserialize)]
enum Tagged {
    Empty,
    One(Newtype),
    Two(u8, u16),
    Named { index: u64 },
}

#[test]
fn compound_values_are_their_parts() {
    both_ways((), &[]);
    both_ways(Unit, &[]);
    both_ways(Newtype(300), &[0xAC, 0x02]);
    both_ways((1u32, 128u64, 0xFFu8), &[0x01, 0x80, 0x01, 0xFF]);
    both_ways([5u16; 3], &[0x05, 0x05, 0x05]);
    both_ways(None::<u64>, &[0x00]);
    both_ways(Some(128u64), &[0x01, 0x80, 0x01]);
    let fields = Fields {
        first: 9,
        second: Some(1),
    };
    both_ways(fields, &[0x09, 0x01, 0x01]);
}

#[test]
fn variants_have_their_index_in_front() {
    both_ways(Tagged::Empty, &[0x00]);
    both_ways(Tagged::One(Newtype(2)), &[0x01, 0x02]);
    both_ways(Tagged::Two(3, 130), &[0x02, 0x03, 0x82, 0x01]);
    both_ways(Tagged::Named { index: 4 }, &[0x03, 0x04]);
}

#[test]
fn bad_bytes_are_refused() {
    assert_eq!(from_bytes::<u16>(&[0x80]), Err(Error::UnexpectedEnd));
    assert_eq!(
        from_bytes::<u16>(&[0xFF, 0xFF, 0x04]),
        Err(Error::BadVarint)
    );
    assert_eq!(
        from_bytes::<u16>(&[0x80, 0x80, 0x80, 0x00]),
        Err(Error::BadVarint)
    );
    assert_eq!(from_bytes::<u8>(&[1, 2]), Err(Error::TrailingBytes));
    assert_eq!(from_bytes::<bool>(&[2]), Err(Error::BadValue));
    assert_eq!(from_bytes::<Option<u8>>(&[2, 0]), Err(Error::BadValue));
    assert_eq!(from_bytes::<String>(&[1, 0xFF]), Err(Error::BadValue));
    assert!(from_bytes::<Tagged>(&[4]).is_err());
}

#[test]
fn a_sequence_of_unknown_length_has_no_encoding() {
    struct Endless;
    impl Serialize for Endless {
        fn serialize<S: serde::Serializer>(&self, serializer: S) -> Result<S::Ok, S::Error> {
            serializer.serialize_seq(None).map(|_| unreachable!())
        }
    }
    assert_eq!(to_allocvec(&Endless), Err(Error::LengthUnknown));
}
