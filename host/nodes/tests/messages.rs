//! Messages on the wire.

use consensus::Consensus;
use node::{Message, Term};
use nodes::{Carried, Hostile, Noise};

#[test]
fn a_message_is_its_bytes() {
    for length in [0, 1, 3, 4, 127, 128, 4_096] {
        let bytes: Vec<u8> = (0..length).map(|place: u32| place as u8).collect();
        let message = postcard::from_bytes::<Carried<Noise>>(&bytes).unwrap();
        assert_eq!(postcard::to_allocvec(&message).unwrap(), bytes);
    }
}

#[test]
fn entries_are_counted() {
    let noise = |bytes: &[u8]| Carried(Noise(bytes.to_vec()));
    assert_eq!(Hostile::entry_count(&noise(&[])), 0);
    assert_eq!(Hostile::entry_count(&noise(&[2, 1])), 258);
    assert_eq!(Hostile::entry_count(&noise(&[255; 9])), 0xFFFF_FFFF);
}

#[test]
fn the_embedded_raft_sends_the_same_bytes_under_the_reference() {
    let vote = Message::Vote {
        term: Term(2),
        granted: true,
    };
    let bytes = postcard::to_allocvec(&Carried(vote.clone())).unwrap();
    assert_eq!(bytes, postcard::to_allocvec(&vote).unwrap());
    assert_eq!(postcard::from_bytes(&bytes), Ok(Carried(vote)));
    assert!(postcard::from_bytes::<Carried<Message>>(&[9]).is_err());
}
