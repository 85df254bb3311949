//! Client keys.

use consensus::{Command, Rng};
use sim::leaves;

use crate::{File, padded};

/// Words for the longest command.
const BYTES: usize = 32;

/// Client, sequence, size asked for, length of the command, its bytes.
pub(crate) fn encode() -> File {
    let cases = [
        (0, 0, 0),
        (1, 2, 1),
        (63, 300, 11),
        (u32::MAX, 0, 12),
        (7, u64::MAX, 13),
        (0x0403_0201, 0x0C0B_0A09_0807_0605, 16),
        (u32::MAX, u64::MAX, 31),
        (5, 1 << 32, 40),
        (64, 1, 128),
        (2, 3, 255),
        (u32::MAX, u64::MAX, 256),
    ];
    let rows = cases.map(|(client, seq, size)| {
        let Command(bytes) = leaves::encode(client, seq, size);
        let fields = [client.into(), seq, size as u64, bytes.len() as u64];
        row(fields, &bytes)
    });
    File::new("client_encode.bin", rows)
}

/// Length of the command, 1 where it has a key, client, sequence, the command's bytes.
pub(crate) fn decode() -> File {
    let mut rng = Rng::new(12);
    let lengths = [0, 1, 4, 11, 12, 12, 13, 16, 20, 64, 255, 256];
    let rows = lengths.map(|length: u64| {
        let bytes: Vec<u8> = (0..length).map(|_| rng.next_u64() as u8).collect();
        let key = leaves::decode(&Command(bytes.clone()));
        let (client, seq) = key.unwrap_or_default();
        row([length, key.is_some().into(), client.into(), seq], &bytes)
    });
    File::new("client_decode.bin", rows)
}

fn row(fields: [u64; 4], bytes: &[u8]) -> [u64; 4 + BYTES] {
    let mut row = [0; 4 + BYTES];
    row[..4].copy_from_slice(&fields);
    row[4..].copy_from_slice(&padded::<BYTES>(bytes));
    row
}
