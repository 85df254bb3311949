//! Recorded answers of the reference's modules, as words.
//!
//! Each file is a sequence of rows of 64-bit words, little-endian, all of one width. README.md of
//! the host says what the words of each row are.

mod checker;
mod checks;
mod client;
mod config;
mod faults;
mod leader;
mod metrics;
mod network;
mod queue;
mod rng;
mod seeds;
mod storage;

/// A file of recorded answers.
#[derive(Debug, Clone, PartialEq, Eq)]
pub struct File {
    /// The crate that replays it, in whose folder `data` it lies.
    pub owner: &'static str,
    /// The name, without a folder.
    pub name: &'static str,
    /// Words in a row.
    pub width: usize,
    /// The rows.
    pub rows: Vec<Vec<u64>>,
}

impl File {
    fn new<const WIDTH: usize>(
        name: &'static str,
        rows: impl IntoIterator<Item = [u64; WIDTH]>,
    ) -> Self {
        File {
            owner: "replay",
            name,
            width: WIDTH,
            rows: rows.into_iter().map(|row| row.to_vec()).collect(),
        }
    }

    /// The file as one of the crate `replay_checks`.
    fn of_checks(self) -> Self {
        File {
            owner: "replay_checks",
            ..self
        }
    }

    /// The bytes of the file.
    pub fn bytes(&self) -> Vec<u8> {
        let words = self.rows.iter().flatten();
        words.flat_map(|word| word.to_le_bytes()).collect()
    }
}

/// Every file, made by running the reference.
pub fn all() -> Vec<File> {
    vec![
        rng::draws(),
        rng::below(),
        seeds::stream_seeds(),
        client::encode(),
        client::decode(),
        config::validate(),
        config::settings(),
        storage::record_lengths(),
        storage::disk(),
        network::links(),
        network::routes(),
        faults::schedules(),
        queue::order(),
        checks::log_matching(),
        leader::leaders().of_checks(),
        metrics::counters().of_checks(),
        checker::checks().of_checks(),
    ]
}

/// Bytes as words of eight, the lowest first, zeros up to `N` words.
fn padded<const N: usize>(bytes: &[u8]) -> [u64; N] {
    let mut words = [0; N];
    for (word, chunk) in words.iter_mut().zip(bytes.chunks(8)) {
        let mut eight = [0; 8];
        eight[..chunk.len()].copy_from_slice(chunk);
        *word = u64::from_le_bytes(eight);
    }
    words
}

#[cfg(test)]
mod tests {
    use super::{all, padded};

    #[test]
    fn rows_have_the_width_of_their_file() {
        for file in all() {
            assert!(!file.rows.is_empty(), "{}", file.name);
            assert!(file.rows.iter().all(|row| row.len() == file.width));
        }
    }

    #[test]
    fn two_recordings_are_the_same() {
        assert_eq!(all(), all());
    }

    #[test]
    fn the_files_are_small() {
        let bytes: usize = all().iter().map(|file| file.bytes().len()).sum();
        assert!(bytes < 400_000, "{bytes} bytes");
    }

    #[test]
    fn bytes_are_padded_to_words() {
        assert_eq!(padded::<2>(&[1, 2]), [0x0201, 0]);
        assert_eq!(
            padded::<2>(&[0, 0, 0, 0, 0, 0, 0, 0x80, 7]),
            [0x80 << 56, 7]
        );
    }
}
