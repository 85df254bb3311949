//! Records as 64-bit words.

/// A value that is a run of words.
pub trait Words: Sized {
    /// Appends the value's words.
    fn put(&self, words: &mut Vec<u64>);

    /// Takes a value from the front, or none where the words are no value.
    fn take(words: &mut &[u64]) -> Option<Self>;
}

impl Words for u64 {
    fn put(&self, words: &mut Vec<u64>) {
        words.push(*self);
    }

    fn take(words: &mut &[u64]) -> Option<Self> {
        let (first, rest) = words.split_first()?;
        *words = rest;
        Some(*first)
    }
}

/// A length in bytes, then the bytes, eight to a word, the lowest first, zeros at the end.
impl Words for Vec<u8> {
    fn put(&self, words: &mut Vec<u64>) {
        words.push(self.len() as u64);
        words.extend(self.chunks(8).map(|chunk| {
            let mut bytes = [0; 8];
            bytes[..chunk.len()].copy_from_slice(chunk);
            u64::from_le_bytes(bytes)
        }));
    }

    fn take(words: &mut &[u64]) -> Option<Self> {
        let len = usize::try_from(u64::take(words)?).ok()?;
        let (body, rest) = words.split_at_checked(len.div_ceil(8))?;
        *words = rest;
        let mut bytes: Vec<u8> = body.iter().flat_map(|word| word.to_le_bytes()).collect();
        if bytes[len..].iter().any(|byte| *byte != 0) {
            return None;
        }
        bytes.truncate(len);
        Some(bytes)
    }
}

impl<const N: usize> Words for [u64; N] {
    fn put(&self, words: &mut Vec<u64>) {
        words.extend_from_slice(self);
    }

    fn take(words: &mut &[u64]) -> Option<Self> {
        let (first, rest) = words.split_first_chunk()?;
        *words = rest;
        Some(*first)
    }
}

impl<T: Words> Words for Box<T> {
    fn put(&self, words: &mut Vec<u64>) {
        T::put(self, words);
    }

    fn take(words: &mut &[u64]) -> Option<Self> {
        T::take(words).map(Box::new)
    }
}

/// Declares records of words: `repr(C)`, compared and shown field by field.
macro_rules! records {
    ($($(#[$about:meta])* $name:ident { $($(#[$note:meta])* $field:ident: $kind:ty,)* })*) => {
        $(
            $(#[$about])*
            #[repr(C)]
            #[derive(Debug, Clone, Copy, Default, PartialEq, Eq, Hash)]
            pub struct $name {
                $($(#[$note])* pub $field: $kind,)*
            }

            impl $crate::Words for $name {
                fn put(&self, words: &mut Vec<u64>) {
                    $($crate::Words::put(&self.$field, words);)*
                }

                fn take(words: &mut &[u64]) -> Option<Self> {
                    $(let $field = $crate::Words::take(words)?;)*
                    Some($name { $($field,)* })
                }
            }
        )*
    };
}

pub(crate) use records;

#[cfg(test)]
mod tests {
    use super::Words;

    fn words(value: &impl Words) -> Vec<u64> {
        let mut words = Vec::new();
        value.put(&mut words);
        words
    }

    #[test]
    fn bytes_are_a_length_and_padded_words() {
        assert_eq!(words(&Vec::<u8>::new()), [0]);
        assert_eq!(words(&vec![1u8, 2]), [2, 0x0201]);
        assert_eq!(
            words(&(1..=9).collect::<Vec<u8>>()),
            [9, 0x0807_0605_0403_0201, 9]
        );
    }

    #[test]
    fn bytes_come_back() {
        for len in 0..40 {
            let bytes: Vec<u8> = (0..len).map(|i| 255 - i).collect();
            let row = words(&bytes);
            let mut rest = row.as_slice();
            assert_eq!(Vec::<u8>::take(&mut rest), Some(bytes));
            assert!(rest.is_empty());
        }
        assert_eq!(Vec::<u8>::take(&mut [1, 0x100].as_slice()), None);
        assert_eq!(Vec::<u8>::take(&mut [9, 0].as_slice()), None);
    }
}
