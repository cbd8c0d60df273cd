//! Lists of words of fixed length (docs/PARTS.md, "Stores").

/// The bytes of a word.
const WORD: usize = 4;

/// The answer to an index at or past the length.
#[derive(Clone, Copy, Debug, PartialEq, Eq)]
pub struct Outside;

/// Words that are read and written by their index.
#[allow(clippy::len_without_is_empty)]
pub trait Store {
    /// The number of words.
    fn len(&self) -> usize;

    /// The word at `index`.
    fn read(&self, index: usize) -> Result<u32, Outside>;

    /// Replaces the word at `index` and no other.
    fn write(&mut self, index: usize, word: u32) -> Result<(), Outside>;
}

/// The word at `index`; 0 if that is outside.
#[inline]
pub fn word_or_zero<S: Store + ?Sized>(store: &S, index: usize) -> u32 {
    store.read(index).unwrap_or(0)
}

/// A store over words.
#[derive(Clone, Debug, PartialEq, Eq)]
pub struct WordStore {
    words: Vec<u32>,
}

impl WordStore {
    #[inline]
    pub fn new(words: Vec<u32>) -> Self {
        WordStore { words }
    }

    /// Gives the memory back.
    #[inline]
    pub fn into_words(self) -> Vec<u32> {
        self.words
    }
}

impl Store for WordStore {
    #[inline]
    fn len(&self) -> usize {
        self.words.len()
    }

    #[inline]
    fn read(&self, index: usize) -> Result<u32, Outside> {
        self.words.get(index).copied().ok_or(Outside)
    }

    #[inline]
    fn write(&mut self, index: usize, word: u32) -> Result<(), Outside> {
        *self.words.get_mut(index).ok_or(Outside)? = word;
        Ok(())
    }
}

/// A store over bytes, the lowest byte of a word first. The bytes past the last whole word are
/// spare.
#[derive(Clone, Debug, PartialEq, Eq)]
pub struct ByteStore {
    bytes: Vec<u8>,
}

impl ByteStore {
    #[inline]
    pub fn new(bytes: Vec<u8>) -> Self {
        ByteStore { bytes }
    }

    /// Gives the memory back, spare bytes included.
    #[inline]
    pub fn into_bytes(self) -> Vec<u8> {
        self.bytes
    }
}

impl Store for ByteStore {
    #[inline]
    fn len(&self) -> usize {
        self.bytes.len() / WORD
    }

    #[inline]
    fn read(&self, index: usize) -> Result<u32, Outside> {
        let (words, _) = self.bytes.as_chunks::<WORD>();
        words
            .get(index)
            .map(|&word| u32::from_le_bytes(word))
            .ok_or(Outside)
    }

    #[inline]
    fn write(&mut self, index: usize, word: u32) -> Result<(), Outside> {
        let (words, _) = self.bytes.as_chunks_mut::<WORD>();
        *words.get_mut(index).ok_or(Outside)? = word.to_le_bytes();
        Ok(())
    }
}

#[cfg(test)]
mod tests {
    use super::*;
    use crate::random::Random;

    /// Inside most of the time; outside also where four times the index is past all numbers.
    fn any_index(random: &mut Random, len: usize) -> usize {
        match random.below(8) {
            0 => len,
            1 => len + random.below(4),
            2 => random.pick(&[usize::MAX, usize::MAX / 4, usize::MAX / 4 + 1]),
            _ => random.below(len + 1),
        }
    }

    fn assert_outside<S: Store>(store: &mut S, index: usize) {
        assert_eq!(store.read(index), Err(Outside));
        assert_eq!(store.write(index, 0x1234_5678), Err(Outside));
        assert_eq!(word_or_zero(store, index), 0);
    }

    fn assert_inside<S: Store>(store: &mut S, index: usize, old: u32, new: u32) {
        assert_eq!(store.read(index), Ok(old));
        assert_eq!(store.write(index, new), Ok(()));
        assert_eq!(word_or_zero(store, index), new);
    }

    #[test]
    fn words_answer_like_the_model() {
        let mut random = Random::new(1);
        for len in [0, 1, 2, 7, 40] {
            let mut model: Vec<u32> = (0..len).map(|_| random.magnitude(32)).collect();
            let mut store = WordStore::new(model.clone());
            for _ in 0..1_000 {
                let index = any_index(&mut random, len);
                if index < len {
                    let new = random.magnitude(32);
                    assert_inside(&mut store, index, model[index], new);
                    model[index] = new;
                } else {
                    assert_outside(&mut store, index);
                }
                assert_eq!(store.len(), len);
                assert_eq!(store.words, model);
            }
            assert_eq!(store.into_words(), model);
        }
    }

    #[test]
    fn bytes_answer_like_the_model() {
        let mut random = Random::new(2);
        for length in (0..=12).chain(160..=163) {
            let len = length / 4;
            let mut model = random.bytes(length);
            let mut store = ByteStore::new(model.clone());
            for _ in 0..500 {
                let index = any_index(&mut random, len);
                if index < len {
                    let bytes = &mut model[4 * index..4 * index + 4];
                    let old = bytes.iter().rfold(0, |word, &b| word << 8 | u32::from(b));
                    let new = random.magnitude(32);
                    assert_inside(&mut store, index, old, new);
                    for (place, byte) in bytes.iter_mut().enumerate() {
                        *byte = (new >> (8 * place)) as u8;
                    }
                } else {
                    assert_outside(&mut store, index);
                }
                assert_eq!(store.len(), len);
                assert_eq!(store.bytes, model);
            }
            assert_eq!(store.into_bytes(), model);
        }
    }

    #[test]
    fn the_lowest_byte_comes_first() {
        let mut store = ByteStore::new(vec![1, 2, 3, 4, 5, 6, 7, 8, 9]);
        assert_eq!(store.read(0), Ok(0x0403_0201));
        assert_eq!(store.write(1, 0x0D0C_0B0A), Ok(()));
        assert_eq!(store.write(2, 0), Err(Outside));
        assert_eq!(store.into_bytes(), [1, 2, 3, 4, 10, 11, 12, 13, 9]);
    }
}
