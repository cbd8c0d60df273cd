//! Lists of words with margins, to see what a run wrote and where.

use std::ops::Range;

use crate::random::Random;

/// Words that stand before and behind each list.
pub const MARGIN: usize = 16;

/// A list of words with margins.
#[derive(Clone, PartialEq, Eq)]
pub struct List {
    memory: Vec<u32>,
}

impl List {
    /// A list of these words.
    pub fn new(random: &mut Random, words: &[u32]) -> Self {
        let mut margin = || (0..MARGIN).map(|_| random.bits() as u32).collect();
        let (before, behind): (Vec<u32>, Vec<u32>) = (margin(), margin());
        let memory = [&before, words, &behind].concat();
        List { memory }
    }

    /// A list of so many words of any content.
    pub fn any(random: &mut Random, length: usize) -> Self {
        let words: Vec<u32> = (0..length).map(|_| random.bits() as u32).collect();
        List::new(random, &words)
    }

    pub fn words(&self) -> &[u32] {
        &self.memory[MARGIN..self.memory.len() - MARGIN]
    }

    pub fn words_mut(&mut self) -> &mut [u32] {
        let end = self.memory.len() - MARGIN;
        &mut self.memory[MARGIN..end]
    }

    /// The list with its margins. Its first word has the number MARGIN.
    pub fn whole(&self) -> Range<usize> {
        0..self.memory.len()
    }
}

/// The first index at which two lists of equal length differ.
pub fn first_difference(one: &[u32], other: &[u32]) -> Option<usize> {
    one.iter().zip(other).position(|(a, b)| a != b)
}

/// Fails with a text if a part of the library's list, margins counted, differs from what is
/// expected there. In the text, words before the list have negative numbers.
pub fn equal(
    what: &str,
    library: &List,
    expected: &List,
    part: Range<usize>,
) -> Result<(), String> {
    let start = part.start;
    let (library, expected) = (&library.memory[part.clone()], &expected.memory[part]);
    match first_difference(library, expected) {
        None => Ok(()),
        Some(index) => Err(format!(
            "word {} of {what}: library {}, expected {}",
            (start + index) as isize - MARGIN as isize,
            library[index],
            expected[index]
        )),
    }
}

#[cfg(test)]
mod tests {
    use super::*;

    #[test]
    fn differences_are_found_in_lists_and_margins() {
        let list = List::new(&mut Random::new(1), &[5, 6, 7]);
        assert_eq!(list.words(), [5, 6, 7]);
        assert_eq!(equal("it", &list, &list, list.whole()), Ok(()));
        let mut other = list.clone();
        other.words_mut()[1] = 9;
        let text = "word 1 of it: library 9, expected 6".to_string();
        assert_eq!(equal("it", &other, &list, list.whole()), Err(text));
        assert_eq!(equal("it", &other, &list, 0..MARGIN + 1), Ok(()));
        let mut other = list.clone();
        other.memory[0] ^= 1;
        let text = equal("it", &other, &list, list.whole()).unwrap_err();
        assert!(text.starts_with("word -16 of it"));
    }
}
