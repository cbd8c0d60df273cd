//! A whole list of calls, run on a new heap over borrowed words.

use crate::calls::Call;
use crate::heap::Heap;
use crate::layouts::{Cabling, Counted, Layout};
use crate::stores::{Outside, Store};

/// A store over words that someone else keeps.
pub struct Borrowed<'a> {
    pub words: &'a mut [u32],
}

impl Store for Borrowed<'_> {
    #[inline]
    fn len(&self) -> usize {
        self.words.len()
    }

    #[inline]
    fn read(&self, index: usize) -> Result<u32, Outside> {
        self.words.get(index).copied().ok_or(Outside)
    }

    #[inline]
    fn write(&mut self, index: usize, word: u32) -> Result<(), Outside> {
        *self.words.get_mut(index).ok_or(Outside)? = word;
        Ok(())
    }
}

/// Runs calls of four words on a new heap of the layout with this sign, and answers how many it
/// ran. Each leaves an answer of two words, in order. It runs whole calls only, at most as many as
/// there are whole answers, and stops before the first unknown code. Then `fills` holds the fills
/// of the regions from 0 on, as many as there are both regions and places. An unknown sign does
/// nothing.
pub fn replay(
    sign: u32,
    calls: &[u32],
    words: &mut [u32],
    answers: &mut [u32],
    fills: &mut [u32],
) -> usize {
    if sign == Counted::sign() {
        replay_in::<Counted>(calls, words, answers, fills)
    } else if sign == Cabling::sign() {
        replay_in::<Cabling>(calls, words, answers, fills)
    } else {
        0
    }
}

fn replay_in<L: Layout>(
    calls: &[u32],
    words: &mut [u32],
    answers: &mut [u32],
    fills: &mut [u32],
) -> usize {
    let mut heap = Heap::<L, _>::new(Borrowed { words });
    let run = run_all(&mut heap, calls, answers);
    for (place, region) in fills.iter_mut().zip(heap.regions()) {
        *place = region.fill;
    }
    run
}

fn run_all<L: Layout, S: Store>(
    heap: &mut Heap<L, S>,
    calls: &[u32],
    answers: &mut [u32],
) -> usize {
    let (calls, _) = calls.as_chunks::<{ size_of::<Call>() / 4 }>();
    let (answers, _) = answers.as_chunks_mut::<2>();
    let mut run = 0;
    for (&call, place) in calls.iter().zip(answers) {
        let Some(answer) = heap.call(call) else {
            break;
        };
        *place = answer.words();
        run += 1;
    }
    run
}

#[cfg(test)]
mod tests {
    use super::*;
    use crate::calls::{HEAD, NEW, PEEK, PUT};

    /// Three calls: make an object, store in it, ask for it.
    const CALLS: [u32; 12] = [NEW, 5, 256, 0, PUT, 5, 1, 77, PEEK, 5, 1, 0];

    /// Runs calls on three regions and some words, with the given lengths of answers and fills.
    fn run(sign: u32, calls: &[u32], answers: usize, fills: usize) -> (usize, Vec<u32>, Vec<u32>) {
        let mut words = vec![9; 3_100];
        let mut answers = vec![8; answers];
        let mut fills = vec![7; fills];
        let run = replay(sign, calls, &mut words, &mut answers, &mut fills);
        assert!(words[3_072..].iter().all(|&word| word == 9));
        (run, answers, fills)
    }

    #[test]
    fn all_calls() {
        let (run, answers, fills) = run(1, &CALLS, 8, 4);
        assert_eq!(run, 3);
        assert_eq!(answers, [0, 0, 0, 0, 1, 77, 8, 8]);
        assert_eq!(fills, [2, 0, 0, 7]);
    }

    #[test]
    fn whole_calls_and_whole_answers_only() {
        assert_eq!(run(1, &CALLS[..11], 8, 0).0, 2);
        assert_eq!(run(1, &CALLS[..3], 8, 0).0, 0);
        assert_eq!(run(1, &CALLS, 5, 2), (2, vec![0, 0, 0, 0, 8], vec![2, 0]));
        assert_eq!(run(1, &CALLS, 1, 1), (0, vec![8], vec![0]));
    }

    #[test]
    fn an_unknown_code_stops() {
        for code in [12, 256, u32::MAX] {
            let mut calls = CALLS;
            calls[4] = code;
            assert_eq!(run(1, &calls, 6, 1), (1, vec![0, 0, 8, 8, 8, 8], vec![2]));
        }
    }

    #[test]
    fn the_sign_decides_on_the_layout() {
        let calls = [NEW, 0, 64 << 8 | 6, 0, HEAD, 0, 0, 0];
        assert_eq!(run(1, &calls, 4, 1), (2, vec![3, 2, 3, 31], vec![0]));
        assert_eq!(run(2, &calls, 4, 1), (2, vec![0, 0, 1, 16390], vec![3]));
        for sign in [0, 3, 257, u32::MAX] {
            assert_eq!(run(sign, &calls, 4, 1), (0, vec![8; 4], vec![7]));
        }
    }
}
