//! Sets of numbers below a bound (docs/PARTS.md, "Sets of numbers").

use std::ops::Range;

/// The bits of a word.
const BITS: usize = u64::BITS as usize;

/// A set of numbers below 64 × `W`.
#[derive(Clone, Debug, PartialEq, Eq)]
pub struct BitSet<const W: usize> {
    words: [u64; W],
}

impl<const W: usize> BitSet<W> {
    /// The bound, or the greatest number if the bound is past it.
    const BOUND: usize = BITS.saturating_mul(W);

    /// The empty set.
    #[inline]
    pub const fn new() -> Self {
        BitSet { words: [0; W] }
    }

    /// Whether `n` is a member.
    #[inline]
    pub fn contains(&self, n: usize) -> bool {
        self.words
            .get(n / BITS)
            .is_some_and(|word| word >> (n % BITS) & 1 == 1)
    }

    /// Makes `n` a member if it is below the bound.
    #[inline]
    pub fn insert(&mut self, n: usize) {
        if let Some(word) = self.words.get_mut(n / BITS) {
            *word |= 1 << (n % BITS);
        }
    }

    /// Makes `n` no member.
    #[inline]
    pub fn remove(&mut self, n: usize) {
        if let Some(word) = self.words.get_mut(n / BITS) {
            *word &= !(1 << (n % BITS));
        }
    }

    /// Makes all numbers no members.
    #[inline]
    pub fn clear(&mut self) {
        self.words.fill(0);
    }

    /// The lowest member at or above `n`.
    #[inline]
    pub fn first(&self, n: usize) -> Option<usize> {
        let mut index = n / BITS;
        let mut word = self.words.get(index)? & (u64::MAX << (n % BITS));
        while word == 0 {
            index += 1;
            word = *self.words.get(index)?;
        }
        Some(index * BITS + word.trailing_zeros() as usize)
    }

    /// The number of members from `a` to below `b`.
    #[inline]
    pub fn count(&self, a: usize, b: usize) -> usize {
        let ones = |word: u64| word.count_ones() as usize;
        let (span, low, high) = Self::span(a, b);
        match &self.words[span] {
            [] => 0,
            [only] => ones(only & low & high),
            [first, inner @ .., last] => {
                let inside: usize = inner.iter().map(|&word| ones(word)).sum();
                ones(first & low) + inside + ones(last & high)
            }
        }
    }

    /// Makes the numbers from `a` to below `b` no members.
    #[inline]
    pub fn remove_range(&mut self, a: usize, b: usize) {
        let (span, low, high) = Self::span(a, b);
        match &mut self.words[span] {
            [] => {}
            [only] => *only &= !(low & high),
            [first, inner @ .., last] => {
                *first &= !low;
                inner.fill(0);
                *last &= !high;
            }
        }
    }

    /// The words of the numbers from `a` to below `b`, none if there are no such numbers below the
    /// bound; then the bits from `a` on in the first word, and those below `b` in the last.
    #[inline]
    fn span(a: usize, b: usize) -> (Range<usize>, u64, u64) {
        let b = b.min(Self::BOUND);
        if b <= a {
            return (0..0, 0, 0);
        }
        let low = u64::MAX << (a % BITS);
        let high = u64::MAX >> (BITS - 1 - (b - 1) % BITS);
        (a / BITS..b.div_ceil(BITS), low, high)
    }
}

impl<const W: usize> Default for BitSet<W> {
    fn default() -> Self {
        Self::new()
    }
}

#[cfg(test)]
mod tests {
    use super::*;
    use crate::random::Random;
    use std::collections::BTreeSet;

    /// Any number, often at the edge of a word, at the bound or past it.
    fn any_number(random: &mut Random, bound: usize) -> usize {
        match random.below(8) {
            0 => bound.saturating_sub(1) + random.below(3),
            1 => BITS * random.below(bound / BITS + 2) + random.pick(&[0, 1, BITS - 1]),
            2 => random.pick(&[usize::MAX, usize::MAX - 1, usize::MAX - BITS]),
            3 => bound + random.below(2 * BITS),
            _ => random.below(bound + 1),
        }
    }

    fn assert_same<const W: usize>(set: &BitSet<W>, model: &BTreeSet<usize>) {
        for n in 0..=BITS * W + BITS {
            assert_eq!(set.contains(n), model.contains(&n), "number {n}");
        }
    }

    fn answers_like_the_model<const W: usize>(seed: u64) {
        let bound = BITS * W;
        let mut random = Random::new(seed);
        let mut set = BitSet::<W>::new();
        let mut model = BTreeSet::new();
        for _ in 0..4_000 {
            let a = any_number(&mut random, bound);
            let b = any_number(&mut random, bound);
            match random.below(40) {
                0 => {
                    set.remove_range(a, b);
                    model.retain(|&n| n < a || n >= b);
                }
                1 if random.once_in(10) => {
                    set.clear();
                    model.clear();
                }
                2..=7 => {
                    set.remove(a);
                    model.remove(&a);
                }
                _ => {
                    set.insert(a);
                    if a < bound {
                        model.insert(a);
                    }
                }
            }
            assert_eq!(set.contains(b), model.contains(&b));
            assert_eq!(set.first(b), model.range(b..).next().copied());
            let between = model.iter().filter(|&&n| n >= a && n < b).count();
            assert_eq!(set.count(a, b), between, "from {a} to {b}");
            assert_same(&set, &model);
        }
    }

    #[test]
    fn sets_answer_like_the_model() {
        answers_like_the_model::<0>(1);
        answers_like_the_model::<1>(2);
        answers_like_the_model::<2>(3);
        answers_like_the_model::<3>(4);
        answers_like_the_model::<8>(5);
    }

    #[test]
    fn every_range_of_a_full_set() {
        const BOUND: usize = 3 * BITS;
        let mut full = BitSet::<3>::new();
        (0..BOUND).for_each(|n| full.insert(n));
        for a in 0..=BOUND + 1 {
            for b in 0..=BOUND + 1 {
                let range = a..b.min(BOUND);
                assert_eq!(full.count(a, b), range.len());
                let mut rest = full.clone();
                rest.remove_range(a, b);
                assert_eq!(rest.count(0, usize::MAX), BOUND - range.len());
                assert_eq!(rest.count(a, b), 0);
            }
        }
    }

    #[test]
    fn the_greatest_number_is_no_member_and_bounds_all() {
        let mut set = BitSet::<2>::new();
        set.insert(usize::MAX);
        assert_eq!(set, BitSet::default());
        set.insert(127);
        assert_eq!(set.first(0), Some(127));
        assert_eq!(set.first(127), Some(127));
        assert_eq!(set.first(128), None);
        assert_eq!(set.first(usize::MAX), None);
        assert_eq!(set.count(127, usize::MAX), 1);
        assert_eq!(set.count(usize::MAX, 0), 0);
        set.remove_range(usize::MAX, 0);
        set.remove(usize::MAX);
        assert!(set.contains(127));
        set.remove_range(0, usize::MAX);
        assert_eq!(set, BitSet::new());
    }
}
