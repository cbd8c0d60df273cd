//! A list of calls with a checksum of what the heap knows after each (docs/PROGRAMS.md).

use crate::heap::{Heap, Phase, RegionKind, CARDS, REGION};
use crate::layouts::{Cabling, Counted, Layout};
use crate::replay::Borrowed;

/// A checksum that numbers are added to in turn.
struct Sum(u32);

impl Sum {
    fn add(&mut self, number: u32) {
        self.0 = self.0.wrapping_mul(31).wrapping_add(number);
    }

    fn add_all(&mut self, numbers: impl Iterator<Item = u32>) {
        numbers.for_each(|number| self.add(number));
    }
}

fn phase_number(phase: Phase) -> u32 {
    match phase {
        Phase::Idle => 0,
        Phase::Marking => 1,
        Phase::Marked => 2,
    }
}

fn kind_number(kind: RegionKind) -> u32 {
    match kind {
        RegionKind::Free => 0,
        RegionKind::Open => 1,
        RegionKind::Closed => 2,
    }
}

/// The checksum of phase, regions, cards, tables, marks and roots.
pub fn checksum<L, S>(heap: &Heap<L, S>) -> u32 {
    let regions = heap.regions();
    let (cards, places) = (regions.len() * CARDS, regions.len() * REGION);
    let mut sum = Sum(phase_number(heap.phase()));
    for region in regions {
        let numbers = [
            kind_number(region.kind),
            region.fill,
            region.live,
            region.stamp,
        ];
        sum.add_all(numbers.into_iter());
    }
    sum.add_all((0..cards).map(|card| u32::from(heap.dirty().contains(card))));
    for region in regions {
        sum.add_all((0..cards).map(|card| u32::from(region.table.contains(card))));
    }
    let (marked, pending) = (heap.marked(), heap.pending());
    let marks = |place| 2 * u32::from(marked.contains(place)) + u32::from(pending.contains(place));
    sum.add_all((0..places).map(marks));
    sum.add_all(heap.roots().iter().copied());
    sum.0
}

/// What a run leaves besides words and checksums.
pub struct Watched {
    /// How many calls were run.
    pub run: usize,
    /// The fills of all regions.
    pub fills: Vec<u32>,
}

/// Runs calls of four words on a new heap of the layout with this sign. Each leaves a checksum, in
/// order. It runs whole calls only, at most as many as there are places for checksums, and stops
/// before the first unknown code. An unknown sign does nothing.
pub fn watch(sign: u32, calls: &[u32], words: &mut [u32], sums: &mut [u32]) -> Watched {
    if sign == Counted::sign() {
        watch_in::<Counted>(calls, words, sums)
    } else if sign == Cabling::sign() {
        watch_in::<Cabling>(calls, words, sums)
    } else {
        Watched {
            run: 0,
            fills: Vec::new(),
        }
    }
}

fn watch_in<L: Layout>(calls: &[u32], words: &mut [u32], sums: &mut [u32]) -> Watched {
    let mut heap = Heap::<L, _>::new(Borrowed { words });
    let (calls, _) = calls.as_chunks::<4>();
    let mut run = 0;
    for (&call, place) in calls.iter().zip(sums) {
        if heap.call(call).is_none() {
            break;
        }
        *place = checksum(&heap);
        run += 1;
    }
    let fills = heap.regions().iter().map(|region| region.fill).collect();
    Watched { run, fills }
}

#[cfg(test)]
mod tests {
    use super::*;
    use crate::calls::{BEGIN, MARK, NEW};

    /// The checksum of these numbers, added one by one; pairs are a number and how often it comes.
    fn sum_of(start: u32, numbers: &[(u32, usize)]) -> u32 {
        let mut sum = start;
        for &(number, times) in numbers {
            for _ in 0..times {
                sum = sum.wrapping_mul(31).wrapping_add(number);
            }
        }
        sum
    }

    #[test]
    fn without_regions() {
        let calls = [NEW, 0, 0, 0, BEGIN, 0, 0, 0, MARK, 0, 0, 0, 12, 0, 0, 0];
        let mut sums = [9; 5];
        let watched = watch(1, &calls, &mut [], &mut sums);
        assert_eq!(watched.run, 3);
        let roots = [(0, 64)];
        let expected = [0, 1, 2].map(|phase| sum_of(phase, &roots));
        assert_eq!(sums[..3], expected);
        assert_eq!(sums[3..], [9, 9]);
    }

    /// Two regions, one object of two words at root 1.
    #[test]
    fn one_object() {
        let calls = [NEW, 1, 1, 0, BEGIN, 0, 0, 0, MARK, 0, 0, 0, MARK, 0, 0, 0];
        let mut sums = [9; 4];
        let watched = watch(1, &calls, &mut [7; 2 * REGION], &mut sums);
        assert_eq!((watched.run, watched.fills), (4, vec![2, 0]));
        let sum = |phase: u32, live: u32, marks: u32| {
            let first = [(1, 1), (2, 1), (live, 1), (0, 1)];
            let cards = [(0, 4), (0, 32), (0, 64)];
            let places = [(marks, 1), (0, 2 * REGION - 1)];
            let roots = [(0, 1), (1, 1), (0, 62)];
            sum_of(phase, &[&first[..], &cards, &places, &roots].concat())
        };
        assert_eq!(
            sums,
            [sum(0, 0, 0), sum(1, 0, 3), sum(1, 0, 2), sum(2, 2, 2)]
        );
    }

    #[test]
    fn an_unknown_sign_does_nothing() {
        let mut sums = [9; 1];
        assert_eq!(watch(3, &[BEGIN, 0, 0, 0], &mut [], &mut sums).run, 0);
        assert_eq!(sums, [9]);
    }
}
