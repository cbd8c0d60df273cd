//! The heap (docs/HEAP.md): its state, making, and the placing of objects.

mod edits;
mod steps;

#[cfg(test)]
pub mod rules;
#[cfg(test)]
mod tests;

use std::iter;
use std::marker::PhantomData;

use crate::bits::BitSet;
use crate::calls::{Answer, Call, Edits, BEGIN, MARK, REFINE, ROOTS};
use crate::image::NIL;
use crate::layouts::Layout;
use crate::stores::{self, Store};

pub use steps::{Refining, Scanning};

/// The words of a region.
pub const REGION: usize = 1_024;

/// The words of a card.
pub const CARD: usize = 64;

/// The cards of a region.
pub const CARDS: usize = REGION / CARD;

/// The most regions that a heap uses.
pub const MOST_REGIONS: usize = 32;

/// A set of cards.
pub type Cards = BitSet<{ MOST_REGIONS * CARDS / 64 }>;

/// A set of objects, by their places.
pub type Places = BitSet<{ MOST_REGIONS * REGION / 64 }>;

#[derive(Clone, Copy, Debug, PartialEq, Eq)]
pub enum RegionKind {
    Free,
    Open,
    Closed,
}

#[derive(Clone, Debug, PartialEq, Eq)]
pub struct Region {
    pub kind: RegionKind,
    /// The words used from the start.
    pub fill: u32,
    /// The live count.
    pub live: u32,
    pub stamp: u32,
    /// The remembered cards.
    pub table: Cards,
}

impl Region {
    fn new() -> Self {
        Region {
            kind: RegionKind::Free,
            fill: 0,
            live: 0,
            stamp: 0,
            table: Cards::new(),
        }
    }
}

#[derive(Clone, Copy, Debug, PartialEq, Eq)]
pub enum Phase {
    Idle,
    Marking,
    Marked,
}

/// The place of the object that `reference` names.
#[inline]
pub fn place_of(reference: u32) -> Option<usize> {
    (reference as usize).checked_sub(1)
}

/// The reference of the object at `place`.
#[inline]
pub fn reference_of(place: usize) -> u32 {
    place as u32 + 1
}

/// The number of regions of a store with this many words.
#[inline]
pub fn region_count(words: usize) -> usize {
    (words / REGION).min(MOST_REGIONS)
}

/// A heap of objects of the layout `L` on a store.
pub struct Heap<L, S> {
    store: S,
    regions: Vec<Region>,
    roots: [u32; ROOTS],
    dirty: Cards,
    marked: Places,
    pending: Places,
    phase: Phase,
    /// The region opened last, 0 at first. If a region is open, it is this one.
    last_opened: usize,
    /// The openings so far, as far as a stamp goes.
    openings: u32,
    layout: PhantomData<L>,
}

/// What a heap tells of itself.
impl<L, S> Heap<L, S> {
    pub fn regions(&self) -> &[Region] {
        &self.regions
    }

    /// What the roots hold.
    pub fn roots(&self) -> &[u32; ROOTS] {
        &self.roots
    }

    /// The dirty cards.
    pub fn dirty(&self) -> &Cards {
        &self.dirty
    }

    /// The marked objects.
    pub fn marked(&self) -> &Places {
        &self.marked
    }

    /// The pending objects.
    pub fn pending(&self) -> &Places {
        &self.pending
    }

    pub fn phase(&self) -> Phase {
        self.phase
    }

    pub fn store(&self) -> &S {
        &self.store
    }

    /// Gives the store back.
    pub fn into_store(self) -> S {
        self.store
    }

    /// The open region.
    #[inline]
    pub fn open_region(&self) -> Option<usize> {
        let last = self.regions.get(self.last_opened)?;
        (last.kind == RegionKind::Open).then_some(self.last_opened)
    }

    /// The number of free regions.
    pub fn free_regions(&self) -> usize {
        self.regions
            .iter()
            .filter(|region| region.kind == RegionKind::Free)
            .count()
    }

    /// The words in use.
    pub fn words_in_use(&self) -> u32 {
        self.regions.iter().map(|region| region.fill).sum()
    }
}

impl<L: Layout, S: Store> Heap<L, S> {
    /// Makes a heap without objects. The store keeps its words.
    pub fn new(store: S) -> Self {
        let regions = region_count(store.len());
        Heap {
            store,
            regions: vec![Region::new(); regions],
            roots: [NIL; ROOTS],
            dirty: Cards::new(),
            marked: Places::new(),
            pending: Places::new(),
            phase: Phase::Idle,
            last_opened: 0,
            openings: 0,
            layout: PhantomData,
        }
    }

    /// Runs a call. An unknown code does nothing and has no answer.
    #[inline]
    pub fn call(&mut self, call: Call) -> Option<Answer> {
        match call[0] {
            BEGIN => Some(self.begin().into()),
            MARK => Some(self.mark().into()),
            REFINE => Some(self.refine().into()),
            _ => self.edit(call),
        }
    }

    /// The word at `index`.
    #[inline]
    pub fn word(&self, index: usize) -> u32 {
        stores::word_or_zero(&self.store, index)
    }

    /// The words of the object at `place`.
    #[inline]
    pub fn size(&self, place: usize) -> usize {
        L::size(self.word(place)) as usize
    }

    /// The places of the objects of a region, in ascending order.
    pub fn objects(&self, region: usize) -> impl Iterator<Item = usize> + '_ {
        let start = region * REGION;
        let end = start + self.regions[region].fill as usize;
        let mut next = start;
        iter::from_fn(move || {
            let place = next;
            if place >= end {
                return None;
            }
            next += self.size(place);
            Some(place)
        })
    }

    /// The places of the objects that the object at `place` refers to.
    pub fn referents(&self, place: usize) -> impl Iterator<Item = usize> + '_ {
        let header = self.word(place);
        (1..L::size(header))
            .filter(move |&position| L::is_reference(header, position))
            .filter_map(move |position| place_of(self.word(place + position as usize)))
    }

    /// Replaces the word at `index`, which is in a region.
    #[inline]
    fn write(&mut self, index: usize, word: u32) {
        let written = self.store.write(index, word);
        debug_assert!(written.is_ok());
    }

    /// Takes the words for an object of `size` words; answers its place if there is space.
    #[inline]
    fn place(&mut self, size: u32) -> Option<usize> {
        let index = match self.open_region() {
            Some(open) if self.regions[open].fill + size <= REGION as u32 => open,
            open => self.open_another(open)?,
        };
        let region = &mut self.regions[index];
        let place = index * REGION + region.fill as usize;
        region.fill += size;
        Some(place)
    }

    /// Closes the open region and opens another, if at least two are free.
    fn open_another(&mut self, open: Option<usize>) -> Option<usize> {
        if self.free_regions() < 2 {
            return None;
        }
        if let Some(open) = open {
            self.regions[open].kind = RegionKind::Closed;
        }
        self.open_first_free()
    }

    /// Opens the first free region from the one opened last on, going round.
    fn open_first_free(&mut self) -> Option<usize> {
        let count = self.regions.len();
        let index = (0..count)
            .map(|step| (self.last_opened + step) % count)
            .find(|&index| self.regions[index].kind == RegionKind::Free)?;
        let region = &mut self.regions[index];
        region.kind = RegionKind::Open;
        region.stamp = self.openings;
        self.openings = self.openings.saturating_add(1);
        self.last_opened = index;
        Some(index)
    }

    /// Makes the object that `reference` names marked and pending if it is not marked.
    #[inline]
    fn reach(&mut self, reference: u32) {
        if let Some(place) = place_of(reference) {
            if !self.marked.contains(place) {
                self.marked.insert(place);
                self.pending.insert(place);
            }
        }
    }
}
