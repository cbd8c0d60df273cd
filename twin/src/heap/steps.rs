//! Marking and refining.

use super::{Heap, Phase, CARD, CARDS, MOST_REGIONS, REGION};
use crate::calls::{Answer, Refusal};
use crate::layouts::Layout;
use crate::stores::Store;

/// What a granted mark answers.
#[derive(Clone, Copy, Debug, PartialEq, Eq)]
pub enum Scanning {
    Scanned,
    Done,
}

/// What refine answers.
#[derive(Clone, Copy, Debug, PartialEq, Eq)]
pub enum Refining {
    Refined,
    Clean,
}

impl From<Result<Scanning, Refusal>> for Answer {
    #[inline]
    fn from(result: Result<Scanning, Refusal>) -> Answer {
        match result {
            Ok(Scanning::Scanned) => Answer::Scanned,
            Ok(Scanning::Done) => Answer::Done,
            Err(refusal) => Answer::Refused(refusal),
        }
    }
}

impl From<Refining> for Answer {
    #[inline]
    fn from(refining: Refining) -> Answer {
        match refining {
            Refining::Refined => Answer::Refined,
            Refining::Clean => Answer::Clean,
        }
    }
}

impl<L: Layout, S: Store> Heap<L, S> {
    /// Clears all marks and makes the objects that roots name marked and pending.
    pub fn begin(&mut self) -> Result<(), Refusal> {
        if self.phase == Phase::Marking {
            return Err(Refusal::AlreadyMarking);
        }
        self.marked.clear();
        for reference in self.roots {
            self.reach(reference);
        }
        self.phase = Phase::Marking;
        Ok(())
    }

    /// Scans the lowest pending object, or ends the marking if there is none.
    pub fn mark(&mut self) -> Result<Scanning, Refusal> {
        if self.phase != Phase::Marking {
            return Err(Refusal::NotMarking);
        }
        let Some(place) = self.pending.first(0) else {
            self.count_live();
            self.phase = Phase::Marked;
            return Ok(Scanning::Done);
        };
        self.pending.remove(place);
        self.scan(place);
        Ok(Scanning::Scanned)
    }

    /// Reaches every object that the object at `place` refers to.
    fn scan(&mut self, place: usize) {
        let header = self.word(place);
        for position in 1..L::size(header) {
            if L::is_reference(header, position) {
                self.reach(self.word(place + position as usize));
            }
        }
    }

    /// Sets every live count to the words of the region's marked objects.
    fn count_live(&mut self) {
        for region in &mut self.regions {
            region.live = 0;
        }
        let mut from = 0;
        while let Some(place) = self.marked.first(from) {
            let size = self.size(place);
            self.regions[place / REGION].live += size as u32;
            from = place + size;
        }
    }

    /// Enters the lowest dirty card in the tables of the other regions that its objects refer to.
    pub fn refine(&mut self) -> Refining {
        let Some(card) = self.dirty.first(0) else {
            return Refining::Clean;
        };
        let own = card / CARDS;
        let mut named = [false; MOST_REGIONS];
        let objects = self.objects(own).skip_while(|place| place / CARD < card);
        for place in objects.take_while(|place| place / CARD == card) {
            for referent in self.referents(place) {
                named[referent / REGION] = true;
            }
        }
        named[own] = false;
        for (region, named) in self.regions.iter_mut().zip(named) {
            if named {
                region.table.insert(card);
            }
        }
        self.dirty.remove(card);
        Refining::Refined
    }
}
