//! The edits of a heap.

use super::{place_of, reference_of, Heap, Phase, CARD, REGION};
use crate::calls::{root, Edits, Refusal};
use crate::image::NIL;
use crate::layouts::Layout;
use crate::stores::Store;

impl<L: Layout, S: Store> Heap<L, S> {
    /// The place of the object at a root.
    #[inline]
    fn object_at(&self, root: usize) -> Result<usize, Refusal> {
        place_of(self.roots[root]).ok_or(Refusal::RootNil)
    }

    /// The index of a reference position of the object at `place`.
    #[inline]
    fn reference_index(&self, place: usize, position: u32) -> Result<usize, Refusal> {
        if L::is_reference(self.word(place), position) {
            Ok(place + position as usize)
        } else {
            Err(Refusal::WrongPosition)
        }
    }

    /// The index of a plain position of the object at `place`.
    #[inline]
    fn plain_index(&self, place: usize, position: u32) -> Result<usize, Refusal> {
        if L::is_plain(self.word(place), position) {
            Ok(place + position as usize)
        } else {
            Err(Refusal::WrongPosition)
        }
    }
}

impl<L: Layout, S: Store> Edits for Heap<L, S> {
    #[inline]
    fn new_object(&mut self, number: u32, header: u32) -> Result<(), Refusal> {
        let root = root(number)?;
        if !L::legal(header) {
            return Err(Refusal::HeaderNotLegal);
        }
        let size = L::size(header);
        let place = self.place(size).ok_or(Refusal::NoSpace)?;
        self.write(place, header);
        for index in place + 1..place + size as usize {
            self.write(index, 0);
        }
        self.roots[root] = reference_of(place);
        if self.phase != Phase::Idle {
            self.marked.insert(place);
            self.regions[place / REGION].live += size;
        }
        Ok(())
    }

    #[inline]
    fn set(&mut self, i: u32, position: u32, k: u32) -> Result<(), Refusal> {
        let (i, k) = (root(i)?, root(k)?);
        let place = self.object_at(i)?;
        let index = self.reference_index(place, position)?;
        if self.phase == Phase::Marking {
            self.reach(self.word(index));
        }
        let new = self.roots[k];
        if place_of(new).is_some_and(|named| named / REGION != place / REGION) {
            self.dirty.insert(place / CARD);
        }
        self.write(index, new);
        Ok(())
    }

    #[inline]
    fn get(&mut self, i: u32, position: u32, k: u32) -> Result<(), Refusal> {
        let (i, k) = (root(i)?, root(k)?);
        let place = self.object_at(i)?;
        let index = self.reference_index(place, position)?;
        self.roots[k] = self.word(index);
        Ok(())
    }

    #[inline]
    fn put(&mut self, i: u32, position: u32, word: u32) -> Result<(), Refusal> {
        let place = self.object_at(root(i)?)?;
        let index = self.plain_index(place, position)?;
        self.write(index, word);
        Ok(())
    }

    #[inline]
    fn peek(&self, i: u32, position: u32) -> Result<u32, Refusal> {
        let place = self.object_at(root(i)?)?;
        let index = self.plain_index(place, position)?;
        Ok(self.word(index))
    }

    #[inline]
    fn copy(&mut self, i: u32, k: u32) -> Result<(), Refusal> {
        let (i, k) = (root(i)?, root(k)?);
        self.roots[k] = self.roots[i];
        Ok(())
    }

    #[inline]
    fn clear(&mut self, i: u32) -> Result<(), Refusal> {
        self.roots[root(i)?] = NIL;
        Ok(())
    }

    #[inline]
    fn same(&self, i: u32, k: u32) -> Result<bool, Refusal> {
        let (i, k) = (root(i)?, root(k)?);
        Ok(self.roots[i] == self.roots[k])
    }

    #[inline]
    fn head(&self, i: u32) -> Result<u32, Refusal> {
        let place = self.object_at(root(i)?)?;
        Ok(self.word(place))
    }
}
