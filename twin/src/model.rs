//! The heap that never collects (docs/HEAP.md).

#[cfg(test)]
mod tests;

use std::marker::PhantomData;

use crate::calls::{root, Edits, Refusal, ROOTS};
use crate::image::{Object, NIL};
use crate::layouts::Layout;

/// Objects numbered from 1 in the order of making, and roots that hold these numbers.
pub struct Model<L> {
    objects: Vec<Object>,
    roots: [u32; ROOTS],
    layout: PhantomData<L>,
}

impl<L> Model<L> {
    /// A model without objects.
    pub fn new() -> Self {
        Model {
            objects: Vec::new(),
            roots: [NIL; ROOTS],
            layout: PhantomData,
        }
    }

    /// The objects; number n is at index n - 1.
    pub fn objects(&self) -> &[Object] {
        &self.objects
    }

    /// What the roots hold.
    pub fn roots(&self) -> &[u32; ROOTS] {
        &self.roots
    }

    /// The index of the object at a root.
    fn object_at(&self, root: usize) -> Result<usize, Refusal> {
        match self.roots[root] {
            NIL => Err(Refusal::RootNil),
            number => Ok(number as usize - 1),
        }
    }
}

impl<L> Default for Model<L> {
    fn default() -> Self {
        Self::new()
    }
}

impl<L: Layout> Model<L> {
    /// The word at a position of the object at root `i`, if the position fits its header.
    fn word(&self, i: usize, position: u32, fits: Fits) -> Result<u32, Refusal> {
        let object = &self.objects[self.object_at(i)?];
        if fits(object.header, position) {
            Ok(object.body[position as usize - 1])
        } else {
            Err(Refusal::WrongPosition)
        }
    }

    /// Replaces the word at a position of the object at root `i`, if the position fits its header.
    fn replace(&mut self, i: usize, position: u32, fits: Fits, word: u32) -> Result<(), Refusal> {
        let index = self.object_at(i)?;
        let object = &mut self.objects[index];
        if fits(object.header, position) {
            object.body[position as usize - 1] = word;
            Ok(())
        } else {
            Err(Refusal::WrongPosition)
        }
    }
}

/// Whether a position is of the wanted sort under a header.
type Fits = fn(u32, u32) -> bool;

impl<L: Layout> Edits for Model<L> {
    fn new_object(&mut self, number: u32, header: u32) -> Result<(), Refusal> {
        let root = root(number)?;
        if !L::legal(header) {
            return Err(Refusal::HeaderNotLegal);
        }
        let body = vec![0; L::size(header) as usize - 1];
        self.objects.push(Object { header, body });
        self.roots[root] = self.objects.len() as u32;
        Ok(())
    }

    fn set(&mut self, i: u32, position: u32, k: u32) -> Result<(), Refusal> {
        let (i, k) = (root(i)?, root(k)?);
        self.replace(i, position, L::is_reference, self.roots[k])
    }

    fn get(&mut self, i: u32, position: u32, k: u32) -> Result<(), Refusal> {
        let (i, k) = (root(i)?, root(k)?);
        self.roots[k] = self.word(i, position, L::is_reference)?;
        Ok(())
    }

    fn put(&mut self, i: u32, position: u32, word: u32) -> Result<(), Refusal> {
        self.replace(root(i)?, position, L::is_plain, word)
    }

    fn peek(&self, i: u32, position: u32) -> Result<u32, Refusal> {
        self.word(root(i)?, position, L::is_plain)
    }

    fn copy(&mut self, i: u32, k: u32) -> Result<(), Refusal> {
        let (i, k) = (root(i)?, root(k)?);
        self.roots[k] = self.roots[i];
        Ok(())
    }

    fn clear(&mut self, i: u32) -> Result<(), Refusal> {
        self.roots[root(i)?] = NIL;
        Ok(())
    }

    fn same(&self, i: u32, k: u32) -> Result<bool, Refusal> {
        let (i, k) = (root(i)?, root(k)?);
        Ok(self.roots[i] == self.roots[k])
    }

    fn head(&self, i: u32) -> Result<u32, Refusal> {
        let index = self.object_at(root(i)?)?;
        Ok(self.objects[index].header)
    }
}
