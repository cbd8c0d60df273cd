//! The strict reader and the writer of images (docs/FORMAT.md).

use std::fmt;
use std::marker::PhantomData;

use crate::layouts::Layout;
use crate::numbers::{self, Number, NumberFault};

/// The reference to no object.
pub const NIL: u32 = 0;

/// The two bytes at the start of every image.
const START: [u8; 2] = [0x43, 0x4D];

/// The most roots in an image.
pub const MOST_ROOTS: u32 = 64;

/// What is wrong with an image.
#[derive(Clone, Copy, Debug, PartialEq, Eq)]
pub enum Fault {
    EndsEarly = 10,
    NotShortest = 11,
    TooWide = 12,
    WrongStart = 13,
    OtherSign = 14,
    WrongRoots = 15,
    HeaderNotLegal = 16,
    WrongReference = 17,
    NotReferredTo = 18,
    BytesLeftOver = 19,
}

impl Fault {
    /// The number of the fault in docs/REFUSALS.md.
    pub fn number(self) -> u32 {
        self as u32
    }
}

impl From<NumberFault> for Fault {
    fn from(fault: NumberFault) -> Fault {
        match fault {
            NumberFault::EndsEarly => Fault::EndsEarly,
            NumberFault::NotShortest => Fault::NotShortest,
            NumberFault::TooWide => Fault::TooWide,
        }
    }
}

/// The first fault of an image, its byte place and its object.
#[derive(Clone, Copy, Debug, PartialEq, Eq)]
pub struct Refusal {
    pub fault: Fault,
    pub place: usize,
    pub object: u32,
}

impl fmt::Display for Refusal {
    fn fmt(&self, f: &mut fmt::Formatter) -> fmt::Result {
        let number = self.fault.number();
        write!(
            f,
            "refused {number} at {} object {}",
            self.place, self.object
        )
    }
}

/// The roots and objects of an image.
#[derive(Clone, Debug, Default, PartialEq, Eq)]
pub struct Content {
    pub roots: Vec<u32>,
    pub objects: Vec<Object>,
}

/// A header, and the words at positions 1 to size - 1.
#[derive(Clone, Debug, PartialEq, Eq)]
pub struct Object {
    pub header: u32,
    pub body: Vec<u32>,
}

/// What is counted while an image is checked.
#[derive(Clone, Copy, Debug, PartialEq, Eq)]
pub struct Summary {
    pub objects: u32,
    pub roots: u32,
    /// The sizes of all objects added up.
    pub words: u64,
}

/// Is told the parts of an image in the order of reading.
/// After a fault it is told nothing more, so it may have seen a part of the image only.
pub trait Visitor {
    fn root(&mut self, _reference: u32) {}
    fn object(&mut self, _header: u32, _size: u32) {}
    fn word(&mut self, _word: u32) {}
}

/// Wants to know nothing.
struct Ignore;

impl Visitor for Ignore {}

/// Collects the content.
impl Visitor for Content {
    fn root(&mut self, reference: u32) {
        self.roots.push(reference);
    }

    fn object(&mut self, header: u32, size: u32) {
        let body = Vec::with_capacity(size as usize - 1);
        self.objects.push(Object { header, body });
    }

    fn word(&mut self, word: u32) {
        if let Some(object) = self.objects.last_mut() {
            object.body.push(word);
        }
    }
}

/// Reads an image and answers its content.
pub fn read<L: Layout>(bytes: &[u8]) -> Result<Content, Refusal> {
    let mut content = Content::default();
    visit::<L, Content>(bytes, &mut content)?;
    Ok(content)
}

/// Checks an image without keeping any of it. Nothing is allocated.
pub fn check<L: Layout>(bytes: &[u8]) -> Result<Summary, Refusal> {
    visit::<L, Ignore>(bytes, &mut Ignore)
}

/// Goes through an image once and tells its parts to `visitor`.
pub fn visit<L: Layout, V: Visitor>(bytes: &[u8], visitor: &mut V) -> Result<Summary, Refusal> {
    let mut reader = Reader::<L>::new(bytes);
    reader.start()?;
    reader.sign()?;
    reader.objects = reader.number()?;
    let roots = reader.roots(visitor)?;
    let mut words = 0;
    for object in 1..=reader.objects {
        let size = reader.object(object, visitor)?;
        words += u64::from(size);
    }
    reader.end()?;
    Ok(Summary {
        objects: reader.objects,
        roots,
        words,
    })
}

struct Reader<'a, L> {
    bytes: &'a [u8],
    position: usize,
    /// The object count n, 0 until it is read.
    objects: u32,
    /// The greatest reference so far, g.
    greatest: u32,
    /// The object that is due or being read, 0 elsewhere.
    object: u32,
    layout: PhantomData<L>,
}

impl<'a, L: Layout> Reader<'a, L> {
    fn new(bytes: &'a [u8]) -> Self {
        Reader {
            bytes,
            position: 0,
            objects: 0,
            greatest: 0,
            object: 0,
            layout: PhantomData,
        }
    }

    fn refusal(&self, fault: Fault, place: usize) -> Refusal {
        let object = self.object;
        Refusal {
            fault,
            place,
            object,
        }
    }

    /// The refusal of a number that starts at the present position.
    fn number_refusal(&self, fault: NumberFault) -> Refusal {
        let place = match fault {
            NumberFault::EndsEarly => self.bytes.len(),
            NumberFault::NotShortest | NumberFault::TooWide => self.position,
        };
        self.refusal(fault.into(), place)
    }

    #[inline]
    fn number(&mut self) -> Result<u32, Refusal> {
        match numbers::read(self.bytes, self.position) {
            Ok(Number { value, next }) => {
                self.position = next;
                Ok(value)
            }
            Err(fault) => Err(self.number_refusal(fault)),
        }
    }

    #[inline]
    fn reference(&mut self) -> Result<u32, Refusal> {
        let place = self.position;
        let reference = self.number()?;
        let steps_above = reference.saturating_sub(self.greatest);
        if reference > self.objects || steps_above > 1 {
            return Err(self.refusal(Fault::WrongReference, place));
        }
        self.greatest = self.greatest.max(reference);
        Ok(reference)
    }

    fn start(&mut self) -> Result<(), Refusal> {
        match self.bytes.get(..START.len()) {
            None => Err(self.refusal(Fault::EndsEarly, self.bytes.len())),
            Some(start) if start != START => Err(self.refusal(Fault::WrongStart, 0)),
            Some(_) => {
                self.position = START.len();
                Ok(())
            }
        }
    }

    fn sign(&mut self) -> Result<(), Refusal> {
        let place = self.position;
        if self.number()? == L::sign() {
            Ok(())
        } else {
            Err(self.refusal(Fault::OtherSign, place))
        }
    }

    /// Reads the root count and the roots; answers the count.
    fn roots<V: Visitor>(&mut self, visitor: &mut V) -> Result<u32, Refusal> {
        let place = self.position;
        let count = self.number()?;
        if count > MOST_ROOTS {
            return Err(self.refusal(Fault::WrongRoots, place));
        }
        for root in 1..=count {
            let place = self.position;
            let reference = self.reference()?;
            if root == count && reference == NIL {
                return Err(self.refusal(Fault::WrongRoots, place));
            }
            visitor.root(reference);
        }
        Ok(count)
    }

    /// Reads the object with the number `object`; answers its size.
    fn object<V: Visitor>(&mut self, object: u32, visitor: &mut V) -> Result<u32, Refusal> {
        self.object = object;
        if object > self.greatest {
            return Err(self.refusal(Fault::NotReferredTo, self.position));
        }
        let place = self.position;
        let header = self.number()?;
        if !L::legal(header) {
            return Err(self.refusal(Fault::HeaderNotLegal, place));
        }
        let size = L::size(header);
        visitor.object(header, size);
        for position in 1..size {
            let word = if L::is_reference(header, position) {
                self.reference()?
            } else {
                self.number()?
            };
            visitor.word(word);
        }
        Ok(size)
    }

    fn end(&mut self) -> Result<(), Refusal> {
        self.object = 0;
        if self.position < self.bytes.len() {
            return Err(self.refusal(Fault::BytesLeftOver, self.position));
        }
        Ok(())
    }
}

/// The written form of a content. Its counts must be below 2^32.
pub fn write<L: Layout>(content: &Content) -> Vec<u8> {
    let mut out = START.to_vec();
    numbers::write(L::sign(), &mut out);
    numbers::write(count(content.objects.len()), &mut out);
    numbers::write(count(content.roots.len()), &mut out);
    for &root in &content.roots {
        numbers::write(root, &mut out);
    }
    for object in &content.objects {
        numbers::write(object.header, &mut out);
        for &word in &object.body {
            numbers::write(word, &mut out);
        }
    }
    out
}

fn count(length: usize) -> u32 {
    u32::try_from(length).expect("a count is below 2^32")
}

#[cfg(test)]
mod tests {
    use super::*;
    use crate::layouts::{Cabling, Counted};

    const EXAMPLE: [u8; 16] = [
        0x43, 0x4D, 0x02, 0x02, 0x01, 0x01, 0x03, 0x02, 0x00, 0x00, 0x03, 0x04, 0x00, 0x01, 0x07,
        0x00,
    ];

    fn object(header: u32, body: &[u32]) -> Object {
        let body = body.to_vec();
        Object { header, body }
    }

    fn refusal<L: Layout>(bytes: &[u8]) -> (u32, usize, u32) {
        let refusal = check::<L>(bytes).unwrap_err();
        assert_eq!(read::<L>(bytes), Err(refusal));
        (refusal.fault.number(), refusal.place, refusal.object)
    }

    fn refused(body: &[u8]) -> (u32, usize, u32) {
        refusal::<Cabling>(&[&[0x43, 0x4D], body].concat())
    }

    #[test]
    fn the_worked_example() {
        let content = Content {
            roots: vec![1],
            objects: vec![object(3, &[2, 0, 0, 3]), object(4, &[0, 1, 7, 0])],
        };
        let summary = Summary {
            objects: 2,
            roots: 1,
            words: 10,
        };
        assert_eq!(check::<Cabling>(&EXAMPLE), Ok(summary));
        assert_eq!(read::<Cabling>(&EXAMPLE).as_ref(), Ok(&content));
        assert_eq!(write::<Cabling>(&content), EXAMPLE);
    }

    #[test]
    fn the_empty_model() {
        let bytes = [0x43, 0x4D, 0x02, 0x00, 0x00];
        assert_eq!(read::<Cabling>(&bytes), Ok(Content::default()));
        assert_eq!(write::<Cabling>(&Content::default()), bytes);
    }

    #[test]
    fn the_refused_table() {
        assert_eq!(refusal::<Cabling>(&[]), (10, 0, 0));
        assert_eq!(refusal::<Cabling>(&[0x00]), (10, 1, 0));
        assert_eq!(refusal::<Cabling>(&[0x43]), (10, 1, 0));
        assert_eq!(refusal::<Cabling>(&[0x00, 0x00]), (13, 0, 0));
        assert_eq!(refused(&[]), (10, 2, 0));
        assert_eq!(refused(&[0x82, 0x00]), (11, 2, 0));
        assert_eq!(refused(&[1, 0, 0]), (14, 2, 0));
        assert_eq!(refused(&[2, 0, 0x41]), (15, 4, 0));
        assert_eq!(refused(&[2, 0, 1, 0]), (15, 5, 0));
        assert_eq!(refused(&[2, 0, 0, 0]), (19, 5, 0));
        assert_eq!(refused(&[2, 1, 1, 2]), (17, 5, 0));
        assert_eq!(refused(&[2, 2, 2, 2, 1]), (17, 5, 0));
        assert_eq!(refused(&[2, 1, 0]), (18, 5, 1));
        assert_eq!(refused(&[2, 1, 1, 1]), (10, 6, 1));
        assert_eq!(refused(&[2, 1, 1, 1, 7]), (16, 6, 1));
        assert_eq!(refused(&[2, 1, 1, 1, 6, 0x80, 0]), (11, 7, 1));
        assert_eq!(
            refused(&[2, 1, 1, 1, 6, 0xFF, 0xFF, 0xFF, 0xFF, 0x10, 0]),
            (12, 7, 1)
        );
        assert_eq!(refused(&[2, 2, 1, 1, 1, 3]), (17, 7, 1));
        assert_eq!(refused(&[2, 2, 1, 1, 6, 0, 0]), (18, 9, 2));
    }

    #[test]
    fn a_huge_count_is_no_fault_of_its_own() {
        assert_eq!(refused(&[2, 0xFF, 0xFF, 0xFF, 0xFF, 0x0F, 0]), (18, 9, 1));
        assert_eq!(
            refused(&[2, 0xFF, 0xFF, 0xFF, 0xFF, 0x0F, 1, 1]),
            (10, 10, 1)
        );
    }

    #[test]
    fn the_counted_layout_is_read_alike() {
        let content = Content {
            roots: vec![0, 1, 2],
            objects: vec![
                object(0x0202, &[2, 3, 300, 0]),
                object(0, &[]),
                object(1, &[1]),
            ],
        };
        let bytes = write::<Counted>(&content);
        assert_eq!(read::<Counted>(&bytes), Ok(content));
        assert_eq!(refusal::<Cabling>(&bytes), (14, 2, 0));
        assert_eq!(refusal::<Counted>(&EXAMPLE), (14, 2, 0));
    }

    #[test]
    fn every_cut_of_the_example_ends_early() {
        for length in 0..EXAMPLE.len() {
            let (number, place, _) = refusal::<Cabling>(&EXAMPLE[..length]);
            assert_eq!((number, place), (10, length));
        }
    }
}
