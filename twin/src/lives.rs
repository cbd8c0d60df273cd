//! Random lists of calls that are worth running on a heap.

use crate::calls::{self, Answer, Call, Refusal, ROOTS};
use crate::heap::{place_of, Heap, Phase, REGION};
use crate::image::NIL;
use crate::layouts::{Cabling, Counted, Kind, Layout};
use crate::random::Random;
use crate::stores::WordStore;

/// The whole regions of the stores.
pub const REGION_COUNTS: [usize; 7] = [0, 1, 2, 3, 5, 32, 40];

/// Which calls a life is made of.
#[derive(Clone, Copy, Debug, PartialEq, Eq)]
pub enum Scope {
    /// The nine edits.
    Edits,
    /// The edits, begin, mark and refine.
    Steps,
}

/// A store as it is at making, and calls on it.
pub struct Life {
    pub seed: u64,
    /// The sign of the layout.
    pub sign: u32,
    pub words: Vec<u32>,
    pub calls: Vec<Call>,
}

impl Life {
    /// The life of a seed. Seeds that follow one another give all layouts and sizes in turn.
    pub fn new(seed: u64, scope: Scope) -> Life {
        let regions = REGION_COUNTS[(seed / 2 % REGION_COUNTS.len() as u64) as usize];
        let mut random = Random::new(seed);
        let words = any_words(&mut random, regions);
        let store = WordStore::new(words.clone());
        let (sign, calls) = if seed.is_multiple_of(2) {
            written::<Counted>(random, store, scope)
        } else {
            written::<Cabling>(random, store, scope)
        };
        Life {
            seed,
            sign,
            words,
            calls,
        }
    }
}

/// Words of any content: whole regions, and often some more.
fn any_words(random: &mut Random, regions: usize) -> Vec<u32> {
    let more = match random.below(6) {
        0 => 0,
        1 => REGION - 1,
        _ => random.below(REGION),
    };
    let length = regions * REGION + more;
    (0..length).map(|_| random.bits() as u32).collect()
}

/// The sign of the layout, and calls on a heap of it.
fn written<L: Headers>(random: Random, store: WordStore, scope: Scope) -> (u32, Vec<Call>) {
    (L::sign(), Writer::<L>::new(random, store, scope).life())
}

/// A layout with ways to find headers.
trait Headers: Layout {
    /// A legal header of `size` words, or of a size as near as there is.
    fn legal_header(random: &mut Random, size: u32) -> u32;

    /// A header that is not legal.
    fn illegal_header(random: &mut Random) -> u32;
}

impl Headers for Counted {
    fn legal_header(random: &mut Random, size: u32) -> u32 {
        let body = size.clamp(1, 64) - 1;
        let references = match random.below(6) {
            0 => 0,
            1 => body,
            _ => random.between(0, body as usize) as u32,
        };
        free_bits(random, 16) | (body - references) << 8 | references
    }

    fn illegal_header(random: &mut Random) -> u32 {
        let (references, plain) = match random.below(3) {
            0 => random.pick(&[(64, 0), (0, 64), (63, 1), (1, 63), (255, 255)]),
            1 => (random.between(64, 255) as u32, random.magnitude(8)),
            _ => (random.magnitude(8), random.between(64, 255) as u32),
        };
        free_bits(random, 16) | plain << 8 | references
    }
}

impl Headers for Cabling {
    fn legal_header(random: &mut Random, size: u32) -> u32 {
        let kind = match size {
            0..=3 => Kind::Label,
            4 => Kind::Room,
            5 => random.pick(&[Kind::Rack, Kind::Panel, Kind::Port]),
            6 => Kind::Cable,
            _ => random.pick(&Kind::ALL),
        };
        free_bits(random, 8) | kind.header()
    }

    fn illegal_header(random: &mut Random) -> u32 {
        let kind = match random.below(3) {
            0 => random.pick(&[0, 7, 255]),
            _ => random.between(7, 255) as u32,
        };
        free_bits(random, 8) | kind
    }
}

/// Bits from `lowest` on, often none.
fn free_bits(random: &mut Random, lowest: usize) -> u32 {
    if random.once_in(3) {
        (random.bits() as u32) << lowest
    } else {
        0
    }
}

/// How often each call comes: the edits by their codes, then begin, mark, refine.
type Weights = [usize; 12];

const MAKING: Weights = [60, 8, 2, 3, 1, 1, 1, 1, 1, 1, 3, 3];

const MOODS: [Weights; 6] = [
    MAKING,
    [10, 12, 10, 10, 10, 5, 3, 5, 5, 1, 6, 3],
    [30, 30, 8, 3, 2, 5, 1, 1, 1, 1, 6, 6],
    [3, 30, 25, 2, 2, 6, 2, 3, 2, 1, 8, 8],
    [2, 4, 4, 20, 20, 3, 2, 10, 10, 1, 2, 2],
    [3, 5, 5, 2, 2, 2, 1, 2, 2, 2, 120, 12],
];

/// The codes of the edits are below this.
const EDITS: usize = calls::BEGIN as usize;

/// Writes calls while it looks at a heap on which it runs them.
struct Writer<L> {
    random: Random,
    heap: Heap<L, WordStore>,
    scope: Scope,
    weights: Weights,
    /// The calls left before the weights change.
    left: usize,
    /// Most root numbers are below this.
    crowd: usize,
    /// Most objects have at most so many words.
    longest: usize,
}

impl<L: Headers> Writer<L> {
    fn new(random: Random, store: WordStore, scope: Scope) -> Self {
        Writer {
            random,
            heap: Heap::new(store),
            scope,
            weights: MAKING,
            left: 0,
            crowd: ROOTS,
            longest: 64,
        }
    }

    /// A life; once in six it fills the heap at first.
    fn life(mut self) -> Vec<Call> {
        let mut calls = Vec::new();
        if self.random.once_in(6) {
            self.fill(&mut calls);
        }
        let longest = match self.heap.regions().len() {
            0 | 1 => 100,
            _ => self.random.pick(&[0, 50, 400, 800, 1_600]),
        };
        for _ in 0..self.random.between(0, longest) {
            self.change_mood();
            self.push(&mut calls);
        }
        calls
    }

    /// Adds calls until there is no space for an object.
    fn fill(&mut self, calls: &mut Vec<Call>) {
        while self.push(calls) != Answer::Refused(Refusal::NoSpace) {}
    }

    /// Adds a call and answers what the heap says to it.
    fn push(&mut self, calls: &mut Vec<Call>) -> Answer {
        let call = self.call();
        calls.push(call);
        let answer = self.heap.call(call);
        answer.expect("a known code")
    }

    fn change_mood(&mut self) {
        if self.left == 0 {
            self.left = self.random.between(10, 150);
            self.weights = self.random.pick(&MOODS);
            self.crowd = self.random.pick(&[2, 6, 20, ROOTS, ROOTS]);
            self.longest = self.random.pick(&[3, 6, 20, 64, 64]);
        }
        self.left -= 1;
    }

    fn call(&mut self) -> Call {
        let code = self.code();
        let [a, b, c] = match code {
            calls::NEW => [self.any_root(), self.header(), 0],
            calls::SET => self.at_position(L::is_reference, Self::some_root),
            calls::GET => self.at_position(L::is_reference, Self::any_root),
            calls::PUT => self.at_position(L::is_plain, Self::plain_word),
            calls::PEEK => self.at_position(L::is_plain, |_| 0),
            calls::COPY => [self.some_root(), self.any_root(), 0],
            calls::CLEAR => [self.any_root(), 0, 0],
            calls::SAME => self.two_roots(),
            calls::HEAD => [self.root(), 0, 0],
            _ => [0, 0, 0],
        };
        [code, a, b, c]
    }

    /// A code by the weights. Instead of a mark that would be refused, there is often a begin.
    fn code(&mut self) -> u32 {
        let weights = match self.scope {
            Scope::Edits => &self.weights[..EDITS],
            Scope::Steps => &self.weights[..],
        };
        let mut number = self.random.below(weights.iter().sum());
        let mut code = 0;
        while number >= weights[code as usize] {
            number -= weights[code as usize];
            code += 1;
        }
        let refused = code == calls::MARK && self.heap.phase() != Phase::Marking;
        if refused && self.random.once_in(2) {
            return calls::BEGIN;
        }
        code
    }

    /// A root number, once in 32 one that is too high.
    fn any_root(&mut self) -> u32 {
        match self.random.below(64) {
            0 => self.random.between(ROOTS, 70) as u32,
            1 => {
                let number = self.random.pick(&[0, 1 << 8, 1 << 16, u32::MAX - 63]);
                number + self.random.below(ROOTS) as u32
            }
            _ => self.random.below(self.crowd) as u32,
        }
    }

    /// A root number, mostly of a root that is not nil.
    fn root(&mut self) -> u32 {
        let any = self.any_root();
        let roots = self.heap.roots();
        if any as usize >= roots.len() || self.random.once_in(24) {
            return any;
        }
        let crowd = self.crowd as u32;
        (any..crowd)
            .chain(0..any.min(crowd))
            .find(|&root| roots[root as usize] != NIL)
            .unwrap_or(any)
    }

    /// A root number, about as often of a root that is nil as of one that is not.
    fn some_root(&mut self) -> u32 {
        if self.random.once_in(2) {
            self.any_root()
        } else {
            self.root()
        }
    }

    /// Two root numbers, often of roots that are equal.
    fn two_roots(&mut self) -> [u32; 3] {
        let one = self.any_root();
        let mut other = self.any_root();
        if self.random.once_in(3) {
            let roots = self.heap.roots();
            let wanted = roots.get(one as usize);
            let equal = |root: &u32| roots.get(*root as usize) == wanted;
            let start = other % ROOTS as u32;
            other = (start..ROOTS as u32)
                .chain(0..start)
                .find(equal)
                .unwrap_or(one);
        }
        [one, other, 0]
    }

    fn header(&mut self) -> u32 {
        if self.random.once_in(24) {
            return L::illegal_header(&mut self.random);
        }
        let size = match self.random.below(6) {
            0 => self.room() + self.random.below(2) as u32,
            1 => self.longest as u32,
            _ => self.random.between(1, self.longest) as u32,
        };
        L::legal_header(&mut self.random, size)
    }

    /// The words left in the open region.
    fn room(&self) -> u32 {
        let fill = |open: usize| self.heap.regions()[open].fill;
        REGION as u32 - self.heap.open_region().map_or(0, fill)
    }

    /// A root, a position that mostly fits the object there, and an argument.
    fn at_position(
        &mut self,
        fits: fn(u32, u32) -> bool,
        argument: fn(&mut Self) -> u32,
    ) -> [u32; 3] {
        let i = self.root();
        [i, self.position(i, fits), argument(self)]
    }

    fn position(&mut self, i: u32, fits: fn(u32, u32) -> bool) -> u32 {
        let reference = self.heap.roots().get(i as usize).copied().unwrap_or(NIL);
        let header = place_of(reference).map_or(L::sample(), |place| self.heap.word(place));
        let size = L::size(header);
        let any = self.random.below(size as usize) as u32;
        match self.random.below(48) {
            0 => 0,
            1 => size,
            2 => size + self.random.below(64) as u32,
            3 => any + self.random.pick(&[1 << 8, 1 << 16, 1 << 31]),
            4 => u32::MAX - any,
            5 => any,
            _ => (any..size)
                .chain(0..any)
                .find(|&position| fits(header, position))
                .unwrap_or(any),
        }
    }

    /// A word of any width.
    fn plain_word(&mut self) -> u32 {
        self.random.magnitude(32)
    }
}

#[cfg(test)]
mod tests {
    use super::*;

    #[test]
    fn equal_seeds_give_equal_lives() {
        for seed in 0..20 {
            let one = Life::new(seed, Scope::Steps);
            let other = Life::new(seed, Scope::Steps);
            assert_eq!(one.words, other.words);
            assert_eq!(one.calls, other.calls);
        }
    }

    #[test]
    fn all_layouts_and_sizes_come_in_turn() {
        let kind = |seed| {
            let life = Life::new(seed, Scope::Edits);
            assert!(life.calls.iter().all(|call| call[0] <= calls::HEAD));
            (life.sign, life.words.len() / REGION)
        };
        let mut kinds: Vec<_> = (40..54).map(kind).collect();
        kinds.sort();
        let of_sign = |sign| REGION_COUNTS.map(|regions| (sign, regions));
        assert_eq!(kinds, [of_sign(1), of_sign(2)].concat());
    }

    fn headers_are_as_named<L: Headers>() {
        let mut random = Random::new(1);
        for _ in 0..5_000 {
            let size = random.below(70) as u32;
            assert!(L::legal(L::legal_header(&mut random, size)));
            assert!(!L::legal(L::illegal_header(&mut random)));
        }
    }

    #[test]
    fn headers() {
        headers_are_as_named::<Counted>();
        headers_are_as_named::<Cabling>();
        for size in 1..=64 {
            let header = Counted::legal_header(&mut Random::new(2), size);
            assert_eq!(Counted::size(header), size);
        }
    }
}
