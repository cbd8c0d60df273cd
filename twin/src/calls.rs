//! Calls on a heap and their answers (docs/HEAP.md), as values and as words.

use crate::image::MOST_ROOTS;

/// The number of roots.
pub const ROOTS: usize = MOST_ROOTS as usize;

/// Why a call is refused.
#[derive(Clone, Copy, Debug, PartialEq, Eq)]
pub enum Refusal {
    RootAbove63 = 1,
    HeaderNotLegal = 2,
    RootNil = 31,
    WrongPosition = 32,
    NoSpace = 33,
    AlreadyMarking = 34,
    NotMarking = 35,
}

impl Refusal {
    /// The number of the refusal in docs/REFUSALS.md.
    pub fn number(self) -> u32 {
        self as u32
    }
}

/// The index of the root with this number.
#[inline]
pub fn root(number: u32) -> Result<usize, Refusal> {
    if number < MOST_ROOTS {
        Ok(number as usize)
    } else {
        Err(Refusal::RootAbove63)
    }
}

/// What a call answers.
#[derive(Clone, Copy, Debug, PartialEq, Eq)]
pub enum Answer {
    Granted,
    Word(u32),
    YesNo(bool),
    Refused(Refusal),
    Scanned,
    Done,
    Refined,
    Clean,
}

impl Answer {
    /// The answer in two words (docs/PROGRAMS.md): its kind and its value.
    #[inline]
    pub fn words(self) -> [u32; 2] {
        match self {
            Answer::Granted => [0, 0],
            Answer::Word(word) => [1, word],
            Answer::YesNo(yes) => [2, u32::from(yes)],
            Answer::Refused(refusal) => [3, refusal.number()],
            Answer::Scanned => [4, 0],
            Answer::Done => [5, 0],
            Answer::Refined => [6, 0],
            Answer::Clean => [7, 0],
        }
    }
}

/// The text of an answer in words.
pub fn answer_text(answer: &[u32]) -> String {
    match *answer {
        [0, 0] => "granted".to_string(),
        [1, word] => format!("word {word}"),
        [2, 0] => "no".to_string(),
        [2, 1] => "yes".to_string(),
        [3, number] => format!("refused {number}"),
        [4, 0] => "scanned".to_string(),
        [5, 0] => "done".to_string(),
        [6, 0] => "refined".to_string(),
        [7, 0] => "clean".to_string(),
        _ => format!("{answer:?}, no answer"),
    }
}

impl From<Result<(), Refusal>> for Answer {
    #[inline]
    fn from(result: Result<(), Refusal>) -> Answer {
        result.map_or_else(Answer::Refused, |()| Answer::Granted)
    }
}

impl From<Result<u32, Refusal>> for Answer {
    #[inline]
    fn from(result: Result<u32, Refusal>) -> Answer {
        result.map_or_else(Answer::Refused, Answer::Word)
    }
}

impl From<Result<bool, Refusal>> for Answer {
    #[inline]
    fn from(result: Result<bool, Refusal>) -> Answer {
        result.map_or_else(Answer::Refused, Answer::YesNo)
    }
}

/// A call in four words: its code and its arguments. Words that it has no argument for are 0.
pub type Call = [u32; 4];

/// The text of a call, if the words start with a whole one.
pub fn call_text(words: &[u32]) -> Option<String> {
    let &[code, a, b, c] = words.first_chunk()?;
    let name = NAMES.get(code as usize).copied().unwrap_or("unknown");
    Some(format!("{name} {a} {b} {c}"))
}

pub const NEW: u32 = 0;
pub const SET: u32 = 1;
pub const GET: u32 = 2;
pub const PUT: u32 = 3;
pub const PEEK: u32 = 4;
pub const COPY: u32 = 5;
pub const CLEAR: u32 = 6;
pub const SAME: u32 = 7;
pub const HEAD: u32 = 8;
pub const BEGIN: u32 = 9;
pub const MARK: u32 = 10;
pub const REFINE: u32 = 11;

/// The names of the calls, by their codes.
pub const NAMES: [&str; 12] = [
    "new", "set", "get", "put", "peek", "copy", "clear", "same", "head", "begin", "mark", "refine",
];

/// The edits. A refused one alters nothing.
pub trait Edits {
    /// Makes an object with a body of zeros, which the root then names.
    fn new_object(&mut self, root: u32, header: u32) -> Result<(), Refusal>;

    /// Stores what root `k` holds at a reference position of the object at root `i`.
    fn set(&mut self, i: u32, position: u32, k: u32) -> Result<(), Refusal>;

    /// Makes root `k` hold what is at a reference position of the object at root `i`.
    fn get(&mut self, i: u32, position: u32, k: u32) -> Result<(), Refusal>;

    /// Stores a word at a plain position of the object at root `i`.
    fn put(&mut self, i: u32, position: u32, word: u32) -> Result<(), Refusal>;

    /// The word at a plain position of the object at root `i`.
    fn peek(&self, i: u32, position: u32) -> Result<u32, Refusal>;

    /// Makes root `k` hold what root `i` holds.
    fn copy(&mut self, i: u32, k: u32) -> Result<(), Refusal>;

    /// Makes root `i` nil.
    fn clear(&mut self, i: u32) -> Result<(), Refusal>;

    /// Whether roots `i` and `k` are equal.
    fn same(&self, i: u32, k: u32) -> Result<bool, Refusal>;

    /// The header of the object at root `i`.
    fn head(&self, i: u32) -> Result<u32, Refusal>;

    /// Runs an edit. A call that is none does nothing and has no answer.
    #[inline]
    fn edit(&mut self, [code, a, b, c]: Call) -> Option<Answer> {
        Some(match code {
            NEW => self.new_object(a, b).into(),
            SET => self.set(a, b, c).into(),
            GET => self.get(a, b, c).into(),
            PUT => self.put(a, b, c).into(),
            PEEK => self.peek(a, b).into(),
            COPY => self.copy(a, b).into(),
            CLEAR => self.clear(a).into(),
            SAME => self.same(a, b).into(),
            HEAD => self.head(a).into(),
            _ => return None,
        })
    }
}

#[cfg(test)]
mod tests {
    use super::*;

    #[test]
    fn answers_in_words() {
        assert_eq!(Answer::Granted.words(), [0, 0]);
        assert_eq!(Answer::Word(7).words(), [1, 7]);
        assert_eq!(Answer::YesNo(true).words(), [2, 1]);
        assert_eq!(Answer::YesNo(false).words(), [2, 0]);
        assert_eq!(Answer::Refused(Refusal::RootNil).words(), [3, 31]);
        assert_eq!(Answer::Scanned.words(), [4, 0]);
        assert_eq!(Answer::Done.words(), [5, 0]);
        assert_eq!(Answer::Refined.words(), [6, 0]);
        assert_eq!(Answer::Clean.words(), [7, 0]);
    }

    #[test]
    fn roots_are_0_to_63() {
        assert_eq!(root(0), Ok(0));
        assert_eq!(root(63), Ok(63));
        for number in [64, 70, 256, u32::MAX] {
            assert_eq!(root(number), Err(Refusal::RootAbove63));
        }
    }
}
