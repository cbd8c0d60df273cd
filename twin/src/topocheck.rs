//! What the program topocheck prints (docs/PROGRAMS.md), and the answer of the check that is
//! called from C.

use crate::image::{self, Visitor};
use crate::layouts::Cabling;

/// The most bytes that the program takes.
pub const PROGRAM_BYTES: usize = 8_192;

/// The most bytes that the check called from C takes.
pub const HOST_BYTES: usize = 65_536;

/// The answer for more bytes than `HOST_BYTES`.
pub const HOST_TOO_LONG: u64 = 255;

const REGION_WORDS: u32 = 1_024;
const REGIONS: u32 = 4;

/// The regions while objects are placed in them.
pub struct Placement {
    /// Regions that no object is in.
    free: u32,
    /// Words left in the open region, 0 if none is open.
    left: u32,
    no_space: bool,
}

impl Placement {
    pub fn new() -> Self {
        Placement {
            free: REGIONS,
            left: 0,
            no_space: false,
        }
    }

    /// Places an object of `size` words, or notes that there is no space.
    pub fn place(&mut self, size: u32) {
        if size <= self.left {
            self.left -= size;
        } else if self.free >= 2 {
            self.free -= 1;
            self.left = REGION_WORDS - size;
        } else {
            self.no_space = true;
        }
    }

    /// Whether an object could not be placed.
    pub fn no_space(&self) -> bool {
        self.no_space
    }
}

impl Default for Placement {
    fn default() -> Self {
        Placement::new()
    }
}

impl Visitor for Placement {
    fn object(&mut self, _header: u32, size: u32) {
        self.place(size);
    }
}

/// The line that topocheck prints for `input`, without its line feed.
pub fn line(input: &[u8]) -> String {
    if input.len() > PROGRAM_BYTES {
        return "too long".to_string();
    }
    let mut placement = Placement::new();
    match image::visit::<Cabling, _>(input, &mut placement) {
        Err(refusal) => refusal.to_string(),
        Ok(_) if placement.no_space() => "refused 33 at 0 object 0".to_string(),
        Ok(summary) => format!(
            "ok {} objects {} roots {} words",
            summary.objects, summary.roots, summary.words
        ),
    }
}

/// 255 for more than 65,536 bytes. Otherwise 0 for an accepted image of the cabling layout, or
/// 256 * place + number of its first fault.
pub fn host_answer(input: &[u8]) -> u64 {
    if input.len() > HOST_BYTES {
        return HOST_TOO_LONG;
    }
    match image::check::<Cabling>(input) {
        Ok(_) => 0,
        Err(refusal) => 256 * refusal.place as u64 + u64::from(refusal.fault.number()),
    }
}

#[cfg(test)]
mod tests {
    use super::*;
    use crate::image::{Content, Object};

    /// A list of `count` objects, each named by the one before it.
    fn list(header: u32, body: &[u32], count: u32) -> Vec<u8> {
        let object = |number: u32| {
            let mut body = body.to_vec();
            body[0] = if number < count { number + 1 } else { 0 };
            Object { header, body }
        };
        let content = Content {
            roots: vec![1],
            objects: (1..=count).map(object).collect(),
        };
        image::write::<Cabling>(&content)
    }

    #[test]
    fn runs_of_the_document() {
        let runs: [(&[u8], &str); 9] = [
            (b"\x43\x4D\x02\x00\x00", "ok 0 objects 0 roots 0 words"),
            (
                b"\x43\x4D\x02\x02\x01\x01\x03\x02\x00\x00\x03\x04\x00\x01\x07\x00",
                "ok 2 objects 1 roots 10 words",
            ),
            (b"", "refused 10 at 0 object 0"),
            (b"hello", "refused 13 at 0 object 0"),
            (b"\x43\x4D\x01\x00\x00", "refused 14 at 2 object 0"),
            (b"\x43\x4D\x02\x00\x01\x00", "refused 15 at 5 object 0"),
            (b"\x43\x4D\x02\x01\x01\x02", "refused 17 at 5 object 0"),
            (b"\x43\x4D\x02\x01\x00", "refused 18 at 5 object 1"),
            (b"\x43\x4D\x02\x00\x00\x00", "refused 19 at 5 object 0"),
        ];
        for (input, expected) in runs {
            assert_eq!(line(input), expected);
        }
    }

    #[test]
    fn the_longest_input() {
        assert_eq!(line(&[0; 8_192]), "refused 13 at 0 object 0");
        assert_eq!(line(&[0; 8_193]), "too long");
    }

    #[test]
    fn rooms_and_racks_fill_three_regions() {
        let no_space = "refused 33 at 0 object 0";
        let rooms = |count| line(&list(1, &[0, 0, 0], count));
        assert_eq!(rooms(768), "ok 768 objects 1 roots 3072 words");
        assert_eq!(rooms(769), no_space);
        let racks = |count| line(&list(2, &[0, 0, 0, 0], count));
        assert_eq!(racks(612), "ok 612 objects 1 roots 3060 words");
        assert_eq!(racks(613), no_space);
    }

    #[test]
    fn a_fault_comes_before_want_of_space() {
        let mut image = list(1, &[0, 0, 0], 769);
        let length = image.len();
        image.push(0);
        assert_eq!(line(&image), format!("refused 19 at {length} object 0"));
    }

    #[test]
    fn host_answers() {
        assert_eq!(host_answer(&[]), 10);
        assert_eq!(host_answer(b"\x43\x4D\x02\x00\x00"), 0);
        assert_eq!(host_answer(b"\x43\x4D\x02\x01\x00"), 256 * 5 + 18);
        assert_eq!(host_answer(&[0; 65_536]), 13);
        assert_eq!(host_answer(&[0; 65_537]), 255);
        assert_eq!(host_answer(&list(1, &[0, 0, 0], 769)), 0);
    }
}
