//! Inputs for comparisons: sound, damaged, random and enumerated byte strings.

use std::fmt;
use std::ops::Range;

use crate::campus::{self, Style};
use crate::image::{self, Content};
use crate::layouts::{Cabling, Kind, Layout};
use crate::numbers;
use crate::random::Random;
use crate::topocheck::{HOST_BYTES, PROGRAM_BYTES};

/// A byte string, and how it was made.
pub struct Input {
    pub origin: Origin,
    pub bytes: Vec<u8>,
}

impl Input {
    fn new(origin: Origin, bytes: Vec<u8>) -> Self {
        Input { origin, bytes }
    }
}

/// How an input was made.
#[derive(Clone, Copy, Debug, PartialEq, Eq)]
pub enum Origin {
    /// The image of a campus.
    Sound,
    /// The image of a campus with one damage.
    Damaged(Damage),
    /// Random bytes, some with a right start.
    Random,
    /// One of all short strings over a small alphabet.
    Enumerated,
    /// About as long as the longest input.
    Limit,
    /// The image of a campus for which there is just space, or just none.
    Space,
}

impl fmt::Display for Origin {
    fn fmt(&self, f: &mut fmt::Formatter) -> fmt::Result {
        match self {
            Origin::Sound => write!(f, "sound image"),
            Origin::Damaged(damage) => write!(f, "damaged image, {damage}"),
            Origin::Random => write!(f, "random bytes"),
            Origin::Enumerated => write!(f, "enumerated bytes"),
            Origin::Limit => write!(f, "limit of length"),
            Origin::Space => write!(f, "limit of space"),
        }
    }
}

/// What is done to a sound image. What comes out may still be sound.
#[derive(Clone, Copy, Debug, PartialEq, Eq)]
pub enum Damage {
    FlippedBit,
    Cut,
    Extended,
    Longer,
    TooWide,
    Value,
    ObjectCount,
    RootCount,
    Reference,
    Header,
    Swapped,
}

impl Damage {
    pub const ALL: [Damage; 11] = [
        Damage::FlippedBit,
        Damage::Cut,
        Damage::Extended,
        Damage::Longer,
        Damage::TooWide,
        Damage::Value,
        Damage::ObjectCount,
        Damage::RootCount,
        Damage::Reference,
        Damage::Header,
        Damage::Swapped,
    ];

    /// The image of `content` with this damage at a random place.
    pub fn apply(self, random: &mut Random, content: &Content) -> Vec<u8> {
        let image = image::write::<Cabling>(content);
        match self {
            Damage::FlippedBit => flip_bit(random, image),
            Damage::Cut => cut(random, image),
            Damage::Extended => extend(random, image),
            Damage::Longer => change_number(random, image, longer),
            Damage::TooWide => change_number(random, image, too_wide),
            Damage::Value => change_number(random, image, other_value),
            Damage::ObjectCount => change_count(random, image, OBJECT_COUNT),
            Damage::RootCount => change_count(random, image, ROOT_COUNT),
            Damage::Reference => change_reference(random, content.clone()),
            Damage::Header => change_header(random, content.clone()),
            Damage::Swapped => swap(random, image),
        }
    }
}

impl fmt::Display for Damage {
    fn fmt(&self, f: &mut fmt::Formatter) -> fmt::Result {
        f.write_str(match self {
            Damage::FlippedBit => "a bit flipped",
            Damage::Cut => "cut",
            Damage::Extended => "extended",
            Damage::Longer => "a number made longer",
            Damage::TooWide => "a number made too wide",
            Damage::Value => "a bit of a number's value flipped",
            Damage::ObjectCount => "the object count changed",
            Damage::RootCount => "the root count changed",
            Damage::Reference => "a reference changed",
            Damage::Header => "a header changed",
            Damage::Swapped => "two bytes swapped",
        })
    }
}

fn flip_bit(random: &mut Random, mut image: Vec<u8>) -> Vec<u8> {
    let place = random.below(image.len());
    image[place] ^= 1 << random.below(8);
    image
}

fn cut(random: &mut Random, mut image: Vec<u8>) -> Vec<u8> {
    image.truncate(random.below(image.len()));
    image
}

fn extend(random: &mut Random, mut image: Vec<u8>) -> Vec<u8> {
    let more = random.between(1, 8);
    image.extend(random.bytes(more));
    image
}

fn swap(random: &mut Random, mut image: Vec<u8>) -> Vec<u8> {
    let one = random.below(image.len());
    let other = random.below(image.len());
    image.swap(one, other);
    image
}

// The first numbers of an image, in the order of `number_spans`.
const OBJECT_COUNT: usize = 1;
const ROOT_COUNT: usize = 2;

/// Where the numbers of a sound image stand: the sign, the counts, and so on.
fn number_spans(image: &[u8]) -> Vec<Range<usize>> {
    let mut spans = Vec::new();
    let mut position = 2;
    while let Ok(number) = numbers::read(image, position) {
        spans.push(position..number.next);
        position = number.next;
    }
    spans
}

/// Replaces the bytes of one number by what `change` makes of them.
fn change_number(
    random: &mut Random,
    mut image: Vec<u8>,
    change: fn(&mut Random, &[u8]) -> Vec<u8>,
) -> Vec<u8> {
    let spans = number_spans(&image);
    let span = spans[random.below(spans.len())].clone();
    let changed = change(random, &image[span.clone()]);
    image.splice(span, changed);
    image
}

/// A number with one or two groups of 0 more than it needs.
fn longer(random: &mut Random, number: &[u8]) -> Vec<u8> {
    let mut bytes: Vec<u8> = number.iter().map(|byte| byte | 0x80).collect();
    if random.once_in(3) {
        bytes.push(0x80);
    }
    bytes.push(0);
    bytes
}

/// A number whose fifth byte is above 15.
fn too_wide(random: &mut Random, number: &[u8]) -> Vec<u8> {
    let mut bytes: Vec<u8> = number.iter().take(4).map(|byte| byte | 0x80).collect();
    bytes.resize(4, 0x80);
    bytes.push(random.between(0x10, 0xFF) as u8);
    bytes
}

/// A sound number whose value differs in one of 32 bits.
fn other_value(random: &mut Random, number: &[u8]) -> Vec<u8> {
    let value = numbers::read(number, 0).map_or(0, |number| number.value);
    written(value ^ 1 << random.below(32))
}

fn written(value: u32) -> Vec<u8> {
    let mut bytes = Vec::new();
    numbers::write(value, &mut bytes);
    bytes
}

/// Replaces one of the counts by another value.
fn change_count(random: &mut Random, mut image: Vec<u8>, which: usize) -> Vec<u8> {
    let span = number_spans(&image)[which].clone();
    let old = numbers::read(&image, span.start).map_or(0, |number| number.value);
    let new = match random.below(6) {
        0 => old + 1,
        1 => old.saturating_sub(1),
        2 => 64,
        3 => 65,
        4 => random.magnitude(7),
        _ => random.magnitude(32),
    };
    image.splice(span, written(new));
    image
}

/// Replaces one reference, in the roots or in an object, by another value.
fn change_reference(random: &mut Random, mut content: Content) -> Vec<u8> {
    let objects = content.objects.len();
    let mut references = references(&mut content);
    if !references.is_empty() {
        let which = random.below(references.len());
        let old = *references[which];
        *references[which] = match random.below(6) {
            0 => 0,
            1 => old + 1,
            2 => objects as u32,
            3 => objects as u32 + 1,
            4 => random.between(0, objects) as u32,
            _ => random.magnitude(32),
        };
    }
    image::write::<Cabling>(&content)
}

fn references(content: &mut Content) -> Vec<&mut u32> {
    let in_objects = content.objects.iter_mut().flat_map(|object| {
        let header = object.header;
        (1..)
            .zip(&mut object.body)
            .filter(move |(position, _)| Cabling::is_reference(header, *position))
            .map(|(_, word)| word)
    });
    content.roots.iter_mut().chain(in_objects).collect()
}

/// Gives one object another kind, or none, without changing its body.
fn change_header(random: &mut Random, mut content: Content) -> Vec<u8> {
    if !content.objects.is_empty() {
        let which = random.below(content.objects.len());
        let kind = match random.below(3) {
            0 => random.pick(&[0, 7, 8, 128, 255]),
            1 => random.between(1, 6) as u32,
            _ => u32::from(random.byte()),
        };
        let header = &mut content.objects[which].header;
        *header = *header / 256 * 256 + kind;
    }
    image::write::<Cabling>(&content)
}

const ALPHABET: [u8; 9] = [0x00, 0x01, 0x02, 0x03, 0x06, 0x43, 0x4D, 0x80, 0xFF];

/// What the enumerated strings begin with, and how many bytes follow at most.
const ENUMERATIONS: [(&[u8], usize); 3] = [
    (&[], 4),
    (&[0x43, 0x4D, 0x02], 5),
    (&[0x43, 0x4D, 0x02, 0x01, 0x01, 0x01], 4),
];

/// All strings of the enumerations, the short ones first.
fn enumerated() -> impl Iterator<Item = Vec<u8>> {
    ENUMERATIONS.into_iter().flat_map(|(prefix, longest)| {
        (0..strings_up_to(longest)).map(move |index| [prefix, &string(index)].concat())
    })
}

/// How many strings over the alphabet have at most `longest` bytes.
fn strings_up_to(longest: usize) -> usize {
    (0..=longest as u32)
        .map(|length| ALPHABET.len().pow(length))
        .sum()
}

/// The string with this index, counted by length.
fn string(index: usize) -> Vec<u8> {
    let mut rest = index;
    let mut length = 0;
    let mut of_this_length = 1;
    while rest >= of_this_length {
        rest -= of_this_length;
        of_this_length *= ALPHABET.len();
        length += 1;
    }
    let mut bytes = Vec::new();
    for _ in 0..length {
        bytes.push(ALPHABET[rest % ALPHABET.len()]);
        rest /= ALPHABET.len();
    }
    bytes
}

/// Inputs of all kinds without end, the same ones for the same seed.
/// Every second one is enumerated until all those strings were given.
pub struct Inputs {
    random: Random,
    enumerated: Box<dyn Iterator<Item = Vec<u8>>>,
    enumerated_next: bool,
}

impl Inputs {
    pub fn new(seed: u64) -> Self {
        Inputs {
            random: Random::new(seed),
            enumerated: Box::new(enumerated()),
            enumerated_next: true,
        }
    }
}

impl Iterator for Inputs {
    type Item = Input;

    fn next(&mut self) -> Option<Input> {
        let enumerated_now = self.enumerated_next;
        self.enumerated_next = !enumerated_now;
        if enumerated_now {
            if let Some(bytes) = self.enumerated.next() {
                return Some(Input::new(Origin::Enumerated, bytes));
            }
        }
        Some(any_input(&mut self.random))
    }
}

fn any_input(random: &mut Random) -> Input {
    match random.below(1_000) {
        0..=2 => Input::new(Origin::Limit, about_as_long_as(random, HOST_BYTES)),
        3..=299 => sound(random),
        300..=799 => {
            let damage = random.pick(&Damage::ALL);
            damaged(random, damage)
        }
        _ => Input::new(Origin::Random, random_bytes(random)),
    }
}

fn sound(random: &mut Random) -> Input {
    let content = any_campus(random);
    Input::new(Origin::Sound, image::write::<Cabling>(&content))
}

fn damaged(random: &mut Random, damage: Damage) -> Input {
    let content = any_campus(random);
    Input::new(Origin::Damaged(damage), damage.apply(random, &content))
}

/// A campus whose image has at most `HOST_BYTES` bytes. Most are small.
fn any_campus(random: &mut Random) -> Content {
    let style = random.pick(&Style::ALL);
    let mut objects = any_object_count(random);
    loop {
        let content = if random.once_in(4) {
            campus::typical_campus(random, objects)
        } else {
            campus::random_campus(random, &Kind::ALL, style, objects)
        };
        if image::write::<Cabling>(&content).len() <= HOST_BYTES {
            return content;
        }
        objects /= 2;
    }
}

fn any_object_count(random: &mut Random) -> usize {
    match random.below(1_000) {
        0..=3 => random.between(500, 8_000),
        4..=49 => random.between(50, 500),
        50..=499 => random.between(5, 50),
        _ => random.between(0, 8),
    }
}

/// Bytes that are no image but by chance.
fn random_bytes(random: &mut Random) -> Vec<u8> {
    let length = random.between(0, 40);
    let starts: [&[u8]; 5] = [
        &[],
        &[0x43, 0x4D],
        &[0x43, 0x4D, 0x02],
        &[0x43, 0x4D, 0x02, 0x02, 0x01],
        &[0x43, 0x4D, 0x02, 0x05, 0x02, 0x01, 0x02],
    ];
    let start = random.pick(&starts);
    let rest = match random.below(3) {
        0 => random.bytes(length),
        1 => (0..length).map(|_| random.pick(&ALPHABET)).collect(),
        _ => random_numbers(random, length),
    };
    [start, &rest].concat()
}

fn random_numbers(random: &mut Random, count: usize) -> Vec<u8> {
    let mut bytes = Vec::new();
    for _ in 0..count {
        let width = random.pick(&[2, 3, 3, 3, 8, 32]);
        numbers::write(random.magnitude(width), &mut bytes);
    }
    bytes
}

/// Bytes of one of the lengths around `limit`.
fn about_as_long_as(random: &mut Random, limit: usize) -> Vec<u8> {
    let length = random.between(limit - 2, limit + 2);
    match random.below(6) {
        0 => vec![0; length],
        1 => random.bytes(length),
        2 => [&[0x43, 0x4D, 0x02], random.bytes(length - 3).as_slice()].concat(),
        3 => {
            let image = sound_of_length(random, length);
            flip_bit(random, image)
        }
        _ => sound_of_length(random, length),
    }
}

fn sound_of_length(random: &mut Random, length: usize) -> Vec<u8> {
    let style = random.pick(&Style::ALL);
    campus::image_of_length(random, style, length)
}

/// Inputs for the program topocheck, which takes fewer bytes and wants space.
pub fn program_inputs(seed: u64) -> Vec<Input> {
    let mut random = Random::new(seed);
    let mut inputs = Vec::new();
    add_limits_of_space(&mut random, &mut inputs);
    add_limits_of_length(&mut random, &mut inputs);
    for damage in Damage::ALL {
        for _ in 0..4 {
            inputs.push(damaged(&mut random, damage));
        }
    }
    for _ in 0..20 {
        inputs.push(sound(&mut random));
        inputs.push(Input::new(Origin::Random, random_bytes(&mut random)));
    }
    inputs
}

const MIXES: usize = 24;

fn add_limits_of_space(random: &mut Random, inputs: &mut Vec<Input>) {
    let kinds_with_references = &Kind::ALL[..5];
    for kind in kinds_with_references {
        add_limit_of_space(random, &[*kind], inputs);
    }
    for _ in 0..MIXES {
        add_limit_of_space(random, &Kind::ALL, inputs);
    }
}

/// Images with as many objects as there is space for, and with one fewer, one more, two more.
/// One with too many objects is damaged too: its fault is told before the want of space.
fn add_limit_of_space(random: &mut Random, kinds: &[Kind], inputs: &mut Vec<Input>) {
    let (content, fitting) = campus::edge_of_space(random, kinds);
    for count in fitting - 1..=fitting + 2 {
        let image = image::write::<Cabling>(&campus::first_objects(&content, count));
        inputs.push(Input::new(Origin::Space, image));
    }
    let damage = random.pick(&Damage::ALL);
    let bytes = damage.apply(random, &campus::first_objects(&content, fitting + 1));
    inputs.push(Input::new(Origin::Damaged(damage), bytes));
}

fn add_limits_of_length(random: &mut Random, inputs: &mut Vec<Input>) {
    for style in Style::ALL {
        for length in PROGRAM_BYTES - 2..=PROGRAM_BYTES + 2 {
            let image = campus::image_of_length(random, style, length);
            inputs.push(Input::new(Origin::Limit, image));
        }
    }
    for length in [PROGRAM_BYTES, PROGRAM_BYTES + 1, 65_536, 300_000] {
        inputs.push(Input::new(Origin::Limit, vec![0; length]));
    }
}

#[cfg(test)]
mod tests {
    use super::*;
    use crate::topocheck;

    #[test]
    fn strings_are_enumerated_by_length() {
        assert_eq!(string(0), []);
        assert_eq!(string(1), [0x00]);
        assert_eq!(string(9), [0xFF]);
        assert_eq!(string(10), [0x00, 0x00]);
        assert_eq!(string(strings_up_to(2) - 1), [0xFF, 0xFF]);
        assert_eq!(string(strings_up_to(2)), [0x00, 0x00, 0x00]);
        assert_eq!(enumerated().count(), 7_381 + 66_430 + 7_381);
    }

    #[test]
    fn reading_and_checking_agree_and_accepted_images_are_written_back() {
        for input in Inputs::new(3).take(4_000) {
            let content = image::read::<Cabling>(&input.bytes);
            let summary = image::check::<Cabling>(&input.bytes);
            match content {
                Ok(content) => {
                    assert_eq!(image::write::<Cabling>(&content), input.bytes);
                    assert_eq!(campus::canonical(&content), content);
                    assert!(summary.is_ok());
                }
                Err(refusal) => assert_eq!(summary, Err(refusal)),
            }
        }
    }

    #[test]
    fn inputs_depend_on_the_seed_only() {
        let bytes = |seed| -> Vec<_> { Inputs::new(seed).take(50).map(|i| i.bytes).collect() };
        assert_eq!(bytes(5), bytes(5));
        assert_ne!(bytes(5), bytes(6));
    }

    #[test]
    fn sound_images_are_accepted() {
        let mut random = Random::new(2);
        for _ in 0..200 {
            assert_eq!(topocheck::host_answer(&sound(&mut random).bytes), 0);
        }
    }

    #[test]
    fn program_inputs_bring_every_kind_of_line() {
        let lines: Vec<String> = program_inputs(1)
            .iter()
            .map(|input| topocheck::line(&input.bytes))
            .collect();
        assert!(lines.len() >= 150);
        for start in ["ok ", "refused 33 ", "refused 1", "too long"] {
            assert!(lines.iter().any(|line| line.starts_with(start)), "{start}");
        }
    }
}
