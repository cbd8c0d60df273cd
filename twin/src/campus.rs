//! Random campuses: sound contents of the cabling layout.
//!
//! A model is kept as a content whose objects stand in any order and need not all be reached.
//! `canonical` makes the content of its image from it (docs/FORMAT.md, "Models, save and load").

use crate::image::{self, Content, Object, MOST_ROOTS, NIL};
use crate::layouts::{Cabling, Kind, Layout};
use crate::numbers;
use crate::random::Random;
use crate::topocheck::Placement;

/// How wide the headers and plain words of a campus are.
#[derive(Clone, Copy, Debug, PartialEq, Eq)]
pub enum Style {
    /// Free bits of headers 0, plain words below 128.
    Small,
    /// Some headers with free bits, plain words of all magnitudes.
    Mixed,
    /// All headers with free bits, plain words of all magnitudes.
    Wide,
}

impl Style {
    pub const ALL: [Style; 3] = [Style::Small, Style::Mixed, Style::Wide];

    fn header(self, random: &mut Random, kind: Kind) -> u32 {
        let free = match self {
            Style::Mixed if random.once_in(4) => random.magnitude(24),
            Style::Small | Style::Mixed => 0,
            Style::Wide => random.between(1 << 20, (1 << 24) - 1) as u32,
        };
        free << 8 | kind.header()
    }

    fn plain(self, random: &mut Random) -> u32 {
        match self {
            Style::Small => random.magnitude(7),
            Style::Mixed | Style::Wide => random.magnitude(32),
        }
    }
}

/// The objects that roots reach, numbered as they are first met.
struct Numbering {
    /// The number of each object of the model, `NIL` if it was not met yet.
    numbers: Vec<u32>,
    /// The objects met, by their index in the model.
    met: Vec<usize>,
}

impl Numbering {
    fn new(objects: usize) -> Self {
        Numbering {
            numbers: vec![NIL; objects],
            met: Vec::new(),
        }
    }

    /// The number of the object that `reference` names in the model.
    fn number(&mut self, reference: u32) -> u32 {
        if reference == NIL {
            return NIL;
        }
        let index = reference as usize - 1;
        if self.numbers[index] == NIL {
            self.met.push(index);
            self.numbers[index] = self.met.len() as u32;
        }
        self.numbers[index]
    }
}

/// The content of the image of a model.
pub fn canonical(model: &Content) -> Content {
    let mut numbering = Numbering::new(model.objects.len());
    let roots = without_last_nils(&model.roots)
        .iter()
        .map(|&root| numbering.number(root))
        .collect();
    let mut objects = Vec::new();
    while let Some(&index) = numbering.met.get(objects.len()) {
        let object = with_references(&model.objects[index], |old| numbering.number(old));
        objects.push(object);
    }
    Content { roots, objects }
}

/// The content cut to its first objects. References to the others become nil.
pub fn first_objects(content: &Content, count: usize) -> Content {
    let kept = |reference: u32| {
        if reference as usize <= count {
            reference
        } else {
            NIL
        }
    };
    let roots: Vec<u32> = content.roots.iter().map(|&root| kept(root)).collect();
    Content {
        roots: without_last_nils(&roots).to_vec(),
        objects: content
            .objects
            .iter()
            .take(count)
            .map(|object| with_references(object, kept))
            .collect(),
    }
}

fn without_last_nils(roots: &[u32]) -> &[u32] {
    let count = roots
        .iter()
        .rposition(|&root| root != NIL)
        .map_or(0, |last| last + 1);
    &roots[..count]
}

/// The object with every reference changed.
fn with_references(object: &Object, mut change: impl FnMut(u32) -> u32) -> Object {
    let header = object.header;
    let body = (1..)
        .zip(&object.body)
        .map(|(position, &word)| {
            if Cabling::is_reference(header, position) {
                change(word)
            } else {
                word
            }
        })
        .collect();
    Object { header, body }
}

/// A campus without any order: every reference names any object.
/// It has at most `objects` objects, since only those that roots reach count.
pub fn random_campus(random: &mut Random, kinds: &[Kind], style: Style, objects: usize) -> Content {
    let roots = random.between(0, MOST_ROOTS as usize);
    let model = Content {
        roots: (0..roots).map(|_| any_reference(random, objects)).collect(),
        objects: (0..objects)
            .map(|_| any_object(random, kinds, style, objects))
            .collect(),
    };
    canonical(&model)
}

fn any_object(random: &mut Random, kinds: &[Kind], style: Style, objects: usize) -> Object {
    let kind = random.pick(kinds);
    let header = style.header(random, kind);
    let body = (1..Cabling::size(header))
        .map(|position| {
            if Cabling::is_reference(header, position) {
                any_reference(random, objects)
            } else {
                style.plain(random)
            }
        })
        .collect();
    Object { header, body }
}

fn any_reference(random: &mut Random, objects: usize) -> u32 {
    if random.once_in(3) {
        NIL
    } else {
        random.between(0, objects) as u32
    }
}

/// A sound image of exactly `length` bytes. The length is some hundreds at least.
pub fn image_of_length(random: &mut Random, style: Style, length: usize) -> Vec<u8> {
    let mut objects = length / 6;
    loop {
        let mut content = random_campus(random, &Kind::ALL, style, objects);
        let image = image::write::<Cabling>(&content);
        match length.checked_sub(image.len()) {
            Some(missing) if widen(random, &mut content, missing) => {
                return image::write::<Cabling>(&content);
            }
            Some(_) => objects += objects / 8 + 1,
            None => objects -= objects / 8,
        }
    }
}

/// Makes plain words wider, so that the image grows by `missing` bytes, if they can.
fn widen(random: &mut Random, content: &mut Content, mut missing: usize) -> bool {
    for object in &mut content.objects {
        let header = object.header;
        for (position, word) in (1..).zip(&mut object.body) {
            if missing > 0 && !Cabling::is_reference(header, position) {
                let old = numbers::length(*word);
                let new = (old + missing).min(numbers::length(u32::MAX));
                *word = number_of_length(random, new);
                missing -= new - old;
            }
        }
    }
    missing == 0
}

fn number_of_length(random: &mut Random, length: usize) -> u32 {
    let low = if length == 1 {
        0
    } else {
        1 << (7 * (length - 1))
    };
    let high = (1 << (7 * length).min(32)) - 1;
    random.between(low, high) as u32
}

/// A campus of these kinds with some objects more than topocheck has space for, and how many
/// of its first objects there is space for.
pub fn edge_of_space(random: &mut Random, kinds: &[Kind]) -> (Content, usize) {
    let mut objects = 2_000;
    loop {
        let content = random_campus(random, kinds, Style::Small, objects);
        let fitting = fitting_objects(&content);
        if fitting + 2 <= content.objects.len() {
            return (content, fitting);
        }
        objects += objects / 4;
    }
}

fn fitting_objects(content: &Content) -> usize {
    let mut placement = Placement::new();
    content
        .objects
        .iter()
        .take_while(|object| {
            placement.place(Cabling::size(object.header));
            !placement.no_space()
        })
        .count()
}

/// A campus as planners keep it: rooms with racks, panels, ports, and cables between ports.
pub fn typical_campus(random: &mut Random, ports: usize) -> Content {
    let mut site = Site::new();
    for index in 0..ports {
        site.add_port(index);
    }
    for _ in 0..ports * 2 / 5 {
        site.add_cable(random);
    }
    canonical(&site.model)
}

/// The image of the greatest typical campus that takes at most `longest` bytes.
pub fn typical_image(seed: u64, longest: usize) -> Vec<u8> {
    let image = |ports| {
        let campus = typical_campus(&mut Random::new(seed), ports);
        image::write::<Cabling>(&campus)
    };
    let mut low = 0;
    let mut high = longest;
    while low < high {
        let middle = (low + high).div_ceil(2);
        if image(middle).len() <= longest {
            low = middle;
        } else {
            high = middle - 1;
        }
    }
    image(low)
}

const PORTS_OF_A_PANEL: usize = 24;
const PANELS_OF_A_RACK: usize = 8;
const RACKS_OF_A_ROOM: usize = 4;

// Indexes in bodies, one below the positions of docs/LAYOUTS.md.
const FIRST_CHILD: usize = 0;
const NEXT_SIBLING: usize = 1;
const NEXT_PORT: usize = 0;
const CABLE_OF_PORT: usize = 3;
const NEXT_CABLE: usize = 4;

/// A campus while it is built. Every reference names an object of the fitting kind.
struct Site {
    model: Content,
    room: u32,
    rack: u32,
    panel: u32,
    port: u32,
    cable: u32,
    /// Ports without a cable.
    open_ports: Vec<u32>,
}

impl Site {
    fn new() -> Self {
        Site {
            model: Content {
                roots: vec![NIL; 2],
                objects: Vec::new(),
            },
            room: NIL,
            rack: NIL,
            panel: NIL,
            port: NIL,
            cable: NIL,
            open_ports: Vec::new(),
        }
    }

    fn add(&mut self, kind: Kind, body: Vec<u32>) -> u32 {
        let header = kind.header();
        self.model.objects.push(Object { header, body });
        self.model.objects.len() as u32
    }

    /// Sets a word of the object `owner`.
    fn set(&mut self, owner: u32, index: usize, reference: u32) {
        self.model.objects[owner as usize - 1].body[index] = reference;
    }

    /// Hangs `child` behind its sibling, or below its owner if it is the first.
    fn hang(&mut self, owner: u32, sibling: u32, next: usize, child: u32) {
        if sibling == NIL {
            self.set(owner, FIRST_CHILD, child);
        } else {
            self.set(sibling, next, child);
        }
    }

    fn add_room(&mut self, index: usize) {
        let room = self.add(Kind::Room, vec![NIL, NIL, 100 + index as u32]);
        if self.room == NIL {
            self.model.roots[0] = room;
        } else {
            self.set(self.room, NEXT_SIBLING, room);
        }
        self.room = room;
        self.rack = NIL;
    }

    fn add_rack(&mut self, index: usize) {
        if index.is_multiple_of(RACKS_OF_A_ROOM) {
            self.add_room(index / RACKS_OF_A_ROOM);
        }
        let rack = self.add(Kind::Rack, vec![NIL, NIL, self.room, 42]);
        self.hang(self.room, self.rack, NEXT_SIBLING, rack);
        self.rack = rack;
        self.panel = NIL;
    }

    fn add_panel(&mut self, index: usize) {
        if index.is_multiple_of(PANELS_OF_A_RACK) {
            self.add_rack(index / PANELS_OF_A_RACK);
        }
        let position = (index % PANELS_OF_A_RACK) as u32 + 1;
        let panel = self.add(Kind::Panel, vec![NIL, NIL, self.rack, position]);
        self.hang(self.rack, self.panel, NEXT_SIBLING, panel);
        self.panel = panel;
        self.port = NIL;
    }

    fn add_port(&mut self, index: usize) {
        if index.is_multiple_of(PORTS_OF_A_PANEL) {
            self.add_panel(index / PORTS_OF_A_PANEL);
        }
        let number = (index % PORTS_OF_A_PANEL) as u32 + 1;
        let port = self.add(Kind::Port, vec![NIL, self.panel, number, NIL]);
        self.hang(self.panel, self.port, NEXT_PORT, port);
        self.port = port;
        self.open_ports.push(port);
    }

    /// Joins two ports that have no cable yet.
    fn add_cable(&mut self, random: &mut Random) {
        let one = self.open_port(random);
        let other = self.open_port(random);
        let length = random.between(100, 9_999) as u32;
        let category = random.between(5, 8) as u32;
        let cable = self.add(Kind::Cable, vec![one, other, length, category, NIL]);
        self.set(one, CABLE_OF_PORT, cable);
        self.set(other, CABLE_OF_PORT, cable);
        if self.cable == NIL {
            self.model.roots[1] = cable;
        } else {
            self.set(self.cable, NEXT_CABLE, cable);
        }
        self.cable = cable;
    }

    fn open_port(&mut self, random: &mut Random) -> u32 {
        let index = random.below(self.open_ports.len());
        self.open_ports.swap_remove(index)
    }
}

#[cfg(test)]
mod tests {
    use super::*;

    fn assert_sound(content: &Content) {
        let image = image::write::<Cabling>(content);
        assert_eq!(image::read::<Cabling>(&image).as_ref(), Ok(content));
        assert_eq!(&canonical(content), content);
    }

    #[test]
    fn random_campuses_are_sound() {
        let mut random = Random::new(1);
        for objects in 0..60 {
            for style in Style::ALL {
                let content = random_campus(&mut random, &Kind::ALL, style, objects);
                assert_sound(&content);
                assert_sound(&first_objects(&content, objects / 3));
            }
        }
    }

    #[test]
    fn typical_campuses_are_sound_and_as_long_as_wanted() {
        assert_sound(&typical_campus(&mut Random::new(1), 500));
        let length = typical_image(1, 8_192).len();
        assert!((8_100..=8_192).contains(&length), "{length} bytes");
    }

    #[test]
    fn images_of_exact_length() {
        let mut random = Random::new(1);
        for style in Style::ALL {
            for length in [500, 8_192] {
                let image = image_of_length(&mut random, style, length);
                assert_eq!(image.len(), length);
                assert!(image::check::<Cabling>(&image).is_ok());
            }
        }
    }

    #[test]
    fn objects_are_numbered_as_they_are_met() {
        let rack = |body: [u32; 4]| Object {
            header: Kind::Rack.header(),
            body: body.to_vec(),
        };
        let model = Content {
            roots: vec![NIL, 4, NIL],
            objects: vec![
                rack([1, 4, NIL, 10]),
                rack([NIL, NIL, NIL, 20]),
                rack([2, 1, 3, 30]),
                rack([3, NIL, 3, 40]),
            ],
        };
        let content = Content {
            roots: vec![NIL, 1],
            objects: vec![
                rack([2, NIL, 2, 40]),
                rack([3, 4, 2, 30]),
                rack([NIL, NIL, NIL, 20]),
                rack([4, 1, NIL, 10]),
            ],
        };
        assert_eq!(canonical(&model), content);
    }
}
