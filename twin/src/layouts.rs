//! What a header word means (docs/LAYOUTS.md).

/// The positions and sizes of objects, told from the header word alone.
pub trait Layout {
    /// The number that tells images of this layout from others.
    fn sign() -> u32;

    /// A header that is legal.
    fn sample() -> u32;

    /// Whether an object may have this header.
    fn legal(header: u32) -> bool;

    /// The words of the object, header included; 0 if the header is not legal.
    fn size(header: u32) -> u32;

    /// Whether `position` holds a reference.
    fn is_reference(header: u32, position: u32) -> bool;

    /// Whether `position` holds a plain word.
    #[inline]
    fn is_plain(header: u32, position: u32) -> bool {
        (1..Self::size(header)).contains(&position) && !Self::is_reference(header, position)
    }
}

/// The layout whose headers count references and plain words.
pub enum Counted {}

/// The most words in a body.
const LONGEST_BODY: u32 = 63;

impl Counted {
    #[inline]
    fn references(header: u32) -> u32 {
        header % 256
    }

    #[inline]
    fn plain(header: u32) -> u32 {
        header / 256 % 256
    }

    #[inline]
    fn body(header: u32) -> u32 {
        Counted::references(header) + Counted::plain(header)
    }
}

impl Layout for Counted {
    #[inline]
    fn sign() -> u32 {
        1
    }

    #[inline]
    fn sample() -> u32 {
        0
    }

    #[inline]
    fn legal(header: u32) -> bool {
        Counted::body(header) <= LONGEST_BODY
    }

    #[inline]
    fn size(header: u32) -> u32 {
        if Counted::legal(header) {
            1 + Counted::body(header)
        } else {
            0
        }
    }

    #[inline]
    fn is_reference(header: u32, position: u32) -> bool {
        Counted::legal(header) && (1..=Counted::references(header)).contains(&position)
    }
}

/// The layout of a campus with its cables.
pub enum Cabling {}

/// The kinds of objects on a campus.
#[derive(Clone, Copy, Debug, PartialEq, Eq)]
pub enum Kind {
    Room,
    Rack,
    Panel,
    Port,
    Cable,
    Label,
}

impl Kind {
    /// All kinds, in the order of their headers.
    pub const ALL: [Kind; 6] = [
        Kind::Room,
        Kind::Rack,
        Kind::Panel,
        Kind::Port,
        Kind::Cable,
        Kind::Label,
    ];

    /// The kind of an object with this header, if the header is legal.
    #[inline]
    pub fn of(header: u32) -> Option<Kind> {
        match header % 256 {
            1 => Some(Kind::Room),
            2 => Some(Kind::Rack),
            3 => Some(Kind::Panel),
            4 => Some(Kind::Port),
            5 => Some(Kind::Cable),
            6 => Some(Kind::Label),
            _ => None,
        }
    }

    /// The header of this kind whose free bits are 0.
    #[inline]
    pub fn header(self) -> u32 {
        match self {
            Kind::Room => 1,
            Kind::Rack => 2,
            Kind::Panel => 3,
            Kind::Port => 4,
            Kind::Cable => 5,
            Kind::Label => 6,
        }
    }

    #[inline]
    fn size(self) -> u32 {
        match self {
            Kind::Room => 4,
            Kind::Rack | Kind::Panel | Kind::Port => 5,
            Kind::Cable => 6,
            Kind::Label => 3,
        }
    }

    #[inline]
    fn is_reference(self, position: u32) -> bool {
        match self {
            Kind::Room => matches!(position, 1 | 2),
            Kind::Rack | Kind::Panel => matches!(position, 1..=3),
            Kind::Port => matches!(position, 1 | 2 | 4),
            Kind::Cable => matches!(position, 1 | 2 | 5),
            Kind::Label => false,
        }
    }
}

impl Layout for Cabling {
    #[inline]
    fn sign() -> u32 {
        2
    }

    #[inline]
    fn sample() -> u32 {
        Kind::Label.header()
    }

    #[inline]
    fn legal(header: u32) -> bool {
        Kind::of(header).is_some()
    }

    #[inline]
    fn size(header: u32) -> u32 {
        Kind::of(header).map_or(0, Kind::size)
    }

    #[inline]
    fn is_reference(header: u32, position: u32) -> bool {
        Kind::of(header).is_some_and(|kind| kind.is_reference(position))
    }
}

#[cfg(test)]
mod tests {
    use super::*;

    fn references<L: Layout>(header: u32) -> Vec<u32> {
        (0..300).filter(|&p| L::is_reference(header, p)).collect()
    }

    fn obeys_the_laws<L: Layout>() {
        assert!((1..=127).contains(&L::sign()));
        assert!(L::legal(L::sample()));
        for header in (0..=0xFFFF).chain(0xFFFF_0000..=0xFFFF_FFFF) {
            let size = L::size(header);
            assert_eq!(L::legal(header), size != 0);
            assert!(size <= 64);
            for position in 0..=65 {
                let sorts = [
                    L::is_reference(header, position),
                    L::is_plain(header, position),
                ];
                let of_one_sort = sorts[0] != sorts[1];
                assert_eq!(of_one_sort, (1..size).contains(&position));
                assert_ne!(sorts, [true, true]);
            }
        }
    }

    #[test]
    fn laws() {
        obeys_the_laws::<Counted>();
        obeys_the_laws::<Cabling>();
    }

    #[test]
    fn counted_table() {
        let table = [
            (0, 1, 0),
            (1, 2, 1),
            (63, 64, 63),
            (64, 0, 0),
            (256, 2, 0),
            (318, 64, 62),
            (319, 0, 0),
        ];
        for (header, size, count) in table {
            assert_eq!(Counted::legal(header), size > 0, "header {header}");
            assert_eq!(Counted::size(header), size, "header {header}");
            assert_eq!(
                references::<Counted>(header),
                (1..=count).collect::<Vec<_>>()
            );
        }
    }

    #[test]
    fn cabling_tables() {
        for (header, size) in [(0, 0), (1, 4), (6, 3), (7, 0), (256, 0), (257, 4)] {
            assert_eq!(Cabling::legal(header), size > 0, "header {header}");
            assert_eq!(Cabling::size(header), size, "header {header}");
        }
        let kinds: [(u32, u32, &[u32]); 6] = [
            (1, 4, &[1, 2]),
            (2, 5, &[1, 2, 3]),
            (3, 5, &[1, 2, 3]),
            (4, 5, &[1, 2, 4]),
            (5, 6, &[1, 2, 5]),
            (6, 3, &[]),
        ];
        for (header, size, positions) in kinds {
            assert_eq!(Cabling::size(header), size);
            assert_eq!(references::<Cabling>(header), positions);
        }
    }

    #[test]
    fn kinds_and_headers_agree() {
        for kind in Kind::ALL {
            assert_eq!(Kind::of(kind.header()), Some(kind));
            assert_eq!(Kind::of(kind.header() | 0xABCD_EF00), Some(kind));
        }
    }
}
