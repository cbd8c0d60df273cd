use super::*;
use crate::calls::Refusal;
use crate::layouts::{Cabling, Counted};
use crate::lives::{Life, Scope};
use crate::stores::{ByteStore, WordStore};

type Words = Heap<Counted, WordStore>;

/// Counted headers: of one reference, of 63, of one plain word, of 63.
const ONE: u32 = 1;
const FULL: u32 = 63;
const PLAIN: u32 = 1 << 8;
const FULL_PLAIN: u32 = 63 << 8;

/// A heap on so many regions of words that are not 0.
fn heap(regions: usize) -> Words {
    Heap::new(WordStore::new(vec![0xABCD_EF01; regions * REGION]))
}

/// Everything that a heap holds.
type State = (
    (Vec<u32>, Vec<Region>, [u32; ROOTS], Cards),
    (Places, Places, Phase, usize, u32),
);

fn state<L: Layout>(heap: &Heap<L, WordStore>) -> State {
    let words = heap.store.clone().into_words();
    (
        (words, heap.regions.clone(), heap.roots, heap.dirty.clone()),
        (
            heap.marked.clone(),
            heap.pending.clone(),
            heap.phase,
            heap.last_opened,
            heap.openings,
        ),
    )
}

fn fills(heap: &Words) -> Vec<u32> {
    heap.regions().iter().map(|region| region.fill).collect()
}

fn kinds(heap: &Words) -> Vec<RegionKind> {
    heap.regions().iter().map(|region| region.kind).collect()
}

fn dirty(heap: &Words) -> Vec<usize> {
    (0..MOST_REGIONS * CARDS)
        .filter(|&card| heap.dirty().contains(card))
        .collect()
}

fn table(heap: &Words, region: usize) -> Vec<usize> {
    (0..MOST_REGIONS * CARDS)
        .filter(|&card| heap.regions()[region].table.contains(card))
        .collect()
}

fn mark_until_done(heap: &mut Words) -> usize {
    let mut scans = 0;
    while heap.mark() == Ok(Scanning::Scanned) {
        scans += 1;
    }
    assert_eq!(heap.phase(), Phase::Marked);
    scans
}

#[test]
fn making() {
    let counts = [
        (0, 0),
        (1_023, 0),
        (1_024, 1),
        (2_047, 1),
        (2_048, 2),
        (32 * 1_024, 32),
        (33 * 1_024 - 1, 32),
        (40 * 1_024, 32),
    ];
    for (words, regions) in counts {
        let heap: Words = Heap::new(WordStore::new(vec![7; words]));
        assert_eq!(heap.regions(), vec![Region::new(); regions]);
        assert_eq!(heap.roots(), &[NIL; ROOTS]);
        assert_eq!(heap.dirty(), &Cards::new());
        assert_eq!(heap.marked(), &Places::new());
        assert_eq!(heap.pending(), &Places::new());
        assert_eq!(heap.phase(), Phase::Idle);
        assert_eq!(heap.words_in_use(), 0);
        rules::check(&heap);
        assert_eq!(heap.into_store().into_words(), vec![7; words]);
    }
}

#[test]
fn no_space_without_two_free_regions() {
    for regions in [0, 1] {
        let mut heap = heap(regions);
        let before = state(&heap);
        assert_eq!(heap.new_object(0, 0), Err(Refusal::NoSpace));
        assert_eq!(heap.begin(), Ok(()));
        assert_eq!(heap.mark(), Ok(Scanning::Done));
        assert_eq!(heap.refine(), Refining::Clean);
        assert_eq!(heap.new_object(63, 0), Err(Refusal::NoSpace));
        assert_eq!(state(&heap).0, before.0);
    }
}

/// The case at the limit in docs/HEAP.md, up to done.
#[test]
fn two_regions() {
    let mut heap = heap(2);
    for _ in 0..16 {
        assert_eq!(heap.new_object(0, FULL), Ok(()));
    }
    assert_eq!(fills(&heap), [1_024, 0]);
    let full = state(&heap);
    assert_eq!(heap.new_object(0, FULL), Err(Refusal::NoSpace));
    assert_eq!(state(&heap), full);
    assert_eq!(kinds(&heap), [RegionKind::Open, RegionKind::Free]);
    assert_eq!(heap.mark(), Err(Refusal::NotMarking));
    assert_eq!(heap.begin(), Ok(()));
    assert_eq!(heap.begin(), Err(Refusal::AlreadyMarking));
    assert!(heap.pending().contains(960));
    assert_eq!(heap.pending().count(0, REGION), 1);
    assert_eq!(heap.mark(), Ok(Scanning::Scanned));
    assert_eq!(heap.mark(), Ok(Scanning::Done));
    assert_eq!(heap.mark(), Err(Refusal::NotMarking));
    let region = &heap.regions()[0];
    assert_eq!((region.live, region.fill), (64, 1_024));
    rules::check(&heap);
}

#[test]
fn placing_closes_and_opens() {
    let mut heap = heap(4);
    for _ in 0..15 {
        assert_eq!(heap.new_object(0, FULL), Ok(()));
    }
    assert_eq!(heap.new_object(1, 62), Ok(()));
    assert_eq!(fills(&heap), [1_023, 0, 0, 0]);
    assert_eq!(heap.new_object(2, ONE), Ok(()));
    assert_eq!(heap.roots()[2], 1_025);
    assert_eq!(fills(&heap), [1_023, 2, 0, 0]);
    for _ in 0..16 {
        assert_eq!(heap.new_object(3, FULL_PLAIN), Ok(()));
    }
    assert_eq!(fills(&heap), [1_023, 962, 64, 0]);
    use RegionKind::{Closed, Free, Open};
    assert_eq!(kinds(&heap), [Closed, Closed, Open, Free]);
    let stamps: Vec<u32> = heap.regions().iter().map(|region| region.stamp).collect();
    assert_eq!(stamps, [0, 1, 2, 0]);
    assert_eq!(heap.words_in_use(), 1_023 + 962 + 64);
    rules::check(&heap);
}

#[test]
fn a_full_region_stays_open_until_another_opens() {
    let mut heap = heap(3);
    for _ in 0..16 {
        assert_eq!(heap.new_object(0, FULL), Ok(()));
    }
    assert_eq!(heap.open_region(), Some(0));
    assert_eq!(heap.new_object(0, 0), Ok(()));
    assert_eq!(heap.open_region(), Some(1));
    assert_eq!(heap.regions()[0].kind, RegionKind::Closed);
}

#[test]
fn stamps_stop_at_the_greatest_word() {
    let mut heap = heap(4);
    heap.openings = u32::MAX - 1;
    for _ in 0..33 {
        assert_eq!(heap.new_object(0, FULL), Ok(()));
    }
    let stamps: Vec<u32> = heap.regions().iter().map(|region| region.stamp).collect();
    assert_eq!(stamps, [u32::MAX - 1, u32::MAX, u32::MAX, 0]);
}

#[test]
fn opening_goes_round_from_the_last_one() {
    let mut heap = heap(4);
    heap.last_opened = 3;
    assert_eq!(heap.open_first_free(), Some(3));
    assert_eq!(heap.open_first_free(), Some(0));
    heap.regions[3].kind = RegionKind::Free;
    assert_eq!(heap.open_first_free(), Some(1));
    heap.last_opened = 3;
    assert_eq!(heap.open_first_free(), Some(3));
}

#[test]
fn edits_of_plain_words() {
    let mut heap = heap(2);
    assert_eq!(heap.new_object(4, 1 << 16 | 2 << 8 | 1), Ok(()));
    assert_eq!(heap.head(4), Ok(1 << 16 | 2 << 8 | 1));
    assert_eq!(heap.peek(4, 2), Ok(0));
    assert_eq!(heap.put(4, 3, 99), Ok(()));
    assert_eq!(heap.peek(4, 3), Ok(99));
    assert_eq!(heap.peek(4, 2), Ok(0));
    let wrong = [0, 1, 4, 64, 256 + 2, u32::MAX];
    for position in wrong {
        assert_eq!(heap.put(4, position, 5), Err(Refusal::WrongPosition));
        assert_eq!(heap.peek(4, position), Err(Refusal::WrongPosition));
    }
    assert_eq!(fills(&heap), [4, 0]);
    assert_eq!(heap.store().clone().into_words()[..4], [66_049, 0, 0, 99]);
}

#[test]
fn edits_of_references() {
    let mut heap = heap(2);
    assert_eq!(heap.same(0, 1), Ok(true));
    assert_eq!(heap.new_object(0, PLAIN | 2), Ok(()));
    assert_eq!(heap.new_object(1, 0), Ok(()));
    assert_eq!(heap.same(0, 1), Ok(false));
    assert_eq!(heap.set(0, 2, 1), Ok(()));
    assert_eq!(heap.get(0, 2, 63), Ok(()));
    assert_eq!(heap.same(63, 1), Ok(true));
    assert_eq!(heap.get(0, 1, 63), Ok(()));
    assert_eq!(heap.head(63), Err(Refusal::RootNil));
    assert_eq!(heap.set(0, 2, 63), Ok(()));
    assert_eq!(heap.get(0, 2, 1), Ok(()));
    assert_eq!(heap.same(1, 2), Ok(true));
    for position in [0, 3, 4, 64, u32::MAX] {
        assert_eq!(heap.set(0, position, 1), Err(Refusal::WrongPosition));
        assert_eq!(heap.get(0, position, 1), Err(Refusal::WrongPosition));
    }
    assert_eq!(heap.copy(0, 9), Ok(()));
    assert_eq!(heap.clear(0), Ok(()));
    assert_eq!(heap.roots()[9], 1);
    assert_eq!(heap.copy(0, 9), Ok(()));
    assert_eq!(heap.roots(), &[NIL; ROOTS]);
    assert_eq!(dirty(&heap), []);
}

#[test]
fn refusals_come_in_order() {
    let mut heap = heap(1);
    assert_eq!(heap.new_object(64, 64), Err(Refusal::RootAbove63));
    assert_eq!(heap.new_object(63, 64), Err(Refusal::HeaderNotLegal));
    assert_eq!(heap.new_object(63, 0), Err(Refusal::NoSpace));
    for (i, k) in [(64, 0), (0, 64), (u32::MAX, u32::MAX)] {
        assert_eq!(heap.set(i, 0, k), Err(Refusal::RootAbove63));
        assert_eq!(heap.get(i, 0, k), Err(Refusal::RootAbove63));
        assert_eq!(heap.copy(i, k), Err(Refusal::RootAbove63));
        assert_eq!(heap.same(i, k), Err(Refusal::RootAbove63));
    }
    assert_eq!(heap.set(0, 0, 63), Err(Refusal::RootNil));
    assert_eq!(heap.get(0, 0, 63), Err(Refusal::RootNil));
    assert_eq!(heap.put(64, 0, 64), Err(Refusal::RootAbove63));
    assert_eq!(heap.put(63, 0, 64), Err(Refusal::RootNil));
    assert_eq!(heap.peek(64, 0), Err(Refusal::RootAbove63));
    assert_eq!(heap.peek(63, 0), Err(Refusal::RootNil));
    assert_eq!(heap.clear(64), Err(Refusal::RootAbove63));
    assert_eq!(heap.head(64), Err(Refusal::RootAbove63));
    assert_eq!(heap.head(0), Err(Refusal::RootNil));
}

#[test]
fn new_objects_are_marked_and_counted_but_in_idle() {
    let mut heap = heap(3);
    assert_eq!(heap.new_object(0, FULL), Ok(()));
    assert_eq!(heap.regions()[0].live, 0);
    assert_eq!(heap.begin(), Ok(()));
    assert_eq!(heap.new_object(1, ONE), Ok(()));
    assert!(heap.marked().contains(64) && !heap.pending().contains(64));
    assert_eq!(heap.regions()[0].live, 2);
    assert_eq!(mark_until_done(&mut heap), 1);
    assert_eq!(heap.regions()[0].live, 66);
    assert_eq!(heap.new_object(1, PLAIN), Ok(()));
    assert!(heap.marked().contains(66));
    assert_eq!(heap.regions()[0].live, 68);
    assert_eq!(heap.clear(0), Ok(()));
    assert_eq!(heap.begin(), Ok(()));
    assert_eq!(heap.marked().first(0), Some(66));
    assert_eq!(heap.regions()[0].live, 68);
    assert_eq!(mark_until_done(&mut heap), 1);
    assert_eq!(heap.regions()[0].live, 2);
}

/// The slip of marking the new referent in set: the old one is marked.
#[test]
fn set_marks_the_old_referent() {
    let mut heap = heap(2);
    assert_eq!(heap.new_object(1, PLAIN), Ok(()));
    assert_eq!(heap.new_object(0, ONE), Ok(()));
    assert_eq!(heap.set(0, 1, 1), Ok(()));
    assert_eq!(heap.clear(1), Ok(()));
    assert_eq!(heap.begin(), Ok(()));
    assert_eq!(heap.get(0, 1, 1), Ok(()));
    assert!(!heap.marked().contains(0));
    assert_eq!(heap.set(0, 1, 9), Ok(()));
    assert!(heap.marked().contains(0) && heap.pending().contains(0));
    assert_eq!(mark_until_done(&mut heap), 2);
    assert_eq!(heap.regions()[0].live, 4);
}

/// The new referent stays as it is, and outside marking the old one too.
#[test]
fn set_marks_nothing_else() {
    let mut heap = heap(2);
    assert_eq!(heap.new_object(0, 2), Ok(()));
    assert_eq!(heap.new_object(1, ONE), Ok(()));
    assert_eq!(heap.set(0, 2, 1), Ok(()));
    assert_eq!(heap.set(1, 1, 1), Ok(()));
    assert_eq!(heap.clear(1), Ok(()));
    assert_eq!(heap.begin(), Ok(()));
    assert_eq!(heap.get(0, 2, 1), Ok(()));
    assert_eq!(heap.set(0, 1, 1), Ok(()));
    assert!(!heap.marked().contains(3));
    assert_eq!(mark_until_done(&mut heap), 2);
    let before = heap.marked().clone();
    assert_eq!(heap.set(1, 1, 9), Ok(()));
    assert_eq!(heap.marked(), &before);
    assert_eq!(heap.pending().first(0), None);
}

/// Two full regions and an object in a third: root 0 names an object across cards 0 and 1 of
/// region 0, root 1 one of region 1, root 2 that of region 2.
fn three_regions() -> Words {
    let mut heap = heap(4);
    assert_eq!(heap.new_object(9, FULL_PLAIN - PLAIN), Ok(()));
    assert_eq!(heap.new_object(0, FULL), Ok(()));
    for _ in 0..30 {
        assert_eq!(heap.new_object(1, FULL), Ok(()));
    }
    assert_eq!(heap.new_object(2, FULL), Ok(()));
    assert_eq!(fills(&heap), [1_023, 1_024, 64, 0]);
    heap
}

/// The slip of dirtying the card of the position: it is that of the header.
#[test]
fn set_dirties_the_card_of_the_header() {
    let mut heap = three_regions();
    assert_eq!(heap.set(0, 1, 0), Ok(()));
    assert_eq!(heap.set(0, 1, 9), Ok(()));
    assert_eq!(heap.set(0, 1, 63), Ok(()));
    assert_eq!(dirty(&heap), []);
    assert_eq!(heap.set(0, 60, 2), Ok(()));
    assert_eq!(dirty(&heap), [0]);
    assert_eq!(heap.refine(), Refining::Refined);
    assert_eq!(dirty(&heap), []);
    assert_eq!(table(&heap, 2), [0]);
    assert_eq!(heap.refine(), Refining::Clean);
    rules::check(&heap);
}

#[test]
fn refine_takes_the_lowest_card_and_only_adds() {
    let mut heap = three_regions();
    assert_eq!(heap.set(1, 5, 2), Ok(()));
    assert_eq!(heap.set(1, 6, 0), Ok(()));
    assert_eq!(heap.set(0, 7, 1), Ok(()));
    assert_eq!(heap.set(0, 8, 9), Ok(()));
    assert_eq!(dirty(&heap), [0, 31]);
    assert_eq!(heap.refine(), Refining::Refined);
    assert_eq!(dirty(&heap), [31]);
    assert_eq!(heap.set(0, 7, 2), Ok(()));
    assert_eq!(heap.refine(), Refining::Refined);
    assert_eq!(heap.refine(), Refining::Refined);
    assert_eq!(heap.refine(), Refining::Clean);
    let tables = [0, 1, 2, 3].map(|region| table(&heap, region));
    assert_eq!(tables, [vec![31], vec![0], vec![0, 31], vec![]]);
    rules::check(&heap);
}

/// The slip of skipping unmarked objects: refine takes them too.
#[test]
fn refine_enters_cards_of_unmarked_objects() {
    let mut heap = three_regions();
    assert_eq!(heap.set(0, 60, 2), Ok(()));
    assert_eq!(heap.clear(0), Ok(()));
    assert_eq!(heap.begin(), Ok(()));
    mark_until_done(&mut heap);
    assert!(!heap.marked().contains(63));
    assert_eq!(heap.refine(), Refining::Refined);
    assert_eq!(table(&heap, 2), [0]);
}

/// Refused calls alter nothing, and words outside the regions never change.
fn refusals_alter_nothing<L: Layout>(life: &Life) {
    let mut heap = Heap::<L, _>::new(WordStore::new(life.words.clone()));
    for &call in &life.calls {
        let before = state(&heap);
        if let Some(Answer::Refused(_)) = heap.call(call) {
            assert_eq!(state(&heap), before);
        }
    }
    let end = heap.regions().len() * REGION;
    let words = heap.into_store().into_words();
    assert_eq!(words[end..], life.words[end..]);
}

#[test]
fn refused_calls_alter_nothing() {
    let small = |life: &Life| life.words.len() < 4 * REGION;
    let lives = (0..200).map(|seed| Life::new(seed, Scope::Steps));
    for life in lives.filter(small) {
        if life.sign == Counted::sign() {
            refusals_alter_nothing::<Counted>(&life);
        } else {
            refusals_alter_nothing::<Cabling>(&life);
        }
    }
}

#[test]
fn heaps_on_bytes_answer_alike() {
    for life in (0..60).map(|seed| Life::new(2 * seed, Scope::Steps)) {
        let mut bytes: Vec<u8> = life.words.iter().flat_map(|w| w.to_le_bytes()).collect();
        bytes.push(0x5A);
        let mut on_words = Words::new(WordStore::new(life.words));
        let mut on_bytes = Heap::<Counted, _>::new(ByteStore::new(bytes));
        for call in life.calls {
            assert_eq!(on_words.call(call), on_bytes.call(call));
        }
        assert_eq!(on_words.regions(), on_bytes.regions());
        assert_eq!(on_words.marked(), on_bytes.marked());
        assert_eq!(on_bytes.into_store().into_bytes().last(), Some(&0x5A));
    }
}
