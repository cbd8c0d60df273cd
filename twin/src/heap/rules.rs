//! What every call finds and leaves (docs/HEAP.md), as a check for tests.

use super::{place_of, Heap, Phase, Places, RegionKind, CARD, CARDS, REGION};
use crate::layouts::Layout;
use crate::stores::Store;

/// Panics if the heap breaks a rule.
pub fn check<L: Layout, S: Store>(heap: &Heap<L, S>) {
    let objects = tiles(heap);
    regions_are_sound(heap);
    references_name_objects(heap, &objects);
    other_regions_are_remembered(heap);
    marks_are_sound(heap, &objects);
    live_counts_are_sound(heap);
}

fn members(places: &Places) -> impl Iterator<Item = usize> + '_ {
    let mut from = 0;
    std::iter::from_fn(move || {
        let place = places.first(from)?;
        from = place + 1;
        Some(place)
    })
}

/// The places of all objects, which tile the words below the fills.
fn tiles<L: Layout, S: Store>(heap: &Heap<L, S>) -> Places {
    let mut objects = Places::new();
    for (index, region) in heap.regions.iter().enumerate() {
        let mut end = index * REGION;
        for place in heap.objects(index) {
            assert_eq!(place, end);
            assert!(L::legal(heap.word(place)));
            objects.insert(place);
            end += heap.size(place);
        }
        assert_eq!(end, index * REGION + region.fill as usize);
    }
    objects
}

fn regions_are_sound<L: Layout, S: Store>(heap: &Heap<L, S>) {
    assert!(heap.regions.is_empty() || heap.free_regions() >= 1);
    for (index, region) in heap.regions.iter().enumerate() {
        if region.kind == RegionKind::Open {
            assert_eq!(heap.open_region(), Some(index));
        }
        if region.kind != RegionKind::Free {
            assert!((1..=REGION as u32).contains(&region.fill));
            assert!(region.live <= region.fill);
            continue;
        }
        assert_eq!((region.fill, region.live), (0, 0));
        assert_eq!(region.table.first(0), None);
        let cards = (index * CARDS, (index + 1) * CARDS);
        assert_eq!(heap.dirty.count(cards.0, cards.1), 0);
        for other in &heap.regions {
            assert_eq!(other.table.count(cards.0, cards.1), 0);
        }
    }
}

fn references_name_objects<L: Layout, S: Store>(heap: &Heap<L, S>, objects: &Places) {
    for place in heap.roots.into_iter().filter_map(place_of) {
        assert!(objects.contains(place));
    }
    for place in members(objects) {
        for referent in heap.referents(place) {
            assert!(objects.contains(referent));
        }
    }
}

fn other_regions_are_remembered<L: Layout, S: Store>(heap: &Heap<L, S>) {
    for own in 0..heap.regions.len() {
        for place in heap.objects(own) {
            let card = place / CARD;
            for other in heap.referents(place).map(|referent| referent / REGION) {
                let remembered = heap.regions[other].table.contains(card);
                assert!(other == own || remembered || heap.dirty.contains(card));
            }
        }
    }
}

fn marks_are_sound<L: Layout, S: Store>(heap: &Heap<L, S>, objects: &Places) {
    assert!(members(&heap.marked).all(|place| objects.contains(place)));
    assert!(members(&heap.pending).all(|place| heap.marked.contains(place)));
    assert!(heap.phase == Phase::Marking || heap.pending.first(0).is_none());
    assert!(heap.phase != Phase::Idle || heap.marked.first(0).is_none());
}

fn live_counts_are_sound<L: Layout, S: Store>(heap: &Heap<L, S>) {
    if heap.phase != Phase::Marked {
        return;
    }
    for (index, region) in heap.regions.iter().enumerate() {
        let live: usize = heap
            .objects(index)
            .filter(|&place| heap.marked.contains(place))
            .map(|place| heap.size(place))
            .sum();
        assert_eq!(region.live as usize, live);
    }
}
