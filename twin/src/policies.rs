//! Orders on regions, and the choice of the first ones (docs/PARTS.md, "Policies").

/// What a policy knows of a region.
#[derive(Clone, Copy, Debug, PartialEq, Eq)]
pub struct Summary {
    pub region: u32,
    pub live: u32,
    pub fill: u32,
    pub stamp: u32,
}

/// A fixed order on summaries: none comes before itself, of two with different regions exactly one
/// comes before the other, and the order is transitive.
pub trait Policy {
    /// Whether `one` comes before `other`.
    fn comes_before(&self, one: &Summary, other: &Summary) -> bool;
}

/// Fewer live words first, then the lower region.
#[derive(Clone, Copy, Debug, PartialEq, Eq)]
pub struct GarbageFirst;

impl Policy for GarbageFirst {
    #[inline]
    fn comes_before(&self, one: &Summary, other: &Summary) -> bool {
        (one.live, one.region) < (other.live, other.region)
    }
}

/// The smaller stamp first, then the lower region.
#[derive(Clone, Copy, Debug, PartialEq, Eq)]
pub struct OldestFirst;

impl Policy for OldestFirst {
    #[inline]
    fn comes_before(&self, one: &Summary, other: &Summary) -> bool {
        (one.stamp, one.region) < (other.stamp, other.region)
    }
}

/// Puts the first `count` candidates, or all if they are fewer, to the front in the order of the
/// policy, and answers how many these are. The sorts of the standard library may panic if the
/// order leaves open how candidates of one region stand; this always ends.
#[inline]
pub fn choose<P: Policy + ?Sized>(policy: &P, candidates: &mut [Summary], count: usize) -> usize {
    let chosen = count.min(candidates.len());
    for place in 0..chosen {
        let mut first = place;
        for index in place + 1..candidates.len() {
            if policy.comes_before(&candidates[index], &candidates[first]) {
                first = index;
            }
        }
        candidates.swap(place, first);
    }
    chosen
}

#[cfg(test)]
mod tests {
    use super::*;
    use crate::random::Random;
    use std::cmp::Ordering;

    const POLICIES: [&dyn Policy; 2] = [&GarbageFirst, &OldestFirst];

    type Order = fn(&Summary, &Summary) -> Ordering;

    /// The orders of the policies.
    const ORDERS: [Order; 2] = [
        |one, other| (one.live.cmp(&other.live)).then(one.region.cmp(&other.region)),
        |one, other| (one.stamp.cmp(&other.stamp)).then(one.region.cmp(&other.region)),
    ];

    /// A summary with live words and a stamp that others often have too.
    fn any_summary(random: &mut Random, region: u32) -> Summary {
        let fill = random.between(1, 1_024) as u32;
        Summary {
            region,
            live: random.magnitude(4).min(fill),
            fill,
            stamp: random.pick(&[0, 1, 2, 3, u32::MAX]),
        }
    }

    /// Summaries of different regions, in any order of these.
    fn any_candidates(random: &mut Random) -> Vec<Summary> {
        let mut candidates = Vec::new();
        for region in 0..random.below(33) as u32 {
            let place = random.below(candidates.len() + 1);
            candidates.insert(place, any_summary(random, region));
        }
        candidates
    }

    fn any_count(random: &mut Random, candidates: usize) -> usize {
        match random.below(8) {
            0 => candidates + 1,
            1 => usize::MAX,
            _ => random.below(candidates + 1),
        }
    }

    /// The summaries in an order that depends on their content alone.
    fn by_content(summaries: &[Summary]) -> Vec<Summary> {
        let mut summaries = summaries.to_vec();
        summaries.sort_by_key(|s| (s.region, s.live, s.fill, s.stamp));
        summaries
    }

    #[test]
    fn the_chosen_are_the_first_of_the_sorted() {
        let mut random = Random::new(1);
        for _ in 0..2_000 {
            let before = any_candidates(&mut random);
            let count = any_count(&mut random, before.len());
            for (policy, order) in POLICIES.into_iter().zip(ORDERS) {
                let mut sorted = before.clone();
                sorted.sort_by(order);
                let mut after = before.clone();
                let chosen = choose(policy, &mut after, count);
                assert_eq!(chosen, count.min(before.len()));
                assert_eq!(after[..chosen], sorted[..chosen]);
                assert_eq!(by_content(&after), by_content(&before));
            }
        }
    }

    #[test]
    fn two_of_one_region_are_kept() {
        let mut random = Random::new(2);
        for _ in 0..1_000 {
            let before: Vec<_> = (0..random.below(20))
                .map(|_| {
                    let region = random.magnitude(2);
                    any_summary(&mut random, region)
                })
                .collect();
            let count = any_count(&mut random, before.len());
            for policy in POLICIES {
                let mut after = before.clone();
                let chosen = choose(policy, &mut after, count);
                assert_eq!(chosen, count.min(before.len()));
                assert_eq!(by_content(&after), by_content(&before));
            }
        }
    }

    #[test]
    fn laws() {
        let mut random = Random::new(3);
        let summaries: Vec<_> = (0..40)
            .map(|index| any_summary(&mut random, index % 20))
            .collect();
        for policy in POLICIES {
            for one in &summaries {
                assert!(!policy.comes_before(one, one));
                for other in &summaries {
                    let before = policy.comes_before(one, other);
                    if one.region != other.region {
                        assert_ne!(before, policy.comes_before(other, one));
                    }
                    for third in &summaries {
                        if before && policy.comes_before(other, third) {
                            assert!(policy.comes_before(one, third));
                        }
                    }
                }
            }
        }
    }
}
