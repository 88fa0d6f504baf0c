//! Pairs of D2 and D3, which tell the dwells of a packet apart: segments with the same pair are counted as one dwell.
//!
//! A pair is one number, with D2 in its high half and D3 in its low half.
use super::random::Random;
use super::spelling::Segment;
use super::tables::D2_PLACE;

/// How a pair comes from those before it.
#[derive(Clone, Copy, Debug)]
enum Step {
    /// Any pair.
    Any,
    /// The last one.
    Same,
    /// One of those before. A run by this step alone begins with two to four of any kind: behind a single one it would be a run of `Same`.
    Earlier,
    /// The last one or one of the next two, as in a packet whose dwells are in order.
    Rise,
    /// One of the three below the last one.
    Fall,
    /// Another D2.
    OtherD2,
    /// Another D3.
    OtherD3,
    /// D2 and D3 changed for each other.
    Swapped,
    /// D2 above by 1 and D3 below by 256: 256 × D2 + D3 stays, unless D3 is under 256 or D2 is 65,535.
    Carried,
}

const STEPS: [Step; 9] =
    [Step::Any, Step::Same, Step::Earlier, Step::Rise, Step::Fall, Step::OtherD2, Step::OtherD3, Step::Swapped, Step::Carried];

/// The pairs of so many dwells, all by one step or each by another.
pub fn run(random: &mut Random, count: usize) -> Vec<u32> {
    let only = if random.chance(60) { Some(random.pick(STEPS)) } else { None };
    let few = if matches!(only, Some(Step::Earlier)) { 2 + random.below(3) } else { 1 };
    let mut pairs = Vec::with_capacity(count);
    for at in 0..count {
        let step = if at < few { Step::Any } else { only.unwrap_or(random.pick(STEPS)) };
        let pair = next(random, &pairs, step);
        pairs.push(pair);
    }
    pairs
}

/// The pair behind these.
fn next(random: &mut Random, before: &[u32], step: Step) -> u32 {
    let any = random.value(2) << 16 | random.value(2);
    let small = random.below(3) as u32;
    let other = random.between(1, 0xFFFF) as u32;
    let Some(&last) = before.last() else { return any };
    match step {
        Step::Any => any,
        Step::Same => last,
        Step::Earlier => random.one_of(before).unwrap_or(last),
        Step::Rise => last.wrapping_add(small),
        Step::Fall => last.wrapping_sub(1 + small),
        Step::OtherD2 => last ^ other << 16,
        Step::OtherD3 => last ^ other,
        Step::Swapped => last.rotate_left(16),
        Step::Carried => last.wrapping_add(1 << 16).wrapping_sub(256),
    }
}

/// Gives the dwells among these segments their pairs, in their order.
pub fn set(segments: &mut [Segment], pairs: &[u32]) {
    let dwells = segments.iter_mut().filter(|segment| segment.segment_type == 2);
    for (dwell, pair) in dwells.zip(pairs) {
        if let Some(place) = dwell.body.get_mut(D2_PLACE..D2_PLACE + 4) {
            place.copy_from_slice(&pair.to_be_bytes());
        }
    }
}
