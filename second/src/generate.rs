//! Random pictures, sets and samples within the rules, with the extremes drawn often.
//!
//! Method: ordinary values and provoking ones (flat, extreme, alternating planes; magnitude M; wrapping positions; sets
//! that repeat a neighbour's) are mixed by the same [`Random`], so one seed gives one run.

use crate::picture::Picture;
use crate::random::Random;
use crate::sets::{ComponentSet, CtuSet};

/// A description within the rules, at most `most` luma samples wide and high (a multiple of 8), each format as often as
/// any other, and with chroma each pair of depths.
pub fn picture(random: &mut Random, most: u32) -> Picture {
    let mut side = || 8 * (1 + random.below(most as usize / 8) as u32);
    let (width, height) = (side(), side());
    let format = random.below(4) as u8;
    let mut depth = || 8 + random.below(9) as u8;
    let (luma_depth, any_depth) = (depth(), depth());
    Picture {
        width,
        height,
        ctb: random.pick(&[16, 16, 32, 64]),
        format,
        luma_depth,
        chroma_depth: if format == 0 { luma_depth } else { any_depth },
        luma: !random.once_in(5),
        chroma: format != 0 && !random.once_in(5),
    }
}

fn magnitude(random: &mut Random, largest: u8) -> i8 {
    let any = random.below(usize::from(largest) + 1) as u8;
    random.pick(&[0, any, any, largest]) as i8
}

fn band(random: &mut Random, largest: u8) -> ComponentSet {
    let position = random.below(32) as u8;
    let offsets = std::array::from_fn(|_| magnitude(random, largest) * random.pick(&[1, -1]));
    ComponentSet::Band { position, offsets }
}

fn edge(random: &mut Random, largest: u8, class: u8) -> ComponentSet {
    let offsets = std::array::from_fn(|n| magnitude(random, largest) * if n < 2 { 1 } else { -1 });
    ComponentSet::Edge { class, offsets }
}

/// One component's set of a type, within the rules; an edge has the class.
pub fn component(random: &mut Random, largest: u8, type_index: usize, class: u8) -> ComponentSet {
    match type_index {
        0 => ComponentSet::Off,
        1 => band(random, largest),
        _ => edge(random, largest, class),
    }
}

/// A set that the full form can say.
pub fn set(random: &mut Random, picture: &Picture) -> CtuSet {
    let mut kind = |switch: bool| (if switch { random.below(3) } else { 0 }, random.below(4) as u8);
    let (luma, chroma) = (kind(picture.luma), kind(picture.chroma));
    let mut make = |of: usize, (type_index, class): (usize, u8)| {
        component(random, picture.largest_magnitude(of), type_index, class)
    };
    CtuSet { luma: make(0, luma), cb: make(1, chroma), cr: make(2, chroma) }
}

/// One set per CTU, many of them equal to their left or upper neighbour's.
pub fn sets(random: &mut Random, picture: &Picture) -> Vec<CtuSet> {
    let mut sets: Vec<CtuSet> = Vec::new();
    for ctu in 0..picture.ctus() {
        let neighbour = random.pick(&[picture.left_of(ctu), picture.above(ctu), None, None]);
        let own = set(random, picture);
        sets.push(neighbour.map_or(own, |other| sets[other]));
    }
    sets
}

/// One component's samples within its depth: noise, few levels, flat, extreme, or alternating.
pub fn plane(random: &mut Random, picture: &Picture, component: usize) -> Vec<u16> {
    let largest = picture.largest_sample(component);
    let manner = random.below(5);
    let level = random.below(usize::from(largest) + 1) as u16;
    let mut sample = |place: usize| match manner {
        0 => random.below(usize::from(largest) + 1) as u16,
        1 => level.saturating_add(random.below(3) as u16).min(largest),
        2 => level,
        3 => random.pick(&[0, largest]),
        _ => [level, largest - level][place % 2],
    };
    (0..picture.plane_samples(component)).map(&mut sample).collect()
}

/// The three deblocked planes; an absent one is empty.
pub fn planes(random: &mut Random, picture: &Picture) -> [Vec<u16>; 3] {
    std::array::from_fn(|component| plane(random, picture, component))
}

#[cfg(test)]
mod tests {
    use super::*;

    /// Of 20,000 pictures each format has about a quarter, each pair of depths about an 81st of those with chroma, and all
    /// keep the rules.
    #[test]
    fn formats_and_pairs_of_depths_are_drawn_in_equal_shares() {
        let mut random = Random::new(4);
        let (mut formats, mut pairs) = ([0; 4], [[0; 9]; 9]);
        for _ in 0..20_000 {
            let picture = picture(&mut random, 72);
            assert!(!picture.breaks_a_rule(), "{picture:?}");
            formats[usize::from(picture.format)] += 1;
            let [luma, chroma] = picture.depths().map(|depth| usize::from(depth) - 8);
            pairs[luma][chroma] += usize::from(picture.format != 0);
        }
        assert!(formats.iter().all(|times| (4_000..=6_000).contains(times)), "{formats:?}");
        assert!(pairs.iter().flatten().all(|times| (100..=300).contains(times)), "{pairs:?}");
    }
}
