//! The table of stored sets: an entry per CTU, the bytes of its set.
//!
//! For luma, Cb, Cr each six bytes: type 0, 1, 2; band position or class; four offsets, each plus 128. Off has one
//! encoding, six zeros. Method: dictionaries. An entry is sound exactly if it encodes a set within the rules, and a set
//! is within the rules if bins of the full form say it. So every value that a code book of the bins can say is encoded
//! once, into lists of the bytes that may stand at each of the six places of an off, a band and an edge; an entry is then
//! looked up in them, byte after byte.

use crate::bins::{fixed_book, magnitude_book, sign_book};
use crate::picture::Picture;
use crate::sets::{ComponentSet, CtuSet};
use std::sync::LazyLock;

/// The bytes of a set.
pub const SET_BYTES: usize = 18;

/// The bytes of a CTU's entry: those of its set.
pub const ENTRY_BYTES: usize = SET_BYTES;

const COMPONENT: usize = SET_BYTES / 3;

/// An offset plus 128.
fn offset_byte(offset: i8) -> u8 {
    (i16::from(offset) + 128) as u8
}

fn encode_component(set: &ComponentSet) -> [u8; COMPONENT] {
    let (second, offsets) = match *set {
        ComponentSet::Off => return [0; COMPONENT],
        ComponentSet::Band { position, offsets } => (position, offsets),
        ComponentSet::Edge { class, offsets } => (class, offsets),
    };
    let [a, b, c, d] = offsets.map(offset_byte);
    [set.type_index(), second, a, b, c, d]
}

pub fn encode(set: &CtuSet) -> [u8; SET_BYTES] {
    let bytes = set.components().map(|component| encode_component(&component));
    std::array::from_fn(|place| bytes[place / COMPONENT][place % COMPONENT])
}

// The dictionaries.

/// What each of the 256 bytes means at one place, where it means anything there.
type Meanings = [Option<i8>; 256];

/// The meanings of a component's six bytes: of an off, of a band, of an edge.
type Page = [Meanings; COMPONENT];
type Dictionary = [Page; 3];

/// One for each M, of depth 8, of depth 9, and of depth 10 and above.
static DICTIONARIES: LazyLock<[(u8, Dictionary); 3]> = LazyLock::new(|| [7, 15, 31].map(|most| (most, pages(most))));

fn meanings(said: impl IntoIterator<Item = (u8, i8)>) -> Meanings {
    let mut meanings = [None; 256];
    said.into_iter().for_each(|(byte, value)| meanings[usize::from(byte)] = Some(value));
    meanings
}

/// A byte that stands for itself.
fn plain(values: impl IntoIterator<Item = u8>) -> Meanings {
    meanings(values.into_iter().map(|value| (value, value as i8)))
}

fn offsets(values: impl IntoIterator<Item = i8>) -> Meanings {
    meanings(values.into_iter().map(|value| (offset_byte(value), value)))
}

fn pages(most: u8) -> Dictionary {
    let magnitudes = || magnitude_book(most).into_iter().map(|(_, magnitude)| magnitude as i8);
    let fixed = |width: usize| plain(fixed_book(width).into_iter().map(|(_, value)| value));
    // "for band, a sign bin for each magnitude that is not 0 (1 is negative), then a 5-bit band position"
    let signs = |magnitude: i8| sign_book(magnitude as u8).into_iter().map(move |(_, sign)| sign * magnitude);
    let any = offsets(magnitudes().flat_map(signs));
    // "the first two offsets are not negative, the last two not positive"
    let (up, down) = (offsets(magnitudes()), offsets(magnitudes().map(|magnitude| -magnitude)));
    let none = plain([0]);
    [
        [none; COMPONENT],
        [plain([1]), fixed(5), any, any, any, any],
        // "for edge, a 2-bit class"
        [plain([2]), fixed(2), up, up, down, down],
    ]
}

// Looking up.

/// What the six bytes mean on a page, if each of them has a meaning there.
fn looked_up(page: &Page, six: &[u8]) -> Option<[i8; COMPONENT]> {
    let mut meant = [0; COMPONENT];
    for place in 0..COMPONENT {
        meant[place] = page[place][usize::from(*six.get(place)?)]?;
    }
    Some(meant)
}

/// The set of one component; nothing if its six bytes stand on no page. "A component whose switch is off is off."
fn component(picture: &Picture, component: usize, six: &[u8]) -> Option<ComponentSet> {
    let (_, pages) = DICTIONARIES.iter().find(|(most, _)| *most == picture.largest_magnitude(component))?;
    let pages = if picture.switch(component) { &pages[..] } else { &pages[..1] };
    let [kind, second, offsets @ ..] = pages.iter().find_map(|page| looked_up(page, six))?;
    match kind {
        0 => Some(ComponentSet::Off),
        1 => Some(ComponentSet::Band { position: second as u8, offsets }),
        _ => Some(ComponentSet::Edge { class: second as u8, offsets }),
    }
}

/// The set of a sound entry; nothing for any other bytes.
pub fn decode(picture: &Picture, entry: &[u8]) -> Option<CtuSet> {
    let six = |component: usize| &entry[component * COMPONENT..][..COMPONENT];
    let (cb, cr) = (six(1), six(2));
    // "type (luma and Cb only; Cr takes Cb's)", "a 2-bit class (luma and Cb only; Cr takes Cb's)"
    let takes_cbs = cr[0] == cb[0] && (cb[0] != 2 || cr[1] == cb[1]);
    let set =
        CtuSet { luma: component(picture, 0, six(0))?, cb: component(picture, 1, cb)?, cr: component(picture, 2, cr)? };
    takes_cbs.then_some(set)
}

/// The set stored for a CTU, if it has an entry and that is sound.
pub fn stored(picture: &Picture, table: &[u8], ctu: usize) -> Option<CtuSet> {
    decode(picture, table.chunks_exact(ENTRY_BYTES).nth(ctu)?)
}

pub fn store(table: &mut [u8], ctu: usize, set: &CtuSet) {
    table[ctu * ENTRY_BYTES..][..ENTRY_BYTES].copy_from_slice(&encode(set));
}

#[cfg(test)]
mod tests {
    use super::*;

    const PICTURE: Picture = Picture { format: 1, chroma: true, ..Picture::MONOCHROME };

    fn luma_entry(six: [u8; 6]) -> [u8; ENTRY_BYTES] {
        std::array::from_fn(|place| six.get(place).copied().unwrap_or(0))
    }

    fn sound(six: [u8; 6]) -> bool {
        decode(&PICTURE, &luma_entry(six)).is_some()
    }

    #[test]
    fn an_entry_is_sound_only_as_an_encoding_within_the_rules() {
        assert!(sound([0, 0, 0, 0, 0, 0]));
        assert!(!sound([0, 1, 0, 0, 0, 0]) && !sound([0, 0, 0, 0, 0, 128]));
        assert!(sound([1, 31, 121, 135, 128, 128]));
        assert!(!sound([1, 32, 128, 128, 128, 128]) && !sound([1, 0, 120, 128, 128, 128]));
        assert!(sound([2, 3, 135, 135, 121, 121]));
        assert!(!sound([2, 4, 128, 128, 128, 128]) && !sound([2, 0, 127, 128, 128, 128]));
        assert!(!sound([2, 0, 128, 128, 129, 128]) && !sound([3, 0, 128, 128, 128, 128]));
    }

    /// The set that any bytes would say, were there no rules; nothing where there is no such type or off says more.
    fn said(entry: &[u8; ENTRY_BYTES]) -> Option<CtuSet> {
        let part = |component: usize| {
            let six = &entry[6 * component..][..6];
            let offsets = std::array::from_fn(|n| (i16::from(six[2 + n]) - 128) as i8);
            match six {
                [0, 0, 0, 0, 0, 0] => Some(ComponentSet::Off),
                [1, position, ..] => Some(ComponentSet::Band { position: *position, offsets }),
                [2, class, ..] => Some(ComponentSet::Edge { class: *class, offsets }),
                _ => None,
            }
        };
        Some(CtuSet::of([part(0)?, part(1)?, part(2)?]))
    }

    /// Every value of every byte of an off, a band and an edge, beside the rules of a set: at every depth, and at two
    /// depths of which either has the larger M.
    #[test]
    fn the_dictionaries_say_the_rules() {
        let band = ComponentSet::Band { position: 3, offsets: [1, -1, 0, 7] };
        let edge = ComponentSet::Edge { class: 1, offsets: [7, 0, 0, -1] };
        let sets = [ComponentSet::Off, band, edge].map(|set| CtuSet::of([set; 3]));
        let switches = [(true, true), (true, false), (false, true), (false, false)];
        let depths = (8..=16).map(|depth| [depth; 2]).chain([[8, 9], [9, 8], [10, 8], [8, 16], [9, 12], [16, 9]]);
        for (depths, (luma, chroma)) in depths.flat_map(|depths| switches.map(|switches| (depths, switches))) {
            let picture = Picture { luma, chroma, ..PICTURE }.at_depths(depths);
            for (set, place) in sets.iter().flat_map(|set| (0..ENTRY_BYTES).map(move |place| (set, place))) {
                let mut entry = encode(set);
                for byte in 0..=u8::MAX {
                    entry[place] = byte;
                    assert_eq!(decode(&picture, &entry), said(&entry).filter(|set| set.within_rules(&picture)));
                }
            }
        }
    }

    #[test]
    fn chroma_is_judged_with_luma() {
        let edge = |class| ComponentSet::Edge { class, offsets: [1, 0, 0, -1] };
        let band = ComponentSet::Band { position: 9, offsets: [0; 4] };
        let judged = |cb, cr| {
            let set = CtuSet { luma: ComponentSet::Off, cb, cr };
            decode(&PICTURE, &encode(&set)) == Some(set)
        };
        assert!(judged(edge(2), edge(2)) && judged(band, band));
        assert!(!judged(edge(2), edge(1)) && !judged(edge(2), band));
        assert!(!judged(ComponentSet::Off, band) && !judged(band, ComponentSet::Off));
        let without = Picture { chroma: false, ..PICTURE };
        let set = CtuSet { luma: ComponentSet::Off, cb: band, cr: band };
        assert_eq!(decode(&without, &encode(&set)), None);
    }
}
