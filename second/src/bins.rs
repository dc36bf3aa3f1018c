//! The bins of one CTU: H.265 7.3.8.3 and 9.3.3 as code books.
//!
//! Method: bins are a string of '0' and '1'. Each syntax element has a book of all its words. The writer joins words;
//! it makes every form that means the set and keeps the shortest. The reader has no cursor: it asks which word of the
//! book the string begins with and goes on with what follows. Each book is complete, so a string that begins with no
//! word of it ends inside one.

use crate::picture::Picture;
use crate::sets::{ComponentSet, CtuSet};
use std::sync::LazyLock;

/// The first `count` bins of the bytes, from the most significant bit of the first.
pub fn unpack(bytes: &[u8], count: usize) -> String {
    let used = &bytes[..count.div_ceil(8)];
    let mut all: String = used.iter().map(|byte| WORDS.bytes[usize::from(*byte)].0.as_str()).collect();
    all.truncate(count);
    all
}

/// The bytes of these bins; unused low bits of the last are 0.
pub fn pack(bins: &str) -> Vec<u8> {
    let bit = |(place, bin): (usize, u8)| if bin == b'1' { 128 >> place } else { 0 };
    let bytes = bins.as_bytes().chunks(8);
    bytes.map(|eight| eight.iter().copied().enumerate().map(bit).sum()).collect()
}

// Words and books.

/// A syntax element's words, each with the value it means.
pub type Book<V> = Vec<(String, V)>;

/// That many ones and then a zero; the largest is ones alone.
pub fn magnitude_word(magnitude: u8, largest: u8) -> String {
    let ones = "1".repeat(magnitude.into());
    if magnitude == largest { ones } else { ones + "0" }
}

pub fn magnitude_book(largest: u8) -> Book<u8> {
    (0..=largest).map(|magnitude| (magnitude_word(magnitude, largest), magnitude)).collect()
}

pub fn type_book() -> Book<u8> {
    vec![("0".into(), 0), ("10".into(), 1), ("11".into(), 2)]
}

/// Fixed-width values put the high bit first.
pub fn fixed_book(width: usize) -> Book<u8> {
    (0..1 << width).map(|value| (format!("{value:0width$b}"), value)).collect()
}

/// The sign of a band offset; a magnitude of 0 has no bin for it.
pub fn sign_book(magnitude: u8) -> Book<i8> {
    if magnitude == 0 { vec![("".into(), 1)] } else { vec![("0".into(), 1), ("1".into(), -1)] }
}

/// All books, made once.
struct Words {
    /// A byte as eight bins.
    bytes: Book<u8>,
    flag: Book<u8>,
    kind: Book<u8>,
    /// By M, from 0 up to the largest there is.
    magnitude: Vec<Book<u8>>,
    no_sign: Book<i8>,
    sign: Book<i8>,
    position: Book<u8>,
    class: Book<u8>,
}

static WORDS: LazyLock<Words> = LazyLock::new(|| Words {
    bytes: (0..=u8::MAX).map(|byte| (format!("{byte:08b}"), byte)).collect(),
    flag: fixed_book(1),
    kind: type_book(),
    magnitude: (0..=31).map(magnitude_book).collect(),
    no_sign: sign_book(0),
    sign: sign_book(1),
    position: fixed_book(5),
    class: fixed_book(2),
});

impl Words {
    fn signs(&self, magnitude: u8) -> &Book<i8> {
        if magnitude == 0 { &self.no_sign } else { &self.sign }
    }
}

fn word<V: PartialEq>(book: &Book<V>, value: V) -> &str {
    let entry = book.iter().find(|(_, meant)| *meant == value);
    entry.map_or_else(|| unreachable!("a set within the rules has a word for every value"), |(word, _)| word)
}

/// The value whose word the bins begin with, and what follows; nothing if the bins end inside a word.
fn take<'a, V: Copy>(book: &Book<V>, bins: &'a str) -> Option<(V, &'a str)> {
    book.iter().find_map(|(word, value)| Some((*value, bins.strip_prefix(word.as_str())?)))
}

// Writing.

/// The bins of one component within the rules; `shared` where type and class are Cb's already.
fn component_words(largest: u8, set: &ComponentSet, shared: bool) -> String {
    let magnitude = |offset: &i8| magnitude_word(offset.unsigned_abs(), largest);
    let sign = |offset: &i8| word(WORDS.signs(offset.unsigned_abs()), if *offset < 0 { -1 } else { 1 }).to_string();
    let own = |text: String| if shared { String::new() } else { text };
    let said_type = own(word(&WORDS.kind, set.type_index()).to_string());
    let magnitudes: String = set.offsets().iter().map(magnitude).collect();
    match set {
        ComponentSet::Off => said_type,
        ComponentSet::Band { position, offsets } => {
            let signs: String = offsets.iter().map(sign).collect();
            said_type + &magnitudes + &signs + word(&WORDS.position, *position)
        }
        ComponentSet::Edge { class, .. } => said_type + &magnitudes + &own(word(&WORDS.class, *class).to_string()),
    }
}

/// The components of a set within the rules, without merge bins.
fn component_bins(picture: &Picture, set: &CtuSet) -> String {
    let components = set.components().into_iter().enumerate();
    components
        .filter(|(component, _)| picture.switch(*component))
        .map(|(component, set)| component_words(picture.largest_magnitude(component), &set, component == 2))
        .collect()
}

/// Every form that bins may take here, with the set it means: merge left, merge up, full, or none where a CTU has no
/// bins. The full form stands among them if it can say `wanted`.
pub fn forms(picture: &Picture, left: Option<CtuSet>, up: Option<CtuSet>, wanted: &CtuSet) -> Vec<(String, CtuSet)> {
    if !picture.has_bins() {
        return vec![(String::new(), CtuSet::OFF)];
    }
    let no_left = if left.is_some() { "0" } else { "" }.to_string();
    let no_merge = no_left.clone() + if up.is_some() { "0" } else { "" };
    let merge_left = left.map(|set| ("1".to_string(), set));
    let merge_up = up.map(|set| (no_left + "1", set));
    let full = wanted.within_rules(picture).then(|| (no_merge + &component_bins(picture, wanted), *wanted));
    [merge_left, merge_up, full].into_iter().flatten().collect()
}

/// The bins that write a set: of the forms that mean it the shortest, of equally short ones the first; nothing if no
/// bins mean it.
pub fn written(picture: &Picture, left: Option<CtuSet>, up: Option<CtuSet>, set: &CtuSet) -> Option<String> {
    forms(picture, left, up, set)
        .into_iter()
        .filter(|(_, meant)| meant == set)
        .map(|(bins, _)| bins)
        .min_by_key(String::len)
}

// Reading.

/// What a CTU's bins say, a merge not yet looked up.
#[derive(Clone, Copy, Debug, PartialEq, Eq)]
pub enum Form {
    MergeLeft,
    MergeUp,
    Full(CtuSet),
    /// No bins at all: off.
    None,
}

/// How given bins stand to the bins of a CTU.
#[derive(Clone, Copy, Debug, PartialEq, Eq)]
pub enum Reading {
    /// They are a proper beginning of a CTU's bins.
    EndTooEarly,
    /// They are a CTU's bins.
    Whole(Form),
    /// A proper beginning of them is a CTU's bins.
    Remain,
}

/// Reads the bins of a CTU that has these neighbours.
pub fn read(picture: &Picture, has_left: bool, has_up: bool, bins: &str) -> Reading {
    match take_ctu(picture, has_left, has_up, bins) {
        None => Reading::EndTooEarly,
        Some((form, "")) => Reading::Whole(form),
        Some(_) => Reading::Remain,
    }
}

fn take_ctu<'a>(picture: &Picture, has_left: bool, has_up: bool, bins: &'a str) -> Option<(Form, &'a str)> {
    if !picture.has_bins() {
        return Some((Form::None, bins));
    }
    let (merge_left, bins) = take_flag(has_left, bins)?;
    if merge_left {
        return Some((Form::MergeLeft, bins));
    }
    let (merge_up, bins) = take_flag(has_up, bins)?;
    if merge_up {
        return Some((Form::MergeUp, bins));
    }
    let (luma, bins) = take_component(picture, 0, None, bins)?;
    let (cb, bins) = take_component(picture, 1, None, bins)?;
    let (cr, bins) = take_component(picture, 2, Some(cb), bins)?;
    Some((Form::Full(CtuSet { luma, cb, cr }), bins))
}

/// A flag that is 0 without a bin where it is not sent.
fn take_flag(sent: bool, bins: &str) -> Option<(bool, &str)> {
    if !sent {
        return Some((false, bins));
    }
    take(&WORDS.flag, bins).map(|(flag, rest)| (flag == 1, rest))
}

/// One component; `cb` is given where type and class are taken from it.
fn take_component<'a>(
    picture: &Picture,
    component: usize,
    cb: Option<ComponentSet>,
    bins: &'a str,
) -> Option<(ComponentSet, &'a str)> {
    if !picture.switch(component) {
        return Some((ComponentSet::Off, bins));
    }
    let (type_index, bins) = match cb {
        Some(cb) => (cb.type_index(), bins),
        None => take(&WORDS.kind, bins)?,
    };
    if type_index == 0 {
        return Some((ComponentSet::Off, bins));
    }
    let (magnitudes, bins) = take_magnitudes(picture.largest_magnitude(component), bins)?;
    if type_index == 1 {
        return take_band(magnitudes, bins);
    }
    let (class, bins) = match cb {
        Some(ComponentSet::Edge { class, .. }) => (class, bins),
        _ => take(&WORDS.class, bins)?,
    };
    let [a, b, c, d] = magnitudes.map(|magnitude| magnitude as i8);
    let offsets = [a, b, -c, -d];
    Some((ComponentSet::Edge { class, offsets }, bins))
}

fn take_magnitudes(largest: u8, mut bins: &str) -> Option<([u8; 4], &str)> {
    let book = &WORDS.magnitude[usize::from(largest)];
    let mut magnitudes = [0; 4];
    for magnitude in &mut magnitudes {
        (*magnitude, bins) = take(book, bins)?;
    }
    Some((magnitudes, bins))
}

/// What follows the magnitudes of a band: the signs and the position.
fn take_band(magnitudes: [u8; 4], mut bins: &str) -> Option<(ComponentSet, &str)> {
    let mut offsets = [0; 4];
    for (offset, magnitude) in offsets.iter_mut().zip(magnitudes) {
        let sign;
        (sign, bins) = take(WORDS.signs(magnitude), bins)?;
        *offset = sign * magnitude as i8;
    }
    let (position, bins) = take(&WORDS.position, bins)?;
    Some((ComponentSet::Band { position, offsets }, bins))
}

#[cfg(test)]
mod tests {
    use super::*;

    /// No word begins another, and every string as long as the longest word begins with one.
    fn complete<V>(book: &Book<V>) -> bool {
        let words: Vec<&str> = book.iter().map(|(word, _)| word.as_str()).collect();
        let clash = |a: &str| words.iter().filter(|b| b.starts_with(a)).count() != 1;
        // Kraft's sum over 2^32, exactly 1 for a complete book.
        let share: u64 = words.iter().map(|word| 1u64 << (32 - word.len())).sum();
        !words.iter().any(|word| clash(word)) && share == 1 << 32
    }

    #[test]
    fn every_book_is_complete() {
        assert!(complete(&type_book()));
        assert!(complete(&fixed_book(1)) && complete(&fixed_book(2)) && complete(&fixed_book(5)));
        assert!(complete(&sign_book(0)) && complete(&sign_book(3)));
        assert!([7, 15, 31].into_iter().all(|m| complete(&magnitude_book(m))));
    }

    #[test]
    fn packing_and_unpacking() {
        assert_eq!(unpack(&[0xE3, 0x5F], 11), "11100011010");
        assert_eq!(pack("11100011010"), [0xE3, 0x40]);
        assert_eq!(pack(""), [0u8; 0]);
    }
}
