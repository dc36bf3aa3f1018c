//! What the runs did: answers by call, number and reason, damages by kind, pictures by class.

use crate::call::{CALLS, Call};
use crate::damage::{DAMAGES, Damage};
use crate::draw::CLASSES;
use second::Picture;
use std::collections::{BTreeMap, BTreeSet};
use std::fmt;
use std::ops::RangeInclusive;

/// The most reasons that a call has, and its acceptance.
const MOST_ANSWERS: usize = 11;

/// The formats, by their numbers.
const FORMATS: [&str; 4] = ["monochrome", "4:2:0", "4:2:2", "4:4:4"];

/// What a picture may be besides its size: CTB size, format, luma's depth, the two switches.
type Make = (u32, u8, u8, bool, bool);

/// Three CTB sizes, nine depths, two switches in each format with chroma and one in monochrome.
const MAKES: usize = 3 * 9 * (3 * 4 + 2);

/// The depths, of which each of luma and chroma may have any.
const DEPTHS: RangeInclusive<u8> = 8..=16;

/// How depths alone break a rule, each with nothing else wrong in the description.
const DEPTHS_WRONG: [&str; 3] = ["luma's outside", "chroma's outside", "two in monochrome"];

/// Which of them is wrong with a description, if it is one alone.
fn depths_wrong(picture: &Picture) -> Option<usize> {
    let [luma, chroma] = picture.depths().map(|depth| DEPTHS.contains(&depth));
    let alone = picture.breaks_a_rule() && !picture.at_depths([8, 8]).breaks_a_rule();
    let wrong = [!luma && chroma, luma && !chroma, luma && chroma];
    wrong.iter().position(|wrong| *wrong).filter(|_| alone)
}

#[derive(Clone, Debug, Default)]
pub struct Tally {
    pub calls: u64,
    /// By call, then by reason; at 0 the accepted ones.
    answers: [[u64; MOST_ANSWERS]; CALLS.len()],
    /// By call: how often it was refused for depths alone, by what was wrong with them.
    depths_wrong: [[u64; DEPTHS_WRONG.len()]; CALLS.len()],
    /// Reads of more bins than 16 bits count, all of them within the bytes.
    pub long: u64,
    /// By kind: how often done, and how often the call made then was refused.
    damages: [[u64; 2]; DAMAGES.len()],
    /// Pictures that came to their end, by class and by format.
    ended: [u64; CLASSES.len()],
    formats: [u64; FORMATS.len()],
    makes: BTreeSet<Make>,
    /// Of those in which luma and chroma were filtered, how many there are of each pair of depths, luma's first.
    depths: BTreeMap<(u8, u8), u64>,
}

impl Tally {
    pub fn answered(&mut self, call: &Call, reason: usize) {
        self.calls += 1;
        self.answers[call.place()][reason] += 1;
        let is_long = |bins: &[u8], count: usize| 1 << 16 < count && count.div_ceil(8) <= bins.len();
        self.long += u64::from(matches!(call, Call::Read { bins, count } if is_long(bins, *count)));
    }

    /// A call on this description, which is refused 1 if it breaks a rule.
    pub fn described(&mut self, call: &Call, picture: &Picture) {
        if let Some(wrong) = depths_wrong(picture) {
            self.depths_wrong[call.place()][wrong] += 1;
        }
    }

    pub fn damaged(&mut self, kind: Damage, refused: bool) {
        let [done, refusals] = &mut self.damages[kind as usize];
        *done += 1;
        *refusals += u64::from(refused);
    }

    pub fn ended(&mut self, class: usize, picture: &Picture) {
        let Picture { ctb, format, luma_depth, chroma_depth, luma, chroma, .. } = *picture;
        self.ended[class] += 1;
        self.formats[usize::from(format)] += 1;
        self.makes.insert((ctb, format, luma_depth, luma, chroma));
        if luma && chroma {
            *self.depths.entry((luma_depth, chroma_depth)).or_default() += 1;
        }
    }

    pub fn add(&mut self, other: &Tally) {
        self.calls += other.calls;
        self.long += other.long;
        add_each(self.answers.as_flattened_mut(), other.answers.as_flattened());
        add_each(self.depths_wrong.as_flattened_mut(), other.depths_wrong.as_flattened());
        add_each(self.damages.as_flattened_mut(), other.damages.as_flattened());
        add_each(&mut self.ended, &other.ended);
        add_each(&mut self.formats, &other.formats);
        self.makes.extend(&other.makes);
        other.depths.iter().for_each(|(pair, pictures)| *self.depths.entry(*pair).or_default() += pictures);
    }

    /// A call's answers by number.
    fn numbers(&self, call: usize) -> BTreeMap<u32, u64> {
        let mut numbers = BTreeMap::from([(0, self.answers[call][0])]);
        for (reason, (number, _)) in CALLS[call].1.iter().enumerate() {
            *numbers.entry(*number).or_default() += self.answers[call][1 + reason];
        }
        numbers
    }

    /// The rarest answer, by reason: a call's name, the reason's place in its list (0 accepted), and how often.
    pub fn rarest(&self) -> Option<(&'static str, usize, u64)> {
        let reasons = |call: usize| (0..=CALLS[call].1.len()).map(move |reason| (call, reason));
        let all = (0..CALLS.len()).flat_map(reasons);
        all.map(|(call, reason)| (CALLS[call].0, reason, self.answers[call][reason])).min_by_key(|answer| answer.2)
    }

    /// How often the call and the fault of depths that met least often did.
    pub fn rarest_wrong_depths(&self) -> Option<u64> {
        self.depths_wrong.as_flattened().iter().copied().min()
    }

    /// How often the call of this place in [`CALLS`] was refused for the last of its reasons.
    pub fn for_last_reason(&self, call: usize) -> u64 {
        self.answers[call][CALLS[call].1.len()]
    }

    /// How often the call of this place in [`CALLS`] was accepted.
    pub fn accepted(&self, call: usize) -> u64 {
        self.answers[call][0]
    }

    /// Whether pictures of every class, CTB size, format, luma's depth and switches came to their end.
    pub fn every_picture(&self) -> bool {
        self.ended.iter().all(|&pictures| pictures > 0) && self.makes.len() == MAKES
    }

    /// The rarest pair of depths, luma's and chroma's, with which a picture came to its end, and how often.
    pub fn rarest_depths(&self) -> Option<((u8, u8), u64)> {
        let pairs = DEPTHS.flat_map(|luma| DEPTHS.map(move |chroma| (luma, chroma)));
        let counted = |pair: (u8, u8)| (pair, self.depths.get(&pair).copied().unwrap_or(0));
        pairs.map(counted).min_by_key(|(_, pictures)| *pictures)
    }

    /// Whether each format has a quarter of the pictures, give or take a tenth of it.
    pub fn equal_shares(&self) -> bool {
        let all: u64 = self.formats.iter().sum();
        self.formats.iter().all(|&pictures| (9 * all..=11 * all).contains(&(40 * pictures)))
    }
}

fn add_each(sums: &mut [u64], others: &[u64]) {
    sums.iter_mut().zip(others).for_each(|(sum, other)| *sum += other);
}

// The tables, as text.

impl Tally {
    fn by_number(&self, call: usize) -> String {
        let spoken = |(number, times): (u32, u64)| format!("{number}: {times}");
        self.numbers(call).into_iter().map(spoken).collect::<Vec<_>>().join("  ")
    }

    fn by_reason(&self, call: usize) -> String {
        let spoken = |(place, (number, which)): (usize, &(u32, &str))| {
            let times = self.answers[call][1 + place];
            if which.is_empty() { format!("{number}: {times}") } else { format!("{number} ({which}): {times}") }
        };
        CALLS[call].1.iter().enumerate().map(spoken).collect::<Vec<_>>().join("  ")
    }

    fn by_damage(&self) -> String {
        let spoken =
            |((_, name), [done, refused]): (&(Damage, &str), [u64; 2])| format!("  {name:34} {done:8} {refused:8}\n");
        DAMAGES.iter().zip(self.damages).map(spoken).collect()
    }
}

/// How many there are of each name.
fn each(names: &[&str], numbers: &[u64]) -> String {
    names.iter().zip(numbers).map(|(name, number)| format!("{name} {number}")).collect::<Vec<_>>().join(", ")
}

/// One line for each call.
fn lines(of_call: impl Fn(usize) -> String) -> String {
    CALLS.iter().enumerate().map(|(call, (name, _))| format!("  {name:14} {}\n", of_call(call))).collect()
}

impl fmt::Display for Tally {
    fn fmt(&self, out: &mut fmt::Formatter) -> fmt::Result {
        writeln!(out, "{} calls; answers by number, 0 accepted:", self.calls)?;
        write!(out, "{}", lines(|call| self.by_number(call)))?;
        writeln!(out, "refusals by reason, in the order in which they are asked:")?;
        write!(out, "{}", lines(|call| self.by_reason(call)))?;
        writeln!(out, "refused for depths alone:")?;
        write!(out, "{}", lines(|call| each(&DEPTHS_WRONG, &self.depths_wrong[call])))?;
        writeln!(out, "reads of more than 65,536 bins within the bytes: {}", self.long)?;
        writeln!(out, "damages of copies, and how many of the calls made on them were refused:")?;
        write!(out, "{}", self.by_damage())?;
        write!(out, "pictures that came to their end: {}; ", each(&CLASSES, &self.ended))?;
        write!(out, "{}; ", each(&FORMATS, &self.formats))?;
        write!(out, "{} of {MAKES} kinds of CTB size, format, luma's depth and switches; ", self.makes.len())?;
        let (pairs, rarest) = (DEPTHS.count().pow(2), self.rarest_depths().map_or(0, |(_, pictures)| pictures));
        writeln!(out, "{} of {pairs} pairs of depths, each {rarest} times or more", self.depths.len())
    }
}
