//! The refusals: document 01's table and orders, as one flat table of rows.
//!
//! Method: brute force. A row is one step of one call's order: the call, the refusal's number, the paper's words, and a
//! test of all that the call is handed and lent. No row relies on another. Every row of a call is asked, whatever those
//! before it answered, and only then is the first that holds picked out. So each test has an answer for every input: it
//! looks for things in lists that may be short, and never at a place that may not be there.

use crate::bins::{self, Form, Reading};
use crate::picture::{Block, Picture, State};
use crate::sets::CtuSet;
use crate::table;
use crate::world::Kind::{self, Deliver, Filter, FinishedRows, Open, Read, Write};
use crate::world::{Call, World};
use std::fmt;

/// A refusal, by document 01's number.
#[derive(Clone, Copy, Debug, PartialEq, Eq, PartialOrd, Ord, Hash)]
pub struct Refusal(pub u8);

/// Document 01's sentences, number 1 first.
const SENTENCES: [&str; 14] = [
    "the description breaks a rule above",
    "a lent buffer, or the samples delivered, have the wrong length",
    "no such component or CTB number",
    "the declared count exceeds 8 times the bytes given",
    "the bins end too early",
    "bins remain after the CTU",
    "every CTU already has its set",
    "a delivered sample exceeds 2^depth - 1",
    "that CTB was delivered before (mark 1 or 2)",
    "filter is not ready",
    "that CTB was filtered before",
    "no bins mean this set",
    "the bins do not fit the buffer",
    "stored data that no accepted call leaves: a next CTU above the CTU count, a mark above 2, a set outside the \
     rules, or a deblocked sample above the depth",
];

impl fmt::Display for Refusal {
    fn fmt(&self, out: &mut fmt::Formatter) -> fmt::Result {
        let place = usize::from(self.0).wrapping_sub(1);
        out.write_str(SENTENCES.get(place).unwrap_or(&"no refusal has this number"))
    }
}

/// All that a call is handed and lent, to be looked at. What a call is not lent is empty here, and no row of it asks.
#[derive(Clone, Copy, Debug)]
pub struct Seen<'a> {
    pub state: State,
    pub bins: &'a [u8],
    pub count: usize,
    pub set: CtuSet,
    /// The bytes that there are for the bins written.
    pub room: usize,
    pub component: u8,
    pub ctb: u32,
    pub samples: &'a [u16],
    pub deblocked: [&'a [u16]; 3],
    pub filtered: [&'a [u16]; 3],
    pub marks: &'a [u8],
    pub table: &'a [u8],
}

impl<'a> Seen<'a> {
    /// A state alone.
    pub fn of_state(state: State) -> Seen<'a> {
        Seen {
            state,
            bins: &[],
            count: 0,
            set: CtuSet::OFF,
            room: 0,
            component: 0,
            ctb: 0,
            samples: &[],
            deblocked: [&[]; 3],
            filtered: [&[]; 3],
            marks: &[],
            table: &[],
        }
    }

    /// A call on a world. All of the world is here, also what the call is not lent.
    pub fn of(world: &'a World, state: State, call: &'a Call) -> Seen<'a> {
        let planes = |planes: &'a [Vec<u16>; 3]| planes.each_ref().map(Vec::as_slice);
        let world = Seen {
            deblocked: planes(&world.deblocked),
            filtered: planes(&world.filtered),
            marks: &world.marks,
            table: &world.table,
            ..Seen::of_state(state)
        };
        match call {
            Call::Open => world,
            Call::Read { bins, count } => Seen { bins, count: *count, ..world },
            Call::Write { set, out } => Seen { set: *set, room: out.len(), ..world },
            Call::Deliver { component, ctb, samples } => Seen { component: *component, ctb: *ctb, samples, ..world },
            Call::Filter { component, ctb } => Seen { component: *component, ctb: *ctb, ..world },
            Call::FinishedRows { component } => Seen { component: *component, ..world },
        }
    }
}

/// A row: whose it is, the refusal's number, the paper's words, and whether that holds.
pub struct Row {
    pub call: Kind,
    pub number: u8,
    pub says: &'static str,
    holds: fn(&Seen) -> bool,
}

const fn row(call: Kind, number: u8, says: &'static str, holds: fn(&Seen) -> bool) -> Row {
    Row { call, number, says, holds }
}

/// "Order: 1, 2 (those of planes, marks and table that the call is lent; docs/ lists them), 14 (next CTU; opening has
/// none), then" what the paper gives for each call.
#[rustfmt::skip]
pub static ROWS: [Row; 39] = [
    row(Open, 1, "the description breaks a rule above", breaks_a_rule),
    row(Open, 2, "a lent buffer: marks", wrong_marks),

    row(Read, 1, "the description breaks a rule above", breaks_a_rule),
    row(Read, 2, "a lent buffer: table", wrong_table),
    row(Read, 14, "a next CTU above the CTU count", next_above_count),
    row(Read, 7, "every CTU already has its set", every_ctu_has_its_set),
    row(Read, 4, "the declared count exceeds 8 times the bytes given", count_exceeds_bytes),
    row(Read, 5, "the bins end too early", |seen| reading(seen) == Reading::EndTooEarly),
    row(Read, 6, "bins remain after the CTU", |seen| reading(seen) == Reading::Remain),
    row(Read, 14, "a set outside the rules: the set a merge copies", copies_what_is_unsound),

    row(Write, 1, "the description breaks a rule above", breaks_a_rule),
    row(Write, 2, "a lent buffer: table", wrong_table),
    row(Write, 14, "a next CTU above the CTU count", next_above_count),
    row(Write, 7, "every CTU already has its set", every_ctu_has_its_set),
    row(Write, 14, "a set outside the rules: left and upper set, where they exist", stands_by_what_is_unsound),
    row(Write, 12, "no bins mean this set", |seen| written(seen).is_none()),
    row(Write, 13, "the bins do not fit the buffer", needs_more_room),

    row(Deliver, 1, "the description breaks a rule above", breaks_a_rule),
    row(Deliver, 2, "a lent buffer: deblocked planes, marks", |seen| wrong_deblocked(seen) || wrong_marks(seen)),
    row(Deliver, 14, "a next CTU above the CTU count", next_above_count),
    row(Deliver, 3, "no such component or CTB number", no_such_block),
    row(Deliver, 2, "the samples delivered", wrong_samples),
    row(Deliver, 14, "a mark above 2: own mark", |seen| own_mark_is(seen, is_no_mark)),
    row(Deliver, 9, "that CTB was delivered before (mark 1 or 2)", |seen| own_mark_is(seen, is_delivered)),
    row(Deliver, 8, "a delivered sample exceeds 2^depth - 1", delivers_a_sample_above),

    row(Filter, 1, "the description breaks a rule above", breaks_a_rule),
    row(Filter, 2, "a lent buffer: deblocked planes, filtered planes, marks, table",
        |seen| wrong_deblocked(seen) || wrong_filtered(seen) || wrong_marks(seen) || wrong_table(seen)),
    row(Filter, 14, "a next CTU above the CTU count", next_above_count),
    row(Filter, 3, "no such component or CTB number", no_such_block),
    row(Filter, 14, "a mark above 2: own and neighbours' marks", |seen| own_and_neighbours(seen).any(is_no_mark)),
    row(Filter, 11, "that CTB was filtered before", |seen| own_mark_is(seen, |mark| mark == 2)),
    row(Filter, 10, "filter is not ready", |seen| !is_ready(seen)),
    row(Filter, 14, "a set outside the rules: own set", |seen| is_unsound(seen, seen.ctb as usize)),
    row(Filter, 14, "a deblocked sample above the depth", sees_a_sample_above),

    row(FinishedRows, 1, "the description breaks a rule above", breaks_a_rule),
    row(FinishedRows, 2, "a lent buffer: filtered planes, marks", |seen| wrong_filtered(seen) || wrong_marks(seen)),
    row(FinishedRows, 14, "a next CTU above the CTU count", next_above_count),
    row(FinishedRows, 3, "no such component", no_such_component),
    row(FinishedRows, 14, "a mark above 2: marks of that component", |seen| marks(seen).any(is_no_mark)),
];

/// Every row of the call, in the paper's order, and whether it holds. All of them are asked.
pub fn asked(call: Kind, seen: &Seen) -> Vec<(&'static Row, bool)> {
    ROWS.iter().filter(|row| row.call == call).map(|row| (row, (row.holds)(seen))).collect()
}

/// The first of the call's rows that holds: its place among them, from 0, and its number.
pub fn first(call: Kind, seen: &Seen) -> Option<(usize, Refusal)> {
    let asked = asked(call, seen);
    let place = asked.iter().position(|(_, holds)| *holds)?;
    Some((place, Refusal(asked[place].0.number)))
}

/// The refusal of the call, if it is refused.
pub fn refusal(call: Kind, seen: &Seen) -> Option<Refusal> {
    first(call, seen).map(|(_, refusal)| refusal)
}

// The description, and the lengths that follow from it.

/// A description that breaks a rule describes no picture. The other rows are asked all the same, and then speak of this
/// one; what they answer does not matter, since row 1 comes before them.
const STANDING_IN: Picture = Picture { luma: false, ..Picture::MONOCHROME };

fn breaks_a_rule(seen: &Seen) -> bool {
    seen.state.picture.breaks_a_rule()
}

fn picture(seen: &Seen) -> Picture {
    if breaks_a_rule(seen) { STANDING_IN } else { seen.state.picture }
}

/// "for each component a deblocked and a filtered plane of exactly width times height 16-bit samples (length 0 for an
/// absent one)".
fn wrong_planes(seen: &Seen, lent: [&[u16]; 3]) -> bool {
    let Picture { width, height, format, .. } = picture(seen);
    let chroma = match format {
        0 => [0, 0],
        // "4:2:0 with chroma planes and chroma CTBs of half width and half height"
        1 => [width / 2, height / 2],
        // "In 4:2:2 chroma planes and chroma CTBs have half width and full height; in 4:4:4 they equal luma"
        2 => [width / 2, height],
        _ => [width, height],
    };
    let sides = [[width, height], chroma, chroma];
    lent.map(<[u16]>::len) != sides.map(|[width, height]| width as usize * height as usize)
}

fn wrong_deblocked(seen: &Seen) -> bool {
    wrong_planes(seen, seen.deblocked)
}

fn wrong_filtered(seen: &Seen) -> bool {
    wrong_planes(seen, seen.filtered)
}

/// "one byte per CTB of each component present".
fn wrong_marks(seen: &Seen) -> bool {
    let picture = picture(seen);
    seen.marks.len() != present(&picture).map(|component| picture.ctbs(component).count()).sum::<usize>()
}

/// "a table of one parameter set per CTU".
fn wrong_table(seen: &Seen) -> bool {
    seen.table.len() != ctus(seen) * table::ENTRY_BYTES
}

/// The components present: luma alone in "monochrome", with chroma planes in every other format.
fn present(picture: &Picture) -> std::ops::Range<usize> {
    if picture.format == 0 { 0..1 } else { 0..3 }
}

/// The CTU count; a CTU has one CTB of luma.
fn ctus(seen: &Seen) -> usize {
    picture(seen).ctbs(0).count()
}

/// "2^depth - 1", by the depth of the component that the call names.
fn largest_sample(seen: &Seen) -> u32 {
    2u32.pow(picture(seen).depth(seen.component.into()).into()) - 1
}

// The next CTU.

fn next_above_count(seen: &Seen) -> bool {
    seen.state.next as usize > ctus(seen)
}

/// "CTUs are numbered in raster order", from 0, and sets are read and written in that order: the next CTU to be read is
/// none of the picture's.
fn every_ctu_has_its_set(seen: &Seen) -> bool {
    !(0..ctus(seen)).contains(&(seen.state.next as usize))
}

/// The CTUs to the left of the next one and above it, where they exist.
fn left(seen: &Seen) -> Option<usize> {
    picture(seen).left_of(seen.state.next as usize)
}

fn above(seen: &Seen) -> Option<usize> {
    picture(seen).above(seen.state.next as usize)
}

/// The set stored for a CTU; nothing for an entry that is no set within the rules, or is not there at all.
fn stored(seen: &Seen, ctu: usize) -> Option<CtuSet> {
    table::stored(&picture(seen), seen.table, ctu)
}

fn is_unsound(seen: &Seen, ctu: usize) -> bool {
    stored(seen, ctu).is_none()
}

// Bins.

fn count_exceeds_bytes(seen: &Seen) -> bool {
    seen.count as u128 > 8 * seen.bins.len() as u128
}

/// How the given bins, as far as there are bytes, stand to the next CTU's.
fn reading(seen: &Seen) -> Reading {
    let bins = bins::unpack(seen.bins, seen.count.min(8 * seen.bins.len()));
    bins::read(&picture(seen), left(seen).is_some(), above(seen).is_some(), &bins)
}

/// The set that a read without a refusal gives.
pub fn set_read(seen: &Seen) -> Option<CtuSet> {
    match reading(seen) {
        Reading::Whole(Form::MergeLeft) => stored(seen, left(seen)?),
        Reading::Whole(Form::MergeUp) => stored(seen, above(seen)?),
        Reading::Whole(Form::Full(set)) => Some(set),
        Reading::Whole(Form::None) => Some(CtuSet::OFF),
        Reading::EndTooEarly | Reading::Remain => None,
    }
}

fn copies_what_is_unsound(seen: &Seen) -> bool {
    let copied = match reading(seen) {
        Reading::Whole(Form::MergeLeft) => left(seen),
        Reading::Whole(Form::MergeUp) => above(seen),
        _ => None,
    };
    copied.is_some_and(|ctu| is_unsound(seen, ctu))
}

fn stands_by_what_is_unsound(seen: &Seen) -> bool {
    [left(seen), above(seen)].into_iter().flatten().any(|ctu| is_unsound(seen, ctu))
}

/// The bins of the next CTU for a set, if any mean it.
pub fn written(seen: &Seen) -> Option<String> {
    let set = |ctu: Option<usize>| stored(seen, ctu?);
    bins::written(&picture(seen), set(left(seen)), set(above(seen)), &seen.set)
}

fn needs_more_room(seen: &Seen) -> bool {
    written(seen).is_some_and(|bins| bins::pack(&bins).len() > seen.room)
}

// CTBs, their marks and their samples.

fn no_such_component(seen: &Seen) -> bool {
    !present(&picture(seen)).contains(&seen.component.into())
}

/// The CTB that the call names, in the samples of its plane; nothing if there is no such component or CTB number.
fn named(seen: &Seen) -> Option<Block> {
    let picture = picture(seen);
    let component = present(&picture).find(|&component| component == usize::from(seen.component))?;
    picture.ctbs(component).nth(seen.ctb as usize)
}

fn no_such_block(seen: &Seen) -> bool {
    named(seen).is_none()
}

fn wrong_samples(seen: &Seen) -> bool {
    named(seen).is_some_and(|block| seen.samples.len() != block.samples())
}

/// "marks, one byte per CTB of each component present, luma, Cb, Cr, each in raster order": the CTBs of the component
/// that the call names, each beside its mark. All CTBs of the picture are gone through, and the others left out.
fn marked<'a>(seen: &Seen<'a>) -> impl Iterator<Item = (Block, u8)> + 'a {
    let picture = picture(seen);
    let of = usize::from(seen.component);
    let all = present(&picture).flat_map(move |component| picture.ctbs(component).map(move |block| (component, block)));
    all.zip(seen.marks).filter(move |((component, _), _)| *component == of).map(|((_, block), mark)| (block, *mark))
}

/// "a mark above 2".
fn is_no_mark(mark: u8) -> bool {
    mark > 2
}

/// "delivered before (mark 1 or 2)", "delivered or filtered".
fn is_delivered(mark: u8) -> bool {
    mark == 1 || mark == 2
}

fn marks<'a>(seen: &Seen<'a>) -> impl Iterator<Item = u8> + 'a {
    marked(seen).map(|(_, mark)| mark)
}

fn own_mark_is(seen: &Seen, holds: fn(u8) -> bool) -> bool {
    let own = named(seen);
    marked(seen).any(|(block, mark)| own == Some(block) && holds(mark))
}

/// "the CTB and its neighbours, up to eight, of that component": of all its CTBs those that touch the one named.
fn own_and_neighbours<'a>(seen: &Seen<'a>) -> impl Iterator<Item = u8> + 'a {
    let own = named(seen);
    marked(seen).filter(move |(block, _)| own.is_some_and(|own| own.touches(block))).map(|(_, mark)| mark)
}

/// "Filter is ready when the CTU's set is in and the CTB and its neighbours, up to eight, of that component are
/// delivered or filtered, for every type."
fn is_ready(seen: &Seen) -> bool {
    (0..seen.state.next).contains(&seen.ctb) && own_and_neighbours(seen).all(is_delivered)
}

fn delivers_a_sample_above(seen: &Seen) -> bool {
    let largest = largest_sample(seen);
    seen.samples.iter().any(|&sample| u32::from(sample) > largest)
}

/// "deblocked samples of the CTB and one sample around it, inside the picture".
fn sees_a_sample_above(seen: &Seen) -> bool {
    let picture = picture(seen);
    let of = usize::from(seen.component);
    let (Some(block), Some(plane)) = (named(seen), seen.deblocked.get(of)) else {
        return false;
    };
    let (width, height) = (picture.plane_width(of), picture.plane_height(of));
    // One more on each side, counted from one place to the left and one row up.
    let across = (block.left..block.right + 2).filter_map(|x| x.checked_sub(1)).filter(|&x| x < width);
    let down = (block.top..block.bottom + 2).filter_map(|y| y.checked_sub(1)).filter(|&y| y < height);
    let mut places = down.flat_map(|y| across.clone().map(move |x| y * width + x));
    let largest = largest_sample(seen);
    places.any(|place| plane.get(place).is_some_and(|&sample| u32::from(sample) > largest))
}
