//! The six calls of document 01.
//!
//! Method: each call asks all of its [`reasons`] first; only where none holds does it touch what it is lent. The state
//! comes by value and goes back by value; refused or not, no call but open, read and write changes it.

use crate::bins;
use crate::filter::{Plane, filtered_sample};
use crate::picture::State;
use crate::reasons::{self, Refusal, Seen, refusal};
use crate::sets::{ComponentSet, CtuSet};
use crate::table;
use crate::world::Kind;

/// Marks: a CTB delivered, a CTB filtered.
const DELIVERED: u8 = 1;
const FILTERED: u8 = 2;

/// An answer, or the refusal, and the state handed back.
pub type Outcome<T> = (Result<T, Refusal>, State);

/// Sets the marks to 0 and the next CTU to 0. Of the state only the description is read.
pub fn open(state: State, marks: &mut [u8]) -> Outcome<()> {
    if let Some(refusal) = refusal(Kind::Open, &Seen { marks, ..Seen::of_state(state) }) {
        return (Err(refusal), state);
    }
    marks.fill(0);
    (Ok(()), State { next: 0, ..state })
}

/// Reads the next CTU's set from the first `count` bins and stores it.
pub fn read(state: State, bins: &[u8], count: usize, table: &mut [u8]) -> Outcome<CtuSet> {
    let seen = Seen { bins, count, table, ..Seen::of_state(state) };
    if let Some(refusal) = refusal(Kind::Read, &seen) {
        return (Err(refusal), state);
    }
    match reasons::set_read(&seen) {
        Some(set) => (Ok(set), append(state, &set, table)),
        None => unreachable!("bins without a meaning are refused"),
    }
}

/// Writes the next CTU's set as bins, answers their number and stores the set.
pub fn write(state: State, set: CtuSet, out: &mut [u8], table: &mut [u8]) -> Outcome<usize> {
    let seen = Seen { set, room: out.len(), table, ..Seen::of_state(state) };
    if let Some(refusal) = refusal(Kind::Write, &seen) {
        return (Err(refusal), state);
    }
    match reasons::written(&seen) {
        Some(bins) => {
            let bytes = bins::pack(&bins);
            out[..bytes.len()].copy_from_slice(&bytes);
            (Ok(bins.len()), append(state, &set, table))
        }
        None => unreachable!("a set without bins is refused"),
    }
}

/// Stores the next CTU's set and moves on.
fn append(state: State, set: &CtuSet, table: &mut [u8]) -> State {
    table::store(table, state.next as usize, set);
    State { next: state.next + 1, ..state }
}

/// Copies one CTB's samples, row after row, into the deblocked plane and marks it delivered.
pub fn deliver(
    state: State,
    component: u8,
    ctb: u32,
    samples: &[u16],
    deblocked: [&mut [u16]; 3],
    marks: &mut [u8],
) -> Outcome<()> {
    let planes = deblocked.each_ref().map(|plane| &**plane);
    let seen = Seen { component, ctb, samples, deblocked: planes, marks, ..Seen::of_state(state) };
    if let Some(refusal) = refusal(Kind::Deliver, &seen) {
        return (Err(refusal), state);
    }
    let (of, at) = (usize::from(component), ctb as usize);
    let width = state.picture.plane_width(of);
    for ((x, y), &sample) in state.picture.block(of, at).places().zip(samples) {
        deblocked[of][y * width + x] = sample;
    }
    marks[state.picture.mark_place(of, at)] = DELIVERED;
    (Ok(()), state)
}

/// Writes one CTB of the filtered plane and marks it filtered.
pub fn filter(
    state: State,
    component: u8,
    ctb: u32,
    deblocked: [&[u16]; 3],
    filtered: [&mut [u16]; 3],
    marks: &mut [u8],
    table: &[u8],
) -> Outcome<()> {
    let planes = filtered.each_ref().map(|plane| &**plane);
    let seen = Seen { component, ctb, deblocked, filtered: planes, marks, table, ..Seen::of_state(state) };
    if let Some(refusal) = refusal(Kind::Filter, &seen) {
        return (Err(refusal), state);
    }
    let (of, at) = (usize::from(component), ctb as usize);
    let width = state.picture.plane_width(of);
    let plane = Plane { samples: deblocked[of], width };
    let set = own_set(state, table, of, at);
    for (x, y) in state.picture.block(of, at).places() {
        filtered[of][y * width + x] = filtered_sample(state.picture.depth(of), &set, &plane, x, y);
    }
    marks[state.picture.mark_place(of, at)] = FILTERED;
    (Ok(()), state)
}

fn own_set(state: State, table: &[u8], component: usize, ctb: usize) -> ComponentSet {
    match table::stored(&state.picture, table, ctb) {
        Some(set) => set.components()[component],
        None => unreachable!("a set outside the rules is refused"),
    }
}

/// The companion of [`finished_part`]: how many sample rows are finished. The state is the caller's and stays so.
pub fn finished_rows(state: State, component: u8, filtered: [&[u16]; 3], marks: &[u8]) -> Result<usize, Refusal> {
    if let Some(refusal) = refusal(Kind::FinishedRows, &Seen { component, filtered, marks, ..Seen::of_state(state) }) {
        return Err(refusal);
    }
    let picture = state.picture;
    let of = usize::from(component);
    let unfiltered = |ctb: usize| marks[picture.mark_place(of, ctb)] != FILTERED;
    let first = (0..picture.ctus()).find(|&ctb| unfiltered(ctb));
    Ok(first.map_or(picture.plane_height(of), |ctb| picture.block(of, ctb).top))
}

/// The filtered plane from the first row up to, and without, the first CTB row that has an unfiltered CTB; empty where
/// the companion refuses.
pub fn finished_part<'a>(state: State, component: u8, filtered: [&'a [u16]; 3], marks: &[u8]) -> &'a [u16] {
    match finished_rows(state, component, filtered, marks) {
        Ok(rows) => &filtered[usize::from(component)][..rows * state.picture.plane_width(component.into())],
        Err(_) => &[],
    }
}
