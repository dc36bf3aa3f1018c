//! The calls, safe, on buffers that the caller keeps: a function for each of the C interface, with its parameters in
//! the same order.
//!
//! None has a precondition. A refused call changes nothing, the state included. `docs/CALLS.md` lists what each call is
//! lent, its reasons to refuse in order, and what an accepted call changes; [`Sizes`] has the lengths. [`Stage`] keeps
//! state and buffers together, for those who do not have to keep them apart.
//!
//! ```
//! use steamgusset::{BINS_BYTES, ChromaFormat, CtuSet, Picture, Refusal, calls};
//!
//! let (format, luma, chroma) = (ChromaFormat::Monochrome, true, false);
//! let picture = Picture { width: 16, height: 8, ctb: 16, format, luma_depth: 8, chroma_depth: 8, luma, chroma };
//! let mut state = picture.state();
//! let sizes = calls::sizes(&state)?;
//! let (mut deblocked, mut filtered) = (vec![0; sizes.samples[0]], vec![0; sizes.samples[0]]);
//! let (mut marks, mut table) = (vec![0; sizes.marks], vec![0; sizes.table]);
//!
//! calls::open(&mut state, &mut marks)?;
//! // One bin, 0: the only CTU's set is off.
//! assert_eq!(calls::read(&mut state, &[0], 1, &mut table)?, CtuSet::OFF);
//! assert_eq!(calls::write(&mut state, &CtuSet::OFF, &mut [0; BINS_BYTES], &mut table), Err(Refusal::AllRead));
//!
//! // An absent plane is an empty slice.
//! let planes = [&mut deblocked[..], &mut [], &mut []];
//! calls::deliver(&state, 0, 0, &[77; 128], planes, &mut marks)?;
//! let planes = [&mut filtered[..], &mut [], &mut []];
//! calls::filter(&state, 0, 0, [&deblocked, &[], &[]], planes, &mut marks, &table)?;
//!
//! let finished = calls::finished_rows(&state, 0, [&filtered, &[], &[]], &marks)?;
//! assert_eq!((finished.rows, finished.samples), (8, 128));
//! assert_eq!(filtered, [77; 128]);
//! # Ok::<(), Refusal>(())
//! ```
//!
//! [`Stage`]: crate::Stage

use crate::ffi::{self, Block, Rows, Sizes, State};
use crate::refusal::Refusal;
use crate::sets::{CtuSet, SET_BYTES};

/// Sets the marks to 0 and the next CTU to 0.
///
/// # Errors
///
/// In this order: [`Refusal::Description`]; [`Refusal::Length`] of the marks.
pub fn open(state: &mut State, marks: &mut [u8]) -> Result<(), Refusal> {
    accepted(ffi::open(state, marks))
}

/// Reads the next CTU's set from the first `count` bins, most significant bit of a byte first, and stores it. They are
/// the bins of its sao() syntax (7.3.8.3), after arithmetic decoding.
///
/// # Errors
///
/// In this order: [`Refusal::Description`]; [`Refusal::Length`] of the table; [`Refusal::Stored`] for the next CTU;
/// [`Refusal::AllRead`]; [`Refusal::CountTooLarge`]; [`Refusal::TooEarly`]; [`Refusal::BinsRemain`];
/// [`Refusal::Stored`] for the set that a merge copies.
pub fn read(state: &mut State, bins: &[u8], count: usize, table: &mut [u8]) -> Result<CtuSet, Refusal> {
    let mut set = [0; SET_BYTES];
    accepted(ffi::read(state, bins, count, table, &mut set))?;
    // An accepted read leaves the bytes of a set. Others would be what no accepted call leaves.
    CtuSet::from_bytes(&set).ok_or(Refusal::Stored)
}

/// Writes the next CTU's set as bins, answers their number and stores the set. Room of
/// [`BINS_BYTES`](crate::BINS_BYTES) is enough for every set; unused bits of the last byte are 0.
///
/// # Errors
///
/// In this order: [`Refusal::Description`]; [`Refusal::Length`] of the table; [`Refusal::Stored`] for the next CTU;
/// [`Refusal::AllRead`]; [`Refusal::Stored`] for the left or upper set; [`Refusal::NoBins`]; [`Refusal::NoRoom`].
pub fn write(state: &mut State, set: &CtuSet, out: &mut [u8], table: &mut [u8]) -> Result<usize, Refusal> {
    let mut count = 0;
    accepted(ffi::write(state, &set.to_bytes(), out, table, &mut count))?;
    Ok(count)
}

/// Takes one CTB's samples, row after row, into its deblocked plane and marks it delivered.
///
/// # Errors
///
/// In this order: [`Refusal::Description`]; [`Refusal::Length`] of planes and marks; [`Refusal::Stored`] for the next
/// CTU; [`Refusal::NoSuchBlock`]; [`Refusal::Length`] of the samples; [`Refusal::Stored`] for the CTB's mark;
/// [`Refusal::DeliveredBefore`]; [`Refusal::SampleTooLarge`].
pub fn deliver(
    state: &State,
    component: u32,
    ctb: u32,
    samples: &[u16],
    deblocked: [&mut [u16]; 3],
    marks: &mut [u8],
) -> Result<(), Refusal> {
    accepted(ffi::deliver(state, component, ctb, samples, deblocked, marks))
}

/// Filters one CTB into its filtered plane and marks it filtered.
///
/// # Errors
///
/// In this order: [`Refusal::Description`]; [`Refusal::Length`] of planes, marks and table; [`Refusal::Stored`] for the
/// next CTU; [`Refusal::NoSuchBlock`]; [`Refusal::Stored`] for own or neighbours' marks; [`Refusal::FilteredBefore`];
/// [`Refusal::NotReady`]; [`Refusal::Stored`] for the own set, then for deblocked samples.
pub fn filter(
    state: &State,
    component: u32,
    ctb: u32,
    deblocked: [&[u16]; 3],
    filtered: [&mut [u16]; 3],
    marks: &mut [u8],
    table: &[u8],
) -> Result<(), Refusal> {
    accepted(ffi::filter(state, component, ctb, deblocked, filtered, marks, table))
}

/// Says how much of a filtered plane is finished: its rows down to the first CTB row that has an unfiltered CTB.
///
/// It may be asked at any time. Every mark of the component is looked at once each time, so what it costs grows with the
/// number of CTBs. More rows can be finished only after the last unfiltered CTB of a CTB row was filtered: ask then.
///
/// # Errors
///
/// In this order: [`Refusal::Description`]; [`Refusal::Length`] of planes and marks; [`Refusal::Stored`] for the next
/// CTU; [`Refusal::NoSuchBlock`]; [`Refusal::Stored`] for the component's marks.
pub fn finished_rows(state: &State, component: u32, filtered: [&[u16]; 3], marks: &[u8]) -> Result<Rows, Refusal> {
    let mut finished = Rows::default();
    accepted(ffi::finished_rows(state, component, filtered, marks, &mut finished))?;
    Ok(finished)
}

/// Says the sizes of a picture and the lengths of the buffers to lend.
///
/// # Errors
///
/// [`Refusal::Description`].
pub fn sizes(state: &State) -> Result<Sizes, Refusal> {
    let mut sizes = Sizes::default();
    accepted(ffi::sg_sizes(state, &mut sizes))?;
    Ok(sizes)
}

/// Says where a CTB lies in its plane.
///
/// # Errors
///
/// In this order: [`Refusal::Description`]; [`Refusal::NoSuchBlock`].
pub fn block(state: &State, component: u32, ctb: u32) -> Result<Block, Refusal> {
    let mut block = Block::default();
    accepted(ffi::sg_block(state, component, ctb, &mut block))?;
    Ok(block)
}

/// The version of this crate: major and minor. That of the stage which is linked, [`version`], is meant to be the same.
pub const VERSION: (u32, u32) = (number(env!("CARGO_PKG_VERSION_MAJOR")), number(env!("CARGO_PKG_VERSION_MINOR")));

/// The number that cargo has as text.
const fn number(text: &str) -> u32 {
    match u32::from_str_radix(text, 10) {
        Ok(number) => number,
        Err(_) => panic!("a version has numbers"),
    }
}

/// The version of the linked stage: major and minor.
///
/// ```
/// // An archive of another version may have been named to be linked.
/// assert_eq!(steamgusset::version(), steamgusset::VERSION);
/// ```
#[must_use]
pub fn version() -> (u32, u32) {
    let version = ffi::sg_version();
    (version >> 16, version & 0xFFFF)
}

/// What an answer says.
fn accepted(answer: u32) -> Result<(), Refusal> {
    match answer {
        0 => Ok(()),
        // No call is able to answer above 14, by proof. If one did, nothing could be said of what it left: that is no
        // success, and of the refusals 14 tells a caller not to go on with what is stored.
        number => Err(Refusal::from_number(number).unwrap_or(Refusal::Stored)),
    }
}

#[cfg(test)]
mod tests {
    use super::*;

    #[test]
    fn every_answer_has_a_meaning() {
        assert_eq!(accepted(0), Ok(()));
        for refusal in Refusal::ALL {
            assert_eq!(accepted(refusal.number()), Err(refusal));
        }
        assert_eq!([15, u32::MAX].map(accepted), [Err(Refusal::Stored); 2]);
    }
}
