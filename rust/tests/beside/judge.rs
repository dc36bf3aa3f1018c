//! The second program's side: what a call must give back, and for which of its reasons it is refused.
//!
//! Method: the second program's own reasons are asked first. Where one holds, nothing may change, so the call is
//! not made at all; where none holds, the second program makes it on its own world.

use crate::call::{Call, Returned};
use second::reasons::{self, Seen};
use second::table::{self, SET_BYTES};
use second::{ComponentSet, CtuSet, Kind, Picture, State, Value, World, apply};
use steamgusset::ffi;

/// What must come back, and the place of the reason in the call's list, from 1; 0 for an accepted call.
pub struct Judgement {
    pub returned: Returned,
    pub reason: usize,
}

/// Judges a call, and makes it on the world where it is accepted.
pub fn judged(world: &mut World, state: ffi::State, call: &Call) -> Judgement {
    let mut returned = Returned::untouched(state, call);
    let Some(held) = held(&state) else {
        returned.number = 1;
        return Judgement { returned, reason: 1 };
    };
    let said = said(call);
    if let Some((place, refusal)) = reasons::first(Kind::of(&said), &Seen::of(world, held, &said)) {
        returned.number = refusal.0.into();
        // After the boundary's own reason come those of the list.
        return Judgement { returned, reason: 2 + place };
    }
    let answer = apply(world, held, said);
    returned.state = crossing(answer.state);
    returned.out = answer.out;
    match answer.answer {
        Ok(Value::Set(set)) => returned.set = table::encode(&set),
        Ok(Value::Bins(count)) => returned.count = count,
        Ok(Value::Rows(rows)) => returned.finished = ffi::Rows { rows, samples: answer.part.len() },
        Ok(Value::Opened | Value::Delivered | Value::Filtered) => {}
        Err(refusal) => unreachable!("no reason holds, and yet: {refusal}"),
    }
    Judgement { returned, reason: 0 }
}

// What crosses, in the second program's types.

/// The state, if its numbers fit the fields of one.
pub fn held(state: &ffi::State) -> Option<State> {
    let switch = |number: u32| (number <= 1).then_some(number == 1);
    let picture = Picture {
        width: state.width,
        height: state.height,
        ctb: state.ctb,
        format: u8::try_from(state.format).ok()?,
        luma_depth: u8::try_from(state.luma_depth).ok()?,
        chroma_depth: u8::try_from(state.chroma_depth).ok()?,
        luma: switch(state.luma)?,
        chroma: switch(state.chroma)?,
    };
    Some(State { picture, next: state.next })
}

/// The numbers of a state.
pub fn crossing(State { picture, next }: State) -> ffi::State {
    ffi::State {
        width: picture.width,
        height: picture.height,
        ctb: picture.ctb,
        format: picture.format.into(),
        luma_depth: picture.luma_depth.into(),
        chroma_depth: picture.chroma_depth.into(),
        luma: picture.luma.into(),
        chroma: picture.chroma.into(),
        next,
    }
}

/// A component's number in a byte: no picture has a component 255, so a larger number means no other.
pub fn in_byte(component: u32) -> u8 {
    u8::try_from(component).unwrap_or(u8::MAX)
}

fn said(call: &Call) -> second::Call {
    match call {
        Call::Open => second::Call::Open,
        Call::Read { bins, count } => second::Call::Read { bins: bins.clone(), count: *count },
        Call::Write { set, out } => second::Call::Write { set: set_said(set), out: out.clone() },
        Call::Deliver { component, ctb, samples } => {
            second::Call::Deliver { component: in_byte(*component), ctb: *ctb, samples: samples.clone() }
        }
        Call::Filter { component, ctb } => second::Call::Filter { component: in_byte(*component), ctb: *ctb },
        Call::FinishedRows { component } => second::Call::FinishedRows { component: in_byte(*component) },
    }
}

/// The set that its bytes say.
fn set_said(bytes: &[u8; SET_BYTES]) -> CtuSet {
    let part = |component: usize| component_said(&bytes[component * 6..][..6]);
    CtuSet::of([part(0), part(1), part(2)])
}

/// Six bytes that encode nothing say a set that no bins mean.
fn component_said(six: &[u8]) -> ComponentSet {
    let offsets = std::array::from_fn(|n| six[2 + n].wrapping_sub(128) as i8);
    match six {
        [0, 0, 0, 0, 0, 0] => ComponentSet::Off,
        [1, position, ..] => ComponentSet::Band { position: *position, offsets },
        [2, class, ..] => ComponentSet::Edge { class: *class, offsets },
        _ => ComponentSet::Band { position: u8::MAX, offsets },
    }
}
