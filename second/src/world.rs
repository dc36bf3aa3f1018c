//! One set of lent buffers and the calls as values, for runs that drive this program beside another.
//!
//! Method: a [`Call`] holds everything that is handed in and not kept, a [`World`] everything that is kept, an
//! [`Answer`] everything that comes back. Two programs agree if answers and worlds are equal after every call.

use crate::picture::{Picture, State};
use crate::reasons::Refusal;
use crate::sets::CtuSet;
use crate::stage;
use crate::table;

/// The buffers lent by the caller.
#[derive(Clone, Debug, Default, PartialEq, Eq)]
pub struct World {
    pub deblocked: [Vec<u16>; 3],
    pub filtered: [Vec<u16>; 3],
    pub marks: Vec<u8>,
    pub table: Vec<u8>,
}

impl World {
    /// Buffers of the right lengths, all 0; all empty for a description that breaks a rule.
    pub fn lent_for(picture: &Picture) -> World {
        let sound = !picture.breaks_a_rule();
        let length = |samples: &dyn Fn() -> usize| if sound { samples() } else { 0 };
        let plane = |component| vec![0; length(&|| picture.plane_samples(component))];
        World {
            deblocked: std::array::from_fn(plane),
            filtered: std::array::from_fn(plane),
            marks: vec![0; length(&|| picture.marks())],
            table: vec![0; length(&|| picture.ctus() * table::ENTRY_BYTES)],
        }
    }
}

/// A call with what it is handed besides the state and the world.
#[derive(Clone, Debug, PartialEq, Eq)]
pub enum Call {
    Open,
    Read { bins: Vec<u8>, count: usize },
    Write { set: CtuSet, out: Vec<u8> },
    Deliver { component: u8, ctb: u32, samples: Vec<u16> },
    Filter { component: u8, ctb: u32 },
    FinishedRows { component: u8 },
}

/// The six calls.
#[derive(Clone, Copy, Debug, PartialEq, Eq, PartialOrd, Ord)]
pub enum Kind {
    Open,
    Read,
    Write,
    Deliver,
    Filter,
    FinishedRows,
}

impl Kind {
    pub const ALL: [Kind; 6] = [Kind::Open, Kind::Read, Kind::Write, Kind::Deliver, Kind::Filter, Kind::FinishedRows];

    pub fn of(call: &Call) -> Kind {
        match call {
            Call::Open => Kind::Open,
            Call::Read { .. } => Kind::Read,
            Call::Write { .. } => Kind::Write,
            Call::Deliver { .. } => Kind::Deliver,
            Call::Filter { .. } => Kind::Filter,
            Call::FinishedRows { .. } => Kind::FinishedRows,
        }
    }
}

/// What an accepted call answers.
#[derive(Clone, Copy, Debug, PartialEq, Eq)]
pub enum Value {
    Opened,
    Set(CtuSet),
    /// The number of bins written.
    Bins(usize),
    Delivered,
    Filtered,
    /// The number of finished sample rows.
    Rows(usize),
}

/// All that comes back from a call.
#[derive(Clone, Debug, PartialEq, Eq)]
pub struct Answer {
    pub answer: Result<Value, Refusal>,
    pub state: State,
    /// The bytes lent to write, as they are after the call; empty for every other call.
    pub out: Vec<u8>,
    /// The leading part handed out by finished rows; empty where refused and for every other call.
    pub part: Vec<u16>,
}

/// Makes one call on the world.
pub fn apply(world: &mut World, state: State, call: Call) -> Answer {
    let World { deblocked, filtered, marks, table } = world;
    let mut bytes = Vec::new();
    let mut part = Vec::new();
    let (answer, state) = match call {
        Call::Open => said(stage::open(state, marks), |()| Value::Opened),
        Call::Read { bins, count } => said(stage::read(state, &bins, count, table), Value::Set),
        Call::Write { set, out } => {
            bytes = out;
            said(stage::write(state, set, &mut bytes, table), Value::Bins)
        }
        Call::Deliver { component, ctb, samples } => {
            let planes = deblocked.each_mut().map(Vec::as_mut_slice);
            said(stage::deliver(state, component, ctb, &samples, planes, marks), |()| Value::Delivered)
        }
        Call::Filter { component, ctb } => {
            let from = deblocked.each_ref().map(Vec::as_slice);
            let into = filtered.each_mut().map(Vec::as_mut_slice);
            said(stage::filter(state, component, ctb, from, into, marks, table), |()| Value::Filtered)
        }
        Call::FinishedRows { component } => {
            let planes = filtered.each_ref().map(Vec::as_slice);
            part = stage::finished_part(state, component, planes, marks).to_vec();
            (stage::finished_rows(state, component, planes, marks).map(Value::Rows), state)
        }
    };
    Answer { answer, state, out: bytes, part }
}

fn said<T>((answer, state): stage::Outcome<T>, value: impl Fn(T) -> Value) -> (Result<Value, Refusal>, State) {
    (answer.map(value), state)
}
