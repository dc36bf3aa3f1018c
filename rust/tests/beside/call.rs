//! The calls as they cross the boundary: numbers of the boundary's own types, sets as bytes.

use second::table::SET_BYTES;
use steamgusset::ffi::{Rows, State};

/// A call with what it is handed besides the state and the world.
#[derive(Clone, Debug)]
pub enum Call {
    Open,
    Read { bins: Vec<u8>, count: usize },
    Write { set: [u8; SET_BYTES], out: Vec<u8> },
    Deliver { component: u32, ctb: u32, samples: Vec<u16> },
    Filter { component: u32, ctb: u32 },
    FinishedRows { component: u32 },
}

/// The calls by name, and each one's reasons in order: number, and which of its reasons that is. The first reason is
/// the boundary's own; the others are the lines of docs/CALLS.md.
pub const CALLS: [(&str, &[(u32, &str)]); 6] = [
    ("open", &[FIELD, RULE, (2, "marks")]),
    ("read", &[FIELD, RULE, (2, "table"), NEXT, (7, ""), (4, ""), (5, ""), (6, ""), (14, "the set a merge copies")]),
    ("write", &[FIELD, RULE, (2, "table"), NEXT, (7, ""), (14, "left or upper set"), (12, ""), (13, "")]),
    (
        "deliver",
        &[FIELD, RULE, (2, "planes, marks"), NEXT, (3, ""), (2, "samples"), (14, "own mark"), (9, ""), (8, "")],
    ),
    (
        "filter",
        &[
            FIELD,
            RULE,
            (2, "planes, marks, table"),
            NEXT,
            (3, ""),
            (14, "own or neighbours' marks"),
            (11, ""),
            (10, ""),
            (14, "own set"),
            (14, "deblocked samples"),
        ],
    ),
    ("finished rows", &[FIELD, RULE, (2, "planes, marks"), NEXT, (3, ""), (14, "marks of the component")]),
];

/// The places in it that are spoken of by name.
pub const OPEN: usize = 0;
pub const DELIVER: usize = 3;
pub const FILTER: usize = 4;

const FIELD: (u32, &str) = (1, "a number that no field holds");
const RULE: (u32, &str) = (1, "a rule");
const NEXT: (u32, &str) = (14, "next CTU");

impl Call {
    /// Its place in [`CALLS`].
    pub fn place(&self) -> usize {
        match self {
            Call::Open => OPEN,
            Call::Read { .. } => 1,
            Call::Write { .. } => 2,
            Call::Deliver { .. } => DELIVER,
            Call::Filter { .. } => FILTER,
            Call::FinishedRows { .. } => 5,
        }
    }

    /// The component and the CTB that it names.
    pub fn block(&self) -> Option<(u32, u32)> {
        match *self {
            Call::Deliver { component, ctb, .. } | Call::Filter { component, ctb } => Some((component, ctb)),
            _ => None,
        }
    }
}

/// All that comes back from a call besides the world. A call that has no use for a part leaves it as it was.
#[derive(Clone, Debug, PartialEq, Eq)]
pub struct Returned {
    pub number: u32,
    pub state: State,
    /// The set that read leaves, or the one that write was handed.
    pub set: [u8; SET_BYTES],
    /// The room lent to write.
    pub out: Vec<u8>,
    pub count: usize,
    pub finished: Rows,
}

/// What stands in lent memory that a call is to fill, so that a write to it by a refusal shows.
const SET_BEFORE: [u8; SET_BYTES] = [0xEB; SET_BYTES];
const COUNT_BEFORE: usize = usize::MAX / 3;
const FINISHED_BEFORE: Rows = Rows { rows: usize::MAX / 5, samples: usize::MAX / 7 };

impl Returned {
    /// What a call that changes nothing and answers 0 gives back.
    pub fn untouched(state: State, call: &Call) -> Returned {
        let (set, out) = match call {
            Call::Write { set, out } => (*set, out.clone()),
            _ => (SET_BEFORE, Vec::new()),
        };
        Returned { number: 0, state, set, out, count: COUNT_BEFORE, finished: FINISHED_BEFORE }
    }

    /// The first part in which the archive's differs from what the second program says.
    pub fn difference(&self, expected: &Returned) -> Option<String> {
        let part = |name: &str, ours: &dyn std::fmt::Debug, theirs: &dyn std::fmt::Debug| {
            let (ours, theirs) = (format!("{ours:?}"), format!("{theirs:?}"));
            (ours != theirs).then(|| format!("{name}: the archive gave {ours}, the second program says {theirs}"))
        };
        if self == expected {
            return None;
        }
        part("answer", &self.number, &expected.number)
            .or_else(|| part("state", &self.state, &expected.state))
            .or_else(|| part("set", &self.set, &expected.set))
            .or_else(|| part("count", &self.count, &expected.count))
            .or_else(|| part("finished", &self.finished, &expected.finished))
            .or_else(|| part("out", &self.out, &expected.out))
    }
}
