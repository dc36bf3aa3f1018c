//! The archive's side: a call made through the raw functions, on memory between guards.
//!
//! The one module here with `unsafe` in it. It is needed: the safe functions hide what a refusal leaves in the set, the
//! count and the finished rows, and cannot lend a null pointer.
#![allow(unsafe_code)]

use crate::call::{Call, Returned};
use crate::lent::{BYTE_GUARD, Fence, Guarded, Memory, SAMPLE_GUARD, lent_difference};
use second::table::SET_BYTES;
use steamgusset::ffi::{self, Rows, State};

/// What is lent to one call alone.
struct Own {
    state: Guarded<State>,
    set: Guarded<[u8; SET_BYTES]>,
    out: Guarded<u8>,
    count: Guarded<usize>,
    finished: Guarded<Rows>,
    bins: Guarded<u8>,
    samples: Guarded<u16>,
}

impl Own {
    fn lent(before: &Returned, call: &Call, fence: Fence) -> Own {
        let (bins, samples): (&[u8], &[u16]) = match call {
            Call::Read { bins, .. } => (bins, &[]),
            Call::Deliver { samples, .. } => (&[], samples),
            _ => (&[], &[]),
        };
        Own {
            state: Guarded::holding(&[before.state], State::default(), fence),
            set: Guarded::holding(&[before.set], [BYTE_GUARD; SET_BYTES], fence),
            out: Guarded::holding(&before.out, BYTE_GUARD, fence),
            count: Guarded::holding(&[before.count], 0, fence),
            finished: Guarded::holding(&[before.finished], Rows::default(), fence),
            bins: Guarded::holding(bins, BYTE_GUARD, fence),
            samples: Guarded::holding(samples, SAMPLE_GUARD, fence),
        }
    }

    fn guards_hold(&self) -> bool {
        let written = self.set.guards_hold() && self.out.guards_hold() && self.count.guards_hold();
        written && self.state.guards_hold() && self.finished.guards_hold()
    }

    /// The first change to what is lent to be read.
    fn difference(&self, call: &Call) -> Option<String> {
        match call {
            Call::Read { bins, .. } => lent_difference("bins", &self.bins, bins),
            Call::Deliver { samples, .. } => lent_difference("samples", &self.samples, samples),
            _ => None,
        }
    }

    fn returned(&self, number: u32) -> Returned {
        Returned {
            number,
            state: *self.state.one(),
            set: *self.set.one(),
            out: self.out.content().to_vec(),
            count: *self.count.one(),
            finished: *self.finished.one(),
        }
    }
}

/// Makes the call; an error tells of memory changed that no call may change.
pub fn made(memory: &mut Memory, state: State, call: &Call, fence: Fence) -> Result<Returned, String> {
    let mut own = Own::lent(&Returned::untouched(state, call), call, fence);
    let number = match *call {
        Call::Open => open(memory, &mut own),
        Call::Read { count, .. } => read(memory, &mut own, count),
        Call::Write { .. } => write(memory, &mut own),
        Call::Deliver { component, ctb, .. } => deliver(memory, &mut own, component, ctb),
        Call::Filter { component, ctb } => filter(memory, &mut own, component, ctb),
        Call::FinishedRows { component } => finished_rows(memory, &mut own, component),
    };
    if !own.guards_hold() {
        return Err("a guard beside state, set, room, count or finished rows has changed".into());
    }
    own.difference(call).map_or(Ok(own.returned(number)), Err)
}

// In each of these every pointer crosses with the length of the memory behind it, no two pieces overlap, and all of it
// lives longer than the call: that is what the raw functions ask.

fn open(memory: &mut Memory, own: &mut Own) -> u32 {
    let marks = &mut memory.marks;
    // SAFETY: as above.
    unsafe { ffi::sg_open(own.state.one_mut(), marks.pointer_mut(), marks.length()) }
}

fn read(memory: &mut Memory, own: &mut Own, count: usize) -> u32 {
    let Own { state, set, bins, .. } = own;
    let table = &mut memory.table;
    // SAFETY: as above.
    unsafe {
        ffi::sg_read(
            state.one_mut(),
            bins.pointer(),
            bins.length(),
            count,
            table.pointer_mut(),
            table.length(),
            set.one_mut(),
        )
    }
}

fn write(memory: &mut Memory, own: &mut Own) -> u32 {
    let Own { state, set, out, count, .. } = own;
    let table = &mut memory.table;
    // SAFETY: as above.
    unsafe {
        ffi::sg_write(
            state.one_mut(),
            set.one(),
            out.pointer_mut(),
            out.length(),
            table.pointer_mut(),
            table.length(),
            count.one_mut(),
        )
    }
}

fn deliver(memory: &mut Memory, own: &mut Own, component: u32, ctb: u32) -> u32 {
    let Memory { deblocked: [y, cb, cr], marks, .. } = memory;
    // SAFETY: as above.
    unsafe {
        ffi::sg_deliver(
            own.state.one(),
            component,
            ctb,
            own.samples.pointer(),
            own.samples.length(),
            y.pointer_mut(),
            y.length(),
            cb.pointer_mut(),
            cb.length(),
            cr.pointer_mut(),
            cr.length(),
            marks.pointer_mut(),
            marks.length(),
        )
    }
}

fn filter(memory: &mut Memory, own: &mut Own, component: u32, ctb: u32) -> u32 {
    let Memory { deblocked: [y, cb, cr], filtered: [out_y, out_cb, out_cr], marks, table } = memory;
    // SAFETY: as above.
    unsafe {
        ffi::sg_filter(
            own.state.one(),
            component,
            ctb,
            y.pointer(),
            y.length(),
            cb.pointer(),
            cb.length(),
            cr.pointer(),
            cr.length(),
            out_y.pointer_mut(),
            out_y.length(),
            out_cb.pointer_mut(),
            out_cb.length(),
            out_cr.pointer_mut(),
            out_cr.length(),
            marks.pointer_mut(),
            marks.length(),
            table.pointer(),
            table.length(),
        )
    }
}

fn finished_rows(memory: &mut Memory, own: &mut Own, component: u32) -> u32 {
    let Memory { filtered: [y, cb, cr], marks, .. } = memory;
    // SAFETY: as above.
    unsafe {
        ffi::sg_finished_rows(
            own.state.one(),
            component,
            y.pointer(),
            y.length(),
            cb.pointer(),
            cb.length(),
            cr.pointer(),
            cr.length(),
            marks.pointer(),
            marks.length(),
            own.finished.one_mut(),
        )
    }
}
