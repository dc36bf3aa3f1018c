//! The C interface: the functions of `libsteamgusset.a` as `include/steamgusset.h` declares them, and what crosses.
//!
//! This is the one module with `unsafe` in it. Each function is declared as it is exported. [`calls`](crate::calls) has
//! a safe function for each, on slices, and gives the answers their meaning: here they are bare, 0 or the number of a
//! [`Refusal`](crate::Refusal).
//!
//! # Memory
//!
//! No number, length or content is unsafe to hand in: a function does its work or refuses, and is proved to. What it
//! cannot test is the memory behind a pointer. Whoever calls a function that takes pointers sees to these:
//!
//! - **Valid.** A pointer is valid for as many elements as the length beside it says: for reading, and a `*mut` for
//!   writing too. Lengths are counted in elements: samples of a plane, bytes of marks, table and bins. A pointer may be
//!   null if its length is 0, as for an absent plane; it is not followed.
//! - **Initialised.** State, bins, samples to deliver and a set to write are. Planes, marks, table and what is filled in
//!   need not be cleared: no answer, set or filtered sample depends on what they held before the opening.
//! - **Aligned.** A pointer to samples is aligned as [`u16`] is, at 2 bytes. Bytes may lie anywhere.
//! - **Apart.** What may be written, behind a `*mut` or a `&mut`, overlaps nothing else that the call is lent, behind a
//!   pointer or a reference. In particular the filtered planes are not the deblocked ones. What is only read may overlap
//!   what is only read.
//! - **Alone.** While a call runs, no other thread writes what the call is lent, and none reads what the call may write.
//!   Deliver and filter write the marks, so the calls on one picture take turns. Pictures that share no memory may be
//!   under way on any number of threads.
//!
//! Nothing is kept after a call: no function stores a pointer, allocates, or has memory of its own. A plane has no
//! padding: row after row, each as long as the plane is wide. What crosses as a reference is valid and aligned by its
//! type, and never null.
//!
//! # Why lending a slice is sound
//!
//! The safe functions lend slices, with their own lengths:
//!
//! - a slice's pointer is aligned, and valid and initialised for as many elements as its length says;
//! - what is lent to be written is borrowed with `&mut`, so that nothing else that crosses overlaps it, and no other
//!   thread reaches it; what is lent to be read is borrowed with `&`, so that none writes it;
//! - the functions are proved: they have no precondition, stay inside what they are lent, and keep none of it after
//!   they answer;
//! - what they leave are numbers of the types declared, of which every value is valid.
#![allow(unsafe_code)]

use crate::sets::SET_BYTES;
use std::mem::offset_of;

/// The state: the description and the number of the next CTU to be read or written. Plain numbers, so that a wrong one
/// can be handed in and refused.
#[derive(Clone, Copy, Debug, Default, PartialEq, Eq, Hash)]
#[repr(C)]
pub struct State {
    /// The picture's width in luma samples.
    pub width: u32,
    /// The picture's height in luma samples.
    pub height: u32,
    /// CTB size in luma samples: 16, 32 or 64.
    pub ctb: u32,
    /// chroma_format_idc, 0 to 3: the numbers of [`ChromaFormat`](crate::ChromaFormat).
    pub format: u32,
    /// Bit depth of luma, BitDepthY, 8 to 16.
    pub luma_depth: u32,
    /// Bit depth of Cb and Cr, BitDepthC, 8 to 16; in monochrome the same as luma's.
    pub chroma_depth: u32,
    /// The switch that says whether luma is filtered, 0 or 1.
    pub luma: u32,
    /// The switch that says whether Cb and Cr are filtered, 0 or 1.
    pub chroma: u32,
    /// The number of the next CTU to be read or written.
    pub next: u32,
}

// The exported functions take it as an array of numbers: the last one ends it.
const _: () = assert!(offset_of!(State, next) + size_of::<u32>() == size_of::<State>());

/// The sizes of a picture and the lengths of the buffers to lend. An absent component has 0 everywhere.
#[derive(Clone, Copy, Debug, Default, PartialEq, Eq, Hash)]
#[repr(C)]
pub struct Sizes {
    /// The width of each plane in its own samples: luma, Cb, Cr.
    pub width: [usize; 3],
    /// The height of each plane in its own samples.
    pub height: [usize; 3],
    /// The length of each plane in samples.
    pub samples: [usize; 3],
    /// CTB columns.
    pub columns: usize,
    /// CTB rows.
    pub rows: usize,
    /// The CTU count, columns times rows.
    pub ctus: usize,
    /// The length of the marks in bytes.
    pub marks: usize,
    /// The length of the table in bytes, [`ENTRY_BYTES`](crate::ENTRY_BYTES) for each CTU.
    pub table: usize,
}

/// Where a CTB lies in its plane: columns `x0` up to, and without, `x1`, rows `y0` up to, and without, `y1`.
#[derive(Clone, Copy, Debug, Default, PartialEq, Eq, Hash)]
#[repr(C)]
pub struct Block {
    /// The first column.
    pub x0: usize,
    /// The column after the last.
    pub x1: usize,
    /// The first row.
    pub y0: usize,
    /// The row after the last.
    pub y1: usize,
}

impl Block {
    /// How many samples a row of it has.
    #[must_use]
    pub const fn width(&self) -> usize {
        self.x1.saturating_sub(self.x0)
    }

    /// How many rows it has.
    #[must_use]
    pub const fn height(&self) -> usize {
        self.y1.saturating_sub(self.y0)
    }

    /// How many samples it has: as many are delivered.
    #[must_use]
    pub const fn samples(&self) -> usize {
        self.width().saturating_mul(self.height())
    }
}

/// How much of a filtered plane is finished.
#[derive(Clone, Copy, Debug, Default, PartialEq, Eq, Hash)]
#[repr(C)]
pub struct Rows {
    /// The number of finished sample rows.
    pub rows: usize,
    /// The samples in them: that leading part of the plane may be used as reference.
    pub samples: usize,
}

// The exported functions take these as arrays of fourteen, four and two numbers.
const _: () = assert!(size_of::<Sizes>() == size_of::<[usize; 14]>());
const _: () = assert!(size_of::<Block>() == size_of::<[usize; 4]>());
const _: () = assert!(size_of::<Rows>() == size_of::<[usize; 2]>());

unsafe extern "C" {
    /// Sets the marks and the next CTU to 0.
    ///
    /// # Safety
    ///
    /// [Memory](self#memory) holds of `marks`, which is written: `marks_length` bytes, `state` no part of them.
    pub unsafe fn sg_open(state: &mut State, marks: *mut u8, marks_length: usize) -> u32;

    /// Reads the next CTU's set from the first `count` bins.
    ///
    /// # Safety
    ///
    /// [Memory](self#memory) holds of `bins`, which is read: `bins_length` bytes, however large `count` is; and of `table`,
    /// which is written: `table_length` bytes, with `bins`, `state` and `set` no part of them.
    pub unsafe fn sg_read(
        state: &mut State,
        bins: *const u8,
        bins_length: usize,
        count: usize,
        table: *mut u8,
        table_length: usize,
        set: &mut [u8; SET_BYTES],
    ) -> u32;

    /// Writes the next CTU's set as bins and says how many.
    ///
    /// # Safety
    ///
    /// [Memory](self#memory) holds of `out` and `table`, which are written: `out_length` and `table_length` bytes, apart
    /// from one another, with `state`, `set` and `count` no part of them.
    pub unsafe fn sg_write(
        state: &mut State,
        set: &[u8; SET_BYTES],
        out: *mut u8,
        out_length: usize,
        table: *mut u8,
        table_length: usize,
        count: &mut usize,
    ) -> u32;

    /// Takes a CTB's samples into its deblocked plane.
    ///
    /// # Safety
    ///
    /// [Memory](self#memory) holds of `samples`, which are read: `samples_length` samples; and of `y`, `cb`, `cr` and
    /// `marks`, which are written: `y_length`, `cb_length` and `cr_length` samples and `marks_length` bytes, apart from
    /// one another, with `samples` and `state` no part of them.
    pub unsafe fn sg_deliver(
        state: &State,
        component: u32,
        ctb: u32,
        samples: *const u16,
        samples_length: usize,
        y: *mut u16,
        y_length: usize,
        cb: *mut u16,
        cb_length: usize,
        cr: *mut u16,
        cr_length: usize,
        marks: *mut u8,
        marks_length: usize,
    ) -> u32;

    /// Filters a CTB into its filtered plane.
    ///
    /// # Safety
    ///
    /// [Memory](self#memory) holds of `y`, `cb`, `cr` and `table`, which are read: `y_length`, `cb_length` and `cr_length`
    /// samples and `table_length` bytes; and of `out_y`, `out_cb`, `out_cr` and `marks`, which are written:
    /// `out_y_length`, `out_cb_length` and `out_cr_length` samples and `marks_length` bytes, apart from one another, with
    /// the deblocked planes, `table` and `state` no part of them.
    pub unsafe fn sg_filter(
        state: &State,
        component: u32,
        ctb: u32,
        y: *const u16,
        y_length: usize,
        cb: *const u16,
        cb_length: usize,
        cr: *const u16,
        cr_length: usize,
        out_y: *mut u16,
        out_y_length: usize,
        out_cb: *mut u16,
        out_cb_length: usize,
        out_cr: *mut u16,
        out_cr_length: usize,
        marks: *mut u8,
        marks_length: usize,
        table: *const u8,
        table_length: usize,
    ) -> u32;

    /// Says how much of a filtered plane is finished. Every mark of the component is looked at.
    ///
    /// # Safety
    ///
    /// [Memory](self#memory) holds of `y`, `cb`, `cr` and `marks`, which are read: `y_length`, `cb_length` and `cr_length`
    /// samples and `marks_length` bytes, with `finished`, which is written, no part of them.
    pub unsafe fn sg_finished_rows(
        state: &State,
        component: u32,
        y: *const u16,
        y_length: usize,
        cb: *const u16,
        cb_length: usize,
        cr: *const u16,
        cr_length: usize,
        marks: *const u8,
        marks_length: usize,
        finished: &mut Rows,
    ) -> u32;

    /// Says the sizes of a picture and the lengths of the buffers to lend.
    pub safe fn sg_sizes(state: &State, sizes: &mut Sizes) -> u32;

    /// Says where a CTB lies in its plane.
    pub safe fn sg_block(state: &State, component: u32, ctb: u32, block: &mut Block) -> u32;

    /// The version of the archive: major * 65536 + minor.
    pub safe fn sg_version() -> u32;
}

// The same on slices.

pub(crate) fn open(state: &mut State, marks: &mut [u8]) -> u32 {
    // SAFETY: a slice is lent with its own length; see the top of the module.
    unsafe { sg_open(state, marks.as_mut_ptr(), marks.len()) }
}

pub(crate) fn read(state: &mut State, bins: &[u8], count: usize, table: &mut [u8], set: &mut [u8; SET_BYTES]) -> u32 {
    // SAFETY: each slice is lent with its own length; see the top of the module. The count is judged by the length.
    unsafe { sg_read(state, bins.as_ptr(), bins.len(), count, table.as_mut_ptr(), table.len(), set) }
}

pub(crate) fn write(
    state: &mut State,
    set: &[u8; SET_BYTES],
    out: &mut [u8],
    table: &mut [u8],
    count: &mut usize,
) -> u32 {
    // SAFETY: each slice is lent with its own length; see the top of the module.
    unsafe { sg_write(state, set, out.as_mut_ptr(), out.len(), table.as_mut_ptr(), table.len(), count) }
}

pub(crate) fn deliver(
    state: &State,
    component: u32,
    ctb: u32,
    samples: &[u16],
    [y, cb, cr]: [&mut [u16]; 3],
    marks: &mut [u8],
) -> u32 {
    // SAFETY: each slice is lent with its own length; see the top of the module.
    unsafe {
        sg_deliver(
            state,
            component,
            ctb,
            samples.as_ptr(),
            samples.len(),
            y.as_mut_ptr(),
            y.len(),
            cb.as_mut_ptr(),
            cb.len(),
            cr.as_mut_ptr(),
            cr.len(),
            marks.as_mut_ptr(),
            marks.len(),
        )
    }
}

pub(crate) fn filter(
    state: &State,
    component: u32,
    ctb: u32,
    [y, cb, cr]: [&[u16]; 3],
    [out_y, out_cb, out_cr]: [&mut [u16]; 3],
    marks: &mut [u8],
    table: &[u8],
) -> u32 {
    // SAFETY: each slice is lent with its own length; see the top of the module.
    unsafe {
        sg_filter(
            state,
            component,
            ctb,
            y.as_ptr(),
            y.len(),
            cb.as_ptr(),
            cb.len(),
            cr.as_ptr(),
            cr.len(),
            out_y.as_mut_ptr(),
            out_y.len(),
            out_cb.as_mut_ptr(),
            out_cb.len(),
            out_cr.as_mut_ptr(),
            out_cr.len(),
            marks.as_mut_ptr(),
            marks.len(),
            table.as_ptr(),
            table.len(),
        )
    }
}

pub(crate) fn finished_rows(
    state: &State,
    component: u32,
    [y, cb, cr]: [&[u16]; 3],
    marks: &[u8],
    finished: &mut Rows,
) -> u32 {
    // SAFETY: each slice is lent with its own length; see the top of the module.
    unsafe {
        sg_finished_rows(
            state,
            component,
            y.as_ptr(),
            y.len(),
            cb.as_ptr(),
            cb.len(),
            cr.as_ptr(),
            cr.len(),
            marks.as_ptr(),
            marks.len(),
            finished,
        )
    }
}
