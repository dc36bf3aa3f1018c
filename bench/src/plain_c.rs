//! The plain C loops of plain.c, behind functions on slices. The one module with `unsafe` in it.
#![allow(unsafe_code)]

use crate::course::Layout;
use std::ffi::c_int;
use steamgusset::{Block, Offsets};

#[repr(C)]
struct Plane {
    width: usize,
    height: usize,
    depth: c_int,
}

#[repr(C)]
struct Set {
    kind: c_int,
    place: c_int,
    offset: [c_int; 4],
}

// plain.h; a Block of the stage's interface has the fields of a plain_block, in their order.
unsafe extern "C" {
    fn plain_filter(from: *const u16, out: *mut u16, plane: *const Plane, block: *const Block, set: *const Set);
    fn plain_within(from: *const u16, plane: *const Plane, block: *const Block) -> c_int;
    fn plain_copy(from: *const u16, out: *mut u16, plane: *const Plane, block: *const Block);
    fn plain_deliver(samples: *const u16, out: *mut u16, plane: *const Plane, block: *const Block) -> c_int;
}

/// Filters one block from a plane into another.
pub fn filter(layout: Layout, set: Offsets, block: Block, plane: &[u16], out: &mut [u16]) {
    assert!(holds(layout, block, plane) && holds(layout, block, out) && has_class(set));
    // SAFETY: the block lies in both planes, and neighbours outside the picture are not read; classes go to 3, and every
    // position and sample finds a place in the bands' table.
    unsafe { plain_filter(plane.as_ptr(), out.as_mut_ptr(), &layout.into(), &block, &set.into()) }
}

/// The same, after a look at the samples of the block and around it: nothing is filtered if one is above the depth.
pub fn filter_checked(layout: Layout, set: Offsets, block: Block, plane: &[u16], out: &mut [u16]) {
    assert!(holds(layout, block, plane));
    // SAFETY: the block lies in the plane, and samples outside the picture are not read.
    if unsafe { plain_within(plane.as_ptr(), &layout.into(), &block) } != 0 {
        filter(layout, set, block, plane, out);
    }
}

/// Copies one block from a plane into another, row by row.
pub fn copy(layout: Layout, block: Block, plane: &[u16], out: &mut [u16]) {
    assert!(holds(layout, block, plane) && holds(layout, block, out));
    // SAFETY: the block lies in both planes.
    unsafe { plain_copy(plane.as_ptr(), out.as_mut_ptr(), &layout.into(), &block) }
}

/// Copies a block's samples into a plane, unless one is above the depth.
pub fn deliver(layout: Layout, samples: &[u16], block: Block, out: &mut [u16]) -> bool {
    assert!(samples.len() == block.samples() && holds(layout, block, out));
    // SAFETY: there are as many samples as the block has, and it lies in the plane.
    unsafe { plain_deliver(samples.as_ptr(), out.as_mut_ptr(), &layout.into(), &block) != 0 }
}

/// Whether a plane of this layout, at a depth of 8 to 16 bits, has the block in it, and the block has a sample.
fn holds(layout: Layout, block: Block, plane: &[u16]) -> bool {
    let inside = block.x0 < block.x1 && block.x1 <= layout.width && block.y0 < block.y1 && block.y1 <= layout.height;
    inside && plane.len() == layout.width * layout.height && (8..=16).contains(&layout.depth)
}

fn has_class(set: Offsets) -> bool {
    !matches!(set, Offsets::Edge { class: 4.., .. })
}

impl From<Layout> for Plane {
    fn from(layout: Layout) -> Plane {
        Plane { width: layout.width, height: layout.height, depth: layout.depth as c_int }
    }
}

impl From<Offsets> for Set {
    fn from(set: Offsets) -> Set {
        let (kind, place, offsets) = match set {
            Offsets::Off => (0, 0, [0; 4]),
            Offsets::Band { position, offsets } => (1, position, offsets),
            Offsets::Edge { class, offsets } => (2, class, offsets),
        };
        Set { kind, place: place.into(), offset: offsets.map(c_int::from) }
    }
}
