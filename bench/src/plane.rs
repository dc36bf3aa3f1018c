//! A plane's samples at a chosen place in the lines of the processor's caches.

use std::ops::{Deref, DerefMut, Range};

/// Bytes of a line.
const LINE: usize = 64;

/// Samples that are asked for at the least. So much memory comes fresh from the system, at other pages than the plane
/// before had; what is not used of it costs nothing.
const FRESH: usize = 1 << 25;

/// Samples whose first stands some bytes after the start of a line.
pub struct Plane {
    memory: Vec<u16>,
    place: Range<usize>,
}

impl Plane {
    /// Samples of 0.
    pub fn new(length: usize, bytes_after_line: usize) -> Plane {
        let memory = vec![0; FRESH.max(length + (LINE + bytes_after_line) / size_of::<u16>())];
        let start = memory.as_ptr().align_offset(LINE) + bytes_after_line / size_of::<u16>();
        Plane { memory, place: start..start + length }
    }
}

impl Deref for Plane {
    type Target = [u16];

    fn deref(&self) -> &[u16] {
        &self.memory[self.place.clone()]
    }
}

impl DerefMut for Plane {
    fn deref_mut(&mut self) -> &mut [u16] {
        &mut self.memory[self.place.clone()]
    }
}

#[cfg(test)]
mod tests {
    use super::*;

    #[test]
    fn begins_where_asked() {
        for length in [0, 1, 4096] {
            for bytes in [0, 2, 16, 62] {
                let plane = Plane::new(length, bytes);
                assert_eq!((plane.len(), plane.as_ptr().addr() % LINE), (length, bytes));
            }
        }
    }
}
