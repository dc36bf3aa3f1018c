//! Memory lent across the boundary, with guards around it.
//!
//! Method: what is lent lies inside a larger allocation; the elements before and after it are guards of a known value,
//! and a guard that has changed shows a write outside. The number before it varies, so that the memory lent is aligned
//! to its element and to no more.

use second::World;
use second::random::Random;

/// How a piece of memory is fenced.
#[derive(Clone, Copy, Debug)]
pub struct Fence {
    /// Guards before and after.
    pub before: usize,
    pub after: usize,
    /// Whether memory of length 0 is lent as a null pointer.
    pub null: bool,
}

impl Fence {
    /// Any fence; without guards where an outside tool watches the allocation itself. The draws are the same.
    pub fn drawn(random: &mut Random, guards: bool) -> Fence {
        let (before, after) = (1 + random.below(16), 1 + random.below(16));
        let null = random.once_in(2);
        if guards { Fence { before, after, null } } else { Fence { before: 0, after: 0, null } }
    }
}

/// Lent memory between its guards.
#[derive(Clone, Debug)]
pub struct Guarded<T> {
    all: Vec<T>,
    length: usize,
    guard: T,
    fence: Fence,
}

impl<T: Copy + PartialEq> Guarded<T> {
    pub fn holding(content: &[T], guard: T, fence: Fence) -> Guarded<T> {
        let mut all = Vec::with_capacity(fence.before + content.len() + fence.after);
        all.resize(fence.before, guard);
        all.extend_from_slice(content);
        all.resize(fence.before + content.len() + fence.after, guard);
        Guarded { all, length: content.len(), guard, fence }
    }

    pub fn content(&self) -> &[T] {
        &self.all[self.fence.before..][..self.length]
    }

    pub fn content_mut(&mut self) -> &mut [T] {
        &mut self.all[self.fence.before..][..self.length]
    }

    /// The one element of memory that has one.
    pub fn one(&self) -> &T {
        &self.content()[0]
    }

    pub fn one_mut(&mut self) -> &mut T {
        &mut self.content_mut()[0]
    }

    pub fn length(&self) -> usize {
        self.length
    }

    fn is_null(&self) -> bool {
        self.fence.null && self.length == 0
    }

    pub fn pointer(&self) -> *const T {
        if self.is_null() { std::ptr::null() } else { self.content().as_ptr() }
    }

    pub fn pointer_mut(&mut self) -> *mut T {
        if self.is_null() { std::ptr::null_mut() } else { self.content_mut().as_mut_ptr() }
    }

    pub fn guards_hold(&self) -> bool {
        let (before, rest) = self.all.split_at(self.fence.before);
        before.iter().chain(&rest[self.length..]).all(|guard| *guard == self.guard)
    }
}

/// The buffers that the archive is lent.
#[derive(Clone, Debug)]
pub struct Memory {
    pub deblocked: [Guarded<u16>; 3],
    pub filtered: [Guarded<u16>; 3],
    pub marks: Guarded<u8>,
    pub table: Guarded<u8>,
}

/// No sample of a depth below 16, and no byte that a sound table or mark often has.
pub const SAMPLE_GUARD: u16 = 0xA5C3;
pub const BYTE_GUARD: u8 = 0xA7;

impl Memory {
    /// A copy of the world, between guards.
    pub fn holding(world: &World, random: &mut Random, guards: bool) -> Memory {
        let mut fence = || Fence::drawn(random, guards);
        let mut plane = |content: &Vec<u16>| Guarded::holding(content, SAMPLE_GUARD, fence());
        let deblocked = world.deblocked.each_ref().map(&mut plane);
        let filtered = world.filtered.each_ref().map(&mut plane);
        let mut bytes = |content: &Vec<u8>| Guarded::holding(content, BYTE_GUARD, fence());
        Memory { deblocked, filtered, marks: bytes(&world.marks), table: bytes(&world.table) }
    }

    /// The first place where this memory is not the world, or where a guard has changed.
    pub fn difference(&self, world: &World) -> Option<String> {
        let planes = |names: [&str; 3], ours: &[Guarded<u16>; 3], theirs: &[Vec<u16>; 3]| {
            (0..3).find_map(|of| lent_difference(names[of], &ours[of], &theirs[of]))
        };
        planes(["deblocked luma", "deblocked Cb", "deblocked Cr"], &self.deblocked, &world.deblocked)
            .or_else(|| planes(["filtered luma", "filtered Cb", "filtered Cr"], &self.filtered, &world.filtered))
            .or_else(|| lent_difference("marks", &self.marks, &world.marks))
            .or_else(|| lent_difference("table", &self.table, &world.table))
    }
}

/// The first place where lent memory is not as expected, or a sentence on its guards.
pub fn lent_difference<T>(name: &str, lent: &Guarded<T>, expected: &[T]) -> Option<String>
where
    T: Copy + PartialEq + std::fmt::Debug,
{
    if !lent.guards_hold() {
        return Some(format!("{name}: a guard beside the {} elements lent has changed", lent.length()));
    }
    if lent.content() == expected {
        return None;
    }
    let place = lent.content().iter().zip(expected).position(|(ours, theirs)| ours != theirs);
    Some(place.map_or(format!("{name}: {} elements beside {}", lent.length(), expected.len()), |place| {
        let (ours, theirs) = (lent.content()[place], expected[place]);
        format!("{name}[{place}]: the archive left {ours:?}, the second program says {theirs:?}")
    }))
}
