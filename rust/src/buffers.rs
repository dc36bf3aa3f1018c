//! What a stage has its picture in: buffers of its own, or lent ones.

use crate::ffi::Sizes;
use crate::refusal::Refusal;
use std::error::Error;
use std::fmt;
use std::ops::{Deref, DerefMut};

/// Bytes of a cache line.
const LINE: usize = 64;

/// A plane's samples, row after row: a slice that owns its memory.
///
/// Planes that begin with a cache line are copied fastest; [`Plane::zeros`] and clones do. One that is made of a vector
/// begins where the vector does, and its samples are not copied.
///
/// ```
/// use steamgusset::Plane;
///
/// let mut plane = Plane::zeros(64);
/// plane[..8].fill(7);
/// assert_eq!((plane.len(), plane[7], plane[8]), (64, 7, 0));
/// assert_eq!(plane.as_ptr().addr() % 64, 0);
/// assert_eq!(Vec::from(Plane::from(vec![1, 2, 3])), [1, 2, 3]);
/// ```
pub struct Plane {
    memory: Vec<u16>,
    /// The samples are those from this place on.
    start: usize,
}

impl Plane {
    /// So many samples of 0, which begin with a cache line.
    ///
    /// # Panics
    ///
    /// As [`Vec`] does, if no memory is that long.
    #[must_use]
    pub fn zeros(length: usize) -> Plane {
        let spare = LINE / size_of::<u16>();
        // A sum that is cut off is still longer than a vector can be.
        let mut memory = vec![0; length.saturating_add(spare)];
        let start = memory.as_ptr().align_offset(LINE).min(spare);
        memory.truncate(start + length);
        Plane { memory, start }
    }
}

impl Deref for Plane {
    type Target = [u16];

    fn deref(&self) -> &[u16] {
        &self.memory[self.start..]
    }
}

impl DerefMut for Plane {
    fn deref_mut(&mut self) -> &mut [u16] {
        &mut self.memory[self.start..]
    }
}

/// An absent plane.
impl Default for Plane {
    fn default() -> Plane {
        Plane::from(Vec::new())
    }
}

impl Clone for Plane {
    fn clone(&self) -> Plane {
        let mut plane = Plane::zeros(self.len());
        plane.copy_from_slice(self);
        plane
    }
}

impl PartialEq for Plane {
    fn eq(&self, other: &Plane) -> bool {
        **self == **other
    }
}

impl Eq for Plane {}

/// Its length; the samples would be too many to read.
impl fmt::Debug for Plane {
    fn fmt(&self, out: &mut fmt::Formatter) -> fmt::Result {
        out.debug_struct("Plane").field("len", &self.len()).finish_non_exhaustive()
    }
}

/// The vector's samples where they are.
impl From<Vec<u16>> for Plane {
    fn from(memory: Vec<u16>) -> Plane {
        Plane { memory, start: 0 }
    }
}

/// The plane's samples. Those of [`Plane::zeros`] and of a clone are moved to the beginning of their memory.
impl From<Plane> for Vec<u16> {
    fn from(plane: Plane) -> Vec<u16> {
        let Plane { mut memory, start } = plane;
        memory.drain(..start);
        memory
    }
}

/// The buffers of a picture. [`Stage::open`](crate::Stage::open) makes them, [`Stage::into_buffers`] takes them out and
/// [`Stage::open_in`](crate::Stage::open_in) puts them in again; each is moved and none is copied.
///
/// A stage asks for the lengths that [`Picture::sizes`](crate::Picture::sizes) says; an absent plane is empty. What is
/// in them does not matter.
///
/// [`Stage::into_buffers`]: crate::Stage::into_buffers
#[derive(Clone, Default, PartialEq, Eq)]
pub struct Buffers {
    /// Luma, Cb and Cr before the filter.
    pub deblocked: [Plane; 3],
    /// Luma, Cb and Cr after the filter.
    pub filtered: [Plane; 3],
    /// How far each CTB is.
    pub marks: Vec<u8>,
    /// The sets.
    pub table: Vec<u8>,
}

impl Buffers {
    /// Buffers of these lengths, all 0; planes begin with a cache line.
    ///
    /// # Panics
    ///
    /// As [`Vec`] does, if no memory is that long. The sizes of no picture are.
    #[must_use]
    pub fn zeros(sizes: &Sizes) -> Buffers {
        Buffers {
            deblocked: sizes.samples.map(Plane::zeros),
            filtered: sizes.samples.map(Plane::zeros),
            marks: vec![0; sizes.marks],
            table: vec![0; sizes.table],
        }
    }

    /// Lends them, for [`Stage::open_lent`](crate::Stage::open_lent) to one who keeps them.
    ///
    /// ```
    /// use steamgusset::{Buffers, ChromaFormat, Picture, Refusal, Stage};
    ///
    /// let (format, luma, chroma) = (ChromaFormat::Monochrome, true, false);
    /// let picture = Picture { width: 8, height: 8, ctb: 16, format, luma_depth: 8, chroma_depth: 8, luma, chroma };
    /// let mut buffers = Buffers::zeros(&picture.sizes()?);
    /// let mut stage = Stage::open_lent(picture, buffers.lend())?;
    /// stage.deliver(0, 0, &[9; 64])?;
    /// assert_eq!(buffers.deblocked[0][..], [9; 64]);
    /// # Ok::<(), Refusal>(())
    /// ```
    #[must_use]
    pub fn lend(&mut self) -> Lent<'_> {
        let (deblocked, filtered) = (reborrowed(&mut self.deblocked), reborrowed(&mut self.filtered));
        Lent { deblocked, filtered, marks: &mut self.marks, table: &mut self.table }
    }
}

/// The lengths; what they hold would be too long to read.
impl fmt::Debug for Buffers {
    fn fmt(&self, out: &mut fmt::Formatter) -> fmt::Result {
        let mut buffers = out.debug_struct("Buffers");
        buffers.field("deblocked", &self.deblocked).field("filtered", &self.filtered);
        buffers.field("marks", &self.marks.len()).field("table", &self.table.len()).finish()
    }
}

/// The buffers of a [`Stage`](crate::Stage) that the caller keeps, of the lengths that
/// [`Picture::sizes`](crate::Picture::sizes) says; an absent plane is empty. What is in them does not matter. Planes
/// that begin with a cache line are copied fastest.
#[derive(Debug)]
pub struct Lent<'a> {
    /// Luma, Cb and Cr before the filter.
    pub deblocked: [&'a mut [u16]; 3],
    /// Luma, Cb and Cr after the filter.
    pub filtered: [&'a mut [u16]; 3],
    /// How far each CTB is.
    pub marks: &'a mut [u8],
    /// The sets.
    pub table: &'a mut [u8],
}

impl Lent<'_> {
    /// Whether every buffer has its length.
    pub(crate) fn fits(&self, sizes: &Sizes) -> bool {
        let samples = |planes: &[&mut [u16]; 3]| planes.each_ref().map(|plane| plane.len());
        samples(&self.deblocked) == sizes.samples
            && samples(&self.filtered) == sizes.samples
            && self.marks.len() == sizes.marks
            && self.table.len() == sizes.table
    }
}

/// What a [`Stage`](crate::Stage) has its picture in: [`Buffers`] of its own or [`Lent`] ones. No other type can be:
/// what is stored in these, nothing but the stage can change while it lives.
pub trait Memory: access::Access {}

impl Memory for Buffers {}

impl Memory for Lent<'_> {}

/// Out of reach, so that no other type can be [`Memory`].
pub(crate) mod access {
    use super::{Buffers, Lent, reborrowed, shared};

    pub trait Access {
        fn deblocked(&self) -> [&[u16]; 3];
        fn filtered(&self) -> [&[u16]; 3];
        fn marks(&self) -> &[u8];
        /// All of them, for as long as a call takes.
        fn lend(&mut self) -> Lent<'_>;
    }

    impl Access for Buffers {
        fn deblocked(&self) -> [&[u16]; 3] {
            shared(&self.deblocked)
        }

        fn filtered(&self) -> [&[u16]; 3] {
            shared(&self.filtered)
        }

        fn marks(&self) -> &[u8] {
            &self.marks
        }

        fn lend(&mut self) -> Lent<'_> {
            Buffers::lend(self)
        }
    }

    impl Access for Lent<'_> {
        fn deblocked(&self) -> [&[u16]; 3] {
            shared(&self.deblocked)
        }

        fn filtered(&self) -> [&[u16]; 3] {
            shared(&self.filtered)
        }

        fn marks(&self) -> &[u8] {
            self.marks
        }

        fn lend(&mut self) -> Lent<'_> {
            let (deblocked, filtered) = (reborrowed(&mut self.deblocked), reborrowed(&mut self.filtered));
            Lent { deblocked, filtered, marks: self.marks, table: self.table }
        }
    }
}

fn shared<P: Deref<Target = [u16]>>(planes: &[P; 3]) -> [&[u16]; 3] {
    planes.each_ref().map(P::deref)
}

fn reborrowed<P: DerefMut<Target = [u16]>>(planes: &mut [P; 3]) -> [&mut [u16]; 3] {
    planes.each_mut().map(P::deref_mut)
}

/// Why buffers were not taken ([`Stage::open_in`](crate::Stage::open_in)), and the buffers, as they were. Where only
/// the reason matters, `?` makes a [`Refusal`] of it.
#[derive(Clone, Debug, PartialEq, Eq)]
pub struct Refused {
    /// Why.
    pub refusal: Refusal,
    /// What was handed in; in a box, so that a [`Result`] with this in it stays small.
    pub buffers: Box<Buffers>,
}

impl fmt::Display for Refused {
    fn fmt(&self, out: &mut fmt::Formatter) -> fmt::Result {
        self.refusal.fmt(out)
    }
}

impl Error for Refused {}

impl From<Refused> for Refusal {
    fn from(refused: Refused) -> Refusal {
        refused.refusal
    }
}
