//! Parameter sets, and the bytes that they cross and are stored as.

use std::fmt;

/// The bytes of a set as it crosses: six each for luma, Cb and Cr.
pub const SET_BYTES: usize = 18;

/// The bytes of a CTU's entry in the table: those of its set.
pub const ENTRY_BYTES: usize = SET_BYTES;

/// Room that every CTU's bins fit in, at every depth. The longest are 405 bins: both merge bins, and bands of the
/// largest magnitude in all three components, at depths of 10 and above.
pub const BINS_BYTES: usize = 51;

const COMPONENT_BYTES: usize = SET_BYTES / 3;

/// What is added to an offset to make it a byte.
const OFFSET_BIAS: u8 = 128;

/// One component's part of a set. Values outside the rules can be made, and are refused
/// ([`Refusal::NoBins`](crate::Refusal::NoBins)) when written.
///
/// Offsets are as coded, before they are scaled to the depth. Their magnitude is at most 7 at depth 8, 15 at depth 9 and
/// 31 above, by the depth of the component.
#[derive(Clone, Copy, Debug, Default, PartialEq, Eq, Hash)]
pub enum Offsets {
    /// The component's samples stay as they are.
    #[default]
    Off,
    /// Four bands in a row are moved.
    Band {
        /// The first of the four bands, 0 to 31.
        position: u8,
        /// What is added in each of them; after band 31 comes band 0.
        offsets: [i8; 4],
    },
    /// Samples are moved by how they stand against two neighbours.
    Edge {
        /// Which neighbours a sample is compared with: 0 left and right, 1 above and below, 2 upper left and lower
        /// right, 3 upper right and lower left.
        class: u8,
        /// What is added to a sample below both neighbours, below one and level with the other, above one and level
        /// with the other, above both. The first two are not negative, the last two not positive.
        offsets: [i8; 4],
    },
}

/// One CTU's parameter set.
///
/// ```
/// use steamgusset::{CtuSet, Offsets};
///
/// let set = CtuSet { luma: Offsets::Band { position: 9, offsets: [1, 0, -1, 7] }, ..CtuSet::OFF };
/// let bytes = set.to_bytes();
/// assert_eq!(bytes[..6], [1, 9, 129, 128, 127, 135]);
/// assert_eq!(CtuSet::from_bytes(&bytes), Some(set));
/// assert_eq!(set.to_string(), "luma band 9 [1, 0, -1, 7], Cb off, Cr off");
/// ```
#[derive(Clone, Copy, Debug, Default, PartialEq, Eq, Hash)]
pub struct CtuSet {
    /// The set of luma.
    pub luma: Offsets,
    /// The set of Cb.
    pub cb: Offsets,
    /// The set of Cr; its type, and an edge's class, are Cb's.
    pub cr: Offsets,
}

impl Offsets {
    fn to_bytes(self) -> [u8; COMPONENT_BYTES] {
        let (kind, second, offsets) = match self {
            Offsets::Off => return [0; COMPONENT_BYTES],
            Offsets::Band { position, offsets } => (1, position, offsets),
            Offsets::Edge { class, offsets } => (2, class, offsets),
        };
        // Modulo 256, adding 128 takes the bits of -128..=127 to 0..=255 in order.
        let [a, b, c, d] = offsets.map(|offset| offset.cast_unsigned().wrapping_add(OFFSET_BIAS));
        [kind, second, a, b, c, d]
    }

    fn from_bytes(bytes: [u8; COMPONENT_BYTES]) -> Option<Offsets> {
        let [kind, second, ref offsets @ ..] = bytes;
        let offsets = offsets.map(|byte| byte.wrapping_sub(OFFSET_BIAS).cast_signed());
        match kind {
            0 => (bytes == [0; COMPONENT_BYTES]).then_some(Offsets::Off),
            1 => Some(Offsets::Band { position: second, offsets }),
            2 => Some(Offsets::Edge { class: second, offsets }),
            _ => None,
        }
    }
}

impl CtuSet {
    /// Off in every component.
    pub const OFF: CtuSet = CtuSet { luma: Offsets::Off, cb: Offsets::Off, cr: Offsets::Off };

    /// Its parts: luma, Cb, Cr.
    #[must_use]
    pub const fn components(&self) -> [Offsets; 3] {
        [self.luma, self.cb, self.cr]
    }

    /// Its bytes, as they cross (`docs/CALLS.md`). Every set has bytes, within the rules or not.
    #[must_use]
    pub fn to_bytes(&self) -> [u8; SET_BYTES] {
        let bytes = self.components().map(Offsets::to_bytes);
        std::array::from_fn(|place| bytes[place / COMPONENT_BYTES][place % COMPONENT_BYTES])
    }

    /// The set that has these bytes; nothing if none has. Whether it is within the rules is not judged here.
    #[must_use]
    pub fn from_bytes(bytes: &[u8; SET_BYTES]) -> Option<CtuSet> {
        let part = |component| std::array::from_fn(|place| bytes[component * COMPONENT_BYTES + place]);
        let [luma, cb, cr] = [0, 1, 2].map(|component| Offsets::from_bytes(part(component)));
        Some(CtuSet { luma: luma?, cb: cb?, cr: cr? })
    }
}

impl fmt::Display for Offsets {
    fn fmt(&self, out: &mut fmt::Formatter) -> fmt::Result {
        match self {
            Offsets::Off => write!(out, "off"),
            Offsets::Band { position, offsets } => write!(out, "band {position} {offsets:?}"),
            Offsets::Edge { class, offsets } => write!(out, "edge {class} {offsets:?}"),
        }
    }
}

impl fmt::Display for CtuSet {
    fn fmt(&self, out: &mut fmt::Formatter) -> fmt::Result {
        write!(out, "luma {}, Cb {}, Cr {}", self.luma, self.cb, self.cr)
    }
}
