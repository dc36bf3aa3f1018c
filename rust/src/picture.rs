//! The picture's description.

use crate::calls;
use crate::ffi::{Block, Sizes, State};
use crate::refusal::Refusal;
use std::fmt;

/// What the planes of Cb and Cr are beside luma's: H.265's chroma format, with its names and the numbers of
/// chroma_format_idc (Table 6-1).
///
/// ```
/// use steamgusset::{ChromaFormat, Refusal};
///
/// // A decoder has the number from the sequence parameter set.
/// let format = ChromaFormat::try_from(2)?;
/// assert_eq!((format, format.to_string()), (ChromaFormat::Chroma422, "4:2:2".into()));
/// assert_eq!(u32::from(format), 2);
/// assert_eq!(ChromaFormat::try_from(4), Err(Refusal::Description));
/// # Ok::<(), Refusal>(())
/// ```
///
/// Where separate_colour_plane_flag is 1, H.265 codes each colour plane as a monochrome picture: three pictures of
/// format [`ChromaFormat::Monochrome`] here.
#[derive(Clone, Copy, Debug, PartialEq, Eq, PartialOrd, Ord, Hash)]
#[repr(u8)]
pub enum ChromaFormat {
    /// Monochrome: there is luma alone.
    Monochrome = 0,
    /// 4:2:0: half of luma's width and half of its height.
    Chroma420 = 1,
    /// 4:2:2: half of luma's width and all of its height.
    Chroma422 = 2,
    /// 4:4:4: luma's width and height.
    Chroma444 = 3,
}

impl ChromaFormat {
    /// All of them, each at the place of its number.
    pub const ALL: [ChromaFormat; 4] =
        [ChromaFormat::Monochrome, ChromaFormat::Chroma420, ChromaFormat::Chroma422, ChromaFormat::Chroma444];
}

impl From<ChromaFormat> for u32 {
    /// chroma_format_idc.
    fn from(format: ChromaFormat) -> u32 {
        format as u32
    }
}

impl TryFrom<u32> for ChromaFormat {
    type Error = Refusal;

    /// The format with this chroma_format_idc. Another number breaks the description's rule of the format.
    fn try_from(idc: u32) -> Result<ChromaFormat, Refusal> {
        ChromaFormat::ALL.into_iter().find(|format| u32::from(*format) == idc).ok_or(Refusal::Description)
    }
}

impl fmt::Display for ChromaFormat {
    /// H.265's name.
    fn fmt(&self, out: &mut fmt::Formatter<'_>) -> fmt::Result {
        out.pad(match self {
            ChromaFormat::Monochrome => "monochrome",
            ChromaFormat::Chroma420 => "4:2:0",
            ChromaFormat::Chroma422 => "4:2:2",
            ChromaFormat::Chroma444 => "4:4:4",
        })
    }
}

/// The description. One that breaks a rule can be made, and is refused.
///
/// The rules: width and height are multiples of 8 from 8 to 8192; CTB size 16, 32 or 64; both depths 8 to 16; in
/// monochrome no chroma switch, and a chroma depth that is luma's.
///
/// ```
/// use steamgusset::{ChromaFormat, Picture, Refusal};
///
/// let (format, luma, chroma) = (ChromaFormat::Chroma420, true, true);
/// let picture = Picture { width: 40, height: 24, ctb: 16, format, luma_depth: 8, chroma_depth: 8, luma, chroma };
/// let sizes = picture.sizes()?;
/// assert_eq!((sizes.columns, sizes.rows, sizes.samples), (3, 2, [960, 240, 240]));
/// // In 4:2:2 chroma has half the width and the full height.
/// let wide = Picture { format: ChromaFormat::Chroma422, ..picture };
/// assert_eq!((wide.sizes()?.width, wide.sizes()?.height), ([40, 20, 20], [24, 24, 24]));
/// // The last CTB is cut short at the right and below.
/// assert_eq!(picture.block(0, 5)?.samples(), 8 * 8);
/// // Luma and chroma have a depth each, which changes no length; where there is no chroma, its depth is luma's.
/// let deep = Picture { luma_depth: 10, ..picture };
/// assert_eq!(([0, 1, 2].map(|component| deep.depth(component)), deep.sizes()?), ([10, 8, 8], sizes));
/// let grey = Picture { format: ChromaFormat::Monochrome, chroma: false, ..deep };
/// assert_eq!(grey.sizes(), Err(Refusal::Description));
/// assert_eq!(Picture { chroma_depth: 10, ..grey }.sizes()?.samples, [960, 0, 0]);
/// assert_eq!(Picture { ctb: 8, ..picture }.sizes(), Err(Refusal::Description));
/// # Ok::<(), Refusal>(())
/// ```
#[derive(Clone, Copy, Debug, PartialEq, Eq, Hash)]
pub struct Picture {
    /// Width in luma samples.
    pub width: u32,
    /// Height in luma samples.
    pub height: u32,
    /// CTB size in luma samples.
    pub ctb: u32,
    /// The chroma format.
    pub format: ChromaFormat,
    /// Bit depth of luma: BitDepthY.
    pub luma_depth: u8,
    /// Bit depth of Cb and Cr: BitDepthC. In monochrome it is to be named too, and is luma's.
    pub chroma_depth: u8,
    /// The switch that says whether luma is filtered: slice_sao_luma_flag.
    pub luma: bool,
    /// The switch that says whether Cb and Cr are filtered: slice_sao_chroma_flag.
    pub chroma: bool,
}

impl Picture {
    /// The state of a picture of which no CTU has been read.
    #[must_use]
    pub fn state(&self) -> State {
        State {
            width: self.width,
            height: self.height,
            ctb: self.ctb,
            format: self.format.into(),
            luma_depth: self.luma_depth.into(),
            chroma_depth: self.chroma_depth.into(),
            luma: self.luma.into(),
            chroma: self.chroma.into(),
            next: 0,
        }
    }

    /// The sizes of the picture and the lengths of the buffers to lend.
    ///
    /// # Errors
    ///
    /// [`Refusal::Description`].
    pub fn sizes(&self) -> Result<Sizes, Refusal> {
        calls::sizes(&self.state())
    }

    /// Where a CTB lies in its plane.
    ///
    /// # Errors
    ///
    /// [`Refusal::Description`], [`Refusal::NoSuchBlock`].
    pub fn block(&self, component: u32, ctb: u32) -> Result<Block, Refusal> {
        calls::block(&self.state(), component, ctb)
    }

    /// The bit depth of a component: luma's for 0, chroma's for every other number.
    #[must_use]
    pub const fn depth(&self, component: u32) -> u8 {
        match component {
            0 => self.luma_depth,
            _ => self.chroma_depth,
        }
    }

    /// How many planes the format has: luma alone, or luma, Cb and Cr.
    #[must_use]
    pub const fn components(&self) -> u32 {
        match self.format {
            ChromaFormat::Monochrome => 1,
            ChromaFormat::Chroma420 | ChromaFormat::Chroma422 | ChromaFormat::Chroma444 => 3,
        }
    }
}
