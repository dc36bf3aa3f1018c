//! A picture with its buffers: the calls as methods, on memory that nothing else can change between them.

use crate::buffers::{Buffers, Lent, Memory, Refused};
use crate::calls;
use crate::ffi::{Block, Rows, Sizes, State};
use crate::picture::Picture;
use crate::refusal::Refusal;
use crate::sets::CtuSet;
use std::fmt;

/// A picture with its buffers: `Stage` has its own ([`Stage::open`], [`Stage::open_in`]), `Stage<Lent>` has lent ones
/// ([`Stage::open_lent`]).
///
/// The calls may come in any order; each does its work or is refused, and a refused call changes nothing. Nothing but
/// the stage can reach the buffers while it lives, so no method is ever refused for what is stored
/// ([`Refusal::Stored`]).
///
/// ```
/// use steamgusset::{ChromaFormat, CtuSet, Picture, Refusal, Stage};
///
/// let (format, luma, chroma) = (ChromaFormat::Monochrome, true, false);
/// let picture = Picture { width: 8, height: 8, ctb: 16, format, luma_depth: 8, chroma_depth: 8, luma, chroma };
/// let mut stage = Stage::open(picture)?;
/// stage.deliver(0, 0, &[9; 64])?;
/// assert_eq!(stage.filter(0, 0), Err(Refusal::NotReady));
/// stage.write(&CtuSet::OFF, &mut [0])?;
/// stage.filter(0, 0)?;
/// assert_eq!(stage.finished_rows(0)?, [9; 64]);
/// # Ok::<(), Refusal>(())
/// ```
///
/// # Threads
///
/// A stage is [`Send`] and [`Sync`], with buffers of its own and with lent ones. What changes a picture takes
/// `&mut self`, so the calls on one picture take turns, on whichever threads they come; stages share nothing, so
/// different pictures go on different threads without a lock. What only looks, as [`Stage::finished_rows`] does, takes
/// `&self`: while no call changes the picture, several threads may look at it.
///
/// ```
/// use steamgusset::{ChromaFormat, CtuSet, Picture, Refusal, Stage};
///
/// let (format, luma, chroma) = (ChromaFormat::Monochrome, true, false);
/// let picture = Picture { width: 8, height: 8, ctb: 16, format, luma_depth: 8, chroma_depth: 8, luma, chroma };
/// let mut stages = [Stage::open(picture)?, Stage::open(picture)?];
/// std::thread::scope(|scope| {
///     for stage in &mut stages {
///         scope.spawn(|| stage.write(&CtuSet::OFF, &mut [0]));
///     }
/// });
/// assert_eq!(stages.map(|stage| stage.next_ctu()), [1, 1]);
/// # Ok::<(), Refusal>(())
/// ```
pub struct Stage<B = Buffers> {
    picture: Picture,
    sizes: Sizes,
    state: State,
    buffers: B,
}

impl Stage {
    /// Opens a picture on buffers of its own, all 0; planes begin with a cache line.
    ///
    /// # Errors
    ///
    /// [`Refusal::Description`].
    pub fn open(picture: Picture) -> Result<Stage, Refusal> {
        let sizes = picture.sizes()?;
        Ok(Stage::opened(picture, sizes, Buffers::zeros(&sizes)))
    }

    /// Opens a picture on buffers that become the stage's own. They are moved, not copied: with
    /// [`Stage::into_buffers`], the planes of a finished picture go to the reference store, and those of a picture that
    /// is no longer referred to come back in their place.
    ///
    /// # Errors
    ///
    /// In this order: [`Refusal::Description`]; [`Refusal::Length`] of any buffer. The buffers come back as they were.
    ///
    /// ```
    /// use steamgusset::{Buffers, ChromaFormat, CtuSet, Picture, Plane, Refusal, Stage};
    ///
    /// let (format, luma, chroma) = (ChromaFormat::Monochrome, true, false);
    /// let picture = Picture { width: 8, height: 8, ctb: 16, format, luma_depth: 8, chroma_depth: 8, luma, chroma };
    /// let mut unused = vec![picture.sizes()?.samples.map(Plane::zeros)];
    /// let mut references = Vec::new();
    ///
    /// let mut buffers = Buffers::zeros(&picture.sizes()?);
    /// for level in [9, 5] {
    ///     let mut stage = Stage::open_in(picture, buffers)?;
    ///     stage.write(&CtuSet::OFF, &mut [0])?;
    ///     stage.deliver(0, 0, &[level; 64])?;
    ///     stage.filter(0, 0)?;
    ///
    ///     buffers = stage.into_buffers();
    ///     references.push(buffers.filtered);
    ///     buffers.filtered = unused.pop().unwrap_or_default();
    /// }
    /// assert_eq!(references[0][0][..], [9; 64]);
    /// assert_eq!(references[1][0][..], [5; 64]);
    ///
    /// // No planes are left for a third picture. What does not fit is not lost.
    /// let refused = Stage::open_in(picture, buffers).unwrap_err();
    /// assert_eq!(refused.refusal, Refusal::Length);
    /// assert_eq!(refused.buffers.deblocked[0][..], [5; 64]);
    /// # Ok::<(), Refusal>(())
    /// ```
    pub fn open_in(picture: Picture, buffers: Buffers) -> Result<Stage, Refused> {
        Stage::fitted(picture, buffers).map_err(|(refusal, buffers)| Refused { refusal, buffers: buffers.into() })
    }
}

impl<'a> Stage<Lent<'a>> {
    /// Opens a picture on lent buffers.
    ///
    /// # Errors
    ///
    /// In this order: [`Refusal::Description`]; [`Refusal::Length`] of any buffer. What is lent is then as it was.
    ///
    /// ```
    /// use steamgusset::{ChromaFormat, CtuSet, ENTRY_BYTES, Lent, Picture, Refusal, Stage};
    ///
    /// let (format, luma, chroma) = (ChromaFormat::Monochrome, true, false);
    /// let picture = Picture { width: 8, height: 8, ctb: 16, format, luma_depth: 8, chroma_depth: 8, luma, chroma };
    /// let (mut before, mut after, mut marks, mut table) = ([0; 64], [0; 64], [0; 1], [0; ENTRY_BYTES]);
    /// let lent = Lent {
    ///     deblocked: [&mut before, &mut [], &mut []],
    ///     filtered: [&mut after, &mut [], &mut []],
    ///     marks: &mut marks,
    ///     table: &mut table,
    /// };
    /// let mut stage = Stage::open_lent(picture, lent)?;
    /// stage.write(&CtuSet::OFF, &mut [0])?;
    /// stage.deliver(0, 0, &[9; 64])?;
    /// stage.filter(0, 0)?;
    /// assert_eq!(after, [9; 64]);
    /// # Ok::<(), Refusal>(())
    /// ```
    pub fn open_lent(picture: Picture, lent: Lent<'a>) -> Result<Stage<Lent<'a>>, Refusal> {
        Stage::fitted(picture, lent).map_err(|(refusal, _)| refusal)
    }
}

impl<B: Memory> Stage<B> {
    /// A picture on buffers that may not fit; then they come back.
    fn fitted(picture: Picture, mut buffers: B) -> Result<Stage<B>, (Refusal, B)> {
        match picture.sizes() {
            Err(refusal) => Err((refusal, buffers)),
            // Open itself is lent the marks alone; the rest would be found wrong only by a later call.
            Ok(sizes) if !buffers.lend().fits(&sizes) => Err((Refusal::Length, buffers)),
            Ok(sizes) => Ok(Stage::opened(picture, sizes, buffers)),
        }
    }

    /// A picture on buffers of its sizes.
    fn opened(picture: Picture, sizes: Sizes, buffers: B) -> Stage<B> {
        let mut stage = Stage { picture, sizes, state: picture.state(), buffers };
        stage.reopen();
        stage
    }

    /// Opens the next picture of the same description, in the same buffers. No CTU has its set and no CTB is delivered.
    ///
    /// It is never refused: description and lengths were accepted when the stage was opened.
    ///
    /// ```
    /// use steamgusset::{ChromaFormat, CtuSet, Picture, Refusal, Stage};
    ///
    /// let (format, luma, chroma) = (ChromaFormat::Monochrome, true, false);
    /// let picture = Picture { width: 8, height: 8, ctb: 16, format, luma_depth: 8, chroma_depth: 8, luma, chroma };
    /// let mut stage = Stage::open(picture)?;
    /// stage.write(&CtuSet::OFF, &mut [0])?;
    /// assert_eq!(stage.next_ctu(), 1);
    /// stage.reopen();
    /// assert_eq!(stage.next_ctu(), 0);
    /// # Ok::<(), Refusal>(())
    /// ```
    pub fn reopen(&mut self) {
        let answer = calls::open(&mut self.state, self.buffers.lend().marks);
        // Description and length of the marks are the only reasons, by proof, and neither can change. A receiver is not
        // stopped for what cannot be: if one held, deliver, filter and finished rows would be refused for it as well.
        debug_assert_eq!(answer, Ok(()));
    }

    /// Ends the picture, finished or not, and hands out its buffers: the stage's own, or those that were lent. Nothing
    /// is copied.
    ///
    /// ```
    /// use steamgusset::{ChromaFormat, CtuSet, Picture, Refusal, Stage};
    ///
    /// let (format, luma, chroma) = (ChromaFormat::Monochrome, true, false);
    /// let picture = Picture { width: 8, height: 8, ctb: 16, format, luma_depth: 8, chroma_depth: 8, luma, chroma };
    /// let mut stage = Stage::open(picture)?;
    /// stage.write(&CtuSet::OFF, &mut [0])?;
    /// stage.deliver(0, 0, &[9; 64])?;
    /// stage.filter(0, 0)?;
    /// let [luma, _, _] = stage.into_buffers().filtered;
    /// assert_eq!(luma[..], [9; 64]);
    /// # Ok::<(), Refusal>(())
    /// ```
    #[must_use]
    pub fn into_buffers(self) -> B {
        self.buffers
    }

    /// The description that the stage was opened with.
    #[must_use]
    pub fn picture(&self) -> Picture {
        self.picture
    }

    /// The sizes of the picture and the lengths of its buffers.
    #[must_use]
    pub fn sizes(&self) -> Sizes {
        self.sizes
    }

    /// The number of the next CTU to be read or written; the CTU count once every CTU has its set.
    #[must_use]
    pub fn next_ctu(&self) -> u32 {
        self.state.next
    }

    /// Where a CTB lies in its plane.
    ///
    /// # Errors
    ///
    /// [`Refusal::NoSuchBlock`].
    pub fn block(&self, component: u32, ctb: u32) -> Result<Block, Refusal> {
        calls::block(&self.state, component, ctb)
    }

    /// Reads the next CTU's set from the first `count` bins, most significant bit of a byte first. They are the bins of
    /// its sao() syntax (7.3.8.3), after arithmetic decoding.
    ///
    /// # Errors
    ///
    /// In this order: [`Refusal::AllRead`]; [`Refusal::CountTooLarge`]; [`Refusal::TooEarly`]; [`Refusal::BinsRemain`].
    ///
    /// ```
    /// use steamgusset::{ChromaFormat, Offsets, Picture, Refusal, Stage};
    ///
    /// let (format, luma, chroma) = (ChromaFormat::Monochrome, true, false);
    /// let picture = Picture { width: 8, height: 8, ctb: 16, format, luma_depth: 8, chroma_depth: 8, luma, chroma };
    /// let mut stage = Stage::open(picture)?;
    /// // Edge; magnitudes 1, 0, 0, 2; class 3.
    /// let bins = [0b11_10_0_0_11, 0b0_11_00000];
    /// assert_eq!(stage.read(&bins, 10), Err(Refusal::TooEarly));
    /// assert_eq!(stage.read(&bins, 12), Err(Refusal::BinsRemain));
    /// let set = stage.read(&bins, 11)?;
    /// assert_eq!(set.luma, Offsets::Edge { class: 3, offsets: [1, 0, 0, -2] });
    /// # Ok::<(), Refusal>(())
    /// ```
    pub fn read(&mut self, bins: &[u8], count: usize) -> Result<CtuSet, Refusal> {
        calls::read(&mut self.state, bins, count, self.buffers.lend().table)
    }

    /// Writes the next CTU's set as bins into `out` and answers their number. Room of
    /// [`BINS_BYTES`](crate::BINS_BYTES) is enough for every set.
    ///
    /// # Errors
    ///
    /// In this order: [`Refusal::AllRead`]; [`Refusal::NoBins`]; [`Refusal::NoRoom`].
    ///
    /// ```
    /// use steamgusset::{BINS_BYTES, ChromaFormat, CtuSet, Offsets, Picture, Refusal, Stage};
    ///
    /// let (format, luma, chroma) = (ChromaFormat::Monochrome, true, false);
    /// let picture = Picture { width: 32, height: 8, ctb: 16, format, luma_depth: 8, chroma_depth: 8, luma, chroma };
    /// let mut stage = Stage::open(picture)?;
    /// let set = CtuSet { luma: Offsets::Band { position: 9, offsets: [1, 0, 0, 0] }, ..CtuSet::OFF };
    /// let mut bins = [0; BINS_BYTES];
    /// assert_eq!(stage.write(&set, &mut bins)?, 13);
    /// assert_eq!(bins[..2], [0b10_10_0_0_0_0, 0b01001_000]);
    /// // The second CTU's set is its left neighbour's: one bin says so.
    /// assert_eq!(stage.write(&set, &mut bins)?, 1);
    /// # Ok::<(), Refusal>(())
    /// ```
    pub fn write(&mut self, set: &CtuSet, out: &mut [u8]) -> Result<usize, Refusal> {
        calls::write(&mut self.state, set, out, self.buffers.lend().table)
    }

    /// Takes one CTB's deblocked samples, row after row. [`Stage::block`] says how many they are.
    ///
    /// # Errors
    ///
    /// In this order: [`Refusal::NoSuchBlock`]; [`Refusal::Length`] of the samples; [`Refusal::DeliveredBefore`];
    /// [`Refusal::SampleTooLarge`].
    ///
    /// ```
    /// use steamgusset::{ChromaFormat, Picture, Refusal, Stage};
    ///
    /// let (format, luma, chroma) = (ChromaFormat::Monochrome, true, false);
    /// let picture = Picture { width: 24, height: 8, ctb: 16, format, luma_depth: 8, chroma_depth: 8, luma, chroma };
    /// let mut stage = Stage::open(picture)?;
    /// let samples = vec![200; stage.block(0, 1)?.samples()];
    /// stage.deliver(0, 1, &samples)?;
    /// assert_eq!(stage.deliver(0, 1, &samples), Err(Refusal::DeliveredBefore));
    /// assert_eq!(stage.deblocked(0)[16..24], [200; 8]);
    /// # Ok::<(), Refusal>(())
    /// ```
    pub fn deliver(&mut self, component: u32, ctb: u32, samples: &[u16]) -> Result<(), Refusal> {
        let Lent { deblocked, marks, .. } = self.buffers.lend();
        calls::deliver(&self.state, component, ctb, samples, deblocked, marks)
    }

    /// Filters one CTB. It is ready once its CTU has its set and it and its neighbours, up to eight, were delivered.
    ///
    /// # Errors
    ///
    /// In this order: [`Refusal::NoSuchBlock`]; [`Refusal::FilteredBefore`]; [`Refusal::NotReady`].
    ///
    /// ```
    /// use steamgusset::{ChromaFormat, CtuSet, Offsets, Picture, Refusal, Stage};
    ///
    /// let (format, luma, chroma) = (ChromaFormat::Monochrome, true, false);
    /// let picture = Picture { width: 8, height: 8, ctb: 16, format, luma_depth: 8, chroma_depth: 8, luma, chroma };
    /// let mut stage = Stage::open(picture)?;
    /// let set = CtuSet { luma: Offsets::Band { position: 12, offsets: [5, 0, 0, 0] }, ..CtuSet::OFF };
    /// stage.write(&set, &mut [0; 3])?;
    /// stage.deliver(0, 0, &[100; 64])?;
    /// stage.filter(0, 0)?;
    /// assert_eq!(stage.filtered(0), [105; 64]);
    /// # Ok::<(), Refusal>(())
    /// ```
    pub fn filter(&mut self, component: u32, ctb: u32) -> Result<(), Refusal> {
        let Lent { deblocked, filtered, marks, table } = self.buffers.lend();
        calls::filter(&self.state, component, ctb, deblocked.map(|plane| &*plane), filtered, marks, table)
    }

    /// The finished rows of a filtered plane, which may be used as reference: the plane's rows down to the first CTB
    /// row that has an unfiltered CTB.
    ///
    /// It may be asked at any time. Every mark of the component is looked at once each time, so what it costs grows
    /// with the number of CTBs. More rows can be finished only after the last unfiltered CTB of a CTB row was filtered:
    /// ask then.
    ///
    /// # Errors
    ///
    /// [`Refusal::NoSuchBlock`].
    ///
    /// ```
    /// use steamgusset::{ChromaFormat, CtuSet, Picture, Refusal, Stage};
    ///
    /// let (format, luma, chroma) = (ChromaFormat::Monochrome, true, false);
    /// let picture = Picture { width: 8, height: 40, ctb: 16, format, luma_depth: 8, chroma_depth: 8, luma, chroma };
    /// let mut stage = Stage::open(picture)?;
    /// stage.write(&CtuSet::OFF, &mut [0])?;
    /// stage.deliver(0, 0, &[1; 128])?;
    /// stage.deliver(0, 1, &[2; 128])?;
    /// assert_eq!(stage.finished_count(0)?, 0);
    /// stage.filter(0, 0)?;
    /// assert_eq!(stage.finished_count(0)?, 16);
    /// assert_eq!(stage.finished_rows(0)?, [1; 128]);
    /// # Ok::<(), Refusal>(())
    /// ```
    pub fn finished_rows(&self, component: u32) -> Result<&[u16], Refusal> {
        let finished = self.finished(component)?;
        // The samples are a leading part of the plane, by proof. If they were not, none would be handed out.
        Ok(self.filtered(component).get(..finished.samples).unwrap_or_default())
    }

    /// How many sample rows of a filtered plane are finished. It costs what [`Stage::finished_rows`] does.
    ///
    /// # Errors
    ///
    /// [`Refusal::NoSuchBlock`].
    pub fn finished_count(&self, component: u32) -> Result<usize, Refusal> {
        self.finished(component).map(|finished| finished.rows)
    }

    fn finished(&self, component: u32) -> Result<Rows, Refusal> {
        calls::finished_rows(&self.state, component, self.buffers.filtered(), self.buffers.marks())
    }

    /// A deblocked plane as it is now; empty where there is no such component. A CTB that was not delivered has what
    /// the buffer had there before.
    #[must_use]
    pub fn deblocked(&self, component: u32) -> &[u16] {
        plane(self.buffers.deblocked(), component)
    }

    /// A filtered plane as it is now, finished or not; empty where there is no such component. A CTB that was not
    /// filtered has what the buffer had there before.
    #[must_use]
    pub fn filtered(&self, component: u32) -> &[u16] {
        plane(self.buffers.filtered(), component)
    }
}

/// The description and the next CTU; the planes would be too long to read.
impl<B> fmt::Debug for Stage<B> {
    fn fmt(&self, out: &mut fmt::Formatter) -> fmt::Result {
        let mut stage = out.debug_struct("Stage");
        stage.field("picture", &self.picture).field("next_ctu", &self.state.next).finish_non_exhaustive()
    }
}

fn plane(planes: [&[u16]; 3], component: u32) -> &[u16] {
    let place = usize::try_from(component).ok();
    place.and_then(|place| planes.get(place).copied()).unwrap_or_default()
}
