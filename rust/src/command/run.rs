//! A picture put through the stage, as a receiver does it.
//!
//! Method: one stage writes the sets to bins. Another reads them back and takes the blocks, step after step, in
//! whatever order it is given; after each step the blocks that it may have made ready are asked for at once.

use super::rules::refused;
use super::shuffle::Step;
use super::vector::Vector;
use std::time::{Duration, Instant};
use steamgusset::{BINS_BYTES, ChromaFormat, CtuSet, Picture, Refusal, Stage};

/// The components' names, by their numbers.
pub const NAMES: [&str; 3] = ["Y", "Cb", "Cr"];

/// The time spent within the stage's calls, and nowhere else.
#[derive(Default)]
pub struct Clock(Duration);

impl Clock {
    pub fn time<T>(&mut self, call: impl FnOnce() -> T) -> T {
        let start = Instant::now();
        let answer = call();
        self.0 += start.elapsed();
        answer
    }

    pub fn nanoseconds(&self) -> u128 {
        self.0.as_nanos()
    }
}

/// One CTU's bins.
struct Bins {
    bytes: Vec<u8>,
    count: usize,
}

/// A picture on its way through the stage.
pub struct Run<'a> {
    deblocked: &'a [Vec<u16>; 3],
    sets: Vec<CtuSet>,
    bins: Vec<Bins>,
    pub stage: Stage,
    /// Which blocks have been filtered, by component and number.
    filtered: Vec<Vec<bool>>,
    pub clock: Clock,
    /// How many blocks have been filtered, and how many of them before the last delivery so far.
    done: usize,
    pub before_delivery: usize,
}

impl<'a> Run<'a> {
    /// Opens the stage for a picture that it covers and writes the sets to bins. A set that no bins mean is a fault of
    /// the file.
    pub fn open(vector: &'a Vector) -> Result<Run<'a>, String> {
        let (picture, sets) = (vector.picture(), vector.sets.clone());
        let mut clock = Clock::default();
        let bins = written(picture, &sets, &mut clock)?;
        let stage = opened(picture)?;
        let filtered = vec![vec![false; sets.len()]; picture.components() as usize];
        Ok(Run { deblocked: &vector.deblocked, sets, bins, stage, filtered, clock, done: 0, before_delivery: 0 })
    }

    /// Does one step and asks for what it may have made ready. The answer is the blocks filtered.
    pub fn step(&mut self, step: Step) -> Result<Vec<(u32, u32)>, String> {
        let candidates = match step {
            Step::Read => self.read()?,
            Step::Deliver(component, ctb) => self.deliver(component, ctb)?,
        };
        let mut filtered = Vec::new();
        for (component, ctb) in candidates {
            if self.filter(component, ctb)? {
                filtered.push((component, ctb));
            }
        }
        Ok(filtered)
    }

    /// Reads the next CTU's bins; its own blocks may be ready now.
    fn read(&mut self) -> Result<Vec<(u32, u32)>, String> {
        let ctu = self.stage.next_ctu();
        let (Some(bins), Some(set)) = (self.bins.get(ctu as usize), self.sets.get(ctu as usize)) else {
            return Err(format!("the stage asks for CTU {ctu}, which the picture does not have"));
        };
        let read = self.clock.time(|| self.stage.read(&bins.bytes, bins.count));
        let read = read.map_err(|refusal| format!("the bins of CTU {ctu} are {refusal}"))?;
        if read != *set {
            return Err(format!("the bins of CTU {ctu} are read as another set than was written"));
        }
        Ok((0..self.stage.picture().components()).map(|component| (component, ctu)).collect())
    }

    /// Delivers a CTB; it and its neighbours may be ready now.
    fn deliver(&mut self, component: u32, ctb: u32) -> Result<Vec<(u32, u32)>, String> {
        let samples = self.samples(component, ctb)?;
        self.before_delivery = self.done;
        let answer = self.clock.time(|| self.stage.deliver(component, ctb, &samples));
        answer.map_err(|refusal| format!("delivering {} is {refusal}", block_name(component, ctb)))?;
        let sizes = self.stage.sizes();
        let around = neighbourhood(ctb as usize, sizes.columns, sizes.rows);
        Ok(around.into_iter().map(|neighbour| (component, neighbour as u32)).collect())
    }

    /// The CTB's deblocked samples, row after row.
    fn samples(&self, component: u32, ctb: u32) -> Result<Vec<u16>, String> {
        let block = self.stage.block(component, ctb);
        let block = block.map_err(|refusal| format!("the place of {} is {refusal}", block_name(component, ctb)))?;
        let plane = &self.deblocked[component as usize];
        let width = self.stage.sizes().width[component as usize];
        let row = |y: usize| &plane[y * width + block.x0..y * width + block.x1];
        Ok((block.y0..block.y1).flat_map(row).copied().collect())
    }

    /// Asks for a block that is not filtered yet; whether it was ready.
    fn filter(&mut self, component: u32, ctb: u32) -> Result<bool, String> {
        let done = &mut self.filtered[component as usize][ctb as usize];
        if *done {
            return Ok(false);
        }
        match self.clock.time(|| self.stage.filter(component, ctb)) {
            Ok(()) => *done = true,
            Err(Refusal::NotReady) => return Ok(false),
            Err(refusal) => return Err(format!("filtering {} is {refusal}", block_name(component, ctb))),
        }
        self.done += 1;
        Ok(true)
    }
}

fn block_name(component: u32, ctb: u32) -> String {
    format!("CTB {ctb} of {}", NAMES[component as usize])
}

fn opened(picture: Picture) -> Result<Stage, String> {
    Stage::open(picture).map_err(|refusal| format!("opening the picture is {refusal}"))
}

fn written(picture: Picture, sets: &[CtuSet], clock: &mut Clock) -> Result<Vec<Bins>, String> {
    let mut stage = opened(picture)?;
    let mut all = Vec::new();
    for (ctu, set) in sets.iter().enumerate() {
        let mut bytes = vec![0; BINS_BYTES];
        let count = clock.time(|| stage.write(set, &mut bytes));
        let count =
            count.map_err(|refusal| format!("writing the set of CTU {ctu} is {}", refused(refusal, set, &picture)))?;
        bytes.truncate(count.div_ceil(8));
        all.push(Bins { bytes, count });
    }
    Ok(all)
}

/// A CTB and its neighbours, up to eight.
fn neighbourhood(ctb: usize, columns: usize, rows: usize) -> Vec<usize> {
    let around = |place: usize, end: usize| place.saturating_sub(1)..(place + 2).min(end);
    let (column, row) = (ctb % columns, ctb / columns);
    around(row, rows).flat_map(|y| around(column, columns).map(move |x| y * columns + x)).collect()
}

/// How many samples of each plane differ.
pub fn changed(before: &[Vec<u16>; 3], after: [&[u16]; 3]) -> [usize; 3] {
    let differing = |plane: usize| before[plane].iter().zip(after[plane]).filter(|(a, b)| a != b).count();
    [0, 1, 2].map(differing)
}

/// The format as it is spoken of: monochrome by its numbers too.
pub fn format_name(picture: &Picture) -> String {
    match picture.format {
        ChromaFormat::Monochrome => "4:0:0".into(),
        format => format.to_string(),
    }
}

/// The depth as it is spoken of: one number, or luma's and chroma's where they are two.
pub fn depth_name([luma, chroma]: [u8; 2]) -> String {
    if luma == chroma { luma.to_string() } else { format!("{luma}/{chroma}") }
}

#[cfg(test)]
mod tests {
    use super::neighbourhood;

    #[test]
    fn neighbours_stay_within_the_picture() {
        assert_eq!(neighbourhood(0, 1, 1), [0]);
        assert_eq!(neighbourhood(0, 2, 1), [0, 1]);
        assert_eq!(neighbourhood(2, 3, 2), [1, 2, 4, 5]);
        assert_eq!(neighbourhood(4, 3, 3), [0, 1, 2, 3, 4, 5, 6, 7, 8]);
    }
}
