//! `steamgusset check`: real pictures through the stage in a shuffled order of calls, against what a decoder made.

use super::arguments::{Arguments, long};
use super::input::Input;
use super::progress::Progress;
use super::run::{NAMES, Run, changed, depth_name, format_name};
use super::shuffle::shuffled;
use super::vector::{Unfit, Vector};
use super::{Ended, Mistake, Status, say};
use std::collections::BTreeMap;
use std::ffi::OsString;
use std::io::Write;
use steamgusset::{CtuSet, Offsets, Picture};

pub const HELP: &str = "\
steamgusset check [--seed N] FILE...

Puts the picture of each vector file through the stage and compares it with the file's final planes. Every CTU's set is
written to bins and read back. Readings and deliveries come in a shuffled order; after each, the blocks that it may have
made ready are asked for at once. Finished rows are taken as they grow, and must never change afterwards.

options:
  --seed N   the order of the calls, a number from 0; without it 1

One FILE may be -, the standard input; a file of that name is ./-. After -- every word is a file.

A line a file: its name, size, format, depth (12/8 where luma's is 12 and chroma's 8), CTB size; for each component its
CTUs that are off/band/edge; how many samples the filter changed; nanoseconds per sample, in which only the calls write,
read, deliver, filter (also the early ones, which are refused) and finished rows are timed; and whether it agrees. A
picture that the stage does not cover yet is named with the reason; it changes nothing in the exit status. If its header
shows that, the rest is not read: only the length is judged, where the system knows it, as it does not of a pipe. A file
that is damaged or cannot be read gets a sentence on the error stream. The last line counts the files, each kind apart,
and the blocks that were filtered before the last delivery of their picture: the order of the calls decides how many.

examples:
  steamgusset check vectors/*.sao
  steamgusset check --seed 7 vectors/x_420_8_72x56_ctu16-001.sao

exit status: 0 every picture that is covered agrees; 1 a picture differs, or a file is damaged or cannot be read; 2 a bad
command line
";

/// What a picture's run gave.
struct Report {
    picture: Picture,
    /// For each component, the CTUs that are off, band and edge.
    types: [[usize; 3]; 3],
    samples: usize,
    changed: usize,
    blocks: usize,
    /// The blocks filtered before the last delivery.
    before_last: usize,
    nanoseconds: u128,
    /// What is wrong, if anything is.
    difference: Option<String>,
}

/// The counts of the last line.
#[derive(Default)]
struct Totals {
    agree: usize,
    differ: usize,
    not_covered: usize,
    damaged: usize,
    unreadable: usize,
    samples: usize,
    blocks: usize,
    before_last: usize,
    nanoseconds: u128,
}

pub fn run(words: &[OsString], out: &mut dyn Write) -> Ended {
    let arguments = Arguments::parse(words, &[long("--seed")])?;
    let seed = arguments.number("--seed", 0, u64::MAX, 1)?;
    if arguments.plain.is_empty() {
        return Err(Mistake::CommandLine("check needs a file".into()));
    }
    let files: Vec<Input> = arguments.plain.iter().map(|word| Input::typed(word)).collect();
    if files.iter().filter(|file| **file == Input::StandardInput).count() > 1 {
        return Err(Mistake::CommandLine("the standard input is named twice, and can be read once".into()));
    }
    let names: Vec<String> = files.iter().map(Input::to_string).collect();
    let longest = names.iter().map(|name| name.chars().count()).max().unwrap_or(0);
    let mut progress = Progress::over(files.len());
    let mut totals = Totals::default();
    for (number, (file, name)) in files.iter().zip(&names).enumerate() {
        let outcome = judged(file, seed, |steps, of| progress.at(number, steps, of));
        progress.clear();
        match &outcome {
            Ok(report) => writeln!(out, "{name:longest$}  {}", line(report))?,
            Err(Unfit::NotCovered(why)) => writeln!(out, "{name:longest$}  not covered: {why}")?,
            Err(unfit) => say(&format!("{name}: {unfit}")),
        }
        totals.add(&outcome);
    }
    writeln!(out, "{}", totals.line())?;
    out.flush()?;
    Ok(if totals.differ + totals.damaged + totals.unreadable == 0 { Status::Fine } else { Status::Disagrees })
}

/// Puts one file's picture through the stage. A set that no bins mean is found only here, and is damage too.
fn judged(file: &Input, seed: u64, mut progress: impl FnMut(usize, usize)) -> Result<Report, Unfit> {
    let vector = Vector::read(file)?;
    let mut run = Run::open(&vector)?;
    let difference = replayed(&mut run, &vector, seed, &mut progress).err();
    let after = [0, 1, 2].map(|component| run.stage.filtered(component));
    let (picture, sets) = (vector.picture(), &vector.sets);
    Ok(Report {
        picture,
        types: types(sets),
        samples: vector.deblocked.iter().map(Vec::len).sum(),
        changed: changed(&vector.deblocked, after).iter().sum(),
        blocks: sets.len() * picture.components() as usize,
        before_last: run.before_delivery,
        nanoseconds: run.clock.nanoseconds(),
        difference,
    })
}

/// All steps in the seed's order, with the finished rows watched, and the comparison; the first thing wrong ends it.
fn replayed(run: &mut Run, vector: &Vector, seed: u64, progress: &mut dyn FnMut(usize, usize)) -> Result<(), String> {
    let (components, ctus) = (vector.picture().components(), run.stage.sizes().ctus);
    let steps = shuffled(components, ctus as u32, seed);
    let mut handed = Handed::default();
    for (done, step) in steps.iter().enumerate() {
        for (component, ctb) in run.step(*step)? {
            handed.after(run, component, ctb)?;
        }
        progress(done + 1, steps.len());
    }
    for component in 0..components {
        handed.is_all(run, component)?;
        same(component, run, &vector.expected[component as usize])?;
    }
    Ok(())
}

/// The finished rows as they were handed out.
#[derive(Default)]
struct Handed {
    rows: [Vec<u16>; 3],
    /// How many CTBs of each CTB row are filtered, by component and row.
    filtered: BTreeMap<(u32, usize), usize>,
}

impl Handed {
    /// Asks for the finished rows if the CTB just filtered was the last of its CTB row. They grow at no other time, and
    /// asking each time would cost more than all other calls.
    fn after(&mut self, run: &mut Run, component: u32, ctb: u32) -> Result<(), String> {
        let columns = run.stage.sizes().columns;
        let filtered = self.filtered.entry((component, ctb as usize / columns)).or_default();
        *filtered += 1;
        if *filtered == columns { self.grow(run, component) } else { Ok(()) }
    }

    /// Takes the finished rows. If they grew, those handed out before must be as they were.
    fn grow(&mut self, run: &mut Run, component: u32) -> Result<(), String> {
        let before = &mut self.rows[component as usize];
        let name = NAMES[component as usize];
        let rows = run.clock.time(|| run.stage.finished_rows(component));
        let rows = rows.map_err(|refusal| format!("asking for the finished rows of {name} is {refusal}"))?;
        if rows.len() == before.len() {
            return Ok(());
        }
        let new = rows.strip_prefix(before.as_slice());
        let new = new.ok_or_else(|| format!("a finished row of {name} changed after it was handed out"))?;
        before.extend_from_slice(new);
        Ok(())
    }

    /// At the end all rows have been handed out, and the plane has them as they were then.
    fn is_all(&self, run: &Run, component: u32) -> Result<(), String> {
        let same = self.rows[component as usize] == run.stage.filtered(component);
        let name = NAMES[component as usize];
        if same { Ok(()) } else { Err(format!("the finished rows of {name} are not the filtered plane at the end")) }
    }
}

/// Compares a filtered plane with the decoder's; a sentence names the first sample that differs.
fn same(component: u32, run: &Run, expected: &[u16]) -> Result<(), String> {
    let got = run.stage.filtered(component);
    let Some(place) = got.iter().zip(expected).position(|(got, expected)| got != expected) else {
        return Ok(());
    };
    let width = run.stage.sizes().width[component as usize];
    let (name, x, y) = (NAMES[component as usize], place % width, place / width);
    Err(format!("{name} at column {x}, row {y}: got {}, expected {}", got[place], expected[place]))
}

fn types(sets: &[CtuSet]) -> [[usize; 3]; 3] {
    let mut counts = [[0; 3]; 3];
    for set in sets {
        for (count, offsets) in counts.iter_mut().zip(set.components()) {
            count[type_number(offsets)] += 1;
        }
    }
    counts
}

fn type_number(offsets: Offsets) -> usize {
    match offsets {
        Offsets::Off => 0,
        Offsets::Band { .. } => 1,
        Offsets::Edge { .. } => 2,
    }
}

/// A picture's line after its file's name.
fn line(report: &Report) -> String {
    let Picture { width, height, ctb, luma_depth, chroma_depth, .. } = report.picture;
    let component = |of: usize| {
        let [off, band, edge] = report.types[of];
        format!("{} {off}/{band}/{edge}", NAMES[of])
    };
    let components: Vec<String> = (0..report.picture.components() as usize).map(component).collect();
    format!(
        "{width}x{height} {} depth {} CTB {ctb}, off/band/edge {}, {} of {} samples changed, {} ns/sample: {}",
        format_name(&report.picture),
        depth_name([luma_depth, chroma_depth]),
        components.join(" "),
        report.changed,
        report.samples,
        per_sample(report.nanoseconds, report.samples),
        report.difference.as_ref().map_or("agrees".into(), |difference| format!("differs: {difference}")),
    )
}

fn per_sample(nanoseconds: u128, samples: usize) -> String {
    format!("{:.1}", nanoseconds as f64 / samples as f64)
}

impl Totals {
    fn add(&mut self, outcome: &Result<Report, Unfit>) {
        let counted = match outcome {
            Ok(Report { difference: None, .. }) => &mut self.agree,
            Ok(_) => &mut self.differ,
            Err(Unfit::NotCovered(_)) => &mut self.not_covered,
            Err(Unfit::Damaged(_)) => &mut self.damaged,
            Err(Unfit::CannotBeRead(_)) => &mut self.unreadable,
        };
        *counted += 1;
        if let Ok(report) = outcome {
            self.samples += report.samples;
            self.blocks += report.blocks;
            self.before_last += report.before_last;
            self.nanoseconds += report.nanoseconds;
        }
    }

    fn line(&self) -> String {
        let Totals { agree, differ, not_covered, damaged, unreadable, samples, blocks, before_last, nanoseconds } =
            self;
        let files = format!(
            "{agree} agree, {differ} differ, {not_covered} not covered, {damaged} damaged, {unreadable} cannot be read"
        );
        if *samples == 0 {
            return files;
        }
        let per_sample = per_sample(*nanoseconds, *samples);
        format!(
            "{files}; {samples} samples, {before_last} of {blocks} blocks filtered before the last delivery, \
             {per_sample} ns/sample in the calls"
        )
    }
}
