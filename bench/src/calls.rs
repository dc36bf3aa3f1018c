//! The scan and the calls besides filter.

use crate::course::{Asked, Course, Filter, Scan};
use crate::filter::{everywhere, mixed};
use crate::table::{Table, number, ratio};
use crate::timing::{Laps, Patience, each, lap, shortest};
use crate::{Done, Mistake};
use std::hint::black_box;
use std::io::Write;
use steamgusset::{BINS_BYTES, ChromaFormat, CtuSet, Offsets, Picture, Refusal, State, calls};

/// Calls made in a row where one is too short to be timed.
const CALLS: usize = 2000;

pub fn all(patience: Patience, out: &mut dyn Write) -> Done {
    samples(patience, out)?;
    sets(patience, out)?;
    marks(patience, out)?;
    asked(patience, out)
}

fn picture(width: u32, height: u32, ctb: u32) -> Picture {
    let format = ChromaFormat::Chroma420;
    Picture { width, height, ctb, format, luma_depth: 10, chroma_depth: 10, luma: true, chroma: true }
}

// ---- by the sample

fn samples(patience: Patience, out: &mut dyn Write) -> Done {
    writeln!(
        out,
        "### By the sample\n\n\
         Nanoseconds a sample, 1920x1080 in 4:2:0 at 10 bits. Scan is a filter call that is refused (14) because the very \
         last sample that it looks at, below and right of its block, is above the depth: everything but the writing. Plain \
         C's deliver checks the samples of a block and copies its rows by memcpy.\n"
    )?;
    let mut table = Table::new(["block", "scan", "deliver", "plain C's deliver", "deliver / plain C"]);
    for ctb in [64, 32, 16] {
        let mut course = Course::new(picture(1920, 1080, ctb), mixed)?;
        let scan = scan(patience, &mut course)?;
        let [stage, plain] =
            shortest(patience, [true, false], |stage| if stage { course.deliver() } else { course.deliver_plain() })?;
        let [stage, plain] = [stage, plain].map(|time| each(time, course.samples()));
        table.row([format!("{ctb}x{ctb}"), number(scan), number(stage), number(plain), ratio(stage / plain)]);
    }
    writeln!(out, "{table}")?;
    Ok(())
}

fn scan(patience: Patience, course: &mut Course) -> Result<f64, Mistake> {
    let mut seen = 0;
    let [time] = shortest(patience, [()], |()| {
        let Scan { laps, samples } = course.scan()?;
        seen = samples;
        Ok::<_, Mistake>(laps)
    })?;
    Ok(each(time, seen))
}

// ---- by the CTU

/// Sets to write and read: the name, the set, and whether the CTU on the left has it too.
const SETS: [(&str, CtuSet, bool); 4] = [
    ("off", CtuSet::OFF, false),
    ("merge left", everywhere(true, FULL_BAND), true),
    ("band, largest offsets", everywhere(true, FULL_BAND), false),
    ("edge, largest offsets", everywhere(true, FULL_EDGE), false),
];

const FULL_BAND: Offsets = Offsets::Band { position: 31, offsets: [31, -31, 31, -31] };
const FULL_EDGE: Offsets = Offsets::Edge { class: 3, offsets: [31, 31, -31, -31] };

/// One CTU's call, over and over: the state goes back to the CTU before each.
struct Ctu {
    state: State,
    set: CtuSet,
    bins: [u8; BINS_BYTES],
    count: usize,
    table: Vec<u8>,
}

impl Ctu {
    /// The first CTU, which nothing can be merged with, or the second with the first's set on its left.
    fn new(set: CtuSet, merged: bool) -> Result<Ctu, Refusal> {
        let picture = picture(128, 64, 64);
        let mut ctu = Ctu {
            state: picture.state(),
            set,
            bins: [0; BINS_BYTES],
            count: 0,
            table: vec![0; picture.sizes()?.table],
        };
        if merged {
            calls::write(&mut ctu.state, &set, &mut ctu.bins, &mut ctu.table)?;
        }
        ctu.bins = [0; BINS_BYTES];
        let mut state = ctu.state;
        ctu.count = calls::write(&mut state, &set, &mut ctu.bins, &mut ctu.table)?;
        Ok(ctu)
    }

    fn write(&mut self) -> Result<Laps, Refusal> {
        lap(|| {
            for _ in 0..CALLS {
                let mut state = black_box(self.state);
                black_box(calls::write(&mut state, &self.set, &mut self.bins, &mut self.table)?);
            }
            Ok(())
        })
    }

    fn read(&mut self) -> Result<Laps, Refusal> {
        lap(|| {
            for _ in 0..CALLS {
                let mut state = black_box(self.state);
                black_box(calls::read(&mut state, &self.bins, self.count, &mut self.table)?);
            }
            Ok(())
        })
    }
}

fn sets(patience: Patience, out: &mut dyn Write) -> Done {
    writeln!(out, "### By the CTU\n\nNanoseconds a call, 4:2:0 at 10 bits, the same set in all three components.\n")?;
    let mut table = Table::new(["set", "bins", "read", "write"]);
    for (name, set, merged) in SETS {
        let mut ctu = Ctu::new(set, merged)?;
        let times = shortest(patience, [true, false], |reads| if reads { ctu.read() } else { ctu.write() })?;
        let [read, write] = times.map(|time| number(each(time, CALLS)));
        table.row([name.to_string(), ctu.count.to_string(), read, write]);
    }
    writeln!(out, "{table}")?;
    Ok(())
}

// ---- by the picture

fn marks(patience: Patience, out: &mut dyn Write) -> Done {
    writeln!(
        out,
        "### By the picture\n\n\
         1920x1080 in 4:2:0. Finished rows is asked of all three components when everything is filtered, so that every mark \
         is looked at.\n"
    )?;
    let mut table = Table::new(["block", "CTBs", "open, ns", "a CTB", "finished rows, ns", "a CTB"]);
    for ctb in [64, 32, 16] {
        let mut course = Course::new(picture(1920, 1080, ctb), |_, _| CtuSet::OFF)?;
        course.filter(Filter::Stage)?;
        let [finished] = shortest(patience, [()], |()| course.finished_rows())?;
        let [open] = shortest(patience, [()], |()| course.open())?;
        let ctbs = 3 * course.ctus();
        let [open, finished] = [open, finished].map(|time| [number(each(time, 1)), number(each(time, ctbs))]);
        let ([open, open_each], [finished, finished_each]) = (open, finished);
        table.row([format!("{ctb}x{ctb}"), ctbs.to_string(), open, open_each, finished, finished_each]);
    }
    writeln!(out, "{table}")?;
    Ok(())
}

fn asked(patience: Patience, out: &mut dyn Write) -> Done {
    writeln!(
        out,
        "### Finished rows asked on the way\n\n\
         Nanoseconds a sample, 3840x2160 in 4:2:0 at 10 bits; off, band and the four edge classes take turns from CTU to CTU. \
         The filter calls alone; with finished rows of the block's component asked after the last block of each CTB row, \
         which is when they can have grown; and asked after every filter call.\n"
    )?;
    let mut table =
        Table::new(["block", "CTBs", "filter", "asked each row", "/ filter", "asked each call", "/ filter"]);
    for ctb in [64, 32, 16] {
        let mut course = Course::new(picture(3840, 2160, ctb), mixed)?;
        let when = [Asked::Never, Asked::EachRow, Asked::EachCall];
        let times = shortest(patience, when, |asked| course.filter_and_ask(asked))?;
        let [filter, row, call] = times.map(|time| each(time, course.samples()));
        let ctbs = 3 * course.ctus();
        let [rows, calls] = [row, call].map(|time| [number(time), ratio(time / filter)]);
        let cells = [vec![format!("{ctb}x{ctb}"), ctbs.to_string(), number(filter)], rows.to_vec(), calls.to_vec()];
        table.row(cells.into_iter().flatten());
    }
    writeln!(out, "{table}")?;
    Ok(())
}
