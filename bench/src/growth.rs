//! A whole picture through the calls, against its size: a sample must not cost more in a larger picture.

use crate::course::{Course, Filter};
use crate::filter::mixed;
use crate::table::{Table, number};
use crate::timing::{Best, Laps, Patience, each};
use crate::{Done, Mistake};
use std::io::Write;
use std::iter::zip;
use std::time::Duration;
use steamgusset::{ChromaFormat, Picture, Refusal};

const SIZES: [(u32, u32); 6] = [(416, 240), (832, 480), (1280, 720), (1920, 1080), (3840, 2160), (8192, 4320)];

type Pass = fn(&mut Course) -> Result<Laps, Refusal>;

/// What is done with a picture, in this order.
const PASSES: [Pass; 5] = [
    Course::write,
    Course::read,
    Course::deliver,
    |course| course.filter(Filter::Stage),
    |course| course.finished_rows(),
];

pub fn all(patience: Patience, out: &mut dyn Write) -> Done {
    writeln!(
        out,
        "4:2:0 at 10 bits in 64x64 blocks; off, band and the four edge classes take turns from CTU to CTU. Write and read are \
         in nanoseconds a CTU, the rest in nanoseconds a sample of all components.\n"
    )?;
    let mut table = Table::new([
        "picture",
        "samples",
        "CTUs",
        "write",
        "read",
        "deliver",
        "filter",
        "finished rows",
        "whole, a sample",
    ]);
    let mut courses = courses()?;
    let mut best = vec![[const { Best::new() }; PASSES.len()]; courses.len()];
    for _ in 0..patience.repetitions() {
        for (course, best) in zip(&mut courses, &mut best) {
            for (best, pass) in zip(best, PASSES) {
                best.add(pass(course)?);
            }
        }
    }
    for ((course, size), best) in zip(zip(&courses, SIZES), &best) {
        table.row(row(size, course, best.each_ref().map(Best::time)));
    }
    writeln!(out, "{table}")?;
    Ok(())
}

fn picture((width, height): (u32, u32)) -> Picture {
    let format = ChromaFormat::Chroma420;
    Picture { width, height, ctb: 64, format, luma_depth: 10, chroma_depth: 10, luma: true, chroma: true }
}

fn courses() -> Result<Vec<Course>, Mistake> {
    SIZES.map(picture).into_iter().map(|picture| Ok(Course::new(picture, mixed)?)).collect()
}

fn row((width, height): (u32, u32), course: &Course, times: [Duration; PASSES.len()]) -> [String; 9] {
    let (samples, ctus) = (course.samples(), course.ctus());
    let [write, read, deliver, filter, finished_rows] = times;
    let [write, read] = [write, read].map(|time| number(each(time, ctus)));
    let whole = times.iter().sum();
    let [deliver, filter, finished_rows, whole] =
        [deliver, filter, finished_rows, whole].map(|time| number(each(time, samples)));
    let (samples, ctus) = (samples.to_string(), ctus.to_string());
    [format!("{width}x{height}"), samples, ctus, write, read, deliver, filter, finished_rows, whole]
}
