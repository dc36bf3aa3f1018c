//! The stored files of the proved programs are what this program writes: nobody edits them by hand.
//!
//! They are written anew by `second stored PROGRAM FILE > crates/PROGRAM/FILE`, for the programs `cases` and `blocks`
//! and their files `stdin` and `stdout`.

use second::ComponentSet;
use second::stored::blocks::{PLANE, Record, SHAPES, records};
use second::stored::cases;
use std::process::Command;

fn second(arguments: &[&str]) -> std::process::Output {
    Command::new(env!("CARGO_BIN_EXE_second")).args(arguments).output().expect("the command runs")
}

#[test]
fn the_stored_files_are_written_by_this_program() {
    for program in ["cases", "blocks"] {
        for file in ["stdin", "stdout"] {
            let path = format!("{}/../crates/{program}/{file}", env!("CARGO_MANIFEST_DIR"));
            let stored = std::fs::read(&path).expect("a stored file");
            let written = second(&["stored", program, file]);
            assert_eq!(written.status.code(), Some(0));
            let anew = format!("write crates/{program}/{file} anew: second stored {program} {file}");
            assert!(written.stdout == stored, "{anew}");
        }
    }
}

#[test]
fn no_other_file_is_stored() {
    for arguments in [&["stored"][..], &["stored", "cases"], &["stored", "cases", "args"], &["stored", "case", "stdin"]]
    {
        let written = second(arguments);
        assert_eq!((written.status.code(), written.stdout.len()), (Some(2), 0));
    }
}

/// Whether a program that takes one of the two depths for both gives this record another answer.
fn shows_one_depth(record: &cases::Record, luma: bool) -> bool {
    let picture = record.picture;
    let depth = if luma { picture.luma_depth } else { picture.chroma_depth };
    let otherwise = cases::Record { picture: picture.at_depths([depth; 2]), ..record.clone() };
    !picture.breaks_a_rule() && record.answer() != otherwise.answer()
}

/// A program with one depth, luma's or chroma's, is found out by many records of `cases` that read and that write.
#[test]
fn one_depth_is_found_out() {
    let records = cases::records();
    let reads = |record: &&cases::Record| matches!(record.call, cases::Call::Read { .. });
    let (read, written): (Vec<_>, Vec<_>) = records.iter().partition(reads);
    for (records, luma) in [&read, &written].into_iter().flat_map(|records| [(records, true), (records, false)]) {
        let times = records.iter().filter(|record| shows_one_depth(record, luma)).count();
        assert!(times >= 50, "{times}");
    }
}

/// The proved program has room for every plane, and each of its sides is a byte.
#[test]
fn there_is_room_for_the_planes() {
    for Record { width, height, .. } in records() {
        assert!(width * height <= PLANE && width <= 255 && height <= 255, "{width}x{height}");
    }
}

/// The neighbours that samples of a block are compared with by each class, northwest first: only a diagonal class comes to
/// corners, and then to two of them.
const COMPARED: [[bool; 8]; 4] = {
    const O: bool = false;
    const I: bool = true;
    [[O, O, O, I, I, O, O, O], [O, I, O, O, O, O, I, O], [I, I, O, I, I, O, I, I], [O, I, I, I, I, I, I, O]]
};

/// The records of a class with one neighbour barred and no other.
fn barred_alone(class: u8, place: usize) -> Vec<Record> {
    let of_class = |set| matches!(set, ComponentSet::Edge { class: other, .. } if other == class);
    records().into_iter().filter(|record| of_class(record.set) && record.bars == 1 << place).collect()
}

/// Blocks of every shape are filtered by every class with each neighbour barred alone. A bar changes what comes out
/// exactly where the class compares with that neighbour.
#[test]
fn every_neighbour_is_barred_alone() {
    for (class, place) in (0..4).flat_map(|class| (0..8).map(move |place| (class, place))) {
        let barred = barred_alone(class, place);
        for (wide, high) in SHAPES {
            let is_such =
                |Record { block, .. }: &Record| (block.right - block.left, block.bottom - block.top) == (wide, high);
            assert!(barred.iter().any(is_such), "{wide}x{high}, class {class}, neighbour {place}");
        }
        let shows = |record: &Record| record.filtered() != Record { bars: 0, ..*record }.filtered();
        assert_eq!(barred.iter().any(shows), COMPARED[usize::from(class)][place], "class {class}, neighbour {place}");
    }
}
