//! What several tests share: small pictures, and whole rows put through the filter both ways.
#![allow(dead_code)] // each test uses its part

use second::replay::through_the_stage;
use second::{ComponentSet, CtuSet, Picture, State, filter_picture};
use std::path::PathBuf;

pub const MONOCHROME: Picture = Picture::MONOCHROME;

/// Nine CTUs; the middle one, number 4, has all eight neighbours.
pub const NINE: Picture = Picture { width: 48, height: 48, format: 1, chroma: true, ..MONOCHROME };

pub fn state(picture: Picture, next: u32) -> State {
    State { picture, next }
}

pub fn band(position: u8, offsets: [i8; 4]) -> ComponentSet {
    ComponentSet::Band { position, offsets }
}

pub fn edge(class: u8, offsets: [i8; 4]) -> ComponentSet {
    ComponentSet::Edge { class, offsets }
}

/// A picture of one luma set whose every row is `row`, filtered at once and through the stage; its first row.
pub fn filter_row(set: ComponentSet, row: &[u16]) -> Vec<u16> {
    let picture = Picture { width: row.len() as u32, ..MONOCHROME };
    let plane = row.repeat(8);
    let sets = vec![CtuSet::of_luma(set); picture.ctus()];
    let whole = filter_picture(&picture, &sets, [&plane, &[], &[]]);
    let (staged, _) = through_the_stage(&picture, &sets, &[plane, vec![], vec![]], 5).expect("a sound picture");
    assert_eq!(staged, whole);
    whole[0][..row.len()].to_vec()
}

/// The vector files, by name.
pub fn vector_files() -> Vec<PathBuf> {
    let folder = concat!(env!("CARGO_MANIFEST_DIR"), "/../vectors");
    let entries = std::fs::read_dir(folder).expect("the folder of vectors");
    let mut files: Vec<PathBuf> = entries.map(|entry| entry.expect("an entry of the folder").path()).collect();
    files.retain(|file| file.extension().is_some_and(|extension| extension == "sao"));
    files.sort();
    files
}
