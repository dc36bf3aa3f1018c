//! Real pictures: every vector through the stage in several orders, and at once, bit for bit.

mod common;

use common::vector_files;
use second::filter_picture;
use second::random::Random;
use second::replay::{Tally, through_the_stage};
use second::vectors::{Header, Vector};
use std::io::Read;

const ORDERS: u64 = 4;

fn vectors() -> Vec<(String, Vector)> {
    let parsed = vector_files().into_iter().map(|file| {
        let bytes = std::fs::read(&file).expect("a readable vector");
        let name = file.file_name().unwrap_or_default().to_string_lossy().into_owned();
        let vector = Vector::parse(&bytes).unwrap_or_else(|why| panic!("{name}: {why}"));
        assert_eq!(vector.header.file_bytes(), bytes.len() as u64, "{name}");
        (name, vector)
    });
    parsed.collect()
}

#[test]
fn every_vector_comes_out_bit_for_bit() {
    let mut total = Tally::default();
    let vectors = vectors();
    for (name, vector) in &vectors {
        assert!(vector.is_covered(), "{name}");
        let (picture, sets) = (vector.picture(), vector.sets());
        assert!(!picture.breaks_a_rule(), "{name}");
        assert!(sets.iter().all(|set| set.within_rules(&picture)), "{name}");
        let whole = filter_picture(&picture, &sets, vector.deblocked.each_ref().map(Vec::as_slice));
        assert!(whole == vector.filtered, "{name}: the whole picture differs");
        for seed in 0..ORDERS {
            let (staged, tally) = through_the_stage(&picture, &sets, &vector.deblocked, seed)
                .unwrap_or_else(|why| panic!("{name}: {why}"));
            assert!(staged == vector.filtered, "{name}: order {seed} differs");
            total = sum(total, tally);
        }
    }
    let files = vectors.len();
    let Tally { ctus, bins, samples, changed } = total;
    println!(
        "compared {files} files in {ORDERS} orders: {ctus} CTUs, {bins} bins, {samples} samples, {changed} changed"
    );
    assert_eq!(files, 47);
    let of = |format: u8| vectors.iter().filter(|(_, vector)| vector.picture().format == format).count();
    assert_eq!([0, 1, 2, 3].map(of), [3, 24, 3, 17]);
    let depths = vectors.iter().map(|(_, vector)| vector.picture().depths());
    assert_eq!(depths.filter(|[luma, chroma]| luma != chroma).collect::<Vec<_>>(), [[8, 10]]);
    assert!(ctus > 0 && bins > 0 && samples > 0 && changed > 0);
}

fn sum(a: Tally, b: Tally) -> Tally {
    Tally {
        ctus: a.ctus + b.ctus,
        bins: a.bins + b.bins,
        samples: a.samples + b.samples,
        changed: a.changed + b.changed,
    }
}

fn smallest_file() -> Vec<u8> {
    let files = vector_files().into_iter().map(|file| std::fs::read(file).expect("a readable vector"));
    files.min_by_key(Vec::len).expect("a vector")
}

#[test]
fn a_damaged_file_gives_a_sentence() {
    let bytes = smallest_file();
    assert!(Vector::parse(&bytes).is_ok());
    for length in 0..bytes.len() {
        assert!(Vector::parse(&bytes[..length]).is_err(), "cut to {length} bytes");
    }
    let longer = [bytes.as_slice(), &[0]].concat();
    assert_eq!(Vector::parse(&longer), Err("the file goes on after its final planes".into()));
    let mut unmarked = bytes.clone();
    unmarked[6] = b'2';
    assert_eq!(Vector::parse(&unmarked), Err("the file does not begin with the mark SAOVEC1".into()));
}

/// A bundled file by its name.
fn bundled(name: &str) -> Vec<u8> {
    let named = |file: &std::path::PathBuf| file.file_name().is_some_and(|own| own == name);
    std::fs::read(vector_files().into_iter().find(named).expect("a bundled vector")).expect("a readable vector")
}

fn put(bytes: &mut [u8], place: usize, number: i32) {
    bytes[place..place + 4].copy_from_slice(&number.to_le_bytes());
}

/// With header numbers changed.
fn with(mut bytes: Vec<u8>, numbers: &[(usize, i32)]) -> Vec<u8> {
    numbers.iter().for_each(|(place, number)| put(&mut bytes, 8 + 4 * place, *number));
    bytes
}

/// 72x56 in 4:2:0, twenty CTUs of 28 bytes that begin at 176, in one segment of 24 bytes before them.
fn twenty_ctus() -> Vec<u8> {
    bundled("x_420_8_72x56_ctu16-001.sao")
}

/// The same picture in two segments. The second begins at CTU 7 and has these five numbers more.
fn segmented(second: [i32; 5]) -> Vec<u8> {
    let mut bytes = with(twenty_ctus(), &[(15, 2)]);
    (7..20).for_each(|ctu| put(&mut bytes, 176 + 28 * ctu, 1));
    let numbers = [[7].as_slice(), &second].concat();
    bytes.splice(176..176, numbers.iter().flat_map(|number| number.to_le_bytes()));
    bytes
}

#[test]
fn one_slice_may_have_several_segments() {
    let whole = Vector::parse(&twenty_ctus()).expect("a sound file");
    let vector = Vector::parse(&segmented([0, 1, 1, 1, 0])).expect("two segments");
    assert!(vector.is_covered() && vector.picture() == whole.picture() && vector.sets() == whole.sets());
    let slices = Vector::parse(&segmented([7, 0, 1, 1, 0])).expect("two slices");
    assert_eq!(slices.not_covered(), Some("it has several slices".into()));
    // Another slice than the one before it, and other flags.
    for second in [[7, 1, 1, 1, 0], [0, 1, 1, 0, 0]] {
        let why = "slice segment 1 is dependent, but goes on with no slice before it";
        assert_eq!(Vector::parse(&segmented(second)), Err(why.into()));
    }
    let why = "slice segment 1 begins a slice at CTB 7, not at 0";
    assert_eq!(Vector::parse(&segmented([0, 0, 1, 1, 0])), Err(why.into()));
    let mut misplaced = segmented([0, 1, 1, 1, 0]);
    put(&mut misplaced, 200 + 28 * 7, 0);
    assert_eq!(Vector::parse(&misplaced), Err("CTB 7 says slice segment 0, where 2 have begun".into()));
    let mut elsewhere = twenty_ctus();
    put(&mut elsewhere, 152, 5);
    put(&mut elsewhere, 156, 5);
    assert_eq!(Vector::parse(&elsewhere), Err("CTB 0 says slice segment 0, where 0 have begun".into()));
}

#[test]
fn above_10_bits_the_sent_scale_decides() {
    let scaled = || bundled("s_400_12_scale-000.sao");
    let not_covered = |bytes: Vec<u8>| Vector::parse(&bytes).expect("a sound file").not_covered();
    assert_eq!(not_covered(scaled()), None);
    // No chroma, so its depth and scale do not matter.
    assert_eq!(not_covered(with(scaled(), &[(4, 8), (10, 0)])), None);
    let sent = "it sends scale 0 for luma, where the 2013 rule has 2";
    assert_eq!(not_covered(with(scaled(), &[(9, 0)])), Some(sent.into()));
    let deep = |depth: i32, scale: i32| with(twenty_ctus(), &[(3, 12), (4, depth), (9, 2), (10, scale)]);
    assert_eq!(not_covered(deep(12, 2)), None);
    assert_eq!(not_covered(deep(12, 1)), Some("it sends scale 1 for chroma, where the 2013 rule has 2".into()));
    // By each component's own depth.
    for (depth, scale) in [(8, 0), (10, 0), (11, 1), (16, 6)] {
        assert_eq!(not_covered(deep(depth, scale)), None);
    }
    let sent = "it has luma depth 12, chroma depth 14 and sends scale 2 for chroma, where the 2013 rule has 4";
    assert_eq!(not_covered(deep(14, 2)), Some(sent.into()));
}

/// Chroma has a depth of its own where there is chroma; without it the file's number says nothing, and luma's stands there.
#[test]
fn the_description_has_the_depths_of_the_planes() {
    let depths = |bytes: Vec<u8>| {
        let picture = Vector::parse(&bytes).expect("a sound file").picture();
        assert!(!picture.breaks_a_rule());
        picture.depths()
    };
    assert_eq!(depths(bundled("d_420_8y10c-000.sao")), [8, 10]);
    assert_eq!(depths(with(twenty_ctus(), &[(3, 9), (4, 13), (10, 3)])), [9, 13]);
    for format in [0, 3] {
        let monochrome = with(bundled("s_400_12_scale-000.sao"), &[(2, format), (4, 8), (10, 0)]);
        assert_eq!(depths(monochrome), [12, 12]);
    }
}

/// 4:4:4 with planes coded apart (chroma_format_idc 3, ChromaArrayType 0) has one plane in the file, as monochrome has.
#[test]
fn a_plane_coded_apart_is_a_monochrome_picture() {
    let monochrome = Vector::parse(&bundled("s_400_12_scale-000.sao")).expect("a sound file");
    // Chroma's depth and scale say nothing of a plane that is coded as luma is.
    for numbers in [&[(2, 3)][..], &[(2, 3), (4, 8), (10, 0)]] {
        let apart = Vector::parse(&with(bundled("s_400_12_scale-000.sao"), numbers)).expect("a sound file");
        assert_eq!((apart.header.chroma_format_idc, apart.header.chroma_array_type), (3, 0));
        assert!(apart.is_covered() && apart.picture() == monochrome.picture() && apart.picture().format == 0);
        assert!(apart.sets() == monochrome.sets() && apart.deblocked == monochrome.deblocked);
    }
}

#[test]
fn a_bad_header_number_is_named() {
    for (numbers, sentence) in [
        (&[(0, 65536)][..], "the width is 65536, outside 8 to 65535"),
        (&[(0, 76)], "the width is 76, no multiple of the smallest coding block's 8"),
        (&[(6, 5)], "the logarithm of the smallest coding block size is 5, outside 3 to 4"),
        (&[(8, 5)], "a height of 56 has 4 CTBs of 16, but the header says 5"),
        (&[(9, 1)], "the log2_sao_offset_scale_luma is 1, outside 0 to 0"),
        (&[(4, 11), (10, 2)], "the log2_sao_offset_scale_chroma is 2, outside 0 to 1"),
        (&[(12, 2)], "the loop_filter_across_tiles_enabled_flag is 2, outside 0 to 1"),
        (&[(13, 6)], "the number of tile columns is 6, outside 1 to 5"),
        (&[(15, 21)], "the number of slice segments is 21, outside 1 to 20"),
        (&[(19, 4)], "the header's number 19 is 4, outside 0 to 0"),
        (&[(23, 1)], "the OR of the skip map is 0, announced as 1"),
        (&[(24, 0)], "ChromaArrayType is 0, which chroma_format_idc 1 does not give"),
        (&[(31, -1)], "the header's number 31 is -1, outside 0 to 0"),
    ] {
        assert_eq!(Vector::parse(&with(twenty_ctus(), numbers)), Err(sentence.into()));
    }
}

#[test]
fn no_more_is_read_than_the_header_announces() {
    let bytes = twenty_ctus();
    let mut endless = bytes.chain(std::io::repeat(0));
    let header = Header::read(&mut endless).expect("a good header");
    let fault = Vector::read(header, &mut endless).expect_err("a file without end");
    assert_eq!(fault.to_string(), "the file goes on after its final planes");
    // 8192x8192 announced and nothing there.
    let announced = with(twenty_ctus()[..136].to_vec(), &[(0, 8192), (1, 8192), (7, 512), (8, 512)]);
    assert_eq!(Vector::parse(&announced), Err("the file ends within its tile boundaries".into()));
}

#[test]
fn nothing_is_read_after_a_header_that_is_not_covered() {
    for (numbers, why) in [
        (&[(0, 8208), (1, 8192), (7, 513), (8, 512)][..], "its size is 8208x8192, above 8192"),
        (&[(3, 12)], "it has luma depth 12, chroma depth 8 and sends scale 0 for luma, where the 2013 rule has 2"),
        (
            &[(2, 2), (24, 2), (4, 11)],
            "it has luma depth 8, chroma depth 11 and sends scale 0 for chroma, where the 2013 rule has 1",
        ),
        (&[(2, 3), (24, 3), (14, 2)], "it has several tiles"),
        (&[(2, 3), (24, 0), (3, 11), (4, 8)], "it sends scale 0 for luma, where the 2013 rule has 1"),
        (&[(3, 12), (4, 12), (9, 1), (10, 2)], "it sends scale 1 for luma, where the 2013 rule has 2"),
        (&[(13, 2)], "it has several tiles"),
        (&[(23, 2)], "it has lossless or PCM units that keep their samples"),
        (&[(11, 1), (23, 1)], "it has lossless or PCM units that keep their samples"),
    ] {
        let bytes = with(twenty_ctus()[..136].to_vec(), numbers);
        let right = Header::read(&mut bytes.as_slice()).expect("a good header").file_bytes();
        // Of a pipe the length is not known.
        for length in [None, Some(right)] {
            let mut file = bytes.as_slice();
            assert_eq!(Vector::covered(&mut file, length).expect("no damage"), Err(why.into()));
            assert!(file.is_empty());
        }
        let damage = Vector::covered(&mut bytes.as_slice(), Some(136)).expect_err("a short file");
        assert_eq!(damage.to_string(), format!("the file has 136 bytes, where its header announces {right}"));
    }
    // One that is covered is read.
    for numbers in [
        &[(23, 1)][..],
        &[(2, 2), (24, 2)],
        &[(2, 3), (24, 3)],
        &[(2, 3), (24, 0)],
        &[(4, 9)],
        &[(2, 2), (24, 2), (3, 10)],
    ] {
        let bytes = with(twenty_ctus()[..136].to_vec(), numbers);
        let damage = Vector::covered(&mut bytes.as_slice(), None).expect_err("a short file");
        assert_eq!(damage.to_string(), "the file ends within its tile boundaries");
    }
}

#[test]
fn no_damage_makes_the_reader_panic() {
    let bytes = smallest_file();
    let mut random = Random::new(7);
    for _ in 0..20_000 {
        let mut damaged = bytes.clone();
        for _ in 0..1 + random.below(3) {
            let within = random.pick(&[200, bytes.len()]);
            let any = random.number() as u8;
            damaged[random.below(within)] = random.pick(&[0, 1, 2, 127, 128, 255, any]);
        }
        let _ = Vector::parse(&damaged);
    }
}
