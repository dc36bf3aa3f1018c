//! Document 02's depth of chroma's own (K3): "M, the shift, the band width and the upper limit follow the component's own
//! depth". Each at a place where a reading with one depth, or with the other, gives another answer.

mod common;

use common::{NINE, band, edge, state};
use second::bins::{self, Form, Reading};
use second::{Call, ComponentSet, CtuSet, Picture, Refusal, Value, World, apply, filter_picture, table};

// Bins.

/// Bands at luma depth 10 and chroma depth 8, so that M is 31 and 7.
const WORKED: CtuSet = CtuSet {
    luma: ComponentSet::Band { position: 3, offsets: [8, 0, 0, 0] },
    cb: ComponentSet::Band { position: 1, offsets: [7, 0, 0, -1] },
    cr: ComponentSet::Band { position: 31, offsets: [0, 0, 0, -7] },
};

/// Its bins by hand. 8 is below 31 and has its zero; 7 is M of chroma and has none.
fn worked_bins() -> String {
    let luma = ["10", "111111110", "0", "0", "0", "0", "00011"];
    let cb = ["10", "1111111", "0", "0", "10", "0", "1", "00001"];
    let cr = ["0", "0", "0", "1111111", "1", "11111"];
    luma.concat() + &cb.concat() + &cr.concat()
}

/// The 56 bins packed.
const WORKED_BYTES: [u8; 7] = [0xBF, 0xC0, 0x3B, 0xF9, 0x21, 0x1F, 0xFF];

/// What CTU 0 is at these depths by so many bins of these bytes.
fn read_at(depths: [u8; 2], bytes: &[u8], count: usize) -> Result<Value, Refusal> {
    let picture = NINE.at_depths(depths);
    let call = Call::Read { bins: bytes.to_vec(), count };
    apply(&mut World::lent_for(&picture), state(picture, 0), call).answer
}

#[test]
fn a_set_worked_by_hand() {
    let picture = NINE.at_depths([10, 8]);
    assert_eq!(bins::unpack(&WORKED_BYTES, 56), worked_bins());
    let call = Call::Write { set: WORKED, out: vec![0xAA; 8] };
    let written = apply(&mut World::lent_for(&picture), state(picture, 0), call);
    assert_eq!(written.answer, Ok(Value::Bins(56)));
    assert_eq!(written.out, [&WORKED_BYTES[..], &[0xAA]].concat());
    assert_eq!(read_at([10, 8], &WORKED_BYTES, 56), Ok(Value::Set(WORKED)));
}

/// With depth 10 for all, the zero after Cb's seven ones closes them: its magnitudes are 7, 0, 1, 0 and end a bin later, and
/// of Cr's third magnitude there is only the beginning, thirteen ones. With depth 8 for all, luma's eight ones are 7 and then
/// 1 with its zero, and the zero too many is the second sign: 56 bins, and another set.
#[test]
fn one_depth_reads_the_worked_set_otherwise() {
    let read_at = |depths| read_at(depths, &WORKED_BYTES, 56);
    assert_eq!(read_at([10, 10]), Err(Refusal(5)));
    assert_eq!(read_at([8, 8]), Ok(Value::Set(CtuSet { luma: band(3, [7, 1, 0, 0]), ..WORKED })));
    assert_eq!(read_at([8, 10]), Err(Refusal(5)));
}

/// Bins of luma 10 and chroma 8 that readers with one depth take whole, each for another set:
/// 11 0 0 0 111111110 11, 11 0 1111111 0 0 00, 10 0 0 0. With depth 10 for all, the zero after Cb's seven ones is theirs: class
/// 01, and Cr has four zeros. With depth 8 for all, luma's ones end after seven: class 10, then 11, and Cb begins with 110.
#[test]
fn one_depth_misreads_without_a_refusal() {
    let read_at = |depths| read_at(depths, &[0xC7, 0xFB, 0xDF, 0xC2, 0x00], 35);
    let set = |luma, cb, cr| Ok(Value::Set(CtuSet { luma, cb, cr }));
    assert_eq!(read_at([10, 8]), set(edge(3, [0, 0, 0, -8]), edge(0, [0, 7, 0, 0]), edge(0, [1, 0, 0, 0])));
    assert_eq!(read_at([10, 10]), set(edge(3, [0, 0, 0, -8]), edge(1, [0, 7, 0, 0]), edge(1, [0, 0, 0, 0])));
    assert_eq!(read_at([8, 8]), set(edge(2, [0, 0, 0, -7]), edge(0, [2, 7, 0, 0]), edge(0, [1, 0, 0, 0])));
}

/// 0, 11 0 0 0 0 00, 0 0 0 1111111: the CTU ends with Cr's seven ones, which at depth 10 would go on.
#[test]
fn one_depth_loses_its_place() {
    let read_at = |depths| read_at(depths, &[0x60, 0x0F, 0xE0], 19);
    let set = CtuSet { luma: ComponentSet::Off, cb: edge(0, [0; 4]), cr: edge(0, [0, 0, 0, -7]) };
    assert_eq!(read_at([10, 8]), Ok(Value::Set(set)));
    assert_eq!(read_at([10, 10]), Err(Refusal(5)));
}

/// Every offset of one component at its M: that many ones and no zero, four times.
#[test]
fn each_component_has_its_own_m() {
    let m = |depth: u8| [7, 15, 31][usize::from(depth.min(10)) - 8];
    for depths in Picture::pairs_of_depths() {
        let [luma, chroma] = depths.map(m);
        let [of_luma, of_chroma] = [luma, chroma].map(|m| edge(2, [m as i8, m as i8, -m as i8, -m as i8]));
        let [luma, chroma] = [luma, chroma].map(|m: i32| "1".repeat(4 * m as usize));
        let said = ["11", &luma, "10", "11", &chroma, "10", &chroma].concat();
        let set = CtuSet { luma: of_luma, cb: of_chroma, cr: of_chroma };
        assert_eq!(bins::written(&NINE.at_depths(depths), None, None, &set), Some(said.clone()));
        assert_eq!(bins::read(&NINE.at_depths(depths), false, false, &said), Reading::Whole(Form::Full(set)));
    }
}

// Sets, to be written and stored.

/// An offset of 8 in one component: too large at depth 8, and not at 10.
#[test]
fn offsets_are_judged_by_their_own_depth() {
    let one = |component: usize| {
        let mut components = [band(0, [0; 4]); 3];
        components[component] = band(0, [0, -8, 0, 0]);
        CtuSet::of(components)
    };
    for (depths, sound) in [([10, 8], [true, false, false]), ([8, 10], [false, true, true])] {
        let picture = NINE.at_depths(depths);
        for (component, sound) in sound.into_iter().enumerate() {
            let set = one(component);
            let mut world = World::lent_for(&picture);
            let written = apply(&mut world, state(picture, 0), Call::Write { set, out: vec![0; 51] }).answer;
            assert_eq!(written.err(), (!sound).then_some(Refusal(12)));
            // As a stored set, to be copied and to be filtered by: a component's own and the others'.
            table::store(&mut world.table, 0, &set);
            world.marks.fill(1);
            let copied = apply(&mut world.clone(), state(picture, 1), Call::Read { bins: vec![0x80], count: 1 }).answer;
            assert_eq!(copied, if sound { Ok(Value::Set(set)) } else { Err(Refusal(14)) });
            let filtered = apply(&mut world, state(picture, 1), Call::Filter { component: 0, ctb: 0 }).answer;
            assert_eq!(filtered, if sound { Ok(Value::Filtered) } else { Err(Refusal(14)) });
        }
    }
}

// Samples.

/// The answer to a delivery of CTB 0 of a component that ends with this sample.
fn delivers(picture: Picture, component: u8, sample: u16) -> Result<Value, Refusal> {
    let mut samples = vec![0; picture.block(component.into(), 0).samples() - 1];
    samples.push(sample);
    apply(&mut World::lent_for(&picture), state(picture, 0), Call::Deliver { component, ctb: 0, samples }).answer
}

/// The answer to a filter of CTB 0 of a component whose last sample this is.
fn filters(picture: Picture, component: u8, sample: u16) -> Result<Value, Refusal> {
    let mut world = World::lent_for(&picture);
    let of = usize::from(component);
    let block = picture.block(of, 0);
    world.deblocked[of][(block.bottom - 1) * picture.plane_width(of) + block.right - 1] = sample;
    world.marks.fill(1);
    apply(&mut world, state(picture, 9), Call::Filter { component, ctb: 0 }).answer
}

#[test]
fn samples_are_judged_by_their_own_depth() {
    for depths @ [luma, chroma] in Picture::pairs_of_depths() {
        for (component, depth) in [luma, chroma, chroma].into_iter().enumerate() {
            let (picture, component) = (NINE.at_depths(depths), component as u8);
            let largest = u16::MAX >> (16 - depth);
            assert_eq!(delivers(picture, component, largest), Ok(Value::Delivered));
            assert_eq!(filters(picture, component, largest), Ok(Value::Filtered));
            let Some(above) = largest.checked_add(1) else { continue };
            assert_eq!(delivers(picture, component, above), Err(Refusal(8)));
            assert_eq!(filters(picture, component, above), Err(Refusal(14)));
        }
    }
}

/// What becomes of each component's samples, all alike, in a picture of one CTU.
fn one_ctu(depths: [u8; 2], set: CtuSet, samples: [u16; 3]) -> [u16; 3] {
    let picture = Picture { width: 16, height: 16, ..NINE.at_depths(depths) };
    let planes = [0, 1, 2].map(|component| vec![samples[component]; picture.plane_samples(component)]);
    let filtered = filter_picture(&picture, &[set], planes.each_ref().map(Vec::as_slice));
    filtered.map(|plane| plane[0])
}

/// Offsets are multiplied by 2^(depth - min(depth, 10)), band 1 begins at 2^(depth - 5), and the result is kept within
/// 2^depth - 1: all of them by the component's own depth.
#[test]
fn the_filter_goes_by_the_components_own_depth() {
    for (depths, acts_as) in [
        ([12, 8], [4, 1, 1]),
        ([8, 12], [1, 4, 4]),
        ([10, 16], [1, 64, 64]),
        ([16, 9], [64, 1, 1]),
        ([13, 11], [8, 2, 2]),
        ([9, 10], [1, 1, 1]),
    ] {
        let own = [depths[0], depths[1], depths[1]];
        let lift = CtuSet::of([band(1, [1, 0, 0, 0]); 3]);
        let first = own.map(|depth| 1u16 << (depth - 5));
        assert_eq!(one_ctu(depths, lift, first), [0, 1, 2].map(|of| first[of] + acts_as[of]));
        assert_eq!(one_ctu(depths, lift, first.map(|first| first - 1)), first.map(|first| first - 1));
        // The last sample of the band, and the first of the next.
        let last = first.map(|first| 2 * first - 1);
        assert_eq!(one_ctu(depths, lift, last), [0, 1, 2].map(|of| last[of] + acts_as[of]));
        assert_eq!(one_ctu(depths, lift, first.map(|first| 2 * first)), first.map(|first| 2 * first));
        let largest = own.map(|depth| u16::MAX >> (16 - depth));
        let most = CtuSet::of([band(31, [7, 0, 0, 0]); 3]);
        assert_eq!(one_ctu(depths, most, largest.map(|largest| largest - 2)), largest);
    }
}
