//! Document 02's formats (K1): "In 4:2:2 chroma planes and chroma CTBs have half width and full height; in 4:4:4 they equal
//! luma." What is lent, delivered and filtered, by numbers.

mod common;

use common::{NINE, band, state};
use second::{Call, ComponentSet, CtuSet, Picture, Refusal, Value, World, apply, filter_picture};

/// Four CTUs, the last column and row of them cut short to 8 luma samples.
fn four(format: u8) -> Picture {
    Picture { width: 24, height: 24, format, chroma: format != 0, ..NINE }
}

/// The samples of each plane, and of the CTBs of a chroma plane.
const SIZES: [([usize; 3], [usize; 4]); 4] = [
    ([576, 0, 0], [0; 4]),
    ([576, 144, 144], [64, 32, 32, 16]),
    ([576, 288, 288], [128, 64, 64, 32]),
    ([576, 576, 576], [256, 128, 128, 64]),
];

#[test]
fn each_format_has_planes_of_its_own() {
    for (described, lent) in (0..4).flat_map(|described| (0..4u8).map(move |lent| (described, lent))) {
        let picture = four(described);
        let mut world = World::lent_for(&picture);
        let planes = SIZES[usize::from(lent)].0.map(|samples| vec![0; samples]);
        (world.deblocked, world.filtered) = (planes.clone(), planes);
        let deliver = Call::Deliver { component: 0, ctb: 0, samples: vec![0; 256] };
        let calls = [deliver, Call::FinishedRows { component: 0 }];
        let fits = lent == described;
        let right = [Value::Delivered, Value::Rows(0)].map(|value| if fits { Ok(value) } else { Err(Refusal(2)) });
        let answers = calls.map(|call| apply(&mut world, state(picture, 0), call).answer);
        assert_eq!(answers, right, "format {described} on the planes of {lent}");
    }
}

#[test]
fn each_format_has_blocks_of_its_own() {
    for (described, given) in (1..4).flat_map(|described| (1..4u8).map(move |given| (described, given))) {
        let picture = four(described);
        let (own, other) = (SIZES[usize::from(described)].1, SIZES[usize::from(given)].1);
        for (component, ctb) in [(1, 0), (1, 1), (2, 2), (2, 3)] {
            let samples = vec![0; other[ctb as usize]];
            let fits = own[ctb as usize] == other[ctb as usize];
            let right = if fits { Ok(Value::Delivered) } else { Err(Refusal(2)) };
            let call = Call::Deliver { component, ctb, samples };
            assert_eq!(apply(&mut World::lent_for(&picture), state(picture, 0), call).answer, right);
        }
    }
}

/// The first CTU's set lifts its samples of Cb and no others: the plane is flat, so they show.
#[test]
fn chroma_samples_have_the_set_of_their_ctu() {
    for (format, width, wide, high) in [(1, 12, 8, 8), (2, 12, 8, 16), (3, 24, 16, 16)] {
        let picture = four(format);
        let lift = CtuSet { luma: ComponentSet::Off, cb: band(0, [5, 0, 0, 0]), cr: band(0, [0; 4]) };
        let planes = SIZES[usize::from(format)].0.map(|samples| vec![0; samples]);
        let sets = [lift, CtuSet::OFF, CtuSet::OFF, CtuSet::OFF];
        let filtered = filter_picture(&picture, &sets, planes.each_ref().map(Vec::as_slice));
        let lifted = |place: usize| if place % width < wide && place / width < high { 5 } else { 0 };
        assert_eq!(filtered[1], (0..planes[1].len()).map(lifted).collect::<Vec<u16>>(), "format {format}");
        assert!(filtered[0] == planes[0] && filtered[2] == planes[2]);
    }
}
