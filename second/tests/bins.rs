//! The bins against themselves: writer and reader undo each other, and every beginning and every extension is refused.

mod common;

use common::{MONOCHROME, NINE, band, state};
use second::bins::{self, Form, Reading};
use second::random::Random;
use second::{Call, CtuSet, Picture, Refusal, Value, World, apply, generate, table};

/// What the stage answers to these bins as CTU 4, over this table.
fn read_at_4(picture: Picture, table: &[u8], bins: &str) -> Result<Value, Refusal> {
    let mut world = World { table: table.to_vec(), ..World::lent_for(&picture) };
    let call = Call::Read { bins: bins::pack(bins), count: bins.len() };
    apply(&mut world, state(picture, 4), call).answer
}

/// One CTU of random neighbours: written, read back, cut short everywhere, made longer.
fn one_ctu(random: &mut Random, picture: Picture) {
    let sets = generate::sets(random, &picture);
    let mut world = World::lent_for(&picture);
    for (ctu, set) in sets.iter().enumerate() {
        table::store(&mut world.table, ctu, set);
    }
    let table = world.table.clone();
    let answer = apply(&mut world, state(picture, 4), Call::Write { set: sets[4], out: vec![0xFF; 52] });
    let Ok(Value::Bins(count)) = answer.answer else { panic!("{:?}", answer.answer) };
    let bins = bins::unpack(&answer.out, count);
    assert!(answer.out[count.div_ceil(8)..].iter().all(|&byte| byte == 0xFF));
    assert_eq!(bins::pack(&bins), answer.out[..count.div_ceil(8)]);
    assert_eq!(read_at_4(picture, &table, &bins), Ok(Value::Set(sets[4])));
    for shorter in 0..count {
        assert_eq!(read_at_4(picture, &table, &bins[..shorter]), Err(Refusal(5)));
    }
    for more in ["0", "1", "0110100"] {
        assert_eq!(read_at_4(picture, &table, &(bins.clone() + more)), Err(Refusal(6)));
    }
}

#[test]
fn written_and_read_at_every_pair_of_depths() {
    let mut random = Random::new(8);
    for depths in Picture::pairs_of_depths() {
        for _ in 0..25 {
            let switches = random.pick(&[(true, true), (true, true), (true, false), (false, true), (false, false)]);
            one_ctu(&mut random, Picture { luma: switches.0, chroma: switches.1, ..NINE.at_depths(depths) });
        }
    }
}

/// The longest CTU at depth 8, 9 and 10 of luma, down, and of chroma, across; above 10 it is that of 10.
const LONGEST: [[usize; 3]; 3] = [[117, 181, 309], [149, 213, 341], [213, 277, 405]];

#[test]
fn the_longest_ctu() {
    for depths in Picture::pairs_of_depths() {
        let picture = NINE.at_depths(depths);
        let [luma, chroma] = depths.map(|depth| usize::from(depth.min(10)) - 8);
        let longest = LONGEST[luma][chroma];
        let most = [0, 1, 2].map(|component| picture.largest_magnitude(component) as i8);
        let set = CtuSet::of(most.map(|most| band(31, [-most; 4])));
        let bins = bins::written(&picture, Some(CtuSet::OFF), Some(CtuSet::OFF), &set);
        assert_eq!(bins.map(|bins| bins.len()), Some(longest));
        let mut random = Random::new(1);
        for _ in 0..500 {
            let set = generate::set(&mut random, &picture);
            let bins = bins::written(&picture, Some(CtuSet::OFF), Some(CtuSet::OFF), &set);
            assert!(bins.is_some_and(|bins| bins.len() <= longest));
        }
    }
}

/// Every string up to twelve bins, under every kind of neighbours and switches: a string is whole, or begins with one
/// that is, or is the beginning of one, never two of these; and what is whole is what the writer says.
#[test]
fn every_short_string() {
    for picture in [MONOCHROME, NINE, Picture { luma: false, ..NINE }] {
        for (left, up) in [(false, false), (true, false), (false, true), (true, true)] {
            begun_by_a_whole_one(&picture, left, up, String::new(), false);
        }
    }
}

fn begun_by_a_whole_one(picture: &Picture, left: bool, up: bool, bins: String, begun: bool) {
    let reading = bins::read(picture, left, up, &bins);
    assert_eq!(reading == Reading::Remain, begun, "{bins}");
    if let Reading::Whole(Form::Full(set)) = reading {
        let neighbour = |exists: bool| exists.then_some(CtuSet::OFF);
        let forms = bins::forms(picture, neighbour(left), neighbour(up), &set);
        assert!(forms.contains(&(bins.clone(), set)), "{bins}");
    }
    if bins.len() == 12 {
        return;
    }
    let begun = begun || reading != Reading::EndTooEarly;
    for bin in ["0", "1"] {
        begun_by_a_whole_one(picture, left, up, bins.clone() + bin, begun);
    }
}

#[test]
fn merge_left_is_taken_before_merge_up_and_the_full_form() {
    let set = CtuSet::of_luma(band(3, [1, 0, 0, 0]));
    let written = |left, up| bins::written(&MONOCHROME, left, up, &set).expect("a set within the rules");
    // Band, magnitudes 1, 0, 0, 0, one sign, position 3.
    let full = ["10", "10", "0", "0", "0", "0", "00011"].concat();
    assert_eq!(written(None, None), full);
    assert_eq!(written(Some(set), None), "1");
    assert_eq!(written(None, Some(set)), "1");
    assert_eq!(written(Some(set), Some(set)), "1");
    assert_eq!(written(Some(CtuSet::OFF), Some(set)), "01");
    assert_eq!(written(Some(CtuSet::OFF), None), "0".to_string() + &full);
    assert_eq!(written(Some(CtuSet::OFF), Some(CtuSet::OFF)), "00".to_string() + &full);
}

#[test]
fn bins_that_just_fit() {
    let set = CtuSet::of_luma(band(3, [1, 1, 1, 1]));
    let answer = |bytes: usize| {
        let mut world = World::lent_for(&MONOCHROME);
        apply(&mut world, state(MONOCHROME, 0), Call::Write { set, out: vec![0xFF; bytes] }).answer
    };
    // 2 for the type, 8 for the magnitudes, 4 signs and 5 for the position are 19.
    assert_eq!(answer(2), Err(Refusal(13)));
    assert_eq!(answer(3), Ok(Value::Bins(19)));
}
