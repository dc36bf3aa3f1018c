//! Document 01's ten cases, as one table: number, what this program gives, what the paper gives.

mod common;

use common::{MONOCHROME, band, edge, filter_row, state};
use second::bins::magnitude_word;
use second::{Call, ComponentSet, CtuSet, Picture, Refusal, Value, World, apply};
use std::fmt::Debug;

type Row = (u8, String, String);

fn row<T: Debug>(case: u8, got: T, paper: T) -> Row {
    (case, format!("{got:?}"), format!("{paper:?}"))
}

const OFF: ComponentSet = ComponentSet::Off;
const CASE_3: ComponentSet = ComponentSet::Edge { class: 2, offsets: [1, 0, 0, -2] };
const CASE_5: ComponentSet = ComponentSet::Band { position: 30, offsets: [0, -3, 0, 1] };

/// What the stage reads as CTU 0's luma set.
fn reads(bins: &[u8], count: usize) -> Result<ComponentSet, u8> {
    let mut world = World::lent_for(&MONOCHROME);
    match apply(&mut world, state(MONOCHROME, 0), Call::Read { bins: bins.to_vec(), count }).answer {
        Ok(Value::Set(set)) => Ok(set.luma),
        Ok(other) => panic!("{other:?} is no answer to read"),
        Err(Refusal(number)) => Err(number),
    }
}

/// The bytes and the count that the stage writes for CTU 0's luma set, over bytes that are all ones.
fn writes(set: ComponentSet) -> (Vec<u8>, Result<Value, Refusal>) {
    let mut world = World::lent_for(&MONOCHROME);
    let call = Call::Write { set: CtuSet::of_luma(set), out: vec![0xFF; 4] };
    let answer = apply(&mut world, state(MONOCHROME, 0), call);
    (answer.out, answer.answer)
}

fn wrote(bytes: &[u8], count: usize) -> (Vec<u8>, Result<Value, Refusal>) {
    (bytes.to_vec(), Ok(Value::Bins(count)))
}

/// Four CTUs with different sets: what bins mean for the last ones.
const FOUR: Picture = Picture { width: 32, height: 32, ..MONOCHROME };

fn reads_after(before: &[ComponentSet], bins: u8, count: usize) -> Result<Value, Refusal> {
    let mut world = World::lent_for(&FOUR);
    let mut state = state(FOUR, 0);
    for set in before {
        let call = Call::Write { set: CtuSet::of_luma(*set), out: vec![0; 51] };
        state = apply(&mut world, state, call).state;
    }
    assert_eq!(state.next as usize, before.len());
    apply(&mut world, state, Call::Read { bins: vec![bins], count }).answer
}

fn copied(set: ComponentSet) -> Result<Value, Refusal> {
    Ok(Value::Set(CtuSet::of_luma(set)))
}

/// Case 10: both sets in, CTB 0 delivered, CTB 1 delivered or not.
fn filters_ctb_0(delivered: &[u32]) -> Result<Value, Refusal> {
    let picture = Picture { width: 32, height: 16, ..MONOCHROME };
    let mut world = World::lent_for(&picture);
    let mut state = apply(&mut world, state(picture, 9), Call::Open).state;
    for (bins, count) in [(vec![0], 1), (vec![0x80], 1)] {
        state = apply(&mut world, state, Call::Read { bins, count }).state;
    }
    for &ctb in delivered {
        let call = Call::Deliver { component: 0, ctb, samples: vec![9; 256] };
        assert_eq!(apply(&mut world, state, call).answer, Ok(Value::Delivered));
    }
    apply(&mut world, state, Call::Filter { component: 0, ctb: 0 }).answer
}

fn table() -> Vec<Row> {
    let case_7 = edge(0, [2, 1, -1, -2]);
    let three = [CASE_3, CASE_5, OFF];
    vec![
        row(1, magnitude_word(0, 7), "0".into()),
        row(1, magnitude_word(3, 7), "1110".into()),
        row(1, magnitude_word(7, 7), "1111111".into()),
        row(2, reads(&[0x00], 1), Ok(OFF)),
        row(2, writes(OFF), wrote(&[0x00, 0xFF, 0xFF, 0xFF], 1)),
        row(3, reads(&[0xE3, 0x40], 11), Ok(CASE_3)),
        row(3, reads(&[0xE3, 0x5F], 11), Ok(CASE_3)),
        row(3, writes(CASE_3), wrote(&[0xE3, 0x40, 0xFF, 0xFF], 11)),
        row(4, reads(&[0xE3, 0x40], 10), Err(5)),
        row(4, reads(&[0xE3, 0x40], 12), Err(6)),
        row(4, reads(&[0xE3, 0x40], 17), Err(4)),
        row(5, reads(&[0x9C, 0xAF, 0x00], 17), Ok(CASE_5)),
        row(5, writes(CASE_5), wrote(&[0x9C, 0xAF, 0x00, 0xFF], 17)),
        row(6, filter_row(CASE_5, &[240, 248, 7, 8, 16, 0, 0, 0])[..5].to_vec(), vec![240, 245, 7, 9, 16]),
        row(7, filter_row(case_7, &[5, 3, 5, 5, 6, 6, 4, 4]), vec![5, 5, 4, 6, 5, 5, 5, 4]),
        row(8, filter_row(band(31, [7, 0, 0, 0]), &[250; 8])[0], 255),
        row(8, filter_row(band(0, [-7, 0, 0, 0]), &[2; 8])[0], 0),
        row(9, reads_after(&three[..1], 0b1000_0000, 1), copied(CASE_3)),
        row(9, reads_after(&three, 0b0100_0000, 2), copied(CASE_5)),
        row(9, reads_after(&three, 0b1000_0000, 1), copied(OFF)),
        row(9, reads_after(&three[..2], 0b1000_0000, 1), copied(CASE_3)),
        row(10, filters_ctb_0(&[0]), Err(Refusal(10))),
        row(10, filters_ctb_0(&[0, 1]), Ok(Value::Filtered)),
    ]
}

#[test]
fn the_ten_cases() {
    let table = table();
    for case in 1..=10 {
        assert!(table.iter().any(|(number, ..)| *number == case), "case {case} is missing");
    }
    for (case, got, paper) in table {
        assert_eq!(got, paper, "case {case}");
    }
}
