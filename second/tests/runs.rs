//! Random runs on small pictures: sets read or written, blocks delivered and filtered in any order, refused calls among
//! them. Whatever the order, the filtered planes end as the whole picture filtered at once.

mod common;

use second::runs::Script;
use second::{Call, CtuSet, Picture, Refusal, State, Value, World, apply, filter_picture};
use std::collections::BTreeMap;

/// Far more than any of these runs needs, so that a stage that never finishes fails and does not hang.
const MOST_CALLS: usize = 20_000;

/// How often each number was the answer; 0 stands for accepted.
type Answers = BTreeMap<u8, usize>;

struct Run {
    script: Script,
    world: World,
    state: State,
}

impl Run {
    fn new(seed: u64) -> Run {
        let mut script = Script::new(seed, 72).expect("sets within the rules");
        let (mut world, state) = script.before_opening();
        let state = apply(&mut world, state, Call::Open).state;
        Run { script, world, state }
    }

    fn step(&mut self, answers: &mut Answers) {
        let call = self.script.call(self.state.next);
        let value = made(&mut self.world, &mut self.state, call, answers);
        if let Some(Value::Set(set)) = value {
            assert_eq!(set, self.script.sets[self.state.next as usize - 1]);
        }
    }

    /// A call on a damaged copy; the run itself goes on as if nothing had been.
    fn damaged_step(&mut self, answers: &mut Answers) {
        let (mut world, mut state) = (self.world.clone(), self.state);
        self.script.damage(&mut world, &mut state);
        let call = if self.script.random.once_in(12) { Call::Open } else { self.script.call(self.state.next) };
        made(&mut world, &mut state, call, answers);
    }

    fn done(&self) -> bool {
        self.world.marks.iter().all(|&mark| mark == 2)
    }

    fn ends_as_the_whole_picture(&mut self) {
        let Script { picture, sets, deblocked, .. } = &self.script;
        let whole = filter_picture(picture, sets, deblocked.each_ref().map(Vec::as_slice));
        assert!(self.world.deblocked == *deblocked && self.world.filtered == whole, "{picture:?}");
        for (component, plane) in whole.iter().enumerate().take(picture.components()) {
            let answer = apply(&mut self.world, self.state, Call::FinishedRows { component: component as u8 });
            assert_eq!(answer.answer, Ok(Value::Rows(picture.plane_height(component))));
            assert!(answer.part == *plane);
        }
    }
}

/// Makes one call; a refused one must change nothing.
fn made(world: &mut World, state: &mut State, call: Call, answers: &mut Answers) -> Option<Value> {
    let before = world.clone();
    let answer = apply(world, *state, call.clone());
    let number = answer.answer.err().map_or(0, |Refusal(number)| number);
    if number > 0 {
        assert_eq!(answer.state, *state);
        assert!(*world == before && answer.part.is_empty(), "refused {number} and changed: {call:?}");
    }
    *answers.entry(number).or_default() += 1;
    *state = answer.state;
    answer.answer.ok()
}

#[test]
fn any_order_ends_as_the_whole_picture() {
    let (mut sound, mut damaged) = (Answers::new(), Answers::new());
    let runs = 1000;
    for seed in 0..runs {
        let mut run = Run::new(seed);
        let mut calls = 0;
        while !run.done() {
            run.step(&mut sound);
            run.damaged_step(&mut damaged);
            calls += 1;
            assert!(calls < MOST_CALLS, "seed {seed} does not come to its end");
        }
        run.ends_as_the_whole_picture();
    }
    println!("{runs} runs; answers by number, 0 accepted: {sound:?}; on damaged copies: {damaged:?}");
    let reached = |answers: &Answers| answers.keys().copied().collect::<Vec<u8>>();
    assert_eq!(reached(&sound), [0, 2, 3, 4, 5, 6, 7, 8, 9, 10, 11, 12, 13]);
    assert_eq!(reached(&damaged), (0..=14).collect::<Vec<u8>>());
}

/// Finished rows grow CTB row by CTB row, cut short by the first block that is not filtered.
#[test]
fn finished_rows_grow() {
    let marks = [[0, 0, 0, 0, 0, 0], [2, 1, 2, 2, 2, 2], [2, 2, 2, 2, 0, 2], [2, 2, 2, 1, 2, 2], [2; 6]];
    // Only in 4:2:0 are the CTBs of Cb lower than those of luma.
    let formats = [(1, 12, [0, 0, 16, 8, 20]), (2, 12, [0, 0, 32, 16, 40]), (3, 24, [0, 0, 32, 16, 40])];
    for (format, width, grown) in formats {
        let picture = Picture { width: 24, height: 40, format, ..common::NINE };
        let mut world = World::lent_for(&picture);
        world.filtered[1] = (0..).take(width * grown[4]).collect();
        for (marks, rows) in marks.into_iter().zip(grown) {
            world.marks[6..12].copy_from_slice(&marks);
            let answer = apply(&mut world, common::state(picture, 6), Call::FinishedRows { component: 1 });
            assert_eq!(answer.answer, Ok(Value::Rows(rows)));
            assert_eq!(answer.part, world.filtered[1][..width * rows]);
        }
    }
}

/// Offsets are multiplied by 2^(depth - min(depth, 10)): magnitude 31 acts as 124 at depth 12 and 1984 at depth 16.
#[test]
fn offsets_are_scaled_above_depth_10() {
    for (depth, acts_as) in [(8, 7), (9, 15), (10, 31), (11, 62), (12, 124), (16, 1984)] {
        let picture = common::MONOCHROME.at_depths([depth; 2]);
        let most = picture.largest_magnitude(0) as i8;
        let sample = picture.largest_sample(0) / 2;
        let set = CtuSet::of_luma(common::band(15, [most, 0, 0, 0]));
        let filtered = filter_picture(&picture, &[set], [&[sample; 64], &[], &[]]);
        assert_eq!(filtered[0], [sample + acts_as; 64]);
    }
}
