//! The stored files of the proved program `replay` are what this program writes, and they meet every reason to refuse.
//!
//! They are written anew by `second stored replay FILE > crates/replay/FILE`, for the files `stdin` and `stdout`.

use second::reasons::{self, Seen};
use second::stored_runs::drawn::{DEPTHS, commands, kinds};
use second::stored_runs::{Command, DELIVERY, Machine, Made, ROOM, WHOLE, bytes};
use second::{Answer, Call, ComponentSet, Kind, Picture, Refusal, State, Value, World, apply, table};
use std::collections::BTreeMap;

/// Every reason is met at least so often in a call that has it.
const LEAST: usize = 20;

fn calls() -> Vec<Made> {
    let mut machine = Machine::new();
    commands().iter().filter_map(|command| machine.made(command)).collect()
}

#[test]
fn the_stored_files_are_written_by_this_program() {
    for file in ["stdin", "stdout"] {
        let path = format!("{}/../crates/replay/{file}", env!("CARGO_MANIFEST_DIR"));
        let stored = std::fs::read(&path).expect("a stored file");
        let written =
            std::process::Command::new(env!("CARGO_BIN_EXE_second")).args(["stored", "replay", file]).output();
        let written = written.expect("the command runs");
        assert_eq!(written.status.code(), Some(0));
        assert!(written.stdout == stored, "write crates/replay/{file} anew: second stored replay {file}");
        assert_eq!(bytes("replay", file), Some(stored));
    }
    assert_eq!(bytes("replay", "args"), None);
}

/// Every line of every call's list of reasons is the first that holds often enough, and so is none.
#[test]
fn every_reason_is_met() {
    let mut met: BTreeMap<(Kind, usize), (u8, usize)> = BTreeMap::new();
    let calls = calls();
    for made in &calls {
        let kind = Kind::of(&made.call);
        let reasons = reasons::asked(kind, &Seen::of(&made.lent, made.state, &made.call));
        for (line, (row, _)) in reasons.iter().enumerate() {
            met.entry((kind, line)).or_insert((row.number, 0));
        }
        let line = reasons.iter().position(|(_, holds)| *holds).unwrap_or(reasons.len());
        let number = reasons.get(line).map_or(0, |(row, _)| row.number);
        assert_eq!(made.answer.answer.err().map_or(0, |refusal| refusal.0), number);
        met.entry((kind, line)).or_insert((number, 0)).1 += 1;
    }
    println!("replay: {} calls; for each its reasons in order, number:times, 0 accepted", calls.len());
    for kind in Kind::ALL {
        let of_kind = met.iter().filter(|((other, _), _)| *other == kind);
        let times: Vec<String> = of_kind.map(|(_, (number, times))| format!("{number}:{times}")).collect();
        println!("  {kind:?} {}", times.join(" "));
    }
    let lines = Kind::ALL.map(|kind| met.keys().filter(|(other, _)| *other == kind).count());
    assert_eq!(lines, [3, 9, 8, 9, 10, 6]);
    assert!(met.values().all(|&(_, times)| times >= LEAST));
    assert!(calls.len() >= 6000);
}

/// Whether some accepted call passes the test.
fn has(calls: &[Made], test: impl Fn(&Made) -> bool) -> bool {
    calls.iter().any(|made| made.answer.answer.is_ok() && test(made))
}

/// The pictures are many and of every kind; sets, bins and rows are handed out too.
#[test]
fn the_runs_are_of_every_kind() {
    let commands = commands();
    let runs = commands.iter().filter(|command| matches!(command, Command::Fill(_))).count();
    assert!(runs >= 150);
    let calls = calls();
    let whole = |made: &&Made| made.answer.answer == Ok(Value::Rows(made.state.picture.plane_height(0)));
    println!("replay: {runs} runs, luma finished {} times", calls.iter().filter(whole).count());
    let planes = [(0, 0), (1, 0), (1, 1), (1, 2), (2, 0), (2, 1), (2, 2), (3, 0), (3, 1), (3, 2)];
    for (depth, (format, component)) in (8..=16).flat_map(|depth| planes.map(|plane| (depth, plane))) {
        let filtered = |made: &Made| {
            let picture = made.state.picture;
            filters(made, component) && (picture.format, picture.depth(component)) == (format, depth)
        };
        assert!(has(&calls, filtered), "depth {depth}, format {format}, component {component}");
    }
    let all = |made: &Made| made.state.picture.plane_height(0);
    assert!(has(&calls, |made| matches!(made.answer.answer, Ok(Value::Rows(rows)) if 0 < rows && rows < all(made))));
    assert!(has(
        &calls,
        |made| matches!(made.answer, Answer { answer: Ok(Value::Rows(_)), ref part, .. } if part.len() > 4000)
    ));
}

/// Whether a block of this component is filtered.
fn filters(made: &Made, of: usize) -> bool {
    matches!(made.call, Call::Filter { component, .. } if usize::from(component) == of)
}

/// Whether the last column and the last row are narrower and lower than a CTB.
fn is_cut_short(picture: &Picture) -> bool {
    !picture.width.is_multiple_of(picture.ctb) && !picture.height.is_multiple_of(picture.ctb)
}

/// Of every CTB size, format and chosen depths there is a picture of several CTUs in two rows, cut short on both sides, of
/// which the last CTB is filtered; and one picture has 64 CTUs, all of them filtered.
#[test]
fn the_larger_pictures_are_of_every_kind() {
    let calls = calls();
    for (ctb, format, depths) in kinds() {
        let last = |made: &Made, picture: &Picture| match made.call {
            Call::Filter { ctb, .. } => ctb as usize == picture.ctus() - 1,
            _ => false,
        };
        let filtered = |made: &Made| {
            let picture = made.state.picture;
            (picture.ctb, picture.format, picture.depths()) == (ctb, format, depths)
                && picture.rows() == 2
                && picture.columns() >= 2
                && is_cut_short(&picture)
                && last(made, &picture)
        };
        assert!(has(&calls, filtered), "CTB size {ctb}, format {format}, depths {depths:?}");
    }
    assert!(has(&calls, |made| made.state.picture.ctus() == 64 && made.answer.answer == Ok(Value::Rows(128))));
}

/// Whether a block of this component is filtered by a set that is not off.
fn filters_by_a_set(made: &Made, of: usize) -> bool {
    let Call::Filter { ctb, .. } = made.call else { return false };
    let set = table::stored(&made.state.picture, &made.lent.table, ctb as usize);
    filters(made, of) && set.is_some_and(|set| set.components()[of] != ComponentSet::Off)
}

/// Of every pair of depths there is a picture with chroma, of which a block of every component is filtered; where both are
/// chosen ones, by a set that is not off.
#[test]
fn every_pair_of_depths_is_filtered() {
    let calls = calls();
    for (depths, of) in Picture::pairs_of_depths().flat_map(|depths| [0, 1, 2].map(|of| (depths, of))) {
        let chosen = depths.iter().all(|depth| DEPTHS.contains(depth));
        let filtered = |made: &Made| {
            let picture = made.state.picture;
            let own = picture.format != 0 && picture.depths() == depths;
            own && if chosen { filters_by_a_set(made, of) } else { filters(made, of) }
        };
        assert!(has(&calls, filtered), "depths {depths:?}, component {of}");
    }
}

/// What comes of a call and of what it is lent, in a picture of these depths.
fn made_at(made: &Made, depths: [u8; 2]) -> (Result<Value, Refusal>, World) {
    let picture = made.state.picture.at_depths(depths);
    let mut world = made.lent.clone();
    let answer = apply(&mut world, State { picture, ..made.state }, made.call.clone());
    (answer.answer, world)
}

/// A stage that takes luma's depth for chroma too, or chroma's for luma, is found out by reads, writes, deliveries and
/// filters.
#[test]
fn one_depth_is_found_out() {
    let mut times: BTreeMap<(Kind, &str), usize> = BTreeMap::new();
    for made in calls().iter().filter(|made| !made.state.picture.breaks_a_rule()) {
        let depths @ [luma, chroma] = made.state.picture.depths();
        for (name, depth) in [("luma's", luma), ("chroma's", chroma)] {
            let shows = luma != chroma && made_at(made, [depth; 2]) != made_at(made, depths);
            *times.entry((Kind::of(&made.call), name)).or_default() += usize::from(shows);
        }
    }
    println!("replay: answers that one depth would change: {times:?}");
    let looks = |kind: Kind| !matches!(kind, Kind::Open | Kind::FinishedRows);
    assert!(times.iter().all(|((kind, _), &times)| if looks(*kind) { times >= LEAST } else { times == 0 }));
}

/// Every call is refused for luma's depth alone, for chroma's alone, and in monochrome for two that differ.
#[test]
fn every_wrong_pair_of_depths_is_met() {
    let calls = calls();
    let outside = |depth: u8| !(8..=16).contains(&depth);
    let kinds_of_wrong: [(&str, &dyn Fn(Picture) -> bool); 3] = [
        ("luma", &|picture| outside(picture.luma_depth) && !outside(picture.chroma_depth)),
        ("chroma", &|picture| !outside(picture.luma_depth) && outside(picture.chroma_depth)),
        ("monochrome", &|Picture { format, luma_depth, chroma_depth, .. }| {
            format == 0 && luma_depth != chroma_depth && !outside(luma_depth) && !outside(chroma_depth)
        }),
    ];
    for (kind, (name, is_wrong)) in Kind::ALL.into_iter().flat_map(|kind| kinds_of_wrong.map(|wrong| (kind, wrong))) {
        let met = calls.iter().filter(|made| Kind::of(&made.call) == kind && is_wrong(made.state.picture));
        let refused: Vec<bool> = met.map(|made| made.answer.answer == Err(Refusal(1))).collect();
        assert!(!refused.is_empty() && refused.iter().all(|&refused| refused), "{kind:?}, {name}");
    }
}

/// The proved program has room for all that is lent and given.
#[test]
fn there_is_room() {
    for command in commands() {
        match command {
            Command::Lengths(lengths) => assert!((0..8).all(|buffer| lengths[buffer] <= WHOLE[buffer])),
            Command::Poke { buffer, place, .. } => assert!(place < WHOLE[buffer]),
            Command::Read { bins, .. } => assert!(bins.len() <= ROOM),
            Command::Write { room, .. } => assert!(room <= ROOM),
            Command::Deliver { samples, .. } => assert!(samples.number <= DELIVERY && samples.put_in.len() < 256),
            _ => {}
        }
    }
}
