//! Every refusal of every call, and their order.
//!
//! For each call a scene that is accepted, and its damages in document 01's order. Up to three are done at once, the
//! later ones first, so that an earlier one stands where two touch the same thing: the answer must be the earliest.

mod common;

use common::{MONOCHROME, NINE, band, edge, state};
use second::reasons::{ROWS, Seen, asked};
use second::{Call, ComponentSet, CtuSet, Kind, Picture, Refusal, State, Value, World, apply, table};
use std::collections::BTreeSet;

#[derive(Clone)]
struct Scene {
    world: World,
    state: State,
    call: Call,
}

type Damage = (u8, fn(&mut Scene));

/// Component and CTB number of the middle CTB of Cb, and where its mark stands.
const CB: u8 = 1;
const MIDDLE: u32 = 4;
const MARK: usize = 9 + 4;

/// All nine sets in, every CTB delivered.
fn scene(next: u32, call: Call) -> Scene {
    let mut world = World::lent_for(&NINE);
    for ctu in 0..9 {
        let set = CtuSet::of([band(ctu as u8, [1, -1, 0, 7]), edge(2, [1, 2, -3, -4]), edge(2, [0; 4])]);
        table::store(&mut world.table, ctu, &set);
    }
    world.marks.fill(1);
    Scene { world, state: state(NINE, next), call }
}

/// Does the chosen damages, the latest first, and makes the call; a refused call must change nothing.
fn answer(undamaged: &Scene, damages: &[Damage], chosen: &[usize]) -> Result<Value, Refusal> {
    let mut scene = undamaged.clone();
    for &damage in chosen.iter().rev() {
        damages[damage].1(&mut scene);
    }
    let before = scene.world.clone();
    let answer = apply(&mut scene.world, scene.state, scene.call.clone());
    if answer.answer.is_err() {
        assert_eq!(answer.state, scene.state);
        assert!(scene.world == before, "a refused call changed a buffer");
        assert!(answer.part.is_empty());
        if let Call::Write { out, .. } = scene.call {
            assert_eq!(answer.out, out);
        }
    }
    answer.answer
}

/// Every rising choice of at most three of `count`.
fn choices(count: usize) -> Vec<Vec<usize>> {
    let mut all = vec![vec![]];
    for _ in 0..3 {
        let longer = all.iter().flat_map(|choice: &Vec<usize>| {
            let next = choice.last().map_or(0, |last| last + 1);
            (next..count).map(move |more| choice.iter().copied().chain([more]).collect())
        });
        all = all.clone().into_iter().chain(longer).collect::<BTreeSet<_>>().into_iter().collect();
    }
    all
}

/// The scene is accepted; under any choice of damages the earliest is the answer; the numbers are all the call has.
fn judge(undamaged: Scene, damages: &[Damage], numbers: &[u8]) {
    assert!(answer(&undamaged, damages, &[]).is_ok());
    let given: Vec<u8> = damages.iter().map(|(number, _)| *number).collect();
    let mut lines = given.clone();
    lines.dedup();
    assert_eq!(lines, numbers, "the damages do not follow the paper's lines");
    for choice in choices(damages.len()) {
        let Some(&first) = choice.first() else { continue };
        assert_eq!(answer(&undamaged, damages, &choice), Err(Refusal(given[first])), "damages {choice:?}");
    }
}

fn wrong_luma_depth(scene: &mut Scene) {
    scene.state.picture.luma_depth = 17;
}

fn wrong_chroma_depth(scene: &mut Scene) {
    scene.state.picture.chroma_depth = 7;
}

fn no_such_component(scene: &mut Scene) {
    set_place(scene, Some(3), None);
}

fn no_such_ctb(scene: &mut Scene) {
    set_place(scene, None, Some(9));
}

fn set_place(scene: &mut Scene, new_component: Option<u8>, new_ctb: Option<u32>) {
    match &mut scene.call {
        Call::Deliver { component, ctb, .. } | Call::Filter { component, ctb } => {
            *component = new_component.unwrap_or(*component);
            *ctb = new_ctb.unwrap_or(*ctb);
        }
        Call::FinishedRows { component } => *component = new_component.unwrap_or(*component),
        _ => {}
    }
}

fn give_bins(scene: &mut Scene, given: u8, declared: usize) {
    scene.call = Call::Read { bins: vec![given], count: declared };
}

#[test]
fn open() {
    let damages: [Damage; 4] = [
        (1, wrong_luma_depth),
        (1, wrong_chroma_depth),
        (2, |scene| scene.world.marks.push(0)),
        (2, |scene| scene.world.marks.truncate(5)),
    ];
    judge(scene(u32::MAX, Call::Open), &damages, &[1, 2]);
}

#[test]
fn read() {
    // "00", luma off, chroma off.
    let undamaged = scene(MIDDLE, Call::Read { bins: vec![0], count: 4 });
    let damages: [Damage; 10] = [
        (1, wrong_luma_depth),
        (1, wrong_chroma_depth),
        (2, |scene| scene.world.table.push(0)),
        (14, |scene| scene.state.next = 10),
        (7, |scene| scene.state.next = 9),
        (4, |scene| {
            if let Call::Read { bins, count } = &mut scene.call {
                *count = 8 * bins.len() + 1;
            }
        }),
        (5, |scene| give_bins(scene, 0, 2)),
        (6, |scene| give_bins(scene, 0x80, 2)),
        (14, |scene| {
            give_bins(scene, 0x80, 1);
            scene.world.table[3 * table::ENTRY_BYTES] = 3;
        }),
        (14, |scene| {
            give_bins(scene, 0x40, 2);
            scene.world.table[table::ENTRY_BYTES] = 3;
        }),
    ];
    judge(undamaged, &damages, &[1, 2, 14, 7, 4, 5, 6, 14]);
}

#[test]
fn write() {
    let undamaged = scene(MIDDLE, Call::Write { set: CtuSet::OFF, out: vec![0xAA; 4] });
    fn want(scene: &mut Scene, wanted: ComponentSet) {
        if let Call::Write { set, .. } = &mut scene.call {
            set.luma = wanted;
        }
    }
    let damages: [Damage; 12] = [
        (1, wrong_luma_depth),
        (1, wrong_chroma_depth),
        (2, |scene| scene.world.table.truncate(17)),
        (14, |scene| scene.state.next = u32::MAX),
        (7, |scene| scene.state.next = 9),
        (14, |scene| scene.world.table[3 * table::ENTRY_BYTES + 6] = 0),
        (14, |scene| scene.world.table[table::ENTRY_BYTES + 1] = 32),
        (12, |scene| want(scene, band(200, [0; 4]))),
        (12, |scene| want(scene, band(0, [-128, 0, 0, 0]))),
        (12, |scene| want(scene, edge(9, [0; 4]))),
        (12, |scene| want(scene, edge(0, [0, 0, 1, 0]))),
        (13, |scene| {
            if let Call::Write { out, .. } = &mut scene.call {
                out.clear();
            }
        }),
    ];
    judge(undamaged, &damages, &[1, 2, 14, 7, 14, 12, 13]);
}

#[test]
fn deliver() {
    let mut undamaged = scene(0, Call::Deliver { component: CB, ctb: MIDDLE, samples: vec![255; 64] });
    undamaged.world.marks.fill(0);
    fn given(scene: &mut Scene) -> &mut Vec<u16> {
        match &mut scene.call {
            Call::Deliver { samples, .. } => samples,
            _ => unreachable!("the scene delivers"),
        }
    }
    let damages: [Damage; 15] = [
        (1, wrong_luma_depth),
        (1, wrong_chroma_depth),
        (2, |scene| scene.world.deblocked[0].push(0)),
        (2, |scene| scene.world.deblocked[1].clear()),
        (2, |scene| scene.world.deblocked[2].push(0)),
        (2, |scene| scene.world.marks.push(0)),
        (14, |scene| scene.state.next = 10),
        (3, no_such_component),
        (3, no_such_ctb),
        (2, |scene| given(scene).push(0)),
        (14, |scene| scene.world.marks[MARK] = 3),
        (9, |scene| scene.world.marks[MARK] = 1),
        (9, |scene| scene.world.marks[MARK] = 2),
        (8, |scene| given(scene)[63] = 256),
        (8, |scene| given(scene)[0] = u16::MAX),
    ];
    judge(undamaged, &damages, &[1, 2, 14, 3, 2, 14, 9, 8]);
}

#[test]
fn filter() {
    let undamaged = scene(9, Call::Filter { component: CB, ctb: MIDDLE });
    let damages: [Damage; 23] = [
        (1, wrong_luma_depth),
        (1, wrong_chroma_depth),
        (2, |scene| scene.world.deblocked[0].push(0)),
        (2, |scene| scene.world.deblocked[1].push(0)),
        (2, |scene| scene.world.deblocked[2].push(0)),
        (2, |scene| scene.world.filtered[0].push(0)),
        (2, |scene| scene.world.filtered[1].clear()),
        (2, |scene| scene.world.filtered[2].push(0)),
        (2, |scene| scene.world.marks.push(0)),
        (2, |scene| scene.world.table.push(0)),
        (14, |scene| scene.state.next = 10),
        (3, no_such_component),
        (3, no_such_ctb),
        (14, |scene| scene.world.marks[MARK] = 3),
        (14, |scene| scene.world.marks[MARK - 4] = 255),
        (11, |scene| scene.world.marks[MARK] = 2),
        (10, |scene| scene.state.next = MIDDLE),
        (10, |scene| scene.world.marks[MARK] = 0),
        (10, |scene| scene.world.marks[MARK + 4] = 0),
        (14, |scene| scene.world.table[4 * table::ENTRY_BYTES] = 3),
        // Another component's part of the own set is judged with it.
        (14, |scene| scene.world.table[4 * table::ENTRY_BYTES + 13] = 3),
        // The block begins at (8, 8) of a plane 24 wide: its last sample, and the one around its upper left corner.
        (14, |scene| scene.world.deblocked[1][15 * 24 + 15] = 256),
        (14, |scene| scene.world.deblocked[1][7 * 24 + 7] = 256),
    ];
    // The last 14s stand for two lines of the paper.
    judge(undamaged, &damages, &[1, 2, 14, 3, 14, 11, 10, 14]);
}

#[test]
fn finished_rows() {
    let undamaged = scene(9, Call::FinishedRows { component: CB });
    let damages: [Damage; 9] = [
        (1, wrong_luma_depth),
        (1, wrong_chroma_depth),
        (2, |scene| scene.world.filtered[0].push(0)),
        (2, |scene| scene.world.filtered[1].push(0)),
        (2, |scene| scene.world.filtered[2].clear()),
        (2, |scene| scene.world.marks.push(0)),
        (14, |scene| scene.state.next = 10),
        (3, no_such_component),
        (14, |scene| scene.world.marks[MARK] = 3),
    ];
    judge(undamaged, &damages, &[1, 2, 14, 3, 14]);
}

/// Either depth outside, or both.
fn outside_8_to_16() -> impl Iterator<Item = Picture> {
    let depths = [0, 7, 17, 255].into_iter().flat_map(|depth| [[depth, 8], [8, depth], [16, depth], [depth, depth]]);
    depths.flat_map(|depths| [NINE.at_depths(depths), in_monochrome(depths)])
}

fn in_monochrome(depths: [u8; 2]) -> Picture {
    Picture { format: 0, chroma: false, ..NINE.at_depths(depths) }
}

#[test]
fn descriptions_that_break_a_rule() {
    let side = [0, 1, 4, 12, 8193, 8200, u32::MAX];
    let broken = side.into_iter().flat_map(|n| [Picture { width: n, ..NINE }, Picture { height: n, ..NINE }]);
    let broken = broken
        .chain([0, 8, 24, 63, 128, u32::MAX].map(|ctb| Picture { ctb, ..NINE }))
        .chain([4, 128, 255].map(|format| Picture { format, ..NINE }))
        .chain(outside_8_to_16())
        .chain([Picture { chroma: true, ..MONOCHROME }])
        .chain(Picture::pairs_of_depths().filter(|[luma, chroma]| luma != chroma).map(in_monochrome));
    for picture in broken {
        let mut world = World::lent_for(&picture);
        for call in every_call() {
            let answer = apply(&mut world, state(picture, 0), call);
            assert_eq!(answer.answer, Err(Refusal(1)), "{picture:?}");
        }
    }
}

fn every_call() -> [Call; 6] {
    [
        Call::Open,
        Call::Read { bins: vec![0], count: 1 },
        Call::Write { set: CtuSet::OFF, out: vec![0] },
        Call::Deliver { component: 0, ctb: 0, samples: vec![0; 64] },
        Call::Filter { component: 0, ctb: 0 },
        Call::FinishedRows { component: 0 },
    ]
}

#[test]
fn descriptions_at_the_limits() {
    let kept = [
        Picture { width: 8192, height: 8, ..NINE },
        Picture { width: 8, height: 8192, ctb: 64, ..MONOCHROME.at_depths([16, 16]) },
        NINE.at_depths([8, 16]),
        NINE.at_depths([16, 8]),
        Picture { format: 3, chroma: false, ..NINE.at_depths([8, 9]) },
        Picture { format: 2, ..NINE },
        Picture { format: 3, ..NINE },
        Picture { format: 3, ..MONOCHROME },
        Picture { luma: false, chroma: true, ..NINE },
        Picture { luma: false, ..MONOCHROME },
    ];
    for picture in kept {
        let mut world = World::lent_for(&picture);
        assert_eq!(apply(&mut world, state(picture, 3), Call::Open).state, state(picture, 0));
    }
}

#[test]
fn monochrome_has_one_component_and_no_chroma_planes() {
    let mut world = World::lent_for(&MONOCHROME);
    let answer = |world: &mut World, call| apply(world, state(MONOCHROME, 0), call).answer;
    let deliver = |component| Call::Deliver { component, ctb: 0, samples: vec![0; 64] };
    assert_eq!(answer(&mut world, deliver(1)), Err(Refusal(3)));
    assert_eq!(answer(&mut world, Call::FinishedRows { component: 1 }), Err(Refusal(3)));
    world.deblocked[2].push(0);
    assert_eq!(answer(&mut world, deliver(0)), Err(Refusal(2)));
    assert_eq!(answer(&mut world, Call::Read { bins: vec![0], count: 1 }), Ok(Value::Set(CtuSet::OFF)));
}

/// What a call does not look at does not refuse it.
#[test]
fn what_is_not_judged() {
    let accepts = |next: u32, call: Call, damage: fn(&mut Scene)| {
        let mut scene = scene(next, call);
        damage(&mut scene);
        apply(&mut scene.world, scene.state, scene.call).answer.is_ok()
    };
    let filter = || Call::Filter { component: CB, ctb: MIDDLE };
    assert!(accepts(u32::MAX, Call::Open, |scene| scene.world.table.clear()));
    assert!(
        accepts(4, Call::Read { bins: vec![0x7F], count: 2 }, |scene| scene.world.table[3 * table::ENTRY_BYTES] = 9)
    );
    assert!(accepts(4, Call::Read { bins: vec![0xFF], count: 1 }, |scene| scene.world.table[table::ENTRY_BYTES] = 9));
    assert!(accepts(4, Call::Read { bins: vec![0], count: 4 }, |scene| scene.world.table.fill(9)));
    assert!(accepts(4, Call::Read { bins: vec![0], count: 4 }, |scene| scene.world.marks.clear()));
    let write = || Call::Write { set: CtuSet::OFF, out: vec![0] };
    assert!(accepts(4, write(), |scene| scene.world.table[4 * table::ENTRY_BYTES..].fill(9)));
    assert!(accepts(4, write(), |scene| scene.world.table[..table::ENTRY_BYTES].fill(9)));
    assert!(accepts(9, filter(), |scene| scene.world.marks[4] = 77));
    assert!(accepts(9, filter(), |scene| scene.world.table[5 * table::ENTRY_BYTES] = 9));
    assert!(accepts(5, filter(), |scene| scene.world.table[5 * table::ENTRY_BYTES..].fill(9)));
    assert!(accepts(9, filter(), |scene| scene.world.deblocked[1][6 * 24 + 8] = 256));
    assert!(accepts(9, filter(), |scene| scene.world.deblocked[1][8 * 24 + 17] = 256));
    assert!(accepts(9, Call::FinishedRows { component: 0 }, |scene| scene.world.marks[MARK] = 9));
    let deliver = || Call::Deliver { component: CB, ctb: MIDDLE, samples: vec![0; 64] };
    assert!(accepts(0, deliver(), |scene| {
        scene.world.marks.fill(9);
        scene.world.marks[MARK] = 0;
    }));
}

#[test]
fn both_switches_off() {
    let picture = Picture { luma: false, chroma: false, ..NINE };
    let fresh = || World::lent_for(&picture);
    let answer = |world: &mut World, next, call| apply(world, state(picture, next), call).answer;
    let read = |bins: &[u8], count| Call::Read { bins: bins.to_vec(), count };
    assert_eq!(answer(&mut fresh(), 4, read(&[], 0)), Ok(Value::Set(CtuSet::OFF)));
    assert_eq!(answer(&mut fresh(), 4, read(&[0], 1)), Err(Refusal(6)));
    assert_eq!(answer(&mut fresh(), 4, read(&[], 1)), Err(Refusal(4)));
    let write = |set, out: &[u8]| Call::Write { set, out: out.to_vec() };
    assert_eq!(answer(&mut fresh(), 4, write(CtuSet::OFF, &[])), Ok(Value::Bins(0)));
    assert_eq!(answer(&mut fresh(), 4, write(CtuSet::of_luma(band(0, [0; 4])), &[])), Err(Refusal(12)));
    let mut world = fresh();
    world.table[3 * table::ENTRY_BYTES] = 1;
    assert_eq!(answer(&mut world, 4, write(CtuSet::OFF, &[])), Err(Refusal(14)));
    assert_eq!(answer(&mut world, 4, read(&[], 0)), Ok(Value::Set(CtuSet::OFF)));
}

/// The rows are the paper's orders, and each says the sentence of its number or a part of it.
#[test]
fn the_rows_are_the_papers() {
    let orders: [(Kind, &[u8]); 6] = [
        (Kind::Open, &[1, 2]),
        (Kind::Read, &[1, 2, 14, 7, 4, 5, 6, 14]),
        (Kind::Write, &[1, 2, 14, 7, 14, 12, 13]),
        (Kind::Deliver, &[1, 2, 14, 3, 2, 14, 9, 8]),
        (Kind::Filter, &[1, 2, 14, 3, 14, 11, 10, 14, 14]),
        (Kind::FinishedRows, &[1, 2, 14, 3, 14]),
    ];
    for (call, order) in orders {
        let numbers: Vec<u8> = ROWS.iter().filter(|row| row.call == call).map(|row| row.number).collect();
        assert_eq!(numbers, order);
    }
    for row in &ROWS {
        let said = row.says.split(':').next().unwrap_or_default();
        assert!(Refusal(row.number).to_string().contains(said), "{}: {}", row.number, row.says);
    }
}

/// No row panics, whatever is lent: all of them are asked of broken descriptions, empty buffers and large numbers.
#[test]
fn every_row_has_an_answer() {
    let sides = [0, 8, 12, 24, 8192, u32::MAX];
    let pictures = sides.iter().flat_map(|&width| sides.map(|height| Picture { width, height, ..NINE }));
    let pictures = pictures.chain(outside_8_to_16());
    let pictures = pictures.chain([0, 64, u32::MAX].map(|ctb| Picture { ctb, ..NINE }));
    let numbers = [0, 1, 9, u32::MAX];
    for (picture, number) in pictures.flat_map(|picture| numbers.map(|number| (picture, number))) {
        let seen = Seen {
            count: number as usize,
            component: number as u8,
            ctb: number,
            ..Seen::of_state(state(picture, number))
        };
        let rows: usize = Kind::ALL.iter().map(|&call| asked(call, &seen).len()).sum();
        assert_eq!(rows, ROWS.len());
    }
}

#[test]
fn a_refusal_says_the_papers_sentence() {
    assert_eq!(Refusal(5).to_string(), "the bins end too early");
    let said: BTreeSet<String> = (1..=14).map(|number| Refusal(number).to_string()).collect();
    assert_eq!(said.len(), 14);
}
