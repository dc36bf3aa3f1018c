//! Sizes and blocks: the two functions that answer numbers alone, beside the second program's geometry.

use crate::draw::Draw;
use crate::judge::{crossing, held, in_byte};
use crate::lent::{Fence, Guarded};
use second::random::Random;
use second::table::ENTRY_BYTES;
use second::{Picture, State};
use std::collections::BTreeMap;
use std::fmt::Debug;
use steamgusset::ffi::{self, Block, Sizes};

/// Blocks asked for each description.
const BLOCKS: u32 = 3;

/// How often each function gave each number.
pub type Numbers = BTreeMap<(&'static str, u32), u64>;

/// What stands in the lent answer before the call.
const BEFORE: usize = usize::MAX / 3;
const SIZES_BEFORE: Sizes = Sizes {
    width: [BEFORE; 3],
    height: [BEFORE; 3],
    samples: [BEFORE; 3],
    columns: BEFORE,
    rows: BEFORE,
    ctus: BEFORE,
    marks: BEFORE,
    table: BEFORE,
};
const BLOCK_BEFORE: Block = Block { x0: BEFORE, x1: BEFORE, y0: BEFORE, y1: BEFORE };

fn sizes(picture: &Picture) -> Sizes {
    let each = |size: &dyn Fn(usize) -> usize| {
        std::array::from_fn(|component| if component < picture.components() { size(component) } else { 0 })
    };
    Sizes {
        width: each(&|component| picture.plane_width(component)),
        height: each(&|component| picture.plane_height(component)),
        samples: each(&|component| picture.plane_samples(component)),
        columns: picture.columns(),
        rows: picture.rows(),
        ctus: picture.ctus(),
        marks: picture.marks(),
        table: picture.ctus() * ENTRY_BYTES,
    }
}

fn block(picture: &Picture, component: usize, ctb: usize) -> Option<Block> {
    let exists = component < picture.components() && ctb < picture.ctus();
    let place = exists.then(|| picture.block(component, ctb))?;
    Some(Block { x0: place.left, x1: place.right, y0: place.top, y1: place.bottom })
}

/// The description that a state holds, if it keeps the rules.
fn described(state: &ffi::State) -> Option<Picture> {
    held(state).map(|state| state.picture).filter(|picture| !picture.breaks_a_rule())
}

/// Runs a seed: descriptions of any size, sound and broken, and blocks of each.
pub fn seed(seed: u64, calls: u64, guards: bool) -> Result<Numbers, String> {
    let mut random = Random::new(seed);
    let mut numbers = Numbers::new();
    for _ in 0..calls.div_ceil(1 + u64::from(BLOCKS)) {
        let mut draw = any_size(Random::new(random.number()));
        let state = any_state(&mut draw);
        ask_sizes(&state, Fence::drawn(draw.random(), guards), &mut numbers)?;
        for _ in 0..BLOCKS {
            let (component, ctb) = any_block(&mut draw);
            ask_block(&state, component, ctb, Fence::drawn(draw.random(), guards), &mut numbers)?;
        }
    }
    Ok(numbers)
}

/// A drawn picture, made as wide and high as any.
fn any_size(random: Random) -> Draw {
    let mut draw = Draw::new(random);
    let mut side = || 8 * (1 + draw.random().below(1024) as u32);
    let (width, height) = (side(), side());
    draw.script.picture = Picture { width, height, ..draw.picture() };
    draw
}

fn any_state(draw: &mut Draw) -> ffi::State {
    let next = draw.random().number() as u32;
    let mut state = crossing(State { picture: draw.picture(), next });
    match draw.random().below(8) {
        0 => draw.unheld(&mut state),
        1 | 2 => draw.broken(&mut state),
        3 => draw.other(&mut state),
        _ => {}
    }
    state
}

fn any_block(draw: &mut Draw) -> (u32, u32) {
    let component = draw.random().below(3) as u32;
    let ctus = draw.picture().ctus();
    let last = ctus - 1;
    let (any, columns) = (draw.random().below(ctus), draw.picture().columns());
    let ctb = draw.random().pick(&[0, columns - 1, last + 1 - columns, last, any, any, any]) as u32;
    match draw.random().below(6) {
        0 => (draw.wrong_component(component), ctb),
        1 => (component, draw.wrong_ctb(ctb)),
        _ => (component, ctb),
    }
}

fn ask_sizes(state: &ffi::State, fence: Fence, numbers: &mut Numbers) -> Result<(), String> {
    let mut lent = Guarded::holding(&[SIZES_BEFORE], Sizes::default(), fence);
    let number = ffi::sg_sizes(state, lent.one_mut());
    let expected = described(state).map_or((1, SIZES_BEFORE), |picture| (0, sizes(&picture)));
    *numbers.entry(("sizes", number)).or_default() += 1;
    compared(&format!("sizes of {state:?}"), number, &lent, expected)
}

fn ask_block(state: &ffi::State, component: u32, ctb: u32, fence: Fence, numbers: &mut Numbers) -> Result<(), String> {
    let mut lent = Guarded::holding(&[BLOCK_BEFORE], Block::default(), fence);
    let number = ffi::sg_block(state, component, ctb, lent.one_mut());
    let expected = described(state).map_or((1, BLOCK_BEFORE), |picture| {
        block(&picture, in_byte(component).into(), ctb as usize).map_or((3, BLOCK_BEFORE), |block| (0, block))
    });
    *numbers.entry(("block", number)).or_default() += 1;
    compared(&format!("block {ctb} of component {component} of {state:?}"), number, &lent, expected)
}

fn compared<T>(asked: &str, number: u32, lent: &Guarded<T>, expected: (u32, T)) -> Result<(), String>
where
    T: Copy + PartialEq + Debug,
{
    let given = (number, *lent.one());
    if given == expected && lent.guards_hold() {
        return Ok(());
    }
    Err(format!("{asked}: the archive gave {given:?}, the second program says {expected:?}"))
}
