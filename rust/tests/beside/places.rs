//! A sample above the depth at every place: delivered in a block, and standing in a plane while a block is filtered.

use crate::call::Call;
use crate::draw::{CUT_SHORT, Draw};
use crate::judge::crossing;
use crate::lent::Memory;
use crate::run::{Sides, Watch, made};
use crate::tally::Tally;
use second::random::Random;
use second::replay::{block_samples, blocks};
use second::{Picture, State, World, generate, table};

/// Nine CTUs, the last row and column cut short: CTBs with every number of neighbours. In 4:2:2 chroma's are twice as
/// high as wide. What is above chroma's depth is within luma's.
const PICTURE: Picture =
    Picture { width: 40, height: 40, ctb: 16, format: 2, luma_depth: 10, chroma_depth: 8, luma: true, chroma: true };

/// How often each call must be refused for such a sample: deliver, filter.
pub fn expected() -> [u64; 2] {
    let all = || blocks(&PICTURE).into_iter().map(|(component, ctb)| (usize::from(component), ctb as usize));
    let own = all().map(|(component, ctb)| PICTURE.block(component, ctb).samples() as u64);
    let around = all().map(|(component, ctb)| PICTURE.block_and_around(component, ctb).samples() as u64);
    [own.sum(), around.sum()]
}

/// Puts one such sample at every place of the block delivered, and of the plane of the block filtered.
pub fn every_place(watch: Watch) -> Result<Tally, String> {
    let mut tally = Tally::default();
    let mut draw = Draw::of(Random::new(0), CUT_SHORT, PICTURE);
    let delivered = delivered_picture(&mut draw);
    for (component, ctb) in blocks(&PICTURE) {
        deliver_each(&mut draw, component, ctb, watch, &mut tally)?;
        filter_each(&mut draw, &delivered, component, ctb, watch, &mut tally)?;
    }
    Ok(tally)
}

/// Every set stored and every block delivered.
fn delivered_picture(draw: &mut Draw) -> World {
    let mut world = World::lent_for(&PICTURE);
    let sets = generate::sets(draw.random(), &PICTURE);
    sets.iter().enumerate().for_each(|(ctu, set)| table::store(&mut world.table, ctu, set));
    world.deblocked.clone_from(&draw.script.deblocked);
    world.marks.fill(1);
    world
}

fn sides(draw: &mut Draw, world: World, watch: Watch) -> Sides {
    let memory = Memory::holding(&world, draw.random(), watch.guards);
    let state = crossing(State { picture: PICTURE, next: PICTURE.ctus() as u32 });
    Sides { world, memory, state }
}

/// Refused each time, so that one world serves for all.
fn deliver_each(draw: &mut Draw, component: u8, ctb: u32, watch: Watch, tally: &mut Tally) -> Result<(), String> {
    let samples = block_samples(&PICTURE, &draw.script.deblocked, component, ctb);
    let mut sides = sides(draw, World::lent_for(&PICTURE), watch);
    for place in 0..samples.len() {
        let mut samples = samples.clone();
        samples[place] = PICTURE.largest_sample(component.into()) + 1;
        let call = Call::Deliver { component: component.into(), ctb, samples };
        made(draw, &mut sides, &call, watch, tally)?;
    }
    Ok(())
}

fn filter_each(
    draw: &mut Draw,
    delivered: &World,
    component: u8,
    ctb: u32,
    watch: Watch,
    tally: &mut Tally,
) -> Result<(), String> {
    let call = Call::Filter { component: component.into(), ctb };
    for place in 0..PICTURE.plane_samples(component.into()) {
        let mut world = delivered.clone();
        world.deblocked[usize::from(component)][place] = PICTURE.largest_sample(component.into()) + 1;
        let mut sides = sides(draw, world, watch);
        made(draw, &mut sides, &call, watch, tally)?;
    }
    Ok(())
}
