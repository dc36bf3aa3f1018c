//! A whole picture put through the stage in any order, as a receiver would.
//!
//! Method: the sets are written to bins by one state and read back by another; blocks come in a shuffled order; after
//! each step every block not filtered yet is asked for. What should not have been refused is reported as a sentence.

use crate::picture::{Picture, State};
use crate::random::Random;
use crate::reasons::Refusal;
use crate::sets::CtuSet;
use crate::world::{Answer, Call, Value, World, apply};

/// The longest CTU at any depths has 405 bins.
const OUT_BYTES: usize = 405usize.div_ceil(8);

/// What a replay did.
#[derive(Clone, Copy, Debug, Default, PartialEq, Eq)]
pub struct Tally {
    pub ctus: usize,
    pub bins: usize,
    pub samples: usize,
    pub changed: usize,
}

/// One CTB as delivered: its component, its number and its samples, row after row.
pub fn block_samples(picture: &Picture, planes: &[Vec<u16>; 3], component: u8, ctb: u32) -> Vec<u16> {
    let of = usize::from(component);
    let width = picture.plane_width(of);
    let places = picture.block(of, ctb as usize).places();
    places.map(|(x, y)| planes[of][y * width + x]).collect()
}

/// Every CTB of the picture: component and number.
pub fn blocks(picture: &Picture) -> Vec<(u8, u32)> {
    let numbers = |component: u8| (0..picture.ctus() as u32).map(move |ctb| (component, ctb));
    (0..picture.components() as u8).flat_map(numbers).collect()
}

/// Writes every set to bins through the stage.
pub fn write_all(picture: &Picture, sets: &[CtuSet]) -> Result<Vec<(Vec<u8>, usize)>, String> {
    let mut world = World::lent_for(picture);
    let mut state = opened(&mut world, picture)?;
    let mut written = Vec::new();
    for (ctu, set) in sets.iter().enumerate() {
        let answer = apply(&mut world, state, Call::Write { set: *set, out: vec![0; OUT_BYTES] });
        match answer.answer {
            Ok(Value::Bins(count)) => written.push((answer.out, count)),
            other => return Err(format!("writing CTU {ctu}: {}", spoken(other))),
        }
        state = answer.state;
    }
    Ok(written)
}

fn opened(world: &mut World, picture: &Picture) -> Result<State, String> {
    // A next CTU that open must not read.
    let answer = apply(world, State { picture: *picture, next: u32::MAX }, Call::Open);
    match answer.answer {
        Ok(_) => Ok(answer.state),
        other => Err(format!("opening: {}", spoken(other))),
    }
}

fn spoken(answer: Result<Value, Refusal>) -> String {
    match answer {
        Ok(value) => format!("unexpected answer {value:?}"),
        Err(refusal) => format!("refused {}: {refusal}", refusal.0),
    }
}

/// The filtered planes of a picture whose sets are written, read back, and whose blocks come in the seed's order.
pub fn through_the_stage(
    picture: &Picture,
    sets: &[CtuSet],
    deblocked: &[Vec<u16>; 3],
    seed: u64,
) -> Result<([Vec<u16>; 3], Tally), String> {
    let bins = write_all(picture, sets)?;
    let mut world = World::lent_for(picture);
    let mut state = opened(&mut world, picture)?;
    let mut waiting = blocks(picture);
    for step in steps(picture, seed) {
        state = match step {
            Step::Read(ctu) => read_back(&mut world, state, &bins[ctu], &sets[ctu])?,
            Step::Deliver(component, ctb) => {
                let samples = block_samples(picture, deblocked, component, ctb);
                accepted(apply(&mut world, state, Call::Deliver { component, ctb, samples }))?
            }
        };
        waiting = still_waiting(&mut world, state, waiting)?;
    }
    all_finished(&mut world, state)?;
    let tally = tally(picture, &bins, deblocked, &world.filtered);
    Ok((world.filtered, tally))
}

#[derive(Clone, Copy)]
enum Step {
    Read(usize),
    Deliver(u8, u32),
}

/// The picture's blocks in a shuffled order, its sets in CTU order somewhere between them.
fn steps(picture: &Picture, seed: u64) -> Vec<Step> {
    let blocks = blocks(picture).into_iter().map(|(component, ctb)| Step::Deliver(component, ctb));
    let mut steps: Vec<Step> = (0..picture.ctus()).map(Step::Read).chain(blocks).collect();
    Random::new(seed).shuffle(&mut steps);
    let mut next = 0;
    for step in &mut steps {
        if let Step::Read(ctu) = step {
            *ctu = next;
            next += 1;
        }
    }
    steps
}

fn accepted(answer: Answer) -> Result<State, String> {
    match answer.answer {
        Ok(_) => Ok(answer.state),
        refused => Err(spoken(refused)),
    }
}

fn read_back(
    world: &mut World,
    state: State,
    (bytes, count): &(Vec<u8>, usize),
    set: &CtuSet,
) -> Result<State, String> {
    let answer = apply(world, state, Call::Read { bins: bytes.clone(), count: *count });
    match answer.answer {
        Ok(Value::Set(read)) if read == *set => Ok(answer.state),
        other => Err(format!("reading CTU {}: {}", state.next, spoken(other))),
    }
}

/// Asks for every block not filtered yet; those refused as not ready wait on.
fn still_waiting(world: &mut World, state: State, waiting: Vec<(u8, u32)>) -> Result<Vec<(u8, u32)>, String> {
    let mut still = Vec::new();
    for (component, ctb) in waiting {
        match apply(world, state, Call::Filter { component, ctb }).answer {
            Ok(_) => {}
            Err(Refusal(10)) => still.push((component, ctb)),
            refused => {
                return Err(format!("filtering CTB {ctb} of component {component}: {}", spoken(refused)));
            }
        }
    }
    Ok(still)
}

fn all_finished(world: &mut World, state: State) -> Result<(), String> {
    for component in 0..state.picture.components() {
        let answer = apply(world, state, Call::FinishedRows { component: component as u8 });
        if answer.part != world.filtered[component] {
            return Err(format!("component {component} is not finished: {}", spoken(answer.answer)));
        }
    }
    Ok(())
}

fn tally(picture: &Picture, bins: &[(Vec<u8>, usize)], deblocked: &[Vec<u16>; 3], filtered: &[Vec<u16>; 3]) -> Tally {
    let pairs = || deblocked.iter().flatten().zip(filtered.iter().flatten());
    Tally {
        ctus: picture.ctus(),
        bins: bins.iter().map(|(_, count)| count).sum(),
        samples: pairs().count(),
        changed: pairs().filter(|(before, after)| before != after).count(),
    }
}
