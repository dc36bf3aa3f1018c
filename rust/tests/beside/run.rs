//! One seed's run: pictures put through both programs to their end, call after call, compared after each.

use crate::archive;
use crate::call::Call;
use crate::damage::{DAMAGES, Damage};
use crate::draw::Draw;
use crate::judge::{crossing, held, judged};
use crate::lent::{Fence, Memory};
use crate::tally::Tally;
use second::random::Random;
use second::{CtuSet, World, filter_picture, table};
use steamgusset::ffi::State;

/// A seed makes at least so many calls, and ends with the picture that it has come to.
pub const CALLS_A_SEED: u64 = 1000;

/// Far more than any picture needs, so that a stage that never finishes fails and does not hang.
const MOST_STEPS: u64 = 1_000_000;

/// How a run is watched.
#[derive(Clone, Copy, Debug)]
pub struct Watch {
    /// Guards around lent memory.
    pub guards: bool,
    /// Each call is printed before it is made.
    pub aloud: bool,
}

/// Runs a seed; an error says where the programs differ.
pub fn seed(seed: u64, watch: Watch) -> Result<Tally, String> {
    let mut tally = Tally::default();
    let mut random = Random::new(seed);
    while tally.calls < CALLS_A_SEED {
        let pictures = Random::new(random.number());
        let mut run = Run::new(pictures, watch, &mut tally);
        run.whole()
            .map_err(|why| format!("seed {seed}, call {}: {why}\n  again: BESIDE_SEED={seed}", run.tally.calls))?;
    }
    Ok(tally)
}

/// The buffers of both programs, and the state.
pub struct Sides {
    pub world: World,
    pub memory: Memory,
    pub state: State,
}

struct Run<'a> {
    draw: Draw,
    sides: Sides,
    watch: Watch,
    tally: &'a mut Tally,
}

impl Run<'_> {
    fn new(random: Random, watch: Watch, tally: &mut Tally) -> Run<'_> {
        let mut draw = Draw::new(random);
        let (world, state) = draw.script.before_opening();
        let memory = Memory::holding(&world, draw.random(), watch.guards);
        Run { draw, sides: Sides { world, memory, state: crossing(state) }, watch, tally }
    }

    /// Opens the picture, brings it to its end, and sometimes does so again in the same buffers.
    fn whole(&mut self) -> Result<(), String> {
        for _ in 0..self.draw.random().pick(&[1, 1, 2]) {
            self.make(Call::Open)?;
            self.brought_to_its_end()?;
            self.ends_as_the_whole_picture()?;
            let picture = self.draw.picture();
            self.tally.ended(self.draw.class, &picture);
        }
        Ok(())
    }

    fn brought_to_its_end(&mut self) -> Result<(), String> {
        for _ in 0..MOST_STEPS {
            if self.sides.world.marks.iter().all(|&mark| mark == 2) {
                return Ok(());
            }
            self.step()?;
        }
        Err("the picture does not come to its end".into())
    }

    /// A call of the run, calls on a damaged copy, or a set read or written on one.
    fn step(&mut self) -> Result<(), String> {
        match self.draw.random().below(16) {
            0..=4 => self.damaged_step(),
            5..=8 => self.set_step(),
            _ => {
                let call = self.draw.call(&self.sides.world, self.sides.state.next);
                self.make(call)
            }
        }
    }

    fn make(&mut self, call: Call) -> Result<(), String> {
        made(&mut self.draw, &mut self.sides, &call, self.watch, self.tally).map(|_| ())
    }

    /// Calls on a damaged copy; the run itself goes on as if nothing had been.
    fn damaged_step(&mut self) -> Result<(), String> {
        let (mut world, mut state) = (self.sides.world.clone(), self.sides.state);
        state.next = self.draw.up_to_now(state.next);
        let call = if self.draw.random().once_in(10) { Call::Open } else { self.draw.call(&world, state.next) };
        let mut kinds = Vec::new();
        for _ in 0..self.draw.random().pick(&[1, 1, 1, 2, 3]) {
            kinds.push(self.draw.damage(&call, &mut world, &mut state));
        }
        let memory = Memory::holding(&world, self.draw.random(), self.watch.guards);
        let mut copy = Sides { world, memory, state };
        let told = |why: String| {
            let names: Vec<&str> = kinds.iter().map(|&kind| DAMAGES[kind as usize].1).collect();
            format!("{why}\n  on a copy with: {}", names.join(" and "))
        };
        let reason = made(&mut self.draw, &mut copy, &call, self.watch, self.tally).map_err(told)?;
        kinds.iter().for_each(|&kind| self.tally.damaged(kind, reason > 0));
        // What the first call has left, damaged or not, is as good a world as any.
        let next = self.draw.call(&self.sides.world, self.sides.state.next);
        made(&mut self.draw, &mut copy, &next, self.watch, self.tally).map(|_| ()).map_err(told)
    }

    /// A set of any CTU up to the next one, read or written on a copy of the table: spoiled, or beside an entry that is
    /// damaged. A byte has many values, so this is done often; it is lent nothing else, and costs little.
    fn set_step(&mut self) -> Result<(), String> {
        let Sides { world, state, .. } = &self.sides;
        let mut world = World { table: world.table.clone(), ..World::default() };
        let mut state = *state;
        state.next = self.draw.earlier(state.next);
        let mut call = self.draw.set_call(&world, state.next);
        // The first CTU stands beside no other.
        let is_damaged = state.next > 0 && self.draw.random().once_in(2);
        if is_damaged {
            self.draw.stored(&call, state.next, &mut world.table);
        } else {
            call = self.draw.spoiled(call);
        }
        let memory = Memory::holding(&world, self.draw.random(), self.watch.guards);
        let mut copy = Sides { world, memory, state };
        let reason = made(&mut self.draw, &mut copy, &call, self.watch, self.tally)?;
        if is_damaged {
            self.tally.damaged(Damage::Table, reason > 0);
        }
        Ok(())
    }

    fn ends_as_the_whole_picture(&self) -> Result<(), String> {
        let picture = self.draw.picture();
        let World { deblocked, filtered, table, .. } = &self.sides.world;
        let stored = (0..picture.ctus()).map(|ctu| table::stored(&picture, table, ctu));
        let sets: Option<Vec<CtuSet>> = stored.collect();
        let sets = sets.ok_or("at the end, a set outside the rules is stored")?;
        let whole = filter_picture(&picture, &sets, deblocked.each_ref().map(Vec::as_slice));
        let same = *deblocked == self.draw.script.deblocked && *filtered == whole;
        if same { Ok(()) } else { Err(format!("at the end, {picture:?} is not as the whole picture filtered at once")) }
    }
}

/// Makes one call on both sides and compares all that is lent and all that comes back; answers the reason.
pub fn made(draw: &mut Draw, sides: &mut Sides, call: &Call, watch: Watch, tally: &mut Tally) -> Result<usize, String> {
    let Sides { world, memory, state } = sides;
    if watch.aloud {
        eprintln!("call {}: {call:?} with {state:?}", tally.calls);
    }
    let told = |why: String| format!("{why}\n  state: {state:?}\n  call: {call:?}");
    let fence = Fence::drawn(draw.random(), watch.guards);
    let expected = judged(world, *state, call);
    let returned = archive::made(memory, *state, call, fence).map_err(told)?;
    let difference = returned.difference(&expected.returned).or_else(|| memory.difference(world));
    difference.map(told).map_or(Ok(()), Err)?;
    *state = returned.state;
    tally.answered(call, expected.reason);
    if let Some(held) = held(state) {
        tally.described(call, &held.picture);
    }
    Ok(expected.reason)
}
