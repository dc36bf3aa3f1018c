//! Every value of every byte that is judged by its value: in a set handed to write, in the entries that a write stands
//! by and a read copies, in a block's own entry, and in the marks; and every number of the description, as far up as
//! some are right.

use crate::call::Call;
use crate::draw::{CUT_SHORT, Draw};
use crate::judge::crossing;
use crate::lent::Memory;
use crate::run::{Sides, Watch, made};
use crate::tally::Tally;
use second::random::Random;
use second::table::{self, ENTRY_BYTES, SET_BYTES};
use second::{ComponentSet, CtuSet, Picture, State, World};
use steamgusset::ffi;

/// Four CTUs: the last has a left and an upper neighbour.
const PICTURE: Picture =
    Picture { width: 24, height: 24, ctb: 16, format: 1, luma_depth: 8, chroma_depth: 8, luma: true, chroma: true };
const LEFT: usize = 2;
const ABOVE: usize = 1;
const OWN: usize = 3;

/// Luma's depth and chroma's: one for each M, the largest among them, beside one of another M.
const DEPTHS: [(u8, u8); 3] = [(8, 9), (9, 16), (16, 8)];

/// One depth alone may be no other than it is, since there is no chroma.
const MONOCHROME: Picture = Picture { format: 0, luma_depth: 12, chroma_depth: 12, chroma: false, ..PICTURE };

/// A little more than the largest number of a description.
const MOST: u32 = 8300;

fn with_depths((luma_depth, chroma_depth): (u8, u8)) -> Picture {
    Picture { luma_depth, chroma_depth, ..PICTURE }
}

/// Off, band and edge in all three components, and the largest offsets there are.
fn sets(picture: &Picture) -> [CtuSet; 3] {
    let most = [0, 1, 2].map(|component| picture.largest_magnitude(component) as i8);
    let band = |most: i8| ComponentSet::Band { position: 31, offsets: [most, -most, 0, 1] };
    let edge = |most: i8| ComponentSet::Edge { class: 3, offsets: [most, 0, -most, 0] };
    [CtuSet::OFF, CtuSet::of(most.map(band)), CtuSet::of(most.map(edge))]
}

/// The same set for every CTU, every block delivered.
fn delivered(picture: &Picture, set: &CtuSet) -> World {
    let mut world = World::lent_for(picture);
    (0..picture.ctus()).for_each(|ctu| table::store(&mut world.table, ctu, set));
    world.marks.fill(1);
    world
}

/// How many bytes at one place of one of the three sets leave it within the rules, summed over the 18 places.
fn within_the_rules(depths: (u8, u8)) -> u64 {
    let most = [0, 1, 2].map(|component| u64::from(with_depths(depths).largest_magnitude(component)));
    let off = 18;
    // Type 1 alone, since no edge has class 31; 32 positions; offsets from -M to M.
    let band = most.map(|most| 1 + 32 + 4 * (2 * most + 1));
    // Luma may be a band of position 3 as well, and has four classes; Cb and Cr keep to each other's type and class.
    let edge = [2 + 4, 1 + 1, 1 + 1].iter().zip(most).map(|(others, most)| others + 4 * (most + 1));
    off + band.iter().sum::<u64>() + edge.sum::<u64>()
}

/// How often each call is accepted: read, write, deliver, filter, finished rows.
pub fn expected() -> [u64; 5] {
    let sets: u64 = DEPTHS.map(within_the_rules).iter().sum();
    // Each component has four CTBs, which all are neighbours, and another eight do not matter to it.
    let others = 8 * 256;
    // Deliver asks for mark 0; filter for a mark of its own 1, of its neighbours 1 or 2; finished rows for 0, 1 or 2.
    let (filter, rows) = (1 + 3 * 2 + others, 4 * 3 + others);
    [2 * sets, 3 * sets, 3, sets + 3 * filter, 3 * rows]
}

/// How many of the descriptions keep the rules.
pub fn sound_descriptions() -> u64 {
    let sizes = 1024 + 1024 + 3;
    // The formats with chroma, since it is on; two depths, and two switches.
    let with_chroma = sizes + 3 + 9 + 9 + 2 + 2;
    // Any format; either depth as it is, and no chroma switch.
    let monochrome = sizes + 4 + 1 + 1 + 2 + 1;
    with_chroma + monochrome
}

/// Makes every call, with every byte in every place.
pub fn every_byte(watch: Watch) -> Result<Tally, String> {
    let mut tally = Tally::default();
    for picture in DEPTHS.map(with_depths) {
        for set in sets(&picture) {
            let mut bench = Bench::of(picture, watch, &mut tally);
            bench.sets(&set)?;
            bench.entries(&set)?;
        }
    }
    Bench::of(PICTURE, watch, &mut tally).marks()?;
    for picture in [PICTURE, MONOCHROME] {
        Bench::of(picture, watch, &mut tally).descriptions()?;
    }
    Ok(tally)
}

/// Every value of a byte, at every place below the limit.
fn everywhere(places: usize) -> impl Iterator<Item = (usize, u8)> {
    (0..places).flat_map(|place| (0..=u8::MAX).map(move |byte| (place, byte)))
}

struct Bench<'a> {
    draw: Draw,
    watch: Watch,
    tally: &'a mut Tally,
}

impl Bench<'_> {
    fn of(picture: Picture, watch: Watch, tally: &mut Tally) -> Bench<'_> {
        Bench { draw: Draw::of(Random::new(0), CUT_SHORT, picture), watch, tally }
    }

    /// Makes the call on this world, all of the sets up to `next` being in.
    fn make(&mut self, world: World, next: usize, call: &Call) -> Result<(), String> {
        let memory = Memory::holding(&world, self.draw.random(), self.watch.guards);
        let state = crossing(State { picture: self.draw.picture(), next: next as u32 });
        made(&mut self.draw, &mut Sides { world, memory, state }, call, self.watch, self.tally).map(|_| ())
    }

    /// A description that differs from the picture's in one number; what keeps the rules is refused for the marks,
    /// which are not lent.
    fn descriptions(&mut self) -> Result<(), String> {
        let fields: [fn(&mut ffi::State) -> &mut u32; 8] = [
            |state| &mut state.width,
            |state| &mut state.height,
            |state| &mut state.ctb,
            |state| &mut state.format,
            |state| &mut state.luma_depth,
            |state| &mut state.chroma_depth,
            |state| &mut state.luma,
            |state| &mut state.chroma,
        ];
        let memory = Memory::holding(&World::default(), self.draw.random(), self.watch.guards);
        let state = crossing(State { picture: self.draw.picture(), next: 0 });
        let mut sides = Sides { world: World::default(), memory, state };
        for (field, number) in fields.iter().flat_map(|field| (0..=MOST).map(move |number| (field, number))) {
            sides.state = state;
            *field(&mut sides.state) = number;
            made(&mut self.draw, &mut sides, &Call::Open, self.watch, self.tally)?;
        }
        Ok(())
    }

    /// A set written that differs from this one in one byte.
    fn sets(&mut self, set: &CtuSet) -> Result<(), String> {
        let stored = delivered(&self.draw.picture(), &CtuSet::OFF).table;
        for (place, byte) in everywhere(SET_BYTES) {
            let mut set = table::encode(set);
            set[place] = byte;
            let world = World { table: stored.clone(), ..World::default() };
            self.make(world, OWN, &Call::Write { set, out: vec![0; 51] })?;
        }
        Ok(())
    }

    /// An entry that differs from this set in one byte: to the left, above, and the block's own.
    fn entries(&mut self, set: &CtuSet) -> Result<(), String> {
        let sound = delivered(&self.draw.picture(), set);
        let left = Call::Read { bins: vec![0x80], count: 1 };
        let above = Call::Read { bins: vec![0x40], count: 2 };
        let write = Call::Write { set: table::encode(set), out: vec![0; 51] };
        let filter = Call::Filter { component: 0, ctb: OWN as u32 };
        for (place, byte) in everywhere(ENTRY_BYTES) {
            let damaged = |ctu: usize| {
                let mut table = sound.table.clone();
                table[ctu * ENTRY_BYTES + place] = byte;
                table
            };
            for (ctu, call) in [(LEFT, &left), (ABOVE, &above), (LEFT, &write), (ABOVE, &write)] {
                self.make(World { table: damaged(ctu), ..World::default() }, OWN, call)?;
            }
            self.make(World { table: damaged(OWN), ..sound.clone() }, OWN + 1, &filter)?;
        }
        Ok(())
    }

    /// A mark of any value: a delivered or filtered block's own, a neighbour's, and one of finished rows.
    fn marks(&mut self) -> Result<(), String> {
        let picture = self.draw.picture();
        let sound = delivered(&picture, &CtuSet::OFF);
        for component in 0..picture.components() as u32 {
            let deliver = self.draw.deliver(component, OWN as u32);
            let filter = Call::Filter { component, ctb: OWN as u32 };
            for (place, mark) in everywhere(picture.marks()) {
                let mut marks = sound.marks.clone();
                marks[place] = mark;
                for call in [&deliver, &filter, &Call::FinishedRows { component }] {
                    self.make(World { marks: marks.clone(), ..sound.clone() }, OWN + 1, call)?;
                }
            }
        }
        Ok(())
    }
}
