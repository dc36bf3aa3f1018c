//! Long random runs: one picture's sets and samples, and calls on them in any order, sound and damaged.
//!
//! Method: a [`Script`] knows how its picture ends. It draws calls that are mostly due and sometimes wrong, and damages
//! to the buffers and the state; whoever drives it makes the same calls on every program and compares after each. A
//! damage is meant for a copy of world and state, so that the run itself stays sound and comes to its end.

use crate::generate;
use crate::picture::{Picture, State};
use crate::random::Random;
use crate::replay::{block_samples, blocks, write_all};
use crate::sets::{ComponentSet, CtuSet};
use crate::world::{Call, World};

/// A picture's own data and the draws on it.
#[derive(Clone, Debug)]
pub struct Script {
    pub random: Random,
    pub picture: Picture,
    pub sets: Vec<CtuSet>,
    /// Each CTU's bins, as bytes and count.
    pub bins: Vec<(Vec<u8>, usize)>,
    pub deblocked: [Vec<u16>; 3],
}

impl Script {
    /// The script of this seed, its picture at most `most` luma samples wide and high.
    pub fn new(seed: u64, most: u32) -> Result<Script, String> {
        let mut random = Random::new(seed);
        let picture = generate::picture(&mut random, most);
        Script::of(random, picture)
    }

    /// The script of this picture.
    pub fn of(mut random: Random, picture: Picture) -> Result<Script, String> {
        let sets = generate::sets(&mut random, &picture);
        let deblocked = generate::planes(&mut random, &picture);
        let bins = write_all(&picture, &sets)?;
        Ok(Script { random, picture, sets, bins, deblocked })
    }

    /// Buffers of the right lengths with anything in them, and a state with any next CTU: what stands before opening.
    pub fn before_opening(&mut self) -> (World, State) {
        let mut world = World::lent_for(&self.picture);
        let planes = world.deblocked.iter_mut().chain(&mut world.filtered);
        planes.flatten().for_each(|sample| *sample = self.random.number() as u16);
        let bytes = world.marks.iter_mut().chain(&mut world.table);
        bytes.for_each(|byte| *byte = self.random.number() as u8);
        let next = self.random.number() as u32;
        (world, State { picture: self.picture, next })
    }

    /// Any call but open: mostly one that may be due, sometimes one that never is.
    pub fn call(&mut self, next: u32) -> Call {
        let (component, ctb) = self.random.pick(&blocks(&self.picture));
        let component = if self.random.once_in(30) { 3 + component } else { component };
        let ctb = if self.random.once_in(30) { u32::MAX - ctb } else { ctb };
        let ctu = (next as usize).min(self.sets.len() - 1);
        match self.random.below(12) {
            0 => self.read(ctu),
            1 => self.write(ctu),
            2..=5 => self.deliver(component, ctb),
            6..=10 => Call::Filter { component, ctb },
            _ => Call::FinishedRows { component },
        }
    }

    /// A CTU's bins, sometimes with a wrong count, too few bytes, or more bits after the count.
    fn read(&mut self, ctu: usize) -> Call {
        let (mut bins, mut count) = self.bins[ctu].clone();
        match self.random.below(8) {
            0 => count = count.saturating_sub(1 + self.random.below(3)),
            1 => count += 1,
            2 => bins.truncate(self.random.below(3)),
            3 => bins.iter_mut().skip(count.div_ceil(8)).for_each(|byte| *byte = self.random.number() as u8),
            _ => {}
        }
        Call::Read { bins, count }
    }

    /// A CTU's set, sometimes one that no bins mean, sometimes with no room.
    fn write(&mut self, ctu: usize) -> Call {
        let mut set = self.sets[ctu];
        let mut out = vec![self.random.number() as u8; 60];
        match self.random.below(6) {
            0 => set = self.outside_rules(set),
            1 => out.clear(),
            _ => {}
        }
        Call::Write { set, out }
    }

    fn outside_rules(&mut self, set: CtuSet) -> CtuSet {
        let offsets = [0; 4];
        let too_large = |component| self.picture.largest_magnitude(component) as i8 + 1;
        let band = |offset| ComponentSet::Band { position: 0, offsets: [0, 0, 0, offset] };
        match self.random.below(7) {
            0 => CtuSet { luma: ComponentSet::Band { position: 32, offsets }, ..set },
            1 => CtuSet { cb: ComponentSet::Edge { class: 9, offsets }, ..set },
            2 => CtuSet { cr: ComponentSet::Band { position: 0, offsets: [-128; 4] }, ..set },
            3 => CtuSet { luma: ComponentSet::Edge { class: 0, offsets: [0, 0, 1, 0] }, ..set },
            // By the component's own depth; by the other it may be within the rules.
            4 => CtuSet { luma: band(too_large(0)), ..set },
            5 => CtuSet { cb: band(-too_large(1)), cr: band(0), ..set },
            _ => CtuSet { cb: band(0), cr: band(too_large(2)), ..set },
        }
    }

    /// A CTB's samples, sometimes too many or above the component's own depth, though not always above the other.
    fn deliver(&mut self, component: u8, ctb: u32) -> Call {
        let of = usize::from(component);
        let exists = of < self.picture.components() && (ctb as usize) < self.picture.ctus();
        let mut samples = Vec::new();
        if exists {
            samples = block_samples(&self.picture, &self.deblocked, component, ctb);
        }
        match self.random.below(12) {
            0 => samples.push(0),
            1 if self.picture.depth(of) < 16 => {
                let above = self.picture.largest_sample(of) + 1;
                samples.iter_mut().take(9).for_each(|sample| *sample |= above);
            }
            _ => {}
        }
        Call::Deliver { component, ctb, samples }
    }

    /// Damages one thing that is lent or kept: a length, a mark, a table byte, samples, the next CTU, the description.
    pub fn damage(&mut self, world: &mut World, state: &mut State) {
        let component = self.random.below(3);
        match self.random.below(9) {
            0 => state.picture = self.broken_description(),
            1 => state.next = self.random.pick(&[0, state.next.wrapping_add(1), u32::MAX]),
            2 => wrong_length(&mut self.random, &mut world.deblocked[component]),
            3 => wrong_length(&mut self.random, &mut world.filtered[component]),
            4 => wrong_length(&mut self.random, &mut world.marks),
            5 => wrong_length(&mut self.random, &mut world.table),
            6 => self.scatter(&mut world.marks),
            7 => self.scatter(&mut world.table),
            _ => self.scatter_large(&mut world.deblocked[component]),
        }
    }

    fn broken_description(&mut self) -> Picture {
        let picture = self.picture;
        match self.random.below(11) {
            0 => Picture { width: self.random.pick(&[0, 4, picture.width + 4, 8200, u32::MAX]), ..picture },
            1 => Picture { height: self.random.pick(&[0, 4, picture.height + 4, 8200, u32::MAX]), ..picture },
            2 => Picture { ctb: self.random.pick(&[0, 8, 128, u32::MAX]), ..picture },
            3 => Picture { format: self.random.pick(&[4, 128, 255]), ..picture },
            4..=6 => self.wrong_depths(),
            7 => Picture { format: 0, chroma_depth: picture.luma_depth, chroma: true, ..picture },
            // Keeps the rules, mostly beside planes of other sizes.
            8 => Picture { format: self.random.pick(&[1, 2, 3]), ..picture },
            // Keep the rules and change the meaning of all that is stored.
            9 => picture.at_depths([picture.chroma_depth, picture.luma_depth]),
            _ => Picture { luma: !picture.luma, ..picture.at_depths([8, 8]) },
        }
    }

    /// The description with depths that break a rule: both or one of them outside, or in monochrome two within that differ.
    pub fn wrong_depths(&mut self) -> Picture {
        let picture = self.picture;
        let outside = self.random.pick(&[0, 7, 17, 255]);
        // Any of the other eight, counted on from luma's.
        let another = 8 + (picture.luma_depth - 7 + self.random.below(8) as u8) % 9;
        match self.random.below(4) {
            0 => picture.at_depths([outside; 2]),
            1 => Picture { luma_depth: outside, ..picture },
            2 => Picture { chroma_depth: outside, ..picture },
            _ => Picture { format: 0, chroma_depth: another, chroma: false, ..picture },
        }
    }

    /// Puts small and large numbers in a few places.
    fn scatter(&mut self, bytes: &mut [u8]) {
        for _ in 0..1 + bytes.len() / 8 {
            bytes[self.random.below(bytes.len())] = self.random.pick(&[0, 1, 2, 3, 127, 129, 255]);
        }
    }

    /// Puts samples above most depths in a few places; an absent plane has none.
    fn scatter_large(&mut self, samples: &mut [u16]) {
        for _ in 0..samples.len().div_ceil(64) {
            samples[self.random.below(samples.len())] = self.random.pick(&[256, 1024, 1 << 15, u16::MAX]);
        }
    }
}

fn wrong_length<T: Default>(random: &mut Random, of: &mut Vec<T>) {
    if of.is_empty() || random.once_in(2) {
        of.push(T::default());
    } else {
        of.pop();
    }
}
