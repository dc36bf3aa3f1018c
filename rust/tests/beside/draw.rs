//! What is drawn: a picture of any size class, and calls on it, mostly due, sometimes spoiled.

use crate::call::Call;
use second::bins;
use second::generate;
use second::random::Random;
use second::replay::block_samples;
use second::runs::Script;
use second::table;
use second::{CtuSet, Picture, World};

/// The size classes of pictures.
pub const CLASSES: [&str; 6] =
    ["8 by 8", "one CTB", "CTBs cut short", "wide and flat", "narrow and high", "longest side"];

/// The places in it that are spoken of by name.
pub const CUT_SHORT: usize = 2;
const LONGEST: usize = 5;

/// A picture of some class within the rules, and the class. A long picture's calls cost much, so it is rare.
fn picture(random: &mut Random) -> (usize, Picture) {
    let class = if random.once_in(2000) { LONGEST } else { random.pick(&[0, 1, 2, 2, 2, 3, 3, 4, 4]) };
    let ctb = if class == LONGEST { 64 } else { random.pick(&[16, 16, 32, 64]) };
    let mut upto = |most: u32| 8 * (1 + random.below(most as usize / 8) as u32);
    let (flat, long) = (upto(16), upto(8 * ctb));
    let (width, height) = match class {
        0 => (8, 8),
        1 => (ctb, ctb),
        CUT_SHORT => (upto(2 * ctb + 24), upto(2 * ctb + 24)),
        3 => (long, flat),
        4 => (flat, long),
        _ => random.pick(&[(8192, 8), (8, 8192)]),
    };
    let format = random.below(4) as u8;
    let (luma_depth, chroma_depth) = (depth(random), depth(random));
    // In monochrome there is one depth.
    let chroma_depth = if format == 0 { luma_depth } else { chroma_depth };
    // Every kind is to come to its end several times, both switches off among them.
    let luma = !random.once_in(3);
    let chroma = format != 0 && !random.once_in(3);
    (class, Picture { width, height, ctb, format, luma_depth, chroma_depth, luma, chroma })
}

/// Any depth; 8 and 9, which have an M of their own each, are drawn more often.
fn depth(random: &mut Random) -> u8 {
    let any = 8 + random.below(9) as u8;
    random.pick(&[8, 9, any, any, any, any])
}

/// A picture's description, its samples, and the draws on it.
pub struct Draw {
    pub script: Script,
    pub class: usize,
}

impl Draw {
    /// A picture of any class.
    pub fn new(mut random: Random) -> Draw {
        let (class, picture) = picture(&mut random);
        Draw::of(random, class, picture)
    }

    pub fn of(mut random: Random, class: usize, picture: Picture) -> Draw {
        let deblocked = generate::planes(&mut random, &picture);
        Draw { script: Script { random, picture, sets: Vec::new(), bins: Vec::new(), deblocked }, class }
    }

    pub fn random(&mut self) -> &mut Random {
        &mut self.script.random
    }

    pub fn picture(&self) -> Picture {
        self.script.picture
    }

    /// Any call but open on a sound world.
    pub fn call(&mut self, world: &World, next: u32) -> Call {
        let call = if self.random().below(8) < 5 { self.due(world, next) } else { self.any(world, next) };
        if self.random().once_in(4) { self.spoiled(call) } else { call }
    }

    /// The next CTU, or sometimes an earlier one: the table's entries before it are sound all the same.
    pub fn up_to_now(&mut self, next: u32) -> u32 {
        let earlier = self.random().below(next as usize + 1) as u32;
        self.random().pick(&[next, earlier])
    }

    /// Any CTU of the picture up to the next one.
    pub fn earlier(&mut self, next: u32) -> u32 {
        let last = self.picture().ctus() - 1;
        self.random().below(last.min(next as usize) + 1) as u32
    }

    /// A set of the next CTU, read or written.
    pub fn set_call(&mut self, world: &World, next: u32) -> Call {
        if self.random().once_in(3) { self.read(world, next) } else { self.write(world, next) }
    }

    /// A call that is accepted, as long as one of its kind is due.
    fn due(&mut self, world: &World, next: u32) -> Call {
        let unread = (next as usize) < self.picture().ctus();
        match self.random().below(8) {
            0 if unread => self.read(world, next),
            1 if unread => self.write(world, next),
            0..=4 => {
                let (component, ctb) =
                    self.block_where(|picture, component, ctb| world.marks[picture.mark_place(component, ctb)] == 0);
                self.deliver(component, ctb)
            }
            _ => {
                let (component, ctb) = self.block_where(|picture, component, ctb| {
                    let mark = |ctb| world.marks[picture.mark_place(component, ctb)];
                    let near = || picture.ctb_and_neighbours(ctb);
                    ctb < next as usize && mark(ctb) == 1 && near().into_iter().all(|ctb| mark(ctb) > 0)
                });
                Call::Filter { component, ctb }
            }
        }
    }

    /// A call on any block.
    fn any(&mut self, world: &World, next: u32) -> Call {
        let (component, ctb) = self.block_where(|_, _, _| true);
        match self.random().below(7) {
            0 => self.read(world, next),
            1 => self.write(world, next),
            2 => self.deliver(component, ctb),
            3 | 4 => Call::Filter { component, ctb },
            _ => Call::FinishedRows { component },
        }
    }

    /// The first block, from a random one on, of which this holds; or else a random one.
    fn block_where(&mut self, holds: impl Fn(&Picture, usize, usize) -> bool) -> (u32, u32) {
        let picture = self.picture();
        let ctus = picture.ctus();
        let all = picture.components() * ctus;
        let from = self.random().below(all);
        let parted = |place: usize| (place % all / ctus, place % ctus);
        let found = (from..from + all).map(parted).find(|&(component, ctb)| holds(&picture, component, ctb));
        let (component, ctb) = found.unwrap_or(parted(from));
        (component as u32, ctb as u32)
    }

    /// The sets to the left of the next CTU and above it.
    fn neighbours(&self, world: &World, next: u32) -> [Option<CtuSet>; 2] {
        let picture = self.picture();
        let ctu = (next as usize).min(picture.ctus() - 1);
        [picture.left_of(ctu), picture.above(ctu)].map(|ctu| table::stored(&picture, &world.table, ctu?))
    }

    /// Any form of the next CTU's bins, noise in the bits after them.
    fn read(&mut self, world: &World, next: u32) -> Call {
        let [left, up] = self.neighbours(world, next);
        let picture = self.picture();
        let wanted = generate::set(self.random(), &picture);
        let forms = bins::forms(&picture, left, up, &wanted);
        let form = &forms[self.random().below(forms.len())].0;
        let mut bins = bins::pack(form);
        if let Some(last) = bins.last_mut() {
            *last |= self.random().number() as u8 & noise_mask(form.len());
        }
        Call::Read { bins, count: form.len() }
    }

    /// Any set of the next CTU, sometimes a neighbour's, and room that its bins just fit in or more.
    fn write(&mut self, world: &World, next: u32) -> Call {
        let [left, up] = self.neighbours(world, next);
        let picture = self.picture();
        let own = generate::set(self.random(), &picture);
        let set = self.random().pick(&[left, up, None, None]).unwrap_or(own);
        let needed = bins::written(&picture, left, up, &set).map_or(0, |bins| bins.len().div_ceil(8));
        let room = self.random().pick(&[needed, needed, needed + 1, 60]);
        let filler = self.random().number() as u8;
        Call::Write { set: table::encode(&set), out: vec![filler; room] }
    }

    pub fn deliver(&mut self, component: u32, ctb: u32) -> Call {
        let Script { picture, deblocked, .. } = &self.script;
        Call::Deliver { component, ctb, samples: block_samples(picture, deblocked, component as u8, ctb) }
    }
}

/// The bits of the last byte after that many bins.
fn noise_mask(count: usize) -> u8 {
    if count.is_multiple_of(8) { 0 } else { u8::MAX >> (count % 8) }
}
