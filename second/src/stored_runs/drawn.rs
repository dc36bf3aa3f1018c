//! The runs that are stored, as commands.
//!
//! Method: a [`Script`] gives picture, sets, bins and calls that may be wrong; its deblocked samples are replaced by
//! such as the proved program can make itself. Beside it a [`Machine`] is kept, so that calls can be drawn that are due.
//! A damage is laid out in commands before its call, and taken back after it, so that most runs come to their end.

use super::{Command, Machine, PLANE, Samples, xorshift};
use crate::generate;
use crate::picture::{Picture, State};
use crate::random::Random;
use crate::reasons::{self, Seen};
use crate::replay::blocks;
use crate::runs::Script;
use crate::sets::CtuSet;
use crate::table::ENTRY_BYTES;
use crate::world::{Call, Kind, World};
use std::collections::BTreeMap;

/// The depths of the larger pictures: the least, with M at its largest, with offsets scaled, and the largest.
pub const DEPTHS: [u8; 4] = [8, 10, 12, 16];

/// The CTB size and format of the larger pictures, with luma's and chroma's depths: luma goes through all four, and chroma
/// through the same, begun at another. In monochrome they are equal; with chroma each two of them come together.
pub fn kinds() -> impl Iterator<Item = (u32, u8, [u8; 2])> {
    let formats = [0, 1, 2].into_iter().flat_map(|size| [0, 1, 2, 3].map(|format| (size, format)));
    formats.flat_map(|(size, format)| {
        let turn = if format == 0 { 0 } else { size + format };
        std::array::from_fn::<_, 4, _>(|n| (16 << size, format as u8, [DEPTHS[n], DEPTHS[(n + turn) % 4]]))
    })
}

/// A run of so many calls is cut short: on a small picture, on a larger one, and on one of 64 CTUs.
const MOST_CALLS: [usize; 3] = [130, 220, 900];

/// A damage of more places is laid out in part.
const MOST_POKES: usize = 24;

/// All commands, run after run.
pub fn commands() -> Vec<Command> {
    let [few, more, most] = MOST_CALLS;
    let mut commands = case_10();
    commands.extend(small().flat_map(|script| Run::of(script, few).commands));
    commands.extend(larger().flat_map(|script| Run::of(script, more).commands));
    commands.extend(many_ctus().flat_map(|script| Run::of(script, most).commands));
    commands
}

/// Pictures of a few CTBs, of which most runs come to their end: of every format and luma depth three, and with chroma one
/// of every pair of depths, since the three formats begin chroma's at nine different ones.
fn small() -> impl Iterator<Item = Script> {
    let kinds = (0..3).flat_map(|round| (0..4).flat_map(move |format| (0..9).map(move |luma| (round, format, luma))));
    kinds.enumerate().filter_map(|(number, (round, format, luma))| {
        let mut random = Random::new(number as u64);
        let turn = if format == 0 { 0 } else { 3 * round + format };
        let picture = few_ctbs(&mut random, format).at_depths([8 + luma, 8 + (luma + turn) % 9]);
        Script::of(random, picture).ok()
    })
}

fn few_ctbs(random: &mut Random, format: u8) -> Picture {
    loop {
        let picture = generate::picture(random, 40);
        if picture.format == format && picture.width * picture.height <= 40 * 24 && picture.ctus() <= 6 {
            return picture;
        }
    }
}

/// Pictures of every CTB size and format, in two rows of two or three CTUs, the last of them cut short.
fn larger() -> impl Iterator<Item = Script> {
    kinds().enumerate().filter_map(|(number, (ctb, format, depths))| {
        let mut random = Random::new(1000 + number as u64);
        let picture = cut_short(&mut random, ctb, format).at_depths(depths);
        Script::of(random, picture).ok()
    })
}

/// A picture whose last column and row are cut short, of fewer samples than a plane holds, so that a length can be too large.
fn cut_short(random: &mut Random, ctb: u32, format: u8) -> Picture {
    loop {
        let mut side = |whole: u32| whole * ctb + 8 * (1 + random.below(ctb as usize / 8 - 1) as u32);
        let (width, height) = (side(1), side(1));
        let width = width + random.pick(&[0, ctb]);
        if ((width * height) as usize) < PLANE {
            let switches = random.pick(&[(true, true), (true, true), (true, false), (false, true)]);
            let (luma, chroma) = if format == 0 { (true, false) } else { switches };
            return Picture { width, height, ctb, format, luma, chroma, ..Picture::MONOCHROME };
        }
    }
}

/// A picture of 64 CTUs.
fn many_ctus() -> impl Iterator<Item = Script> {
    let picture = Picture { width: 128, height: 128, ..Picture::MONOCHROME };
    Script::of(Random::new(64), picture).into_iter()
}

/// What a run begins with: the state, what is lent, and anything in the buffers.
fn beginning(state: State, lent: &World, seed: u32) -> [Command; 3] {
    [Command::State(state), Command::Lengths(lengths(lent)), Command::Fill(seed)]
}

fn lengths(lent: &World) -> [usize; 8] {
    let [y, cb, cr] = lent.deblocked.each_ref().map(Vec::len);
    let [out_y, out_cb, out_cr] = lent.filtered.each_ref().map(Vec::len);
    [y, cb, cr, out_y, out_cb, out_cr, lent.marks.len(), lent.table.len()]
}

/// Document 01's case 10: two CTBs in a row, filter of the first before and after the second is delivered.
fn case_10() -> Vec<Command> {
    let picture = Picture { width: 32, height: 16, ..Picture::MONOCHROME };
    let flat = Samples { number: 256, base: 9, spread: 0, seed: 1, put_in: vec![] };
    let deliver = |ctb| Command::Deliver { component: 0, ctb, samples: flat.clone() };
    let filter = |ctb| Command::Filter { component: 0, ctb };
    let rows = Command::FinishedRows { component: 0 };
    let calls = [
        Command::Open,
        Command::Read { bins: vec![0], count: 1 },
        Command::Read { bins: vec![0x80], count: 1 },
        deliver(0),
        filter(0),
        deliver(1),
        filter(0),
        rows.clone(),
        filter(1),
        rows,
    ];
    let state = State { picture, next: 9 };
    beginning(state, &World::lent_for(&picture), 10).into_iter().chain(calls).collect()
}

// A drawn run.

struct Run {
    script: Script,
    /// What each CTB's samples are made of.
    blocks: BTreeMap<(u8, u32), Samples>,
    machine: Machine,
    commands: Vec<Command>,
    calls: usize,
}

impl Run {
    fn of(mut script: Script, most_calls: usize) -> Run {
        let blocks = deblocked(&mut script);
        let mut run = Run { script, blocks, machine: Machine::new(), commands: vec![], calls: 0 };
        let (lent, state) = run.script.before_opening();
        let seed = run.script.random.number() as u32 | 1;
        beginning(state, &lent, seed).into_iter().for_each(|command| run.make(command));
        run.before_opening();
        run.make(Command::Open);
        while !run.done() && run.calls < most_calls {
            run.step();
        }
        run.after_the_end();
        run
    }

    fn make(&mut self, command: Command) {
        self.calls += usize::from(self.machine.made(&command).is_some());
        self.commands.push(command);
    }

    fn done(&self) -> bool {
        self.marks().iter().all(|&mark| mark == 2)
    }

    fn marks(&self) -> &[u8] {
        &self.machine.whole.marks[..self.script.picture.marks()]
    }

    /// Sometimes a call on what nobody has opened.
    fn before_opening(&mut self) {
        if self.script.random.once_in(4) {
            let kind = self.script.random.pick(&Kind::ALL[1..]);
            let command = self.wrong_or_not(kind);
            self.make(command);
        }
    }

    fn step(&mut self) {
        match self.script.random.below(12) {
            0..=4 => self.due(),
            5..=6 => {
                let kind = self.script.random.pick(&Kind::ALL[1..]);
                let command = self.wrong_or_not(kind);
                self.make(command);
            }
            7..=9 => self.damaged(),
            _ => self.provoked(),
        }
    }

    /// A call that may well be accepted: the next set, a block not delivered, a block not filtered.
    fn due(&mut self) {
        let kinds = [Kind::Read, Kind::Write, Kind::Deliver, Kind::Deliver, Kind::Filter, Kind::Filter];
        let kind = self.script.random.pick(&kinds);
        let is_due = |kind: Kind| match kind {
            Kind::Read | Kind::Write => self.sets_are_due(),
            Kind::Deliver => !self.with_mark(0).is_empty(),
            _ => !self.with_mark(1).is_empty(),
        };
        let due = [kind, Kind::Deliver, Kind::Write, Kind::Filter].into_iter().find(|&kind| is_due(kind));
        let command = self.sound(due.unwrap_or(Kind::FinishedRows));
        self.make(command);
    }

    fn sets_are_due(&self) -> bool {
        (self.machine.state.next as usize) < self.script.sets.len()
    }

    fn with_mark(&self, mark: u8) -> Vec<(u8, u32)> {
        let marked = blocks(&self.script.picture).into_iter().zip(self.marks());
        marked.filter(|&(_, &other)| other == mark).map(|(block, _)| block).collect()
    }

    /// A call of this kind that is due, as far as there is one.
    fn sound(&mut self, kind: Kind) -> Command {
        let next = self.machine.state.next;
        let of_mark = match kind {
            Kind::Deliver => self.with_mark(0),
            _ => self.with_mark(1),
        };
        match kind {
            Kind::Read | Kind::Write if self.sets_are_due() => self.next_set(kind, next as usize),
            Kind::Deliver if !of_mark.is_empty() => {
                let (component, ctb) = self.script.random.pick(&of_mark);
                let samples = self.blocks[&(component, ctb)].clone();
                Command::Deliver { component, ctb, samples }
            }
            Kind::Filter if !of_mark.is_empty() => {
                let ready: Vec<_> = of_mark.iter().copied().filter(|&block| self.ready(block)).collect();
                let some = if ready.is_empty() { of_mark } else { ready };
                let (component, ctb) = self.script.random.pick(&some);
                Command::Filter { component, ctb }
            }
            Kind::FinishedRows => {
                let components = self.script.picture.components();
                Command::FinishedRows { component: self.script.random.below(components) as u8 }
            }
            _ => self.scripted(kind, next),
        }
    }

    /// Whether all that a block waits for is there.
    fn ready(&self, (component, ctb): (u8, u32)) -> bool {
        let picture = self.script.picture;
        let is_in = |&ctb: &usize| self.marks()[picture.mark_place(component.into(), ctb)] > 0;
        ctb < self.machine.state.next && picture.ctb_and_neighbours(ctb as usize).iter().all(is_in)
    }

    fn next_set(&mut self, kind: Kind, ctu: usize) -> Command {
        if kind == Kind::Read {
            let (bins, count) = self.script.bins[ctu].clone();
            return Command::Read { bins: bins[..count.div_ceil(8)].to_vec(), count };
        }
        let byte = self.script.random.number() as u8;
        Command::Write { set: self.script.sets[ctu], room: 51, byte }
    }

    /// A call of this kind as the script draws it, or made wrong in a way that the script has not.
    fn wrong_or_not(&mut self, kind: Kind) -> Command {
        let command = self.scripted(kind, self.machine.state.next);
        match self.script.random.below(3) {
            0 => self.made_wrong(command),
            _ => command,
        }
    }

    /// The script draws calls of all kinds but open: the first of this one.
    fn scripted(&mut self, kind: Kind, next: u32) -> Command {
        loop {
            match self.script.call(next) {
                _ if kind == Kind::Open => return Command::Open,
                call if Kind::of(&call) == kind => return self.command(call),
                _ => {}
            }
        }
    }

    fn command(&self, call: Call) -> Command {
        match call {
            Call::Open => Command::Open,
            Call::Read { bins, count } => Command::Read { bins: trimmed(bins, count), count },
            Call::Write { set, out } => {
                Command::Write { set, room: out.len(), byte: out.first().copied().unwrap_or_default() }
            }
            Call::Deliver { component, ctb, samples } => {
                let none = Samples { number: 0, base: 0, spread: 0, seed: 1, put_in: vec![] };
                let made = self.blocks.get(&(component, ctb)).unwrap_or(&none);
                Command::Deliver { component, ctb, samples: made.that_make(&samples) }
            }
            Call::Filter { component, ctb } => Command::Filter { component, ctb },
            Call::FinishedRows { component } => Command::FinishedRows { component },
        }
    }

    fn made_wrong(&mut self, command: Command) -> Command {
        let picture = self.script.picture;
        let random = &mut self.script.random;
        let ctbs = picture.ctus() as u32;
        match command {
            Command::Read { mut bins, count } => {
                let enormous = usize::MAX - random.below(1 << 20);
                bins.push(random.number() as u8);
                let count = random.pick(&[8 * bins.len() + 1, enormous, 0, count + 8]);
                Command::Read { bins, count }
            }
            Command::Write { set, byte, .. } => {
                let room = random.below(4);
                Command::Write { set: with_another_offset(random, set), room, byte }
            }
            Command::Deliver { component, ctb, mut samples } => {
                let of = usize::from(component);
                if samples.number > 0 && picture.depth(of) < 16 {
                    let any = random.below(samples.number);
                    let place = random.pick(&[0, samples.number - 1, any]);
                    samples.put_in.push((place as u16, picture.largest_sample(of) + 1));
                }
                Command::Deliver { component, ctb, samples }
            }
            Command::Filter { component, ctb } => {
                let absent = random.pick(&[255, picture.components() as u8]);
                let ctb = random.pick(&[ctb, ctbs, u32::MAX]);
                Command::Filter { component: random.pick(&[component, absent]), ctb }
            }
            Command::FinishedRows { .. } => {
                Command::FinishedRows { component: random.pick(&[255, picture.components() as u8]) }
            }
            other => other,
        }
    }

    /// A call on a damage of the script's, or on a description that no buffer fits.
    fn damaged(&mut self) {
        let (mut lent, mut state) = (self.machine.lent(), self.machine.state);
        if self.script.random.once_in(12) {
            let side = self.script.random.pick(&[8, 64, 8192]);
            state.picture = Picture { width: side, height: 8192, ..self.script.picture };
        } else {
            self.script.damage(&mut lent, &mut state);
        }
        let kind = self.script.random.pick(&Kind::ALL);
        let kind = if kind == Kind::Open && self.too_soon(&state, &lent) { Kind::Filter } else { kind };
        let command = self.scripted(kind, self.machine.state.next);
        self.make_damaged(state, lent, command);
    }

    /// An open that is accepted begins the picture anew: the more blocks it has, the rarer that has to be.
    fn too_soon(&mut self, state: &State, lent: &World) -> bool {
        let is_refused = reasons::refusal(Kind::Open, &Seen::of(lent, *state, &Call::Open)).is_some();
        !is_refused && !self.script.random.once_in(self.script.picture.marks())
    }

    /// A call that would be due, and damage where it looks.
    fn provoked(&mut self) {
        let (mut lent, mut state) = (self.machine.lent(), self.machine.state);
        let often = [Kind::Read, Kind::Write, Kind::Filter, Kind::Filter];
        let kinds: Vec<Kind> = Kind::ALL.into_iter().chain(often).collect();
        let kind = self.script.random.pick(&kinds);
        let mut command = self.sound(kind);
        let above = self.script.picture.ctus() as u32 + 1;
        let random = &mut self.script.random;
        // Open reads nothing but the description.
        let damage = if kind == Kind::Open { 0 } else { random.below(5) };
        match damage {
            0 => state.picture = self.script.wrong_depths(),
            1 => state.next = random.pick(&[above, u32::MAX]),
            _ => match &mut command {
                Command::Read { bins, count } if random.once_in(4) => *count = 8 * bins.len() + 1,
                Command::Read { bins, count } => {
                    (*bins, *count) = (vec![0x80], 1);
                    self.damage_neighbours(&mut lent);
                }
                Command::Write { .. } => self.damage_neighbours(&mut lent),
                Command::Deliver { component, ctb, .. } => self.damage_mark(&mut lent, *component, *ctb),
                Command::Filter { component, ctb } => self.damage_block(&mut lent, *component, *ctb),
                Command::FinishedRows { component } => {
                    let ctb = random.below(above as usize - 1) as u32;
                    self.damage_mark(&mut lent, *component, ctb);
                }
                _ => {}
            },
        }
        self.make_damaged(state, lent, command);
    }

    fn damage_entry(&mut self, lent: &mut World, ctu: usize) {
        let place = ENTRY_BYTES * ctu + self.script.random.below(ENTRY_BYTES);
        if let Some(byte) = lent.table.get_mut(place) {
            *byte = self.script.random.pick(&[255, 255, 3, 32, 127]);
        }
    }

    /// The sets that the next CTU may copy.
    fn damage_neighbours(&mut self, lent: &mut World) {
        let (picture, next) = (self.script.picture, self.machine.state.next as usize);
        for ctu in [picture.left_of(next), picture.above(next)].into_iter().flatten() {
            self.damage_entry(lent, ctu);
        }
    }

    fn damage_mark(&mut self, lent: &mut World, component: u8, ctb: u32) {
        let place = self.script.picture.mark_place(component.into(), ctb as usize);
        if let Some(mark) = lent.marks.get_mut(place) {
            *mark = self.script.random.pick(&[3, 4, 128, 255]);
        }
    }

    /// The set of a block to be filtered, a mark that it waits for, or a sample that it looks at.
    fn damage_block(&mut self, lent: &mut World, component: u8, ctb: u32) {
        let (picture, of, at) = (self.script.picture, usize::from(component), ctb as usize);
        if of >= picture.components() || at >= picture.ctus() {
            return;
        }
        match self.script.random.below(3) {
            0 => self.damage_entry(lent, at),
            1 => {
                let near = self.script.random.pick(&picture.ctb_and_neighbours(at));
                self.damage_mark(lent, component, near as u32);
            }
            _ => {
                let around: Vec<_> = picture.block_and_around(of, at).places().collect();
                let (x, y) = self.script.random.pick(&around);
                let sample = u32::from(picture.largest_sample(of)) + 1;
                lent.deblocked[of][y * picture.plane_width(of) + x] = sample.min(u16::MAX.into()) as u16;
            }
        }
    }

    /// Lays the damage out, makes the call, and takes back what of the damage is still there.
    fn make_damaged(&mut self, state: State, lent: World, command: Command) {
        let saved = self.machine.clone();
        let (of_state, of_lengths) = (state != saved.state, lengths(&lent) != saved.lengths);
        if of_state {
            self.make(Command::State(state));
        }
        if of_lengths {
            self.make(Command::Lengths(lengths(&lent)));
        }
        let mut damage = differing(&saved.whole, &lent);
        damage.truncate(MOST_POKES);
        for &(buffer, place, _, value) in &damage {
            self.make(Command::Poke { buffer, place, value });
        }
        self.make(command);
        for (buffer, place, before, damaged) in damage {
            if self.machine.at(buffer, place) == damaged && !self.is_stored_since(&saved, buffer, place) {
                self.make(Command::Poke { buffer, place, value: before });
            }
        }
        if of_lengths {
            self.make(Command::Lengths(saved.lengths));
        }
        if of_state {
            self.make(Command::State(saved.state));
        }
    }

    /// Whether a place lies in an entry that has been stored since then: what stands there is no damage, even if it is
    /// alike.
    fn is_stored_since(&self, saved: &Machine, buffer: usize, place: usize) -> bool {
        let stored = saved.state.next as usize..self.machine.state.next as usize;
        buffer == 7 && stored.contains(&(place / ENTRY_BYTES))
    }

    /// What is refused for good: more sets, blocks again. Then everything handed out, and the picture opened anew.
    fn after_the_end(&mut self) {
        let kinds = [Kind::Read, Kind::Write, Kind::Deliver, Kind::Filter];
        for kind in kinds {
            let command = self.scripted(kind, self.machine.state.next);
            self.make(command);
        }
        for component in 0..self.script.picture.components() as u8 {
            self.make(Command::FinishedRows { component });
        }
        self.make(Command::Open);
        self.make(Command::FinishedRows { component: 0 });
    }
}

/// The bytes that the count reaches, and one more if there is one.
fn trimmed(mut bins: Vec<u8>, count: usize) -> Vec<u8> {
    bins.truncate(count.div_ceil(8) + 1);
    bins
}

/// Where the lent parts differ from the whole buffers: buffer and place, and what stands in whole and part.
fn differing(whole: &World, lent: &World) -> Vec<(usize, usize, u16, u16)> {
    let numbers = |world: &World| -> Vec<Vec<u16>> {
        let planes = world.deblocked.iter().chain(&world.filtered).cloned();
        let bytes = [&world.marks, &world.table].map(|bytes| bytes.iter().map(|&byte| byte.into()).collect());
        planes.chain(bytes).collect()
    };
    let mut differing = Vec::new();
    for (buffer, (whole, lent)) in numbers(whole).iter().zip(numbers(lent)).enumerate() {
        let both = whole.iter().copied().zip(lent).enumerate();
        differing.extend(both.filter(|(_, (a, b))| a != b).map(|(place, (a, b))| (buffer, place, a, b)));
    }
    differing
}

/// Replaces the script's deblocked samples, CTB by CTB, by some that a few numbers make.
fn deblocked(script: &mut Script) -> BTreeMap<(u8, u32), Samples> {
    let picture = script.picture;
    let mut made = BTreeMap::new();
    for (component, ctb) in blocks(&picture) {
        let of = usize::from(component);
        let block = picture.block(of, ctb as usize);
        let samples = any_samples(&mut script.random, picture.largest_sample(of), block.samples());
        for ((x, y), sample) in block.places().zip(samples.made()) {
            script.deblocked[of][y * picture.plane_width(of) + x] = sample;
        }
        made.insert((component, ctb), samples);
    }
    made
}

/// Flat, of few levels close together or far apart, or noise; none above `top`.
fn any_samples(random: &mut Random, top: u16, number: usize) -> Samples {
    let any = random.number() as u16 & top;
    let base = random.pick(&[0, top, any, top / 2]);
    let spread = random.pick(&[0, 1, 3, 3, top & !1, top / 2 + 1, top, top]);
    let seed = xorshift(random.number() as u32 | 1);
    Samples { number, base, spread, seed, put_in: vec![] }
}

/// The set with one offset of a component changed a little, which most often no bins mean.
fn with_another_offset(random: &mut Random, set: CtuSet) -> CtuSet {
    use crate::sets::ComponentSet::{Band, Edge, Off};
    let (of, place) = (random.below(3), random.below(4));
    let value = random.pick(&[-128, -32, -16, -8, 8, 16, 32, 127]);
    let changed = |mut offsets: [i8; 4]| {
        offsets[place] = value;
        offsets
    };
    let mut components = set.components();
    components[of] = match components[of] {
        Off => Edge { class: 3, offsets: changed([0; 4]) },
        Band { position, offsets } => Band { position, offsets: changed(offsets) },
        Edge { class, offsets } => Edge { class, offsets: changed(offsets) },
    };
    CtuSet::of(components)
}
