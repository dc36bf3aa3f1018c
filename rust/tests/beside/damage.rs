//! Damages to what is lent or kept, for a copy of a run's world and state.

use crate::call::Call;
use crate::draw::Draw;
use crate::judge::in_byte;
use crate::spoil::{above, change_byte, wrong_length};
use Damage::*;
use second::generate;
use second::random::Random;
use second::table::{self, ENTRY_BYTES};
use second::{Picture, World};
use steamgusset::ffi::State;

/// The kinds of damage.
#[derive(Clone, Copy, Debug, PartialEq, Eq)]
pub enum Damage {
    Field,
    Rule,
    Description,
    Next,
    DeblockedLength,
    FilteredLength,
    MarksLength,
    TableLength,
    Marks,
    Table,
    Samples,
}

/// Each kind, in words.
pub const DAMAGES: [(Damage, &str); 11] = [
    (Field, "a number that no field holds"),
    (Rule, "a description that breaks a rule"),
    (Description, "another description"),
    (Next, "the next CTU"),
    (DeblockedLength, "a deblocked plane's length"),
    (FilteredLength, "a filtered plane's length"),
    (MarksLength, "the marks' length"),
    (TableLength, "the table's length"),
    (Marks, "marks"),
    (Table, "table bytes"),
    (Samples, "samples above the depth"),
];

/// What a call asks after besides the state; what answers rarely stands more often.
fn asked_after(call: &Call) -> &'static [Damage] {
    match call {
        Call::Open => &[MarksLength],
        Call::Read { .. } | Call::Write { .. } => &[TableLength, Table, Table, Table, Table],
        Call::Deliver { .. } => &[DeblockedLength, MarksLength, Marks],
        Call::Filter { .. } => {
            &[DeblockedLength, FilteredLength, MarksLength, TableLength, Marks, Marks, Table, Table, Samples, Samples]
        }
        Call::FinishedRows { .. } => &[FilteredLength, MarksLength, Marks],
    }
}

impl Draw {
    /// Damages one thing, often one that the call asks after; answers what.
    pub fn damage(&mut self, call: &Call, world: &mut World, state: &mut State) -> Damage {
        let any = self.random().pick(&DAMAGES).0;
        let of_state = self.random().pick(&[Field, Rule, Description, Next]);
        let of_call = self.random().pick(asked_after(call));
        let damage = self.random().pick(&[any, of_state, of_call, of_call]);
        let component = self.random().below(3);
        match damage {
            Field => self.unheld(state),
            Rule => self.broken(state),
            Description => self.other(state),
            Next => state.next = self.other_next(state.next),
            DeblockedLength => wrong_length(self.random(), &mut world.deblocked[component]),
            FilteredLength => wrong_length(self.random(), &mut world.filtered[component]),
            MarksLength => wrong_length(self.random(), &mut world.marks),
            TableLength => wrong_length(self.random(), &mut world.table),
            Marks => self.marked(call, &mut world.marks),
            Table => self.stored(call, state.next, &mut world.table),
            Samples => self.sampled(call, &mut world.deblocked),
        }
        damage
    }

    /// A number that may be any, or one whose low bits are still a sound one's.
    pub fn unheld(&mut self, state: &mut State) {
        let random = self.random();
        let high = random.pick(&[1 << 8, 1 << 16, 1 << 31]);
        let any = random.number() as u32;
        let byte = random.number() as u32 & 0xFF;
        let switch = random.pick(&[2, 3, 128, 255, high, high | 1, u32::MAX, any.max(2), byte.max(2)]);
        let choice = random.below(5);
        let mut above = |number: u32| random.pick(&[256, number | high, u32::MAX, any.max(256), byte + 256]);
        match choice {
            0 => state.format = above(state.format),
            1 => state.luma_depth = above(state.luma_depth),
            2 => state.chroma_depth = above(state.chroma_depth),
            3 => state.luma = switch,
            _ => state.chroma = switch,
        }
    }

    /// A number that a field holds and a rule forbids; of all bytes some are within the rules.
    pub fn broken(&mut self, state: &mut State) {
        let random = self.random();
        let any = random.number() as u32;
        let (byte, odd) = (random.number() as u32 & 0xFF, random.below(9000) as u32 | 1);
        let side = |side: u32| [0, 4, 7, side + 1, side + 4, 8191, 8196, 8200, 1 << 31, u32::MAX - 7, u32::MAX];
        let is_any = random.once_in(2);
        let depth = if is_any { byte } else { random.pick(&[0, 1, 7, 17, 32, 255]) };
        // Depths more often: each way in which they alone are wrong is to be met often by each call.
        match random.below(16) {
            0 if is_any => state.width = random.pick(&[any, odd]),
            0 => state.width = random.pick(&side(state.width & 0xFFFF)),
            1 if is_any => state.height = random.pick(&[any, odd]),
            1 => state.height = random.pick(&side(state.height & 0xFFFF)),
            2 if is_any => state.ctb = random.pick(&[any, byte, byte, byte]),
            2 => state.ctb = random.pick(&[0, 1, 8, 15, 17, 24, 48, 63, 65, 128, 272, 1 << 31, u32::MAX]),
            3 if is_any => state.format = byte,
            3 => state.format = random.pick(&[4, 5, 128, 255]),
            4..=6 => state.luma_depth = depth,
            7..=9 => state.chroma_depth = depth,
            10 => (state.luma_depth, state.chroma_depth) = (depth, depth),
            // Monochrome with two depths, or with chroma on, and nothing else wrong.
            11..=13 => {
                let other = another_depth(random, state.luma_depth);
                (state.format, state.chroma, state.chroma_depth) = (0, 0, other);
            }
            _ => (state.format, state.chroma, state.chroma_depth) = (0, 1, state.luma_depth),
        }
    }

    /// Keeps the rules and changes the meaning of all that is lent and stored.
    pub fn other(&mut self, state: &mut State) {
        let random = self.random();
        let any = 8 * (1 + random.below(1024) as u32);
        let side = |side: u32| [8, side.saturating_add(8).min(8192), side.saturating_sub(8).max(8), 64, 8192, any];
        let depth = 8 + random.below(9) as u32;
        match random.below(9) {
            0 => state.width = random.pick(&side(state.width)),
            1 => state.height = random.pick(&side(state.height)),
            2 => (state.width, state.height) = (state.height, state.width),
            3 => state.ctb = random.pick(&[16, 32, 64]),
            4 => (state.format, state.chroma) = (random.below(4) as u32, 0),
            5 => state.luma = 1 - state.luma.min(1),
            6 => state.chroma = if state.format == 0 { 0 } else { 1 - state.chroma.min(1) },
            7 if state.format > 0 => state.chroma_depth = depth,
            _ => state.luma_depth = depth,
        }
        if state.format == 0 {
            state.chroma_depth = state.luma_depth;
        }
    }

    /// A CTU of the picture, one near its end, one whose low bits are this one's, or any number.
    fn other_next(&mut self, next: u32) -> u32 {
        let ctus = self.picture().ctus();
        let random = self.random();
        let near = random.below(ctus + 1) as u32;
        let (step, ctus) = (random.pick(&[next.wrapping_add(1), next.wrapping_sub(1)]), ctus as u32);
        let bit = 1 << random.below(32);
        let any = random.number() as u32;
        random.pick(&[0, step, near, near, ctus, ctus + 1, next | bit, bit, any, u32::MAX])
    }

    /// The block that the call names, if there is one, or else any.
    fn near(&mut self, call: &Call) -> (usize, usize) {
        let picture = self.picture();
        let named = call.block().map(|(component, ctb)| (usize::from(in_byte(component)), ctb as usize));
        let exists = |&(component, ctb): &(usize, usize)| component < picture.components() && ctb < picture.ctus();
        let any = (self.random().below(picture.components()), self.random().below(picture.ctus()));
        named.filter(exists).unwrap_or(any)
    }

    /// Any numbers, small and large ones often, on the block, on its neighbours, or anywhere.
    fn marked(&mut self, call: &Call, marks: &mut [u8]) {
        let picture = self.picture();
        let (component, ctb) = self.near(call);
        for _ in 0..self.random().pick(&[1, 1, 2, 5]) {
            let neighbour = self.random().pick(&picture.ctb_and_neighbours(ctb));
            let own = picture.mark_place(component, ctb);
            let place = picture.mark_place(component, neighbour);
            let any = self.random().below(picture.marks());
            let place = self.random().pick(&[own, place, place, any]);
            let any = self.random().number() as u8;
            let mark = self.random().pick(&[0, 1, 2, 3, 4, 127, 128, 255, any, any, any, any]);
            set_if_there(marks, place, mark);
        }
    }

    /// Bytes of the block's own entry, of those to the left of the next CTU and above it, or of any.
    pub fn stored(&mut self, call: &Call, next: u32, table: &mut [u8]) {
        let picture = self.picture();
        let reads = matches!(call, Call::Read { .. } | Call::Write { .. });
        let ctu = if reads { (next as usize).min(picture.ctus() - 1) } else { self.near(call).1 };
        let any = self.random().below(picture.ctus());
        let (left, above) = (picture.left_of(ctu), picture.above(ctu));
        let (left, above) = (left.or(above).unwrap_or(any), above.or(left).unwrap_or(any));
        let entries = if reads { [left, left, above, above, any] } else { [ctu, ctu, ctu, ctu, left] };
        let entry = self.random().pick(&entries);
        if let Some(bytes) = table.get_mut(entry * ENTRY_BYTES..(entry + 1) * ENTRY_BYTES) {
            self.changed_entry(&picture, bytes);
        }
    }

    fn changed_entry(&mut self, picture: &Picture, entry: &mut [u8]) {
        let random = self.random();
        match random.below(12) {
            0 => entry.fill_with(|| random.number() as u8),
            1 => entry.copy_within(6 + 6 * random.below(2).., 0),
            2 => {
                // A set of a picture with both switches on and any depths: sound, but for another description.
                let [luma_depth, chroma_depth] = [(); 2].map(|()| random.pick(&[8, 9, 10]));
                let other = Picture { format: 3, luma_depth, chroma_depth, luma: true, chroma: true, ..*picture };
                entry.copy_from_slice(&table::encode(&generate::set(random, &other)));
            }
            _ => change_byte(random, entry, picture),
        }
    }

    /// A sample in the block, at its border, in the ring around it, or anywhere.
    fn sampled(&mut self, call: &Call, planes: &mut [Vec<u16>; 3]) {
        let picture = self.picture();
        let (component, ctb) = self.near(call);
        let around = picture.block_and_around(component, ctb);
        let (width, height) = (picture.plane_width(component), picture.plane_height(component));
        let mut along = |from: usize, to: usize, all: usize| {
            let random = self.random();
            let (inside, any) = (from + random.below(to - from), random.below(all));
            // One step further out there is no reason any more.
            random.pick(&[from, to - 1, inside, inside, from.saturating_sub(1), to.min(all - 1), any])
        };
        let (x, y) = (along(around.left, around.right, width), along(around.top, around.bottom, height));
        let component = if self.random().once_in(8) { self.random().below(3) } else { component };
        let sample = above(self.random(), picture.largest_sample(component));
        set_if_there(&mut planes[component], y * width + x, sample);
    }
}

/// Any depth within the limits but this one, which an earlier damage may have changed.
fn another_depth(random: &mut Random, depth: u32) -> u32 {
    let others: Vec<u32> = (8..=16).filter(|other| *other != depth).collect();
    random.pick(&others)
}

/// An earlier damage may have cut the buffer short.
fn set_if_there<T>(buffer: &mut [T], place: usize, value: T) {
    if let Some(there) = buffer.get_mut(place) {
        *there = value;
    }
}
