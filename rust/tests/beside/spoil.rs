//! Bad input in what a call is handed: counts, bins, sets, samples, component and CTB numbers.

use crate::call::Call;
use crate::draw::Draw;
use second::Picture;
use second::random::Random;
use second::table::{ENTRY_BYTES, SET_BYTES};

impl Draw {
    /// The call with one thing in it changed, mostly for the worse.
    pub fn spoiled(&mut self, call: Call) -> Call {
        match call {
            Call::Open => Call::Open,
            Call::Read { bins, count } => self.spoiled_bins(bins, count),
            Call::Write { set, out } => self.spoiled_set(set, out),
            Call::Deliver { component, ctb, samples } => match self.random().below(3) {
                0 => Call::Deliver { component: self.wrong_component(component), ctb, samples },
                1 => Call::Deliver { component, ctb: self.wrong_ctb(ctb), samples },
                _ => Call::Deliver { component, ctb, samples: self.spoiled_samples(component, samples) },
            },
            Call::Filter { component, ctb } if self.random().once_in(2) => {
                Call::Filter { component, ctb: self.wrong_ctb(ctb) }
            }
            Call::Filter { component, ctb } => Call::Filter { component: self.wrong_component(component), ctb },
            Call::FinishedRows { component } => Call::FinishedRows { component: self.wrong_component(component) },
        }
    }

    /// Counts and bytes by one, by much and by any number, bits changed, bins that mean anything or nothing.
    fn spoiled_bins(&mut self, mut bins: Vec<u8>, mut count: usize) -> Call {
        let random = self.random();
        let all = 8 * bins.len();
        match random.below(16) {
            0 | 1 => count = count.saturating_sub(1 + random.below(3)),
            2 | 3 => count += 1,
            4 | 5 => bins.truncate(random.below(bins.len() + 1)),
            6 => count = random.pick(&[0, all, all + 1, all + 8, 2 * all]),
            7 => count = random.pick(&[usize::MAX, usize::MAX / 8 + 1, 1 << 61, (1 << 61) + count, (1 << 32) + count]),
            8 => count = any_size(random),
            9 => count = usize::MAX - any_size(random),
            10 | 11 => {
                bins = noise(random, 60);
                count = random.below(8 * bins.len() + 1);
            }
            12 => {
                bins.extend(noise(random, 4));
                count += random.below(8 * bins.len() - count + 1);
            }
            13 if random.once_in(2) => return long_bins(random, bins, count),
            _ => flip_any_bit(random, &mut bins),
        }
        Call::Read { bins, count }
    }

    /// Bytes that encode no set or one outside the rules; room that is short by one byte or by much, or is very long.
    fn spoiled_set(&mut self, mut set: [u8; SET_BYTES], mut out: Vec<u8>) -> Call {
        let picture = self.picture();
        let random = self.random();
        match random.below(16) {
            0..=10 => change_byte(random, &mut set, &picture),
            11 => set = std::array::from_fn(|_| random.number() as u8),
            12 | 13 => {
                out.pop();
            }
            14 => out.truncate(random.below(out.len() + 1)),
            _ => out.resize(random.below(LONG), 0xEE),
        }
        Call::Write { set, out }
    }

    /// Lengths by one and by much, samples above the component's depth.
    fn spoiled_samples(&mut self, component: u32, mut samples: Vec<u16>) -> Vec<u16> {
        let largest = self.picture().largest_sample(component as usize);
        let random = self.random();
        // At depth 16 no sample is too large.
        if largest == u16::MAX || random.once_in(2) {
            wrong_length(random, &mut samples);
        } else {
            for _ in 0..random.pick(&[1, 1, 1, 9]) {
                let place = random.below(samples.len());
                samples[place] = above(random, largest);
            }
        }
        samples
    }

    /// A component that is not there, often one whose low bits are a sound one's, or any number.
    pub fn wrong_component(&mut self, component: u32) -> u32 {
        let components = self.picture().components() as u32;
        let random = self.random();
        let high = random.pick(&[1 << 8, 1 << 16, 1 << 31]);
        let wrong = match random.below(4) {
            0 => random.number() as u32,
            1 => random.below(1024) as u32,
            _ => random.pick(&[components, 3, 4, 127, 128, 255, 256, component | high, u32::MAX - component, u32::MAX]),
        };
        wrong.max(components)
    }

    /// A CTB that is not there, likewise.
    pub fn wrong_ctb(&mut self, ctb: u32) -> u32 {
        let ctus = self.picture().ctus() as u32;
        let random = self.random();
        let high = random.pick(&[1 << 8, 1 << 16, 1 << 24, 1 << 31]);
        let wrong = match random.below(4) {
            0 => random.number() as u32,
            1 => ctus + random.below(1024) as u32,
            _ => random.pick(&[ctus, ctus + 1, ctus + ctb, 3 * ctus, ctb | high, u32::MAX - ctb, u32::MAX]),
        };
        wrong.max(ctus)
    }
}

/// Bytes for more than twice the bins that 16 bits count.
const LONG: usize = 20_000;

/// A CTU's bins in a buffer of thousands of bytes: with their own count, with any count within the bytes, with one that
/// agrees with their own in its low 16 bits, or with one just above the bytes.
fn long_bins(random: &mut Random, mut bins: Vec<u8>, own: usize) -> Call {
    let length = (1 << 13) + bins.len() + random.below(LONG - (1 << 13));
    bins.resize_with(length, || random.number() as u8);
    let all = 8 * length;
    let within = random.below(all + 1);
    let alike = own + ((1 + random.below((all - own) >> 16)) << 16);
    let count = random.pick(&[own, alike, alike, within, within, 1 << 16, all, all + 1, all + within]);
    Call::Read { bins, count }
}

/// A number of any size: each number of bits is as likely as any other.
fn any_size(random: &mut Random) -> usize {
    let bits = random.below(64);
    (random.number() >> bits) as usize
}

fn noise(random: &mut Random, most: usize) -> Vec<u8> {
    (0..random.below(most + 1)).map(|_| random.number() as u8).collect()
}

fn flip_any_bit(random: &mut Random, bins: &mut [u8]) {
    if !bins.is_empty() {
        bins[random.below(bins.len())] ^= 1 << random.below(8);
    }
}

/// One byte of a set changed: type, position or class, or offset, mostly of a component that is on, if one is. Cr takes
/// type and class of Cb, so sometimes both are changed alike.
pub fn change_byte(random: &mut Random, bytes: &mut [u8], picture: &Picture) {
    let on: Vec<usize> = (0..3).filter(|component| bytes[6 * component] != 0).collect();
    let component = if on.is_empty() || random.once_in(8) { random.below(3) } else { random.pick(&on) };
    let offset = 2 + random.below(4);
    let place = random.pick(&[0, 1, offset]);
    let byte = set_byte(random, picture.largest_magnitude(component));
    bytes[6 * component + place] = byte;
    if component > 0 && random.once_in(2) {
        bytes[6 * (3 - component) + place] = byte;
    }
}

/// Any byte, or one near the borders of what some byte of a set may be.
fn set_byte(random: &mut Random, most: u8) -> u8 {
    let borders = [0, 1, 2, 3, 4, 31, 32, 127, 128, 129, 128 - most, 127 - most, 128 + most, 129 + most, 255];
    if random.once_in(4) { random.pick(&borders) } else { random.number() as u8 }
}

/// A sample above the largest, where there is one: any of them, or one at a border.
pub fn above(random: &mut Random, largest: u16) -> u16 {
    let least = largest.saturating_add(1);
    let any = least + random.below(usize::from(u16::MAX - least) + 1) as u16;
    let near = least.saturating_add(random.below(256) as u16);
    random.pick(&[least, near, near, any, any, largest | 1 << 15, u16::MAX])
}

/// A length wrong by one, by an entry of the table, by any number, or so that its low bits are right.
pub fn wrong_length<T: Copy + Default>(random: &mut Random, of: &mut Vec<T>) {
    let length = of.len();
    let any = random.below(2 * length + 8);
    let shorter = random.pick(&[length.saturating_sub(1), length / 2, 0, any]);
    let longer = random.pick(&[length + 1, length + ENTRY_BYTES, 2 * length, length + 256, any]);
    let wrong = if random.once_in(2) { shorter } else { longer };
    let wrong = if random.once_in(200) { length + (1 << 16) } else { wrong };
    // Half of nothing, twice nothing and any length may be the right one.
    of.resize(if wrong == length { length + 1 } else { wrong }, T::default());
}
