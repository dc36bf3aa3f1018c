//! Orders of calls: a small generator of random numbers (splitmix64), and the orders drawn from it.

/// A source of numbers that is known by its seed.
struct Random(u64);

impl Random {
    fn number(&mut self) -> u64 {
        self.0 = self.0.wrapping_add(0x9E37_79B9_7F4A_7C15);
        let mixed = (self.0 ^ (self.0 >> 30)).wrapping_mul(0xBF58_476D_1CE4_E5B9);
        let mixed = (mixed ^ (mixed >> 27)).wrapping_mul(0x94D0_49BB_1331_11EB);
        mixed ^ (mixed >> 31)
    }
}

/// What a receiver does next with a picture.
#[derive(Clone, Copy, Debug, PartialEq, Eq)]
pub enum Step {
    /// The next CTU's bins are read.
    Read,
    /// A CTB is delivered: its component and number.
    Deliver(u32, u32),
}

/// Every step once: the sets, then the blocks component after component.
pub fn in_order(components: u32, ctus: u32) -> Vec<Step> {
    let block = |component| (0..ctus).map(move |ctb| Step::Deliver(component, ctb));
    let reads = (0..ctus).map(|_| Step::Read);
    reads.chain((0..components).flat_map(block)).collect()
}

/// The same steps in the order that the seed gives: Fisher and Yates. The sets stand anywhere between the blocks.
pub fn shuffled(components: u32, ctus: u32, seed: u64) -> Vec<Step> {
    let mut steps = in_order(components, ctus);
    let mut random = Random(seed);
    for last in (1..steps.len()).rev() {
        let other = random.number() % (last as u64 + 1);
        steps.swap(last, other as usize);
    }
    steps
}

#[cfg(test)]
mod tests {
    use super::*;

    #[test]
    fn it_is_splitmix64() {
        let mut random = Random(1234567);
        assert_eq!(random.number(), 6457827717110365317);
        assert_eq!(random.number(), 3203168211198807973);
    }

    #[test]
    fn a_shuffle_keeps_every_step() {
        let count = |steps: &[Step], step: Step| steps.iter().filter(|other| **other == step).count();
        let (ordered, mixed) = (in_order(3, 7), shuffled(3, 7, 5));
        assert_ne!(ordered, mixed);
        assert!(ordered.iter().all(|step| count(&ordered, *step) == count(&mixed, *step)));
    }
}
