//! What the header says of a caller that writes planes and marks itself: a CTB written into its place and marked is as
//! delivered, and nothing else that lies there is used.

use steamgusset::{BINS_BYTES, Block, CtuSet, Offsets, Refusal, Sizes, State, calls};

/// Six CTUs, three in a row, the last of each row and of each column cut short.
const DESCRIPTION: State =
    State { width: 40, height: 24, ctb: 16, format: 1, luma_depth: 8, chroma_depth: 10, luma: 1, chroma: 1, next: 0 };

/// A picture and all that is lent with it.
struct World {
    state: State,
    sizes: Sizes,
    deblocked: [Vec<u16>; 3],
    filtered: [Vec<u16>; 3],
    marks: Vec<u8>,
    table: Vec<u8>,
}

impl World {
    /// Opened, with every set in and `before` in every plane.
    fn open(before: u16) -> World {
        let mut state = DESCRIPTION;
        let sizes = calls::sizes(&state).expect("a description");
        let planes = || sizes.samples.map(|samples| vec![before; samples]);
        let (mut marks, mut table) = (vec![0; sizes.marks], vec![0; sizes.table]);
        calls::open(&mut state, &mut marks).expect("opened");
        for ctu in 0..sizes.ctus {
            calls::write(&mut state, &set(ctu), &mut [0; BINS_BYTES], &mut table).expect("a set");
        }
        World { state, sizes, deblocked: planes(), filtered: planes(), marks, table }
    }

    fn block(&self, component: usize, ctb: usize) -> Block {
        calls::block(&self.state, component as u32, ctb as u32).expect("a block")
    }

    fn deliver(&mut self, component: usize, ctb: usize) {
        let (samples, planes) =
            (deblocked(component, self.block(component, ctb)), self.deblocked.each_mut().map(Vec::as_mut_slice));
        calls::deliver(&self.state, component as u32, ctb as u32, &samples, planes, &mut self.marks)
            .expect("delivered");
    }

    /// The same without the call.
    fn write(&mut self, component: usize, ctb: usize) {
        let (block, width) = (self.block(component, ctb), self.sizes.width[component]);
        let samples = deblocked(component, block);
        for (y, row) in (block.y0..block.y1).zip(samples.chunks(block.width())) {
            self.deblocked[component][y * width..][block.x0..block.x1].copy_from_slice(row);
        }
        self.marks[component * self.sizes.ctus + ctb] = 1;
    }

    fn filter(&mut self, component: usize, ctb: usize) -> Result<(), Refusal> {
        let planes = self.deblocked.each_ref().map(Vec::as_slice);
        let filtered = self.filtered.each_mut().map(Vec::as_mut_slice);
        calls::filter(&self.state, component as u32, ctb as u32, planes, filtered, &mut self.marks, &self.table)
    }

    fn finished_rows(&self, component: usize) -> usize {
        let filtered = self.filtered.each_ref().map(Vec::as_slice);
        calls::finished_rows(&self.state, component as u32, filtered, &self.marks).expect("an answer").rows
    }

    /// Every CTB, a component after the other, from the last to the first.
    fn blocks(&self) -> Vec<(usize, usize)> {
        (0..self.sizes.marks).rev().map(|n| (n / self.sizes.ctus, n % self.sizes.ctus)).collect()
    }
}

/// Edge in every class, for all components.
fn set(ctu: usize) -> CtuSet {
    let edge = Offsets::Edge { class: (ctu % 4) as u8, offsets: [7, 3, -3, -7] };
    CtuSet { luma: edge, cb: edge, cr: edge }
}

/// Samples that go up and down, by their place in the plane, over all of the component's range.
fn deblocked(component: usize, block: Block) -> Vec<u16> {
    let all = [256, 1024, 1024][component];
    let rows = block.y0..block.y1;
    rows.flat_map(|y| (block.x0..block.x1).map(move |x| ((x * x * 7 + y * y * 13 + x * y) * 5 % all) as u16)).collect()
}

#[test]
fn what_the_caller_writes_and_marks_is_delivered() {
    // Samples that are not marked, and all filtered ones, exceed the depth: a call that used one would refuse or differ.
    let (mut by_calls, mut by_hand) = (World::open(0), World::open(0xFFFF));
    for (component, ctb) in by_calls.blocks() {
        by_calls.deliver(component, ctb);
        by_hand.write(component, ctb);
        assert!(by_calls.marks == by_hand.marks);
        for (component, ctb) in by_calls.blocks() {
            assert_eq!(by_calls.filter(component, ctb), by_hand.filter(component, ctb), "{component} {ctb}");
        }
    }
    assert!(by_calls.marks.iter().all(|mark| *mark == 2));
    assert!(by_calls.marks == by_hand.marks && by_calls.deblocked == by_hand.deblocked);
    assert!(by_calls.filtered == by_hand.filtered && by_calls.filtered != by_calls.deblocked);
}

#[test]
fn what_no_accepted_call_leaves_is_refused_where_it_is_used() {
    let mut world = World::open(0);
    world.blocks().into_iter().for_each(|(component, ctb)| world.write(component, ctb));
    // The first sample of CTB 1 lies next to CTB 0, and not next to CTB 2.
    world.deblocked[0][16] = 256;
    assert_eq!(world.filter(0, 0), Err(Refusal::Stored));
    assert_eq!(world.filter(0, 1), Err(Refusal::Stored));
    assert_eq!(world.filter(0, 2), Ok(()));
    // What exceeds luma's depth is within chroma's.
    world.deblocked[1][8] = 256;
    assert_eq!(world.filter(1, 0), Ok(()));
    world.deblocked[2][8] = 1024;
    assert_eq!(world.filter(2, 0), Err(Refusal::Stored));
    world.marks[3] = 3;
    assert_eq!(world.filter(0, 4), Err(Refusal::Stored));
    assert_eq!(world.filter(0, 5), Ok(()));
}

#[test]
fn a_mark_of_two_counts_as_filtered_whoever_wrote_it() {
    let mut world = World::open(0);
    world.marks[..3].fill(2);
    assert_eq!(world.filter(0, 0), Err(Refusal::FilteredBefore));
    assert_eq!(world.finished_rows(0), 16);
    assert_eq!(world.finished_rows(1), 0);
}
